# The names and paths of the pages, for tests/docs.test. The first file has the tables of what there is; the others are pages, of which
# docs/LANDINGS.md is looked at from the line `last` on. Prints 'bad PAGE:LINE: ..' for a name that is missing, 'path PAGE:LINE PATH' for
# each path, and 'looked PAGE N' for the number of names in back-ticks.
FILENAME == tables {
    if ($1 == "word") word[$2]
    if ($1 == "crate") crates[$2]
    if ($1 == "edit") { edit[$2, $3]; edits[$3] }
    if ($1 == "fn") { fn[$2, $3]; fns[$3] }
    if ($1 == "file") { file[$2, $3]; files[$3] = files[$3] " " $2 }
    if ($1 == "def") { def[$2, $3, $4]; def_in[$2, $4]; defs[$4] }
    if ($1 == "in") within[$2, $3]
    next
}
FNR == 1 { flush(); page = FILENAME; title = ""; header = 0; fenced = 0; blank = 1; code = 0 }
{ line = FNR; if (/^## /) { flush(); title = $2 } }
/^```/ { flush(); fenced = !fenced; next }
{ code = fenced || (/^    / && (blank || code)); blank = /^ *$/ }
page ~ /LANDINGS/ && FNR < last { next }
{ paths($0) }
code { next }
/^ *\|/ { flush(); row($0); next }
{ header = 0 }
blank || /^#/ || /^ *- / { flush() }
{ text = text (text == "" ? "" : " ") $0; if (from == 0) from = FNR }
END { flush(); for (p in looked) print "looked", p, looked[p] }

function bad(what) { print "bad", page ":" at ": " what }

# A paragraph: its names, and its citations.
function flush() { if (text != "") { at = from; names(text, ""); cited(text) } text = ""; from = 0 }

# A row of a table, cell by cell; the first row has the titles.
function row(s,   n, i, cell, file_cell) {
    at = line
    sub(/^ *\|/, "", s); sub(/\| *$/, "", s)
    n = split(s, cell, "|")
    if (!header) {
        header = 1
        split("", titles)
        for (i = 1; i <= n; i++) { titles[i] = cell[i]; gsub(/^ +| +$/, "", titles[i]) }
        return
    }
    if (s ~ /^[ |:-]*$/) return
    for (i = 1; i <= n; i++) if (titles[i] == "File") file_cell = cell[i]
    for (i = 1; i <= n; i++) {
        names(cell[i], titles[i])
        cited(cell[i])
        if (titles[i] == "Definition" && file_cell != "") stand(cell[i], file_cell ", " crates_in(cell[i]), 1)
    }
}

# Every span in back-ticks, by its column in a table.
function names(s, column,   n, i, part, owner) {
    n = split(s, part, "`")
    if (n % 2 == 0) { bad("a back-tick too many: " substr(s, 1, 80)); return }
    owner = (title in crates) ? title : ""
    for (i = 2; i <= n; i += 2) {
        looked[page]++
        if (column == "Ruled out" || column == "Edit") wrong_answer(part[i])
        else if (column == "Function" || column == "Library function") owner = function_of(part[i], owner)
        else if (column == "Theorem" && part[i] ~ /-/) { if (!(part[i] in defs)) bad("`" part[i] "` is no theorem") }
        else if (column == "Crate") { if (!(part[i] in crates)) bad("`" part[i] "` is no crate") }
        else span(part[i])
    }
}

function wrong_answer(s,   p) {
    if (split(s, p, "/") == 2 ? !((p[1], p[2]) in edit) : !(s in edits)) bad("`" s "` is no must-fail edit")
}

# A function, of the crate before it in the cell, or of the section's.
function function_of(s, owner,   p) {
    if (split(s, p, "::") == 2) { owner = p[1]; s = p[2] }
    if (owner == "" ? !(s in fns) : !((owner, s) in fn)) bad("`" s "` is no function" (owner == "" ? "" : " of " owner))
    return owner
}

function span(s,   n, i, w) {
    if (s ~ /^[A-Za-z_][A-Za-z0-9_\047-]*$/) { single(s); return }
    n = split(s, w, /[^A-Za-z0-9_:\/.\047-]+/)
    for (i = 1; i <= n; i++) { sub(/[.:\047-]+$/, "", w[i]); if (w[i] !~ /^[A-Z0-9]+:[A-Z0-9]+$/) single(w[i]) }
}

# One word. Short ones, numbers and words in capitals stand for something else.
function single(s,   p) {
    if (s ~ /::/) {
        split(s, p, "::")
        if ((p[1] in crates) && !((p[1], p[2]) in within)) bad("`" s "`: " p[1] " has no " p[2])
        if (!(p[1] in crates) && p[1] !~ /^(io|libc|os|std|u8|u16|u32|u64|usize|[A-Z]+)$/) bad("`" s "`: no crate " p[1])
        return
    }
    if (s ~ /\//) {
        if (split(s, p, "/") == 2 && (p[1] in crates) && !((p[1], p[2]) in edit)) bad("`" s "` is no must-fail edit")
        return
    }
    if (length(s) < 3 || s !~ /^[A-Za-z_]/ || s ~ /^[A-Z]+$/ || s ~ /\./) return
    if (!(s in word) && !(s in edits) && !(s in crates)) bad("`" s "` stands nowhere")
}

# `name`, `name` (File, crate `x`)
function cited(s,   list, inner, cut) {
    while (match(s, /`[^`]+`((,| and|;|, and) `[^`]+`)* \([^()]*\)/)) {
        list = substr(s, RSTART, RLENGTH); s = substr(s, RSTART + RLENGTH)
        cut = index(list, " (")
        inner = substr(list, cut + 2, length(list) - cut - 2)
        stand(substr(list, 1, cut), inner, 0)
    }
}

# The crates that a text names: crate `x`
function crates_in(s,   out) {
    while (match(s, /crates? `[a-z_]+`/)) { out = out " " substr(s, RSTART, RLENGTH); s = substr(s, RSTART + RLENGTH) }
    return out
}

# Each name stands in one of the files, of the crates if some are named; or in the crates, if there is no file. In a row either will do.
function stand(list, where, is_row,   n, i, j, k, w, part, in_crates, in_files, named, bare, c, f, m, found, any) {
    gsub(/[,;:]/, " ", where)
    n = split(where, w, " ")
    m = 0; k = 0
    for (i = 1; i <= n; i++) {
        bare = w[i]
        gsub(/`/, "", bare)
        if (bare != w[i] && bare in crates) { in_crates[++m] = bare; named[bare] }
        else if (w[i] in files) in_files[++k] = w[i]
        else if (w[i] !~ /^(crates?|of|and|in)$/) return
    }
    if (m + k == 0) return
    n = split(list, part, "`")
    for (i = 2; i <= n; i += 2) {
        if (part[i] !~ /^[A-Za-z][A-Za-z0-9_\047-]*$/ || (part[i] in crates)) continue
        found = 0
        for (j = 1; j <= k; j++) {
            any = split(files[in_files[j]], c, " ")
            for (f = 1; f <= any; f++) if ((m == 0 || is_row || c[f] in named) && (c[f], in_files[j], part[i]) in def) found = 1
        }
        if (k == 0 || is_row) for (j = 1; j <= m; j++) if ((in_crates[j], part[i]) in def_in) found = 1
        if (k == 0) for (j = 1; j <= m; j++) if ((in_crates[j], part[i]) in file) found = 1
        if (!found) bad("`" part[i] "` does not stand in " where)
    }
}

# Paths to files, which the shell looks for.
function paths(s,   p) {
    while (match(s, /(bin|crates|tests|docs|bench|samples)\/[A-Za-z0-9_.\/*-]+/)) {
        p = substr(s, RSTART, RLENGTH)
        if (RSTART == 1 || substr(s, RSTART - 1, 1) !~ /[A-Za-z0-9_.\/-]/) { sub(/[.]+$/, "", p); print "path", page ":" FNR, p }
        s = substr(s, RSTART + RLENGTH)
    }
}
