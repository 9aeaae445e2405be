/* The program treesheet as a C programmer would write it for one program; bench/run holds the proved one against it.
 *
 *     sheet [--matrix FILE] [--splits] [--drop N] [--newick] [--apart NAME] NAMES FILE..
 *
 * It does all that treesheet does, and prints, tells and writes the same bytes: Newick texts and NEXUS files, refusals in words, the sheet
 * with its drawing, splits, stand-ins, warm-ups withdrawn, the matrix in a file. A file is read whole, and texts are read where they lie; of
 * a NEXUS file leaves are looked up among the keys, and only a text with quotes or comments inside it, or a fault of form, is first copied
 * with names for keys. trees.h has the reader and the collection. */
#include "trees.h"

enum { LONGEST = 8388608, LONGEST_WORD = 4096, PIECE = 65536, MOST_DROPPED = 1000000 };
enum { TO_WRITE = 01 | 0100 | 01000 /* O_WRONLY, O_CREAT, O_TRUNC */, WAITING = 1 << 22 };

/* ---- what is asked for */

static const char *matrix_path, *apart_name;
static u32 with_splits, trees_alone, drop;

/* ---- what is told */

static void put_label(u32 taxon) { put_bytes((const char *)written[taxon], written_sizes[taxon]); }

/* Tells what waits to be told. Where nothing can be told, nothing is. */
static void tell(void) { flush_to(2); }

static _Noreturn void stop(const char *what, const char *why)
{
    put_text(what);
    put_text(why);
    put_char('\n');
    tell();
    exit(2);
}

static _Noreturn void stop_at(const char *file, const char *why)
{
    put_text(file);
    stop(": ", why);
}

static const char *system_words(void) { return strerror(*__errno_location()); }

static const char *reason(u32 refusal)
{
    static const char *const reasons[] = {
        [2] = "a number is out of range",
        [3] = "the name list is not different names of 1 to 32 bytes",
        [6] = "the text is too long",
        [7] = "the text is malformed",
        [8] = "a leaf names no taxon",
        [9] = "a leaf names a taxon again",
        [10] = "a taxon is missing",
        [11] = "no room for another tree",
        [12] = "no room for its splits",
        [15] = "the NEXUS file is malformed",
        [16] = "a key is listed twice",
    };
    return reasons[refusal];
}

static void put_refusal(u32 refusal)
{
    put_text(": refused ");
    put_number(refusal);
    put_text(", ");
    put_text(reason(refusal));
    put_char('\n');
}

/* ---- files */

static u8 *input; /* the file that is read, with room for so many bytes */
static u64 room;

/* Reads all that comes into the input; answers its length, or what is below 0 where the system refuses. */
static long read_input(int fd)
{
    u64 used = 0;
    for (;;) {
        if (used == room) {
            u64 more = room ? 2 * room : 1 << 20;
            u8 *moved = realloc(input, more);
            if (!moved)
                return -1;
            input = moved;
            room = more;
        }
        long n = read(fd, input + used, room - used);
        if (n <= 0)
            return n ? n : (long)used;
        used += (u64)n;
    }
}

/* Reads a file; answers its length. */
static u64 read_file(const char *name, int may_be_input)
{
    if (LONGEST_WORD < strlen(name))
        stop("treesheet: a name: ", "File name too long");
    int is_input = may_be_input && !strcmp(name, "-");
    int fd = is_input ? 0 : open(name, 0);
    long n = fd < 0 ? -1 : read_input(fd);
    if (n < 0)
        stop_at(name, system_words());
    if (!is_input)
        close(fd);
    return (u64)n;
}

/* ---- texts that are taken */

static const char *file_name;
static u32 texts; /* of the file so far */
static u64 refused, withdrawn;
static u32 leaving, first_leaving; /* trees to be withdrawn when the piece is done, which stand in a row */

static void refuse_text(u32 refusal)
{
    put_text(file_name);
    put_text(", tree ");
    put_number(texts);
    put_refusal(refusal);
    refused++;
    if (WAITING < out_used)
        tell();
}

/* Takes the verdict on the next text of the file. */
static void take_verdict(u32 verdict)
{
    texts++;
    if (verdict < 256) {
        refuse_text(verdict);
    } else if (texts <= drop) {
        if (!leaving++)
            first_leaving = verdict - 256;
    }
}

/* Closes up the rows of splits that no tree has any more. */
static void drop_splits(void)
{
    static u16 moved[SPLITS];
    u32 n = 0;
    memset(slots, 0, sizeof slots);
    for (u32 k = 0; k < splits; k++) {
        if (!counts[k])
            continue;
        masks[n] = masks[k];
        counts[n] = counts[k];
        moved[k] = (u16)n++;
        slots[slot_of(masks[n - 1])] = (u16)n;
    }
    splits = n;
    for (u32 i = 0; i < trees; i++)
        for (u32 k = 0; k < sizes[i]; k++)
            rows[i][k] = moved[rows[i][k]];
}

/* Withdraws the trees that are to leave. */
static void withdraw(void)
{
    if (!leaving)
        return;
    u32 to = first_leaving, from = to + leaving;
    for (u32 i = to; i < from; i++)
        for (u32 k = 0; k < sizes[i]; k++)
            counts[rows[i][k]]--;
    for (; from < trees; from++, to++) {
        sizes[to] = sizes[from];
        memcpy(rows[to], rows[from], sizeof rows[to]);
    }
    trees = to;
    withdrawn += leaving;
    leaving = 0;
    drop_splits();
}

/* What is left behind the last semicolon: an unfinished text, or blanks. */
static void take_rest(const u8 *p, const u8 *end)
{
    if (TEXT < end - p)
        take_verdict(6);
    else if (skip_blanks(p, end) < end)
        take_verdict(7);
}

/* Takes Newick texts. Those to be dropped leave after each piece, which makes room for the texts of the next. */
static void take_texts(const u8 *end)
{
    const u8 *p = input, *semicolon;
    u64 piece = 0;
    while ((semicolon = text_end(p, end))) {
        u64 next_piece = (u64)(semicolon - input) / PIECE;
        if (piece < next_piece)
            withdraw();
        piece = next_piece;
        take_verdict(take_text(p, semicolon));
        p = semicolon + 1;
    }
    take_rest(p, end);
    withdraw();
}

/* ---- NEXUS files */

static const u8 *at, *file_end;
static int unended; /* whether a comment or quotes do not end */
static u32 key_count, key_twice;

struct tree_text {
    struct run all;
    const u8 *start; /* behind the blanks and comments at its front, */
    u64 blanks;      /* which read as so many blanks */
    int hides;       /* whether there are quotes or comments further on */
};
static struct tree_text tree_texts[LONGEST / 8]; /* a command has 8 bytes or more: TREE t=; */
static u32 text_count;

/* Goes past what ends with this byte. */
static void pass(u8 closing)
{
    const u8 *p = memchr(at + 1, closing, (u64)(file_end - at - 1));
    unended |= !p;
    at = p ? p + 1 : file_end;
}

/* Goes past blanks and comments; answers as how many blanks they read. */
static u64 pass_blanks(void)
{
    u64 n = 0;
    for (; at < file_end && (kinds[*at] == BLANK || *at == '['); n++) {
        if (*at == '[')
            pass(']');
        else
            at++;
    }
    return n;
}

/* Whether anything comes next. */
static int find_next(void)
{
    pass_blanks();
    return at < file_end;
}

/* Takes the sign if it comes next. */
static int take_sign(u8 sign)
{
    int comes = find_next() && *at == sign;
    at += comes;
    return comes;
}

/* Takes the token that comes next; it is empty where none does. */
static struct run take_token(void)
{
    find_next();
    struct run token = {at, at};
    while (at < file_end && kinds[*at] == LABEL)
        at++;
    token.end = at;
    return token;
}

/* Whether a token is this word, which is in capitals, in any case. */
static int is_word(struct run token, const char *word)
{
    const u8 *p = token.from;
    for (; p < token.end && *word; p++, word++)
        if ((*p - ('a' <= *p && *p <= 'z' ? 32 : 0)) != *word)
            return 0;
    return p == token.end && !*word;
}

static int take_word(const char *word) { return is_word(take_token(), word); }

/* Takes the label that comes next, quotes and all; it is empty where none does. */
static struct run take_label(struct label *label)
{
    find_next();
    struct run run = {at, read_label(at, file_end, label)};
    if (!run.end)
        run.end = at;
    at = run.end;
    return run;
}

/* Takes a key, which has no quotes, and its name; answers whether they are there. */
static int take_pair(void)
{
    struct label label;
    struct run key = take_label(&label);
    if (!size_of(key) || *key.from == '\'' || key_count == TAXA)
        return 0;
    u32 k = key_slot(key, label.hash);
    struct run name = take_label(&label);
    key_twice |= key_slots[k];
    keys[key_count] = key;
    key_names[key_count] = name;
    key_taxa[key_count] = find_taxon(&label);
    key_slots[k] = (u8)++key_count;
    return size_of(name) > 0;
}

static int take_pairs(void)
{
    do
        if (!take_pair())
            return 0;
    while (take_sign(','));
    return take_sign(';');
}

/* Goes to the semicolon that ends a text, which stands outside quotes and comments; answers whether there is one. Whether it passes any is
 * noted. */
static int find_end(int *hides)
{
    const u8 *semicolon = 0;
    for (;;) {
        if (!semicolon || semicolon < at)
            semicolon = memchr(at, ';', (u64)(file_end - at));
        if (!semicolon)
            return 0;
        const u8 *quote = memchr(at, '\'', (u64)(semicolon - at));
        const u8 *bracket = memchr(at, '[', (u64)((quote ? quote : semicolon) - at));
        if (!quote && !bracket)
            break;
        *hides = 1;
        at = bracket ? bracket : quote;
        pass(bracket ? ']' : '\'');
    }
    at = semicolon;
    return 1;
}

/* Takes a command behind the word TREE; answers whether it is one. */
static int take_tree(void)
{
    find_next();
    const u8 *name = at;
    while (at < file_end && kinds[*at] == LABEL && *at != '=')
        at++;
    if (name == at || !take_sign('='))
        return 0;
    struct tree_text *text = tree_texts + text_count++;
    text->all.from = at;
    text->blanks = pass_blanks();
    text->start = at;
    text->hides = 0;
    if (!find_end(&text->hides))
        return 0;
    text->all.end = at++;
    return 1;
}

static int take_trees_block(void)
{
    struct run word = take_token();
    if (is_word(word, "TRANSLATE")) {
        if (!take_pairs())
            return 0;
        word = take_token();
    }
    for (; is_word(word, "TREE"); word = take_token())
        if (!take_tree())
            return 0;
    return is_word(word, "END") && take_sign(';');
}

/* Takes another block up to its end. */
static int take_other_block(void)
{
    while (find_next()) {
        struct run token = take_token();
        if (is_word(token, "END") && take_sign(';'))
            return 1;
        if (size_of(token))
            continue;
        if (*at == '\'')
            pass('\'');
        else
            at++;
    }
    return 0;
}

/* Takes the blocks of a file; answers whether they are those of a NEXUS file. */
static int take_blocks(void)
{
    u32 found = 0;
    if (!take_word("#NEXUS"))
        return 0;
    while (find_next()) {
        if (!take_word("BEGIN"))
            return 0;
        struct run name = take_token();
        int is_trees = is_word(name, "TREES");
        if (!size_of(name) || !take_sign(';') || !(is_trees ? take_trees_block() : take_other_block()))
            return 0;
        found += (u32)is_trees;
    }
    return found == 1 && !unended;
}

/* The verdict on a text with nothing hidden in it, read where it lies with keys for names. A fault of form stops the reader before it knows
 * how long the plain text is. */
static u32 take_keyed(const struct tree_text *text)
{
    u64 list[TAXA];
    double values[TAXA];
    u32 n = 0;
    growth = 0;
    u32 verdict = judge(text->start, text->all.end, 1, list, values, &n);
    if (verdict != 7 && TEXT < (long)text->blanks + (text->all.end - text->start) + growth)
        return 6;
    return verdict ? verdict : record(list, values, n);
}

static u8 plain[TEXT + 1]; /* a plain text, or as much of a longer one as tells that it is too long */
static u64 plain_size;
static const u8 space = ' ';

static void add_plain(struct run run)
{
    u64 n = size_of(run), left = sizeof plain - plain_size;
    n = n < left ? n : left;
    memcpy(plain + plain_size, run.from, n);
    plain_size += n;
}

/* The name that a token stands for, or the token itself. */
static struct run name_for(struct run token)
{
    struct label label;
    read_label(token.from, token.end, &label);
    u32 k = key_slots[key_slot(token, label.hash)];
    return k ? key_names[k - 1] : token;
}

/* The part of a text that begins here: a token, quotes, a comment, or a byte. Behind the text a semicolon stands. */
static struct run part_at(const u8 *p)
{
    struct run part = {p, p + 1};
    if (*p == '[' || *p == '\'')
        part.end = (const u8 *)memchr(p + 1, *p == '[' ? ']' : '\'', (u64)(file_end - p - 1)) + 1;
    else if (kinds[*p] == LABEL)
        while (kinds[*part.end] == LABEL)
            part.end++;
    return part;
}

/* Writes the plain text of a tree: with names for keys, but behind a bracket or a colon, and blanks for comments. */
static void write_plain(struct run text)
{
    u8 last = ' ';
    plain_size = 0;
    while (text.from < text.end) {
        struct run part = part_at(text.from);
        u8 c = *part.from;
        text.from = part.end;
        if (c == '[')
            part = (struct run){&space, &space + 1};
        else if (kinds[c] == LABEL && last != ')' && last != ':')
            part = name_for(part);
        add_plain(part);
        if (c != '[' && kinds[c] != BLANK)
            last = c;
    }
}

static u32 take_tree_text(const struct tree_text *text)
{
    u32 verdict = text->hides ? 7 : take_keyed(text);
    if (verdict != 7)
        return verdict;
    write_plain(text->all);
    return take_text(plain, plain + plain_size);
}

static void refuse_file(u32 refusal)
{
    put_text(file_name);
    put_refusal(refusal);
    refused++;
}

/* Takes a NEXUS file, which is judged whole first. */
static void take_nexus(const u8 *end)
{
    at = input;
    file_end = end;
    unended = 0;
    key_count = key_twice = text_count = 0;
    memset(key_slots, 0, sizeof key_slots);
    if (!take_blocks()) {
        refuse_file(15);
    } else if (key_twice) {
        refuse_file(16);
    } else {
        for (u32 i = 0; i < text_count; i++)
            take_verdict(take_tree_text(tree_texts + i));
        withdraw();
    }
}

static void take_file(const char *name)
{
    u64 n = read_file(name, 1);
    file_name = name;
    texts = 0;
    if (n < 6 || memcmp(input, "#NEXUS", 6))
        take_texts(input + n);
    else if (LONGEST < n)
        stop_at(name, "too long");
    else
        take_nexus(input + n);
    tell();
}

/* ---- names */

/* Takes the names in the first line of a file. */
static void open_names(const char *name)
{
    u64 n = read_file(name, 0);
    if (LONGEST < n)
        stop_at(name, "too long");
    const u8 *end = memchr(input, '\n', n);
    u32 refusal = take_names(input, end ? end : input + n);
    if (refusal) {
        put_text(name);
        put_refusal(refusal);
        tell();
        exit(2);
    }
}

static int is_same(const u8 *bytes, u32 size, const char *word) { return size == strlen(word) && !memcmp(bytes, word, size); }

/* The strain with this name, or else the one that is written so. */
static u32 find_strain(const char *word)
{
    for (u32 t = 0; t < taxa; t++)
        if (is_same(names[t].bytes, names[t].size, word))
            return t;
    for (u32 t = 0; t < taxa; t++)
        if (is_same(written[t], written_sizes[t], word))
            return t;
    stop("treesheet: no strain ", word);
}

/* ---- the sheet */

static u64 groups[TAXA]; /* the masks of the majority splits, rising */
static u32 group_count;

static int compare_masks(const void *a, const void *b)
{
    u64 x = *(const u64 *)a, y = *(const u64 *)b;
    return (y < x) - (x < y);
}

static void find_groups(void)
{
    group_count = choose(trees / 2 + 1, groups);
    qsort(groups, group_count, sizeof *groups, compare_masks);
}

static u32 count_of(u64 mask) { return counts[slots[slot_of(mask)] - 1]; }

/* A group: how many trees have it, and its strains. */
static void put_group(u64 group)
{
    put_number(count_of(group));
    for (u64 rest = group; rest; rest &= rest - 1) {
        put_char(' ');
        put_label((u32)__builtin_ctzl(rest));
    }
    put_char('\n');
}

static void put_groups(void)
{
    for (u32 i = 0; i < group_count; i++) {
        put_text("group ");
        put_group(groups[i]);
    }
}

/* The tree of the splits that at least `least` trees have. */
static void put_tree(u32 least)
{
    u64 list[TAXA];
    if (trees)
        out_used += write_tree(list, choose(least, list), out_bytes + out_used);
    else
        put_text("none");
    put_char('\n');
}

static u64 drawn[TAXA];  /* the groups by their nodes */
static char margin[512]; /* what stands before a line of the drawing */

/* Draws what hangs below a node. Its first line is begun; before the others stand so many bytes of the margin. */
static void draw(u32 node, u32 width)
{
    for (u32 k = first[node]; k != NONE; k = next[k]) {
        if (k != first[node])
            put_bytes(margin, width);
        put_char('+');
        put_char('-');
        if (k < TAXA) {
            put_char(' ');
            put_label(k);
            put_char('\n');
        } else {
            u64 stem = out_used;
            put_number(count_of(drawn[k - TAXA - 1]));
            put_char('-');
            stem = out_used - stem + 1;
            margin[width] = next[k] == NONE ? ' ' : '|';
            memset(margin + width + 1, ' ', stem);
            draw(k, width + 1 + (u32)stem);
        }
    }
}

static void put_drawing(void)
{
    if (!trees)
        return;
    memcpy(drawn, groups, sizeof drawn);
    link_tree(drawn, group_count);
    draw(TAXA, 0);
}

static void put_splits(void)
{
    number_splits();
    for (u32 k = 0; k < splits; k++) {
        put_number(masks[order[k]]);
        put_char(' ');
        put_number(counts[order[k]]);
        put_char('\n');
    }
}

/* The smallest group that holds both; 0 where none does. Of two such groups one lies in the other. */
static u64 shared_group(u32 a, u32 b)
{
    u64 both = 1ul << a | 1ul << b, least = 0;
    for (u32 i = 0; i < group_count; i++)
        if (!(both & ~groups[i]) && (!least || !(groups[i] & ~least)))
            least = groups[i];
    return least;
}

static void put_stand_in(u32 taxon, u64 group)
{
    put_text("apart ");
    put_label(taxon);
    put_char(' ');
    if (group)
        put_group(group);
    else
        put_text("none\n");
}

/* The other strains, those first that share no group, then those whose group is larger. */
static void put_stand_ins(u32 taxon)
{
    u64 shared[TAXA];
    for (u32 t = 0; t < taxa; t++)
        shared[t] = t == taxon ? 0 : shared_group(taxon, t);
    for (int size = TAXA; 0 <= size; size--)
        for (u32 t = 0; t < taxa; t++)
            if (t != taxon && (shared[t] ? __builtin_popcountl(shared[t]) : TAXA) == size)
                put_stand_in(t, shared[t]);
}

static void put_counts(void)
{
    put_text("taxa ");
    put_number(taxa);
    put_text(" trees ");
    put_number(trees);
    put_text(" refused ");
    put_number(refused);
    put_text(" splits ");
    put_number(splits);
    put_char('\n');
}

static void put_sheet(u32 taxon)
{
    find_groups();
    put_counts();
    put_groups();
    put_text("majority ");
    put_tree(trees / 2 + 1);
    put_text("strict ");
    put_tree(trees);
    put_drawing();
    if (with_splits)
        put_splits();
    if (apart_name)
        put_stand_ins(taxon);
}

static void put_trees(void)
{
    if (!trees)
        return;
    put_tree(trees / 2 + 1);
    put_tree(trees);
}

/* ---- the matrix */

/* Writes the matrix to the file beside its place, and moves it there; answers whether that was done. */
static int write_and_move(const char *part, int fd)
{
    write_matrix();
    write_phylip();
    int is_done = write_all(fd, phylip, phylip_size);
    close(fd);
    return is_done && !rename(part, matrix_path);
}

static void save_matrix(void)
{
    char part[LONGEST_WORD + 6];
    u64 n = strlen(matrix_path);
    memcpy(part, matrix_path, n);
    memcpy(part + n, ".part", 6);
    int fd = open(part, TO_WRITE, 0666);
    if (0 <= fd && write_and_move(part, fd))
        return;
    if (0 <= fd)
        unlink(part);
    put_text("treesheet: writing ");
    stop(matrix_path, " failed");
}

/* ---- the program */

static _Noreturn void tell_use(void)
{
    stop("treesheet [--matrix FILE] [--splits] [--drop N] [--newick] [--apart NAME] NAMES FILE..", "");
}

static u32 read_number(const char *word)
{
    u32 n = 0;
    if (!*word)
        tell_use();
    for (; *word; word++) {
        if (*word < '0' || '9' < *word || MOST_DROPPED < (n = 10 * n + (u32)(*word - '0')))
            tell_use();
    }
    return n;
}

/* The word behind an option that wants one. */
static const char *read_value(const char *word)
{
    if (!word || LONGEST_WORD < strlen(word))
        tell_use();
    return word;
}

/* Reads the option that stands here; answers the last word of it. */
static char **read_option(char **word)
{
    static const char *const options[] = {"--matrix", "--splits", "--drop", "--newick", "--apart"};
    static int seen[5];
    int k = 0;
    while (k < 5 && strcmp(*word, options[k]))
        k++;
    if (k == 5 || seen[k]++)
        tell_use();
    if (k == 1)
        with_splits = 1;
    else if (k == 3)
        trees_alone = 1;
    else if (k == 0)
        matrix_path = read_value(*++word);
    else if (k == 2)
        drop = read_number(read_value(*++word));
    else
        apart_name = read_value(*++word);
    return word;
}

/* Reads the options; answers where the names stand. Behind the last word is a null. */
static char **read_options(char **word)
{
    for (; *word && word[0][0] == '-' && word[0][1] == '-'; word++)
        word = read_option(word);
    if (!word[0] || !word[1] || (trees_alone && (with_splits || apart_name)))
        tell_use();
    return word;
}

static void tell_totals(void)
{
    put_number(trees);
    put_text(" trees taken, ");
    put_number(refused);
    put_text(" refused, ");
    put_number(withdrawn);
    put_text(" withdrawn\n");
    tell();
}

int main(int count, char **words)
{
    (void)count;
    char **word = read_options(words + 1);
    set_kinds();
    open_names(*word);
    u32 taxon = apart_name ? find_strain(apart_name) : 0;
    while (*++word)
        take_file(*word);
    tell_totals();
    if (matrix_path)
        save_matrix();
    if (trees_alone)
        put_trees();
    else
        put_sheet(taxon);
    if (!flush_to(1))
        stop("treesheet: writing ", "failed");
    return refused > 0;
}
