/* The yardstick: the same work as crate timing makes the library do, as a C programmer would write it for one program.
 *
 * Input and output are those of crate timing: a line `answers` or `PART N`, with `kept` before it where lengths are kept, a line of names,
 * then texts. For the line `text` it writes the matrix and both consensus trees as treecalls writes them. What bench/sheet.c needs too, the
 * reader and the collection, is in trees.h. */
#include "trees.h"

enum { INPUT = 4206592 };

static u8 input[INPUT];
static u32 verdicts[2 * TREES];

/* Reads and records every text of the piece; answers how many there were. */
static u32 batch(const u8 *p, const u8 *end)
{
    u32 n = 0;
    const u8 *semicolon;
    while (n < 2 * TREES && (semicolon = text_end(p, end))) {
        verdicts[n++] = take_text(p, semicolon);
        p = semicolon + 1;
    }
    return n;
}

static void open_empty(void)
{
    trees = splits = 0;
    memset(slots, 0, sizeof slots);
}

/* ---- lengths, where they are kept */

/* The weighted distance of two trees; no number where a length is absent. */
static double weighted(u32 a, u32 b)
{
    double sum = 0;
    u32 i = 0, j = 0;
    while (i < sizes[a] || j < sizes[b]) {
        u64 x = i < sizes[a] ? masks[rows[a][i]] : ~0ul, y = j < sizes[b] ? masks[rows[b][j]] : ~0ul;
        double d = 0;
        if (x <= y)
            d = lengths[a][i++];
        if (y <= x)
            d -= lengths[b][j++];
        sum += __builtin_fabs(d);
    }
    return sum;
}

struct summed {
    double shortest, longest, sum;
};

/* The lengths of a split over the trees having it; the sum is no number where one is absent. */
static struct summed split_lengths(u32 number)
{
    struct summed r = {0, 0, 0};
    u32 met = 0;
    for (u32 i = 0; i < trees; i++) {
        u32 k = 0;
        while (k < sizes[i] && rows[i][k] != order[number])
            k++;
        if (k == sizes[i])
            continue;
        double x = lengths[i][k];
        if (!met++)
            r.shortest = r.longest = x;
        r.shortest = x < r.shortest ? x : r.shortest;
        r.longest = r.longest < x ? x : r.longest;
        r.sum += x;
    }
    return r;
}

static u64 bits_of(double x)
{
    u64 bits;
    memcpy(&bits, &x, sizeof bits);
    return bits;
}

/* An answer in a word: the bits of its doubles, or the refusal's number. */
static u64 weight_word(double x) { return x == x ? bits_of(x) : 18; }

static u64 lengths_word(struct summed r)
{
    return r.sum == r.sum ? 3 * bits_of(r.shortest) + 2 * bits_of(r.longest) + bits_of(r.sum) : 18;
}

/* ---- split files */

struct record {
    u64 mask;
    u32 count, trees;
};

static struct record file[SPLITS], parts[2][SPLITS], merged[2 * SPLITS];
static u32 part_sizes[2];
static u64 masks_read[SPLITS];
static u32 counts_read[SPLITS];

/* The collection's splits in order of their masks, numbered before. */
static void write_file(void)
{
    for (u32 k = 0; k < splits; k++)
        file[k] = (struct record){masks[order[k]], counts[order[k]], trees};
}

/* Two files of its records: some in both, some in one alone, as crate timing makes them. */
static void make_parts(void)
{
    u64 x = 3;
    part_sizes[0] = part_sizes[1] = 0;
    for (u32 k = 0; k < splits; k++) {
        x = x % 2147483647 * 48271 % 2147483647;
        for (u32 i = 0; i < 2; i++)
            if (x % 3 != i + 1)
                parts[i][part_sizes[i]++] = file[k];
    }
}

/* The plain pass that reading is held against. */
static void read_file(void)
{
    for (u32 k = 0; k < splits; k++) {
        masks_read[k] = file[k].mask;
        counts_read[k] = file[k].count;
    }
}

/* The plain pass that merging is held against: the records of both files, one behind the other. */
static void copy_parts(void)
{
    struct record *to = merged;
    for (u32 i = 0; i < 2; i++)
        for (u32 k = 0; k < part_sizes[i]; k++)
            *to++ = parts[i][k];
}

/* The two files merged, neither of them tested. */
static void merge_parts(void)
{
    const struct record *a = parts[0], *b = parts[1], *a_end = a + part_sizes[0], *b_end = b + part_sizes[1];
    struct record *to = merged;
    while (a < a_end || b < b_end) {
        int first = b == b_end || (a < a_end && a->mask <= b->mask), second = a == a_end || (b < b_end && b->mask <= a->mask);
        to->mask = first ? a->mask : b->mask;
        to->count = (first ? a->count : 0) + (second ? b->count : 0);
        to++->trees = 2 * trees;
        a += first;
        b += second;
    }
}

static u64 byte_sum(const void *from, u64 bytes)
{
    u64 sum = 0, sums = 0;
    for (const u8 *p = from; p < (const u8 *)from + bytes; p++)
        sums += sum += *p;
    return sums;
}

static u64 read_sum(void)
{
    u64 mask_sum = 0, count_sum = 0, sums = 0;
    for (u32 k = 0; k < SPLITS; k++) {
        sums += mask_sum += masks_read[k];
        sums += count_sum += counts_read[k];
    }
    return sums;
}

/* ---- the program */

static char strict_text[4352], majority_text[4352];
static u32 strict_size, majority_size;

/* Writes the tree of the splits that at least `least` trees have. */
static u32 consensus(u32 least, char *to)
{
    u64 list[TAXA];
    return write_tree(list, choose(least, list), to);
}

static void both_trees(void)
{
    strict_size = consensus(trees, strict_text);
    majority_size = consensus(trees / 2 + 1, majority_text);
}

static void answers(u32 n)
{
    u64 verdict_sum = 0, verdict_sums = 0, matrix_sum = 0, matrix_sums = 0;
    u64 weight_sum = 0, weight_sums = 0, length_sum = 0, length_sums = 0;
    for (u32 i = 0; i < n; i++)
        verdict_sums += verdict_sum += verdicts[i];
    for (u64 i = 0; i < (u64)trees * trees; i++)
        matrix_sums += matrix_sum += matrix[i];
    for (u32 i = 0; kept && i < trees; i++)
        weight_sums += weight_sum += weight_word(weighted(0, i));
    for (u32 k = 0; kept && k < splits; k++)
        length_sums += length_sum += lengths_word(split_lengths(k));
    put_text("texts ");
    put_number(n);
    put_text("\ntrees ");
    put_number(trees);
    put_text("\nsplits ");
    put_number(splits);
    put_text("\nverdicts ");
    put_number(verdict_sums);
    put_text("\nmatrix ");
    put_number(matrix_sums);
    put_text("\nstrict ");
    put_bytes(strict_text, strict_size);
    put_text("\nmajority ");
    put_bytes(majority_text, majority_size);
    put_char('\n');
    if (kept) {
        put_text("weighted ");
        put_number(weight_sums);
        put_text("\nlengths ");
        put_number(length_sums);
        put_char('\n');
    }
    put_text("file ");
    put_number(byte_sum(file, sizeof file));
    put_text("\nread ");
    put_number(read_sum());
    put_text("\nmerged ");
    put_number(byte_sum(merged, sizeof merged));
    put_text("\nphylip ");
    put_number(phylip_size);
    put_text("\nbytes ");
    put_number(byte_sum(phylip, phylip_size));
    put_char('\n');
}

static void text(void)
{
    put_text("matrix ");
    put_number(trees);
    put_char(':');
    for (u64 i = 0; i < (u64)trees * trees; i++) {
        put_char(' ');
        put_number(matrix[i]);
    }
    put_text("\ntext ");
    put_bytes(strict_text, strict_size);
    put_text("\ntext ");
    put_bytes(majority_text, majority_size);
    put_char('\n');
}

static u32 fill(const u8 *p, const u8 *end)
{
    open_empty();
    u32 n = batch(p, end);
    if (kept)
        number_splits();
    return n;
}

/* The split files of the collection. */
static void make_files(void)
{
    number_splits();
    write_file();
    make_parts();
}

static volatile u64 asked; /* written, so that the compiler leaves nothing out */

/* Makes a part for the i-th time. It is named by its first letter: opening; opening and a batch; all pairs of trees; these in PHYLIP's
 * layout; the weighted distance between the first tree and tree i; the lengths of split i; the collection's split file, exported or
 * read; two such files united by copying them, or joined into one; or both consensus trees. */
static void make_part(u8 part, u32 i, const u8 *p, const u8 *end)
{
    if (part == 'o')
        open_empty();
    else if (part == 'b')
        fill(p, end);
    else if (part == 'm')
        write_matrix();
    else if (part == 'p') {
        write_phylip();
        asked = phylip[i % PHYLIP];
    } else if (part == 'd')
        asked = weight_word(weighted(0, i));
    else if (part == 'l')
        asked = lengths_word(split_lengths(i));
    else if (part == 'e') {
        write_file();
        asked = file[i % SPLITS].mask;
    } else if (part == 'r') {
        read_file();
        asked = masks_read[i % SPLITS] + counts_read[i % SPLITS];
    } else if (part == 'u') {
        copy_parts();
        asked = merged[i % SPLITS].mask;
    } else if (part == 'j') {
        merge_parts();
        asked = merged[i % SPLITS].mask;
    } else
        both_trees();
}

/* Fills the collection, makes a part n times, and writes the nanoseconds of one time. */
static void time_part(u8 part, u64 n, const u8 *p, const u8 *end)
{
    fill(p, end);
    if (memchr("eruj", part, 4))
        make_files();
    if (part == 'p')
        write_matrix();
    long from = clock();
    for (u64 i = 0; i < n; i++)
        make_part(part, (u32)i, p, end);
    put_number(n ? (u64)(clock() - from) * 1000 / n : 0);
    put_char('\n');
}

static u64 read_all(void)
{
    u64 used = 0;
    long n;
    while (used < INPUT && 0 < (n = read(0, input + used, INPUT - used)))
        used += (u64)n;
    return used;
}

int main(void)
{
    const u8 *end = input + read_all();
    const u8 *p = memchr(input, '\n', (u64)(end - input));
    if (!p)
        return 1;
    kept = input[0] == 'k';
    const u8 *wanted = input + (kept ? 5 : 0);
    u64 times = 0;
    for (const u8 *q = wanted; q < p; q++)
        if ('0' <= *q && *q <= '9')
            times = times * 10 + *q - '0';
    set_kinds();
    const u8 *line = p + 1;
    p = memchr(line, '\n', (u64)(end - line));
    if (!p || take_names(line, p++))
        return 1;
    if (*wanted != 'a' && *wanted != 't') {
        time_part(*wanted, times, p, end);
    } else {
        u32 n = fill(p, end);
        write_matrix();
        both_trees();
        if (*wanted == 'a') {
            write_phylip();
            make_files();
            read_file();
            merge_parts();
            answers(n);
        } else {
            text();
        }
    }
    flush_output();
    return 0;
}
