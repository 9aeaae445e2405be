/* Two runs over the same taxa, read side by side from two files, then compared:
 *
 *     cc -I include examples/use.c target/staticlib/libclib.a -o use
 *     ./use 'A B C D E' FILE FILE
 */
#include "jakkuhyeon.h"
#include <stdio.h>
#include <stdlib.h>
#include <string.h>

/* The sentence of a refusal. */
static const char *reason(uint32_t refusal) {
    static char out[65];
    struct jakku_number n = jakku_reason(refusal, (uint8_t *)out, 64);
    out[n.value] = 0;
    return out;
}

/* Ends the program where a call was refused. */
static void must(uint32_t refusal, const char *what) {
    if (refusal) {
        fprintf(stderr, "%s: %s\n", what, reason(refusal));
        exit(1);
    }
}

/* Feeds a piece to the lane of a run: a text may go on in the next piece, and a piece may end several texts. */
static void feed(uint8_t *s, size_t size, size_t run, const uint8_t *piece, size_t n) {
    while (n > 0) {
        struct jakku_fed f = jakku_feed(s, size, run, piece, n);
        if (f.accepted) printf("run %zu: tree %zu\n", run, f.tree);
        if (f.refusal) printf("run %zu: refused, %s\n", run, reason(f.refusal));
        if (f.taken == 0) return;
        piece += f.taken;
        n -= f.taken;
    }
}

int main(int argc, char **argv) {
    if (argc != 4) return 2;
    /* The names, and two constants for each taxon, by which splits are found again: any numbers do, random ones are fast. */
    const uint8_t *names = (const uint8_t *)argv[1];
    uint32_t taxa = 1, places = 512;
    bool quoted = false;
    for (const char *c = argv[1]; *c; c++) {
        quoted ^= *c == '\'';
        taxa += *c == ' ' && !quoted;
    }
    uint64_t first[64], second[64];
    for (int i = 0; i < 64; i++) {
        first[i] = (uint64_t)rand() % places;
        second[i] = (uint64_t)rand() << 32 | (uint64_t)rand();
    }

    /* A collection with a lane for each run, room for 100 trees and 256 different splits, without lengths. */
    struct jakku_number size = jakku_size(taxa, 2, 100, 256, places, false);
    must(size.refusal, "size");
    uint8_t *s = malloc(size.value);
    FILE *run[2] = {fopen(argv[2], "rb"), fopen(argv[3], "rb")};
    if (!s || !run[0] || !run[1]) return 2;
    must(jakku_open(s, size.value, taxa, 2, 100, 256, places, false, names, strlen(argv[1]), first, taxa, second, taxa), "open");

    /* A piece of one run, a piece of the other, and so on: pieces may be cut anywhere. */
    uint8_t piece[7];
    for (size_t n[2] = {1, 1}; n[0] || n[1];)
        for (size_t i = 0; i < 2; i++) {
            n[i] = fread(piece, 1, sizeof piece, run[i]);
            feed(s, size.value, i, piece, n[i]);
        }
    for (size_t i = 0; i < 2; i++) {
        uint32_t refusal = jakku_close(s, size.value, i);
        if (refusal) printf("run %zu, at its end: refused, %s\n", i, reason(refusal));
        fclose(run[i]);
    }

    /* Counts, distances, consensus. */
    struct jakku_number trees = jakku_tree_count(s, size.value);
    must(trees.refusal, "trees");
    printf("%zu trees, %zu splits\n", trees.value, jakku_split_count(s, size.value).value);
    for (size_t i = 1; i < trees.value; i++) printf("trees 0 and %zu: %zu apart\n", i, jakku_doubled(s, size.value, 0, i).value);
    uint8_t text[4608];
    struct jakku_number n = jakku_majority(s, size.value, text, sizeof text);
    if (n.refusal) printf("no consensus: %s\n", reason(n.refusal));
    else printf("majority %.*s\n", (int)n.value, (char *)text);
    free(s);
    return 0;
}
