/* Prints the release sheet of a file of Newick texts as the program treesheet does, by the calls of the library for C: `release NAMES TREES PLACE
 * [--splits] [--newick] ..`. PLACE is that of a strain whose stand-ins are wanted, in the list of names; -1 for nobody's. */
#include "jakkuhyeon.h"
#include <stdio.h>
#include <stdlib.h>
#include <string.h>

enum { MUCH = 1 << 20, LANES = 1, TREES = 1024, SPLITS = 4096, PLACES = 8192 };

static size_t read_file(const char *name, uint8_t *bytes) {
    FILE *f = fopen(name, "rb");
    size_t n = f ? fread(bytes, 1, MUCH, f) : 0;
    if (f) fclose(f);
    return n;
}

/* Opens a collection over the names, however many there are: each number is tried. */
static bool open_names(uint8_t *s, const uint8_t *names, size_t n) {
    uint64_t constants[64];
    for (uint32_t i = 0; i < 64; i++) constants[i] = i;
    for (uint32_t taxa = 4; taxa <= 64; taxa++)
        if (!jakku_open(s, MUCH, taxa, LANES, TREES, SPLITS, PLACES, false, names, n, constants, taxa, constants, taxa)) return true;
    return false;
}

int main(int argc, char **argv) {
    if (argc < 4) return 2;
    uint8_t *s = malloc(MUCH), *names = malloc(MUCH), *texts = malloc(MUCH), *out = malloc(MUCH);
    uint32_t *verdicts = malloc(MUCH * sizeof *verdicts);
    if (!s || !names || !texts || !out || !verdicts) return 2;
    size_t n = read_file(argv[1], names), end = 0, refused = 0;
    while (end < n && names[end] != '\n') end++;
    if (!open_names(s, names, end)) return 2;
    struct jakku_number fed = jakku_batch(s, MUCH, 0, texts, read_file(argv[2], texts), verdicts, MUCH);
    for (size_t i = 0; i < fed.value; i++) refused += verdicts[i] < 256;
    refused += jakku_close(s, MUCH, 0) != 0;
    struct jakku_wanted wanted = {(uint32_t)atoi(argv[3]), false, false, strcmp(argv[3], "-1") != 0};
    for (int i = 4; i < argc; i++) {
        wanted.newick |= !strcmp(argv[i], "--newick");
        wanted.splits |= !strcmp(argv[i], "--splits");
    }
    struct jakku_number sheet = jakku_write_release(s, MUCH, refused, wanted, out, MUCH);
    if (sheet.refusal) printf("refused %u\n", (unsigned)sheet.refusal);
    fwrite(out, 1, sheet.value, stdout);
    free(s);
    free(names);
    free(texts);
    free(out);
    free(verdicts);
    return sheet.refusal ? 1 : 0;
}
