/* Prints the summary sheet of its standard input as the program treesum does, by the calls of the library for C. The input is taken in pieces of
 * N bytes, and then the lines are those of the summary (`summary N`), or of the collection that it leaves (`sheet N`). */
#include "jakkuhyeon.h"
#include <stdio.h>
#include <stdlib.h>
#include <string.h>

enum { NAMES = 4288, LENT = 22024, ROOM = 8192 };

int main(int argc, char **argv) {
    if (argc != 3) return 2;
    bool sheet = !strcmp(argv[1], "sheet");
    size_t n, width = strtoul(argv[2], NULL, 10), from = 0;
    uint8_t *names = malloc(NAMES), *s = malloc(LENT), *piece = malloc(width), *out = malloc(ROOM);
    if (!names || !s || !piece || !out) return 2;
    struct jakku_summary state = jakku_summary_begin(names, NAMES, s, LENT);
    while ((n = fread(piece, 1, width, stdin)) > 0) state = jakku_summary_take(state, names, NAMES, s, LENT, piece, n);
    struct jakku_number end = jakku_summary_finish(state, names, NAMES, s, LENT);
    struct jakku_pair lines = {0, 0, 0};
    while (!lines.refusal) {
        if (sheet && end.refusal) {
            struct jakku_number line = jakku_refusal_line(end.refusal, out, ROOM);
            lines = (struct jakku_pair){line.value, 1, from ? 13 : line.refusal};
        } else {
            lines = sheet ? jakku_lines(s, LENT, end.value, from, out, ROOM) : jakku_summary_lines(end, s, LENT, from, out, ROOM);
        }
        if (!lines.refusal) fwrite(out, 1, lines.first, stdout);
        from += lines.second;
    }
    free(names);
    free(s);
    free(piece);
    free(out);
    return lines.refusal == 13 ? 0 : 1;
}
