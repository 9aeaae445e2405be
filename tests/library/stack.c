/* How much stack each call of the library for C uses, at most: each runs in a thread of its own, whose stack was painted before. The largest
 * collection, keeping lengths, twice: full of one tree, nested as deep as can be, so that its consensus trees are as deep; and full of many
 * such trees with thousands of splits, of which the one that is withdrawn has its own. Prints a line `NAME BYTES` for each call, what a thread
 * uses by itself taken off. */
#include "jakkuhyeon.h"
#include <pthread.h>
#include <stdio.h>
#include <stdlib.h>
#include <string.h>

enum { STACK = 1 << 20, PAINT = 0x5a, TAXA = 64, TREES = 1024, SPLITS = 4096, MUCH = 1 << 23, DEEP = 1024 };

static uint8_t *stack, *s;
static size_t size;
static char names[512], one[DEEP], flat[DEEP], nexus[3 * DEEP], many[TREES * DEEP], input[8 * DEEP];
static uint64_t first[TAXA], second[TAXA], masks[SPLITS];
static uint32_t counts[SPLITS], verdicts[SPLITS];
static uint16_t *distances;
static uint8_t text[2][4608], file[16 * SPLITS], line[4288], *out;
static size_t file_len, out_len;
static struct jakku_summary state;
static struct jakku_number end;
static uint32_t refusals; /* of all calls: none is refused but on purpose */

#define BYTES(t) (const uint8_t *)(t), strlen(t)
#define CALLS(X)                                                                                                    \
    X(size, jakku_size(TAXA, 8, TREES, SPLITS, 2 * SPLITS, true).refusal)                                           \
    X(open, jakku_open(s, size, TAXA, 8, TREES, SPLITS, 2 * SPLITS, true, BYTES(names), first, TAXA, second, TAXA)) \
    X(is_whole, !jakku_is_whole(s, size))                                                                           \
    X(feed, jakku_feed(s, size, 0, BYTES(one)).refusal)                                                             \
    X(batch, jakku_batch(s, size, 1, BYTES(many), verdicts, SPLITS).refusal)                                        \
    X(close, jakku_close(s, size, 1))                                                                               \
    X(feed_file, jakku_feed_file(s, size, BYTES(nexus), verdicts, SPLITS).refusal)                                  \
    X(tree_count, jakku_tree_count(s, size).value != TREES)                                                         \
    X(split_count, jakku_split_count(s, size).refusal)                                                              \
    X(one_split, jakku_one_split(s, size, 0).refusal)                                                               \
    X(split_lengths, jakku_split_lengths(s, size, 0).refusal)                                                       \
    X(split_list, jakku_split_list(s, size, masks, SPLITS, counts, SPLITS).refusal)                                 \
    X(tree_splits, jakku_tree_splits(s, size, 0, masks, SPLITS).refusal)                                            \
    X(reason, jakku_reason(25, out, MUCH).refusal)                                                                  \
    X(one_sided, jakku_one_sided(s, size, 0, 2).refusal)                                                            \
    X(doubled, jakku_doubled(s, size, 0, 2).refusal)                                                                \
    X(weighted, jakku_weighted(s, size, 0, 1).refusal)                                                              \
    X(matrix, jakku_matrix(s, size, distances, TREES * TREES).refusal)                                              \
    X(collisions, jakku_collisions(s, size).refusal)                                                                \
    X(agree, !jakku_agree(12, 4))                                                                                   \
    X(claim, jakku_claim(s, size, BYTES(one)).refusal)                                                              \
    X(strict, jakku_strict(s, size, text[0], sizeof text[0]).refusal)                                               \
    X(majority, jakku_majority(s, size, text[0], sizeof text[0]).refusal)                                           \
    X(both, jakku_both(s, size, text[0], sizeof text[0], text[1], sizeof text[1]).refusal)                          \
    X(write_accepted, jakku_write_accepted(s, size, 0, text[0], sizeof text[0]).refusal)                            \
    X(write_splits, (file_len = jakku_write_splits(s, size, file, sizeof file).value) == 0)                         \
    X(read_splits, jakku_read_splits(s, size, file, file_len, masks, SPLITS, counts, SPLITS).refusal)               \
    X(merge, jakku_merge(s, size, file, file_len, file, file_len, out, MUCH).refusal)                               \
    X(strict_tree, jakku_strict_tree(s, size, file, file_len, text[0], sizeof text[0]).refusal)                     \
    X(majority_tree, jakku_majority_tree(s, size, file, file_len, text[0], sizeof text[0]).refusal)                 \
    X(write_matrix, (out_len = jakku_write_matrix(s, size, out, MUCH).value) == 0)                                  \
    X(read_matrix, jakku_read_matrix(out, out_len, distances, TREES * TREES).value != TREES)                        \
    X(lines, jakku_lines(s, size, 0, 0, out, MUCH).refusal)                                                         \
    X(write_release, jakku_write_release(s, size, 0, (struct jakku_wanted){1, false, true, true}, out, MUCH).refusal) \
    X(refusal_line, jakku_refusal_line(2, out, MUCH).refusal)                                                       \
    X(withdraw, jakku_withdraw(s, size, 0))                                                                         \
    X(summary_begin, (state = jakku_summary_begin(line, sizeof line, s, size)).refusal)                             \
    X(summary_take, (state = jakku_summary_take(state, line, sizeof line, s, size, BYTES(input))).refusal)          \
    X(summary_finish, (end = jakku_summary_finish(state, line, sizeof line, s, size)).value)                        \
    X(summary_lines, jakku_summary_lines(end, s, size, 0, out, MUCH).refusal)

#define DEFINE(name, call)                                    \
    static void *do_##name(void *p) {                         \
        if (call) refusals++, fprintf(stderr, #name "\n");    \
        return p;                                             \
    }
CALLS(DEFINE)

static void *do_nothing(void *p) {
    return p;
}

static size_t used(void *(*call)(void *)) {
    pthread_attr_t how;
    pthread_t thread;
    memset(stack, PAINT, STACK);
    pthread_attr_init(&how);
    if (pthread_attr_setstack(&how, stack, STACK) || pthread_create(&thread, &how, call, NULL)) exit(2);
    pthread_join(thread, NULL);
    size_t i = 0;
    while (i < STACK && stack[i] == PAINT) i++;
    return STACK - i;
}

/* A tree behind what a text has: nested as deep as can be, all its splits with lengths, the taxa in steps of `step`. */
static char *deep(char *at, unsigned step) {
    memset(at, '(', TAXA - 2);
    at += TAXA - 2;
    at += sprintf(at, "t0,t%u", step % TAXA);
    for (unsigned i = 2; i < TAXA; i++) at += sprintf(at, i < TAXA - 1 ? "):1,t%u" : ",t%u);", i * step % TAXA);
    return at;
}

/* Of one tree, or of many. */
static void prepare(bool mixed) {
    char *at = many;
    for (unsigned i = 0; i < TREES - 3; i++) at = deep(at, mixed && i % 4 == 0 ? 3 + 2 * (i / 4 % 28) : 1);
    deep(one, mixed ? 63 : 1);
    sprintf(nexus, "#NEXUS BEGIN TREES; TRANSLATE 1 t1; TREE a = %s TREE b = %s END;", one, mixed ? flat : one);
    sprintf(input, "%s\n%s%s", names, one, flat);
}

int main(void) {
    static size_t most[64];
    size_t n = 0;
    for (int i = 0; i < TAXA; i++) {
        sprintf(names + strlen(names), "%st%d", i ? " " : "", i);
        sprintf(flat + strlen(flat), "%st%d", i ? "," : "(", i);
        first[i] = 97u * (uint64_t)i, second[i] = 1000u + (uint64_t)i;
    }
    strcat(flat, ");");
    size = jakku_size(TAXA, 8, TREES, SPLITS, 2 * SPLITS, true).value;
    stack = aligned_alloc(4096, STACK);
    s = malloc(size);
    out = malloc(MUCH);
    distances = malloc(sizeof *distances * TREES * TREES);
    if (!stack || !s || !out || !distances) return 2;
    size_t alone = used(do_nothing);
    for (int round = 0; round < 2; round++) {
        n = 0;
        prepare(round);
#define MEASURE(name, call)                          \
    {                                                \
        size_t b = used(do_##name) - alone;          \
        if (b > most[n]) most[n] = b;                \
        n++;                                         \
    }
        CALLS(MEASURE)
    }
    n = 0;
#define TELL(name, call) printf("%s %zu\n", #name, most[n++]);
    CALLS(TELL)
    return refusals ? 1 : 0;
}
