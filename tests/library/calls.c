/* Answers the lines of docs/CALLS.md by the calls of the library for C, as the program treecalls does, so that the two can be compared. Bad
 * lines are not told from others: they are left out before. A line `reason K` answers the sentence of a refusal. Every buffer is lent with
 * exactly the elements that it may have, NULL where it has none, and is looked at afterwards: behind the answer, and where the call
 * refuses, nothing may have changed. */
#include "jakkuhyeon.h"
#include <inttypes.h>
#include <stdio.h>
#include <stdlib.h>
#include <string.h>

enum { FILLED = 165, TREES = 1024, SPLITS = 4096, TEXT = 4608 };

static uint8_t *s;                   /* the lent memory */
static size_t s_len;
static size_t most = SIZE_MAX;       /* `room`: the most elements of a buffer */
static char *word[16];               /* the words of the line */
static size_t words;

static void *lent(size_t n, size_t width) {
    void *at = n ? malloc(n * width) : NULL;
    if (n && !at) exit(2);
    if (n) memset(at, FILLED, n * width);
    return at;
}

/* ---- buffers that a call writes: `n` elements of `width` bytes */

struct buffer {
    void *at;
    size_t n, width;
};

static struct buffer buffer(size_t n, size_t width) {
    n = n < most ? n : most;
    return (struct buffer){lent(n, width), n, width};
}

/* Tells if anything behind the first `used` elements has changed, and gives the buffer back. */
static void leave(struct buffer b, size_t used) {
    const uint8_t *at = b.at;
    for (size_t i = used * b.width; i < b.n * b.width; i++)
        if (at[i] != FILLED) {
            printf("changed behind the answer: ");
            break;
        }
    free(b.at);
}

/* ---- words */

static uint64_t number(size_t i) {
    return strtoull(word[i], NULL, 10);
}

/* In 32 bits; for a larger number stands the largest, which is out of range too. */
static uint32_t number32(size_t i) {
    uint64_t n = number(i);
    return n < UINT32_MAX ? (uint32_t)n : UINT32_MAX;
}

struct bytes {
    uint8_t *at;
    size_t n;
};

static struct bytes hex(size_t i) {
    struct bytes b = {NULL, strcmp(word[i], "-") ? strlen(word[i]) / 2 : 0};
    b.at = lent(b.n, 1);
    for (size_t k = 0; k < b.n; k++) {
        unsigned byte = 0;
        sscanf(word[i] + 2 * k, "%2x", &byte);
        b.at[k] = (uint8_t)byte;
    }
    return b;
}

struct list {
    uint64_t *at;
    size_t n;
};

static struct list list(size_t i) {
    struct list l = {NULL, 0};
    if (!strcmp(word[i], "-")) return l;
    l.n = 1;
    for (char *c = word[i]; *c; c++) l.n += *c == ',';
    l.at = lent(l.n, sizeof *l.at);
    char *c = word[i];
    for (size_t k = 0; k < l.n; k++, c++) l.at[k] = strtoull(c, &c, 10);
    return l;
}

/* ---- answers */

static bool refused(uint32_t refusal) {
    if (refusal) printf("refused %" PRIu32, refusal);
    return refusal != 0;
}

static void say_done(uint32_t refusal) {
    if (!refused(refusal)) printf("done");
}

static void say_number(const char *what, struct jakku_number n) {
    if (!refused(n.refusal)) printf("%s %zu", what, n.value);
}

static void say_hex(const uint8_t *at, size_t n) {
    printf("bytes ");
    for (size_t i = 0; i < n; i++) printf("%02x", at[i]);
    if (!n) printf("-");
}

static void say_double(double x) {
    uint64_t bits;
    memcpy(&bits, &x, sizeof bits);
    printf(" %016" PRIx64, bits);
}

static void say_bytes(struct jakku_number n, struct buffer b) {
    if (!refused(n.refusal)) say_hex(b.at, n.value);
    leave(b, n.value);
}

static void say_text(struct jakku_number n, struct buffer b) {
    if (!refused(n.refusal)) printf("text %.*s", (int)n.value, (char *)b.at);
    leave(b, n.value);
}

static void say_verdicts(const char *what, struct jakku_number n, struct buffer b) {
    const uint32_t *v = b.at;
    if (!refused(n.refusal)) printf("%s", what);
    for (size_t i = 0; i < n.value; i++) v[i] < 256 ? printf(" -%" PRIu32, v[i]) : printf(" %" PRIu32, v[i] - 256);
    leave(b, n.value);
}

static void say_splits(size_t n, struct buffer masks, struct buffer counts) {
    for (size_t i = 0; i < n; i++) printf(" %" PRIu64 ":%" PRIu32, ((uint64_t *)masks.at)[i], ((uint32_t *)counts.at)[i]);
    leave(masks, n);
    leave(counts, n);
}

static void say_matrix(size_t trees, struct buffer b) {
    printf("matrix %zu:", trees);
    for (size_t i = 0; i < trees * trees; i++) printf(" %u", ((uint16_t *)b.at)[i]);
}

/* ---- lines, by their first word; each line is one `if` of one of these, which answers whether the word was its own */

static bool is(const char *name) {
    return !strcmp(word[0], name);
}

static bool memory(void) {
    if (is("lend")) {
        free(s);
        s_len = number(1);
        s = lent(s_len, 1);
        printf("done");
    } else if (is("poke")) {
        struct bytes b = hex(2);
        if (b.n) memcpy(s + number(1), b.at, b.n);
        free(b.at);
        printf("done");
    } else if (is("peek")) {
        say_hex(s + number(1), number(2));
    } else if (is("room")) {
        most = strcmp(word[1], "-") ? number(1) : SIZE_MAX;
        printf("done");
    } else {
        return false;
    }
    return true;
}

static bool opening(void) {
    bool kept = words > 1 && !strcmp(word[words - 1], "lengths");
    if (is("size")) {
        say_number("bytes", jakku_size(number32(1), number32(2), number32(3), number32(4), number32(5), kept));
    } else if (is("open")) {
        struct bytes names = hex(6);
        struct list first = list(7), second = list(8);
        say_done(jakku_open(s, s_len, number32(1), number32(2), number32(3), number32(4), number32(5), kept, names.at, names.n, first.at, first.n,
                            second.at, second.n));
        free(names.at);
        free(first.at);
        free(second.at);
    } else {
        return false;
    }
    return true;
}

static void feed(void) {
    struct bytes b = hex(2);
    struct jakku_fed f = jakku_feed(s, s_len, number(1), b.at, b.n);
    if (f.refusal) printf("refused %zu %" PRIu32, f.taken, f.refusal);
    else if (f.accepted) printf("accepted %zu %zu", f.taken, f.tree);
    else printf("more %zu", f.taken);
    free(b.at);
}

static bool feeding(void) {
    if (is("feed")) {
        feed();
    } else if (is("close")) {
        say_done(jakku_close(s, s_len, number(1)));
    } else if (is("withdraw")) {
        say_done(jakku_withdraw(s, s_len, number(1)));
    } else if (is("batch") || is("nexus")) {
        struct bytes b = hex(words - 1);
        struct buffer v = buffer(b.n, sizeof(uint32_t));
        struct jakku_number n = is("batch") ? jakku_batch(s, s_len, number(1), b.at, b.n, v.at, v.n)
                                            : jakku_feed_file(s, s_len, b.at, b.n, v.at, v.n);
        say_verdicts(word[0], n, v);
        if (is("batch") && !n.refusal) printf(" taken %zu", b.n);
        free(b.at);
    } else {
        return false;
    }
    return true;
}

static bool questions(void) {
    if (is("trees")) {
        say_number("number", jakku_tree_count(s, s_len));
    } else if (is("count")) {
        say_number("number", jakku_split_count(s, s_len));
    } else if (is("split")) {
        struct jakku_split o = jakku_one_split(s, s_len, number(1));
        if (!refused(o.refusal)) printf("split %" PRIu64 " %" PRIu32, o.mask, o.count);
    } else if (is("lengths")) {
        struct jakku_lengths l = jakku_split_lengths(s, s_len, number(1));
        if (!refused(l.refusal)) printf("lengths"), say_double(l.shortest), say_double(l.longest), say_double(l.sum);
    } else if (is("splits")) {
        struct buffer masks = buffer(SPLITS, sizeof(uint64_t)), counts = buffer(SPLITS, sizeof(uint32_t));
        struct jakku_number n = jakku_split_list(s, s_len, masks.at, masks.n, counts.at, counts.n);
        if (!refused(n.refusal)) printf("splits");
        say_splits(n.value, masks, counts);
    } else if (is("tree")) {
        struct buffer masks = buffer(64, sizeof(uint64_t));
        struct jakku_number n = jakku_tree_splits(s, s_len, number(1), masks.at, masks.n);
        if (!refused(n.refusal)) printf("tree");
        for (size_t i = 0; i < n.value; i++) printf(" %" PRIu64, ((uint64_t *)masks.at)[i]);
        leave(masks, n.value);
    } else {
        return false;
    }
    return true;
}

static void claim(void) {
    struct bytes b = hex(1);
    struct jakku_claimed c = jakku_claim(s, s_len, b.at, b.n);
    if (!refused(c.refusal)) c.owner ? printf("%s %" PRIu64, c.owner == 1 ? "text" : "majority", c.mask) : printf("same");
    free(b.at);
}

static bool distances(void) {
    if (is("one")) {
        say_number("number", jakku_one_sided(s, s_len, number(1), number(2)));
    } else if (is("two")) {
        say_number("number", jakku_doubled(s, s_len, number(1), number(2)));
    } else if (is("weighted")) {
        struct jakku_double d = jakku_weighted(s, s_len, number(1), number(2));
        if (!refused(d.refusal)) printf("double"), say_double(d.value);
    } else if (is("collisions")) {
        say_number("number", jakku_collisions(s, s_len));
    } else if (is("claim")) {
        claim();
    } else if (is("reason")) {
        struct buffer b = buffer(64, 1);
        say_text(jakku_reason(number32(1), b.at, b.n), b);
    } else if (is("agree")) {
        printf("agree %d", jakku_agree(number(1), number(2)));
    } else if (is("matrix")) {
        struct buffer b = buffer(TREES * TREES, sizeof(uint16_t));
        struct jakku_number n = jakku_matrix(s, s_len, b.at, b.n);
        if (!refused(n.refusal)) say_matrix(jakku_tree_count(s, s_len).value, b);
        leave(b, n.value);
    } else {
        return false;
    }
    return true;
}

static bool texts(void) {
    if (is("strict")) {
        struct buffer b = buffer(TEXT, 1);
        say_text(jakku_strict(s, s_len, b.at, b.n), b);
    } else if (is("majority")) {
        struct buffer b = buffer(TEXT, 1);
        say_text(jakku_majority(s, s_len, b.at, b.n), b);
    } else if (is("write")) {
        struct buffer b = buffer(TEXT, 1);
        say_text(jakku_write_accepted(s, s_len, number(1), b.at, b.n), b);
    } else if (is("both")) {
        struct buffer a = buffer(TEXT, 1), b = buffer(TEXT, 1);
        struct jakku_pair p = jakku_both(s, s_len, a.at, a.n, b.at, b.n);
        if (!refused(p.refusal)) printf("both %.*s %.*s", (int)p.first, (char *)a.at, (int)p.second, (char *)b.at);
        leave(a, p.first);
        leave(b, p.second);
    } else {
        return false;
    }
    return true;
}

static void records(struct bytes f) {
    struct buffer masks = buffer(f.n / 16, sizeof(uint64_t)), counts = buffer(f.n / 16, sizeof(uint32_t));
    struct jakku_pair p = jakku_read_splits(s, s_len, f.at, f.n, masks.at, masks.n, counts.at, counts.n);
    if (!refused(p.refusal)) p.first ? printf("records %zu", p.first) : printf("records -");
    say_splits(p.second, masks, counts);
}

static void read_phylip(struct bytes f) {
    struct buffer b = buffer(f.n < TREES * TREES ? f.n : TREES * TREES, sizeof(uint16_t));
    struct jakku_number n = jakku_read_matrix(f.at, f.n, b.at, b.n);
    if (!refused(n.refusal)) say_matrix(n.value, b);
    leave(b, n.value * n.value);
}

static bool files(void) {
    struct bytes f = words > 1 ? hex(1) : (struct bytes){NULL, 0}, g = words > 2 ? hex(2) : (struct bytes){NULL, 0};
    bool known = true;
    if (is("file")) {
        struct buffer b = buffer(16 * SPLITS, 1);
        say_bytes(jakku_write_splits(s, s_len, b.at, b.n), b);
    } else if (is("records")) {
        records(f);
    } else if (is("merge")) {
        struct buffer b = buffer(f.n + g.n, 1);
        say_bytes(jakku_merge(s, s_len, f.at, f.n, g.at, g.n, b.at, b.n), b);
    } else if (is("file-strict")) {
        struct buffer b = buffer(TEXT, 1);
        say_text(jakku_strict_tree(s, s_len, f.at, f.n, b.at, b.n), b);
    } else if (is("file-majority")) {
        struct buffer b = buffer(TEXT, 1);
        say_text(jakku_majority_tree(s, s_len, f.at, f.n, b.at, b.n), b);
    } else if (is("phylip")) {
        struct buffer b = buffer(5 + TREES * (11 + 4 * TREES), 1);
        say_bytes(jakku_write_matrix(s, s_len, b.at, b.n), b);
    } else if (is("read-phylip")) {
        read_phylip(f);
    } else {
        known = false;
    }
    free(f.at);
    free(g.at);
    return known;
}

/* A call refuses with 1 where, and only where, the lent bytes are not whole. */
static void look(void) {
    if (jakku_is_whole(s, s_len) != (jakku_tree_count(s, s_len).refusal != 1)) printf(" but is_whole says other");
}

int main(void) {
    char *line = NULL;
    size_t room = 0;
    ssize_t n;
    while ((n = getline(&line, &room, stdin)) > 0) {
        if (line[n - 1] == '\n') line[n - 1] = 0;
        words = 0;
        for (char *w = strtok(line, " "); w && words < 16; w = strtok(NULL, " ")) word[words++] = w;
        if (!words || !(memory() || opening() || feeding() || questions() || distances() || texts() || files())) printf("no call");
        look();
        printf("\n");
    }
    free(line);
    free(s);
    return 0;
}
