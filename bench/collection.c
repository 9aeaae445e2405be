/* Writes a collection of 1,024 trees over 64 taxa, the same for the same kind and seed: a line of names, then a text a line.
 *
 *     collection equal|random|mixed|posterior|quoted|lengths SEED
 *
 * equal: one tree, its branches turned about in each text. random: each tree is a base tree after some exchanges of neighbouring
 * branches, as many as keep the collection's splits growing evenly to just below 4,096. mixed: the two in turn. Of these, two texts in
 * four have lengths, and of the random trees one in eight has nodes of more than two children.
 *
 * posterior: trees as a Bayesian analysis samples them. Each is a few exchanges away from the one before; an exchange that loses splits
 * of the base tree is mostly taken back, nearly always where they are firm, as every other one is. All texts have lengths.
 *
 * quoted: the same, and in every other text all names are in quotes, with blanks where the others have underscores.
 *
 * lengths: the same as posterior, and every other length has an exponent; they have different numbers of digits. */
#include "small.h"

enum { TAXA = 64, TREES = 1024, SPLITS = 4096, NODES = 2 * TAXA - 1, ROOT = NODES - 1, MOST_MOVES = 200, SLOTS = 16384 };

static u64 state;

static u64 draw(u64 below)
{
    state += 0x9E3779B97F4A7C15ul; /* splitmix64 */
    u64 z = state;
    z = (z ^ (z >> 30)) * 0xBF58476D1CE4E5B9ul;
    z = (z ^ (z >> 27)) * 0x94D049BB133111EBul;
    return (z ^ (z >> 31)) % below;
}

/* A rooted binary tree: nodes below TAXA are leaves; `joined` nodes are left out when it is written. */
struct tree {
    u8 kids[NODES][2], parent[NODES], joined[NODES];
};

static void set_kid(struct tree *t, u32 node, u32 side, u32 kid)
{
    t->kids[node][side] = (u8)kid;
    t->parent[kid] = (u8)node;
}

static void make_base(struct tree *t)
{
    u8 open[TAXA];
    memset(t, 0, sizeof *t);
    for (u32 i = 0; i < TAXA; i++)
        open[i] = (u8)i;
    u32 left = TAXA;
    for (u32 node = TAXA; node < NODES; node++) {
        for (u32 side = 0; side < 2; side++) {
            u32 k = (u32)draw(left);
            set_kid(t, node, side, open[k]);
            open[k] = open[--left];
        }
        open[left++] = (u8)node;
    }
}

/* Exchanges a child of an inner node with the node's sibling. */
static void exchange(struct tree *t)
{
    u32 node = TAXA + (u32)draw(NODES - TAXA - 1);
    u32 up = t->parent[node];
    u32 here = (u32)draw(2), there = t->kids[up][0] == node;
    u32 kid = t->kids[node][here], sibling = t->kids[up][there];
    set_kid(t, node, here, sibling);
    set_kid(t, up, there, kid);
}

static u64 cluster_of(const struct tree *t, u32 node, u64 *clusters)
{
    if (node < TAXA)
        return 1ul << node;
    u64 mask = cluster_of(t, t->kids[node][0], clusters) | cluster_of(t, t->kids[node][1], clusters);
    clusters[node] = mask;
    return mask;
}

static u64 met[SLOTS];
static u32 splits;

static u64 *slot_of(u64 mask)
{
    u32 k = (u32)((mask * 0x9E3779B97F4A7C15ul) >> 50);
    while (met[k] && met[k] != mask)
        k = (k + 1) % SLOTS;
    return met + k;
}

/* Takes in the splits of a tree, if they stay within the limit; answers whether they do. */
static int take_splits(const struct tree *t, u32 limit)
{
    u64 clusters[NODES], *taken[NODES];
    u32 n = 0;
    cluster_of(t, ROOT, clusters);
    for (u32 node = TAXA; node < ROOT; node++) {
        u64 mask = clusters[node] & 1 ? ~clusters[node] : clusters[node];
        u64 *slot = slot_of(mask);
        if (t->joined[node] || !(mask & (mask - 1)) || mask == ~1ul || *slot)
            continue;
        *slot = mask;
        taken[n++] = slot;
    }
    if (splits + n <= limit) {
        splits += n;
        return 1;
    }
    while (n)
        *taken[--n] = 0;
    return 0;
}

static char names[TAXA][16];

/* Names of one species' strains, in which only the number differs. */
static void make_strains(void)
{
    for (u32 i = 0; i < TAXA; i++) {
        u64 n = (i + 1) * 131 + draw(131);
        memcpy(names[i], "Lc_lactis_0000", 15);
        for (u32 k = 14; n; n /= 10)
            names[i][--k] = (char)('0' + n % 10);
    }
}

static void make_names(void)
{
    for (u32 i = 0; i < TAXA; i++) {
        u32 size = 7 + (u32)draw(3);
        for (u32 k = 0; k < size; k++)
            names[i][k] = (char)(k ? 'a' + draw(26) : 'A' + draw(26));
        for (u32 j = 0; j < i; j++)
            if (!memcmp(names[i], names[j], 16))
                names[i][0] = '_';
    }
}

static int quoted; /* whether names are in quotes */

static void put_name(const char *name)
{
    if (!quoted) {
        put_text(name);
        return;
    }
    put_char('\'');
    for (; *name; name++)
        put_char(*name == '_' ? ' ' : *name);
    put_char('\'');
}

static u64 least = 100; /* the smallest number that stands behind the point of a length */
static int varied;      /* whether lengths are of different forms */

/* A length such as 0.0123 or 1.5e-3. */
static void put_varied(void)
{
    u64 part = 1;
    for (u64 digits = draw(7); digits; digits--)
        part *= 10;
    if (draw(2)) {
        put_text(":0.0");
        put_number(100 * part + draw(900 * part));
    } else {
        put_char(':');
        put_number(1 + draw(9));
        put_char('.');
        put_number(part + draw(9 * part));
        put_text("e-");
        put_number(1 + draw(4));
    }
}

static void put_length(void)
{
    if (varied) {
        put_varied();
    } else {
        put_text(":0.");
        put_number(least + draw(9 * least));
    }
}

/* The children of a node in any order, those of a joined child in its place. */
static void write_node(const struct tree *t, u32 node, int lengths);

static void write_kids(const struct tree *t, u32 node, int lengths)
{
    u32 turn = (u32)draw(2);
    for (u32 k = 0; k < 2; k++) {
        u32 kid = t->kids[node][k ^ turn];
        if (k)
            put_char(',');
        if (t->joined[kid])
            write_kids(t, kid, lengths);
        else
            write_node(t, kid, lengths);
    }
}

static void write_node(const struct tree *t, u32 node, int lengths)
{
    if (node < TAXA) {
        put_name(names[node]);
    } else {
        put_char('(');
        write_kids(t, node, lengths);
        put_char(')');
    }
    if (lengths && node != ROOT)
        put_length();
}

static void join_some(struct tree *t)
{
    if (draw(8) == 0)
        for (u32 node = TAXA; node < ROOT; node++)
            t->joined[node] = draw(8) == 0;
}

/* A tree some exchanges away from the base, within the limit of splits. */
static void make_near(struct tree *t, const struct tree *base, u32 limit)
{
    for (u32 moves = MOST_MOVES;; moves--) {
        *t = *base;
        for (u32 i = 0; i < moves; i++)
            exchange(t);
        join_some(t);
        if (take_splits(t, limit))
            return;
    }
}

static u64 base_splits[TAXA];
static u32 base_count;

static u64 side_of(u64 cluster) { return cluster & 1 ? ~cluster : cluster; }

/* How far a tree is from the base: 1 for each split of the base that it lacks, 8 for a firm one. */
static u32 away(const struct tree *t)
{
    u64 clusters[NODES];
    u32 far = 0;
    cluster_of(t, ROOT, clusters);
    for (u32 i = 0; i < base_count; i++) {
        u32 node = TAXA;
        while (node < ROOT && side_of(clusters[node]) != base_splits[i])
            node++;
        if (node == ROOT)
            far += i % 2 ? 8 : 1;
    }
    return far;
}

static void keep_base(const struct tree *base)
{
    u64 clusters[NODES];
    cluster_of(base, ROOT, clusters);
    for (u32 node = TAXA; node < ROOT; node++) {
        u64 mask = side_of(clusters[node]);
        if (mask & (mask - 1) && mask != ~1ul)
            base_splits[base_count++] = mask;
    }
}

/* The next tree of the sample: some exchanges, each taken back unless it leads no farther away or chance allows it. */
static void walk(struct tree *t)
{
    struct tree tried;
    for (u32 i = 0; i < 12; i++) {
        u32 now = away(t);
        tried = *t;
        exchange(&tried);
        u32 then = away(&tried);
        if ((then <= now || draw(1ul << 2 * (then - now)) == 0) && take_splits(&tried, SPLITS))
            *t = tried;
    }
}

static u64 seed_of(const char *text)
{
    u64 n = 0;
    for (; '0' <= *text && *text <= '9'; text++)
        n = n * 10 + (u64)(*text - '0');
    return n;
}

int main(int count, char **words)
{
    static struct tree base, tree;
    if (count != 3)
        return 1;
    char kind = words[1][0];
    int sampled = kind == 'p' || kind == 'q' || kind == 'l';
    varied = kind == 'l';
    state = seed_of(words[2]);
    if (sampled) {
        least = 100000;
        make_strains();
    } else {
        make_names();
    }
    make_base(&base);
    take_splits(&base, SPLITS);
    keep_base(&base);
    for (u32 i = 0; i < TAXA; i++) {
        put_text(names[i]);
        put_char(i + 1 < TAXA ? ' ' : '\n');
    }
    tree = base;
    for (u32 i = 0; i < TREES; i++) {
        if (sampled)
            walk(&tree);
        else
            tree = base;
        if (kind == 'r' || (kind == 'm' && i % 2))
            make_near(&tree, &base, TAXA + (SPLITS - TAXA) * (i + 1) / TREES);
        quoted = kind == 'q' && i % 2;
        write_node(&tree, ROOT, sampled || i % 4 < 2);
        put_text(";\n");
    }
    flush_output();
    return 0;
}
