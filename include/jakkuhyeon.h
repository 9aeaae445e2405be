/* Jakkuhyeon: phylogenetic trees compared exactly, for C and C++. docs/LIBRARY.md says how to build the library and link it.
 *
 * A collection lives in memory that you lend at each call: `s` points to its `s_len` bytes. It holds no pointers and may be moved, copied and
 * saved as bytes. The library keeps nothing between calls, allocates nothing and never stops your program: whatever bytes and numbers it is
 * given, each call answers or refuses. Trees, splits and lanes are numbered from 0. Bit i of a mask is taxon i, in the order of the names.
 *
 * What each call answers, and which bytes it leaves, is proved. What you must see to yourself, as nothing can test it:
 * - a pointer points to as many elements as the number behind it says, aligned for their type; with 0 of them it may be NULL;
 * - memory that a call writes (no `const`) overlaps no other memory of the same call;
 * - one caller at a time: while a call writes a collection or a buffer, no other thread uses it;
 * - 256 KiB of stack are free in the thread that calls.
 *
 * Every answer has a `refusal`: 0 where the rest is the answer, or the number of a refusal, and then the rest is 0, but for the bytes that
 * feeding took. A call that answers a bare uint32_t answers the refusal alone. What is refused changes nothing, but that a lane is empty after a
 * verdict and after closing, and that a summary's buffer for names holds what was taken.
 *
 *      1  the lent memory is not a whole collection
 *      2  a number is out of range
 *      3  the name list is not different names of 1 to 32 bytes
 *      4  a lent buffer is too short
 *      5  no such lane
 *      6  the text is too long
 *      7  the text is malformed
 *      8  a leaf names no taxon
 *      9  a leaf names a taxon again
 *     10  a taxon is missing
 *     11  no room for another tree
 *     12  no room for its splits
 *     13  no such tree or split number
 *     14  there are no trees
 *     15  the NEXUS file is malformed
 *     16  a key is listed twice
 *     17  a length is outside the exact range
 *     18  a length is absent or none are kept
 *     19  the file's length is no multiple of 16
 *     20  a record is improper or out of order
 *     21  an empty file cannot be merged
 *     22  a sum passes 32 bits
 *     23  two chosen splits disagree
 *     24  the matrix is malformed
 *     25  the matrix is not symmetric, or its diagonal not zero
 *
 * A buffer is filled from its front; what lies behind the answer stays. If the whole answer does not fit, nothing is written (4). */
#ifndef JAKKUHYEON_H
#define JAKKUHYEON_H
#include <stdbool.h>
#include <stddef.h>
#include <stdint.h>
#ifdef __cplusplus
extern "C" {
#endif

/* A number, or how many elements were written. */
struct jakku_number {
    size_t value;
    uint32_t refusal;
};

/* Two numbers. */
struct jakku_pair {
    size_t first;
    size_t second;
    uint32_t refusal;
};

/* A split. */
struct jakku_split {
    uint64_t mask;
    uint32_t count;
    uint32_t refusal;
};

/* The lengths of a split. */
struct jakku_lengths {
    double shortest;
    double longest;
    double sum;
    uint32_t refusal;
};

/* A double. */
struct jakku_double {
    double value;
    uint32_t refusal;
};

/* What came of a claim that a text is the majority tree: where `refusal` is 0, `owner` is 0 if the text has the majority's splits; else `mask` is
 * the smallest split that one of the two has alone, 1 the text, 2 the majority. */
struct jakku_claimed {
    uint64_t mask;
    uint32_t owner;
    uint32_t refusal;
};

/* What came of feeding: how many bytes were taken, and the verdict if a text ended in them. Where `refusal` is 0, `accepted` says whether a
 * tree was accepted, and `tree` is its number; if not, more is wanted. */
struct jakku_fed {
    size_t taken;
    size_t tree;
    uint32_t refusal;
    bool accepted;
};

/* How far an input is taken that is summed up: hand it on as it is. Where `refusal` is 0, so much is kept of its first line; or that is `opened`,
 * and so many texts behind it were `refused`. */
struct jakku_summary {
    size_t used;
    size_t spaces;
    size_t refused;
    uint32_t refusal;
    bool quoted;
    bool opened;
};

/* What is wanted of a release sheet: the two trees alone (`newick`), the recorded splits too, and, if `apart`, the stand-ins of `taxon`. */
struct jakku_wanted {
    uint32_t taxon;
    bool newick;
    bool splits;
    bool apart;
};

/* ---- opening */

/* How many bytes must be lent for a collection of 4 to 64 taxa, 1 to 8 lanes (texts that are read side by side), room for 1 to 1,024 trees and
 * 1 to 4,096 different splits, and at least 1 place of the hash table and at most 2 for each split of room; with `kept` it keeps the lengths of
 * branches. Refusal: 2. */
struct jakku_number jakku_size(uint32_t taxa, uint32_t lanes, uint32_t tree_room, uint32_t split_room, uint32_t places, bool kept);

/* Opens a collection in the lent bytes, whatever they hold. `list` has the names of the taxa, one space between two; in single
 * quotes a name may have spaces, brackets and the like, as in a tree. `first` and `second` have a constant for each taxon: any numbers below
 * `places`, and any numbers; random ones make splits be found fast. Refusals: 2, 3, 4. */
uint32_t jakku_open(uint8_t *s, size_t s_len, uint32_t taxa, uint32_t lanes, uint32_t tree_room, uint32_t split_room, uint32_t places, bool kept,
                    const uint8_t *list, size_t list_len, const uint64_t *first, size_t first_len, const uint64_t *second, size_t second_len);

/* Whether the lent bytes are a whole collection. Every call below that is given one looks for itself, and refuses with 1 where it is not whole. */
bool jakku_is_whole(const uint8_t *s, size_t s_len);

/* ---- trees in and out */

/* Feeds a piece of a text to lane `l`: takes it up to the semicolon that ends the text, or all of it. Call it again with what it has not taken.
 * Refusals: 1 and 5, with nothing taken; as verdicts 6 to 12 and 17. */
struct jakku_fed jakku_feed(uint8_t *s, size_t s_len, size_t l, const uint8_t *piece, size_t piece_len);

/* Closes lane `l`, which is empty afterwards: 6 or 7 where it held an unfinished text. Refusals: 1, 5, 6, 7. */
uint32_t jakku_close(uint8_t *s, size_t s_len, size_t l);

/* Feeds a piece with any number of texts to lane `l`, takes all of it, and writes a verdict for each text that ends in it: a refusal's number,
 * or 256 and the tree's number. Answers how many there are. As many verdicts as the piece has semicolons are always enough.
 * Refusals: 1, 5, 4. */
struct jakku_number jakku_batch(uint8_t *s, size_t s_len, size_t l, const uint8_t *piece, size_t piece_len, uint32_t *verdicts,
                                size_t verdicts_len);

/* Feeds the trees of a whole NEXUS file, through no lane, and writes a verdict for each as `jakku_batch` does. Refusals: 1, 15, 16, 4. */
struct jakku_number jakku_feed_file(uint8_t *s, size_t s_len, const uint8_t *file, size_t file_len, uint32_t *verdicts, size_t verdicts_len);

/* Withdraws tree `k`: the trees after it move down by one number. Refusals: 1, 13. */
uint32_t jakku_withdraw(uint8_t *s, size_t s_len, size_t k);

/* ---- trees and splits */

/* How many trees are accepted. Refusal: 1. */
struct jakku_number jakku_tree_count(const uint8_t *s, size_t s_len);

/* How many splits are recorded. Refusal: 1. */
struct jakku_number jakku_split_count(const uint8_t *s, size_t s_len);

/* Split number `k`, in rising order of mask: its mask, and how many trees have it. Refusals: 1, 13. */
struct jakku_split jakku_one_split(const uint8_t *s, size_t s_len, size_t k);

/* The shortest, the longest and the summed length of split number `k`, over the trees that have it. Refusals: 1, 13, 18. */
struct jakku_lengths jakku_split_lengths(const uint8_t *s, size_t s_len, size_t k);

/* Every recorded split: masks, rising, and their counts. Answers how many there are. Refusals: 1, 4. */
struct jakku_number jakku_split_list(const uint8_t *s, size_t s_len, uint64_t *masks, size_t masks_len, uint32_t *counts, size_t counts_len);

/* The masks of tree `i`, rising, at most 61. Answers how many there are. Refusals: 1, 13, 4. */
struct jakku_number jakku_tree_splits(const uint8_t *s, size_t s_len, size_t i, uint64_t *masks, size_t masks_len);

/* The sentence of refusal `k` in the table above, 64 bytes at most and no zero behind it. Answers how many bytes it has. Refusals: 13 where `k`
 * is not in the table, 4. */
struct jakku_number jakku_reason(uint32_t k, uint8_t *out, size_t out_len);

/* ---- distances */

/* How many splits of tree `a` tree `b` lacks. Refusals: 1, 13. */
struct jakku_number jakku_one_sided(const uint8_t *s, size_t s_len, size_t a, size_t b);

/* The doubled distance: splits that one of the trees `a` and `b` lacks. Refusals: 1, 13. */
struct jakku_number jakku_doubled(const uint8_t *s, size_t s_len, size_t a, size_t b);

/* The weighted distance of the trees `a` and `b`. Refusals: 1, 13, 18. */
struct jakku_double jakku_weighted(const uint8_t *s, size_t s_len, size_t a, size_t b);

/* The doubled distances of all pairs of trees, row by row. Answers how many there are: the square of the number of trees. Refusals: 1, 4. */
struct jakku_number jakku_matrix(const uint8_t *s, size_t s_len, uint16_t *out, size_t out_len);

/* How many pairs of different splits have the same place and identifier. Refusal: 1. */
struct jakku_number jakku_collisions(const uint8_t *s, size_t s_len);

/* Whether two masks agree: they have no common bit, or one lies within the other. */
bool jakku_agree(uint64_t a, uint64_t b);

/* Whether a text, which ends with its semicolon, has the splits of the majority consensus tree. Refusals: 1, 14, 6 to 10. */
struct jakku_claimed jakku_claim(const uint8_t *s, size_t s_len, const uint8_t *text, size_t text_len);

/* ---- trees as texts: each call answers how many bytes it wrote, with no zero behind them; 4,608 bytes of room are always enough */

/* The strict consensus tree. Refusals: 1, 14, 4. */
struct jakku_number jakku_strict(const uint8_t *s, size_t s_len, uint8_t *out, size_t out_len);

/* The majority consensus tree. Refusals: 1, 14, 4. */
struct jakku_number jakku_majority(const uint8_t *s, size_t s_len, uint8_t *out, size_t out_len);

/* Both, each into a buffer of its own: first the strict one's bytes, second the majority's. Refusals: 1, 14, 4. */
struct jakku_pair jakku_both(const uint8_t *s, size_t s_len, uint8_t *strict, size_t strict_len, uint8_t *majority, size_t majority_len);

/* Accepted tree `i`. Refusals: 1, 13, 4. */
struct jakku_number jakku_write_accepted(const uint8_t *s, size_t s_len, size_t i, uint8_t *out, size_t out_len);

/* ---- split files: 16 bytes a split; the taxa are the collection's, which stays as it is */

/* The collection's splits as a file. Answers how many bytes it has. Refusals: 1, 4. */
struct jakku_number jakku_write_splits(const uint8_t *s, size_t s_len, uint8_t *out, size_t out_len);

/* The masks and the counts of a file: first how many trees it is of, 0 for an empty file, second how many splits it has.
 * Refusals: 1, 19, 20, 4. */
struct jakku_pair jakku_read_splits(const uint8_t *s, size_t s_len, const uint8_t *file, size_t file_len, uint64_t *masks, size_t masks_len,
                                    uint32_t *counts, size_t counts_len);

/* Two files merged into one. Answers how many bytes it has. Refusals: 1, 19 and 20 of the first file, then of the second, 21, 22, 4. */
struct jakku_number jakku_merge(const uint8_t *s, size_t s_len, const uint8_t *first, size_t first_len, const uint8_t *second, size_t second_len,
                                uint8_t *out, size_t out_len);

/* The strict consensus tree of a file, as a text. Refusals: 1, 19, 20, 14, 23, 4. */
struct jakku_number jakku_strict_tree(const uint8_t *s, size_t s_len, const uint8_t *file, size_t file_len, uint8_t *out, size_t out_len);

/* The majority consensus tree of a file, as a text. Refusals: 1, 19, 20, 14, 23, 4. */
struct jakku_number jakku_majority_tree(const uint8_t *s, size_t s_len, const uint8_t *file, size_t file_len, uint8_t *out, size_t out_len);

/* ---- distance matrices in PHYLIP's square layout */

/* The doubled distances of all pairs of trees as such a text. Answers how many bytes it has. Refusals: 1, 4. */
struct jakku_number jakku_write_matrix(const uint8_t *s, size_t s_len, uint8_t *out, size_t out_len);

/* The values of such a text, row by row. Answers how many trees it is of; it has the square of that many values. Refusals: 24, 25, 4. */
struct jakku_number jakku_read_matrix(const uint8_t *file, size_t file_len, uint16_t *out, size_t out_len);

/* ---- the release sheet */

/* The sheet that the program treesheet prints: counts, and with them how many texts you say were `refused`; the groups of the majority tree; the
 * majority and the strict tree; the majority tree drawn; and what is wanted besides. Answers how many bytes it has. Refusals: 1, 13 where `taxon` is
 * asked for and is none, 4. */
struct jakku_number jakku_write_release(const uint8_t *s, size_t s_len, size_t refused, struct jakku_wanted wanted, uint8_t *out, size_t out_len);

/* ---- the summary sheet: lines of text, each with its line end; any line fits into 8,192 bytes of room */

/* The lines of a collection's sheet from number `from` on, as many whole ones as fit: counts, and with them how many texts you say were `refused`;
 * splits; distances; the majority and the strict tree. First how many bytes, second how many lines. Refusals: 1, 13 past the last line, 4 where
 * not even one line fits. */
struct jakku_pair jakku_lines(const uint8_t *s, size_t s_len, size_t refused, size_t from, uint8_t *out, size_t out_len);

/* The line for names that are refused with `k`. Answers how many bytes it has. Refusal: 4. */
struct jakku_number jakku_refusal_line(uint32_t k, uint8_t *out, size_t out_len);

/* The next four print the sheet of an input that comes in pieces, cut anywhere: names in its first line, texts behind it. Begin, take piece after
 * piece, finish, and ask for lines, with the same buffer for names and the same lent bytes; what either holds at the start means nothing.
 *
 * Begins with at least 4,288 bytes for names and 22,024 lent ones. Refusal: 4. */
struct jakku_summary jakku_summary_begin(const uint8_t *names, size_t names_len, const uint8_t *s, size_t s_len);

/* Takes a piece. Refusals: 2 and 3 of the first line, 4 and 1 of the lent bytes; behind one all pieces are dropped, and nothing changes. */
struct jakku_summary jakku_summary_take(struct jakku_summary state, uint8_t *names, size_t names_len, uint8_t *s, size_t s_len,
                                        const uint8_t *piece, size_t piece_len);

/* Finishes, and answers how many texts were refused. Refusals: as above. */
struct jakku_number jakku_summary_finish(struct jakku_summary state, const uint8_t *names, size_t names_len, uint8_t *s, size_t s_len);

/* Lines as `jakku_lines` gives them, where `answer` is that of finishing; if it is a refusal, there is the one line of `jakku_refusal_line`.
 * Refusals: 1, 13, 4. */
struct jakku_pair jakku_summary_lines(struct jakku_number answer, const uint8_t *s, size_t s_len, size_t from, uint8_t *out, size_t out_len);

#ifdef __cplusplus
}
#endif
#endif
