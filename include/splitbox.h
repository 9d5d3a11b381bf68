/* The split box for C programs. Link with libsplitbox.a (x86-64 Linux; `rt lib` in crates/splitbox makes it).
 *
 * The library keeps nothing between calls, takes no memory of its own but stack (under 64 KiB a call), writes to nothing but
 * what is lent to it, and never fails to return. Every call takes any input whatever: what is broken is turned away with a
 * number and a place, and then every lent slice and number is as it was before the call.
 *
 * LENT: a pointer is lent for the call only. A pointer with a length covers so many elements; a pointer to a fixed number of
 * elements covers just those. No pointer may be null, even for a length of 0. What a call writes may not overlap with anything
 * else that is lent to the same call. Two threads may call at once where they lend different memory.
 *
 * TAXA are numbered 0 to n-1, with n from 2 to 64. A split is written as the cluster that lacks taxon 0: bit i of the number
 * is set when taxon i is in it.
 */
#ifndef SPLITBOX_H
#define SPLITBOX_H

#include <stdbool.h>
#include <stddef.h>
#include <stdint.h>

#ifdef __cplusplus
extern "C" {
#endif

/* Limits. */
#define SPLITBOX_TAXA 64          /* most taxa */
#define SPLITBOX_ROWS 125         /* rows that a list has room for: 2n-3 at 64 taxa */
#define SPLITBOX_DISTANCE 1000000 /* greatest distance */
#define SPLITBOX_WEIGHT 2000000   /* greatest weight */
#define SPLITBOX_RUN 7751         /* a whole run never costs more trials */
#define SPLITBOX_STEP 247         /* an allowance that always adds a taxon, when one remains */
#define SPLITBOX_DEPTH 130        /* deepest nesting of brackets in a Newick text that is read */

/* Lengths, in elements. */
#define SPLITBOX_MATRIX(n) ((size_t)(n) * (n))                                           /* entries of a matrix; path sums */
#define SPLITBOX_TABLE(n) ((n) < 4 ? (size_t)0 : (size_t)(n) * ((n) - 1) / 2 * ((n) - 2) / 3 * ((n) - 3) / 4) /* bytes */
#define SPLITBOX_TREE(n, rows) (1 + (size_t)(n) + 5 * (size_t)(rows))                    /* bytes of a tree's body */
#define SPLITBOX_RECORD(body) (8 + (size_t)(body) + (size_t)(body) % 2 + 2)              /* bytes of a record with such a body */

/* Kinds of record. */
#define SPLITBOX_KIND_MATRIX 1
#define SPLITBOX_KIND_TABLE 2
#define SPLITBOX_KIND_TREE 3

/* REPLIES. A reply is one number: splitbox_number gives what was said, splitbox_place the place of a refusal (0 otherwise). */
#define SPLITBOX_DONE 0    /* done */
#define SPLITBOX_END 254   /* walker: at or past the end of the bytes */
#define SPLITBOX_SHORT 255 /* growth: the allowance does not cover the next taxon */
/* Any other number is a refusal; the place is 0 where none is named.
 *    1  n below 2 or above 64
 *    2  input length doesn't match n; a tree length fits no number of rows from 0 to 2n-3
 *    3  diagonal not 0                                      place: the entry, row by row
 *    4  distance above 1,000,000                            place: the entry
 *    5  the two entries of a pair differ                    place: the one of lower index
 *    6  table byte above 3                                  place: the byte
 *    7  output slice not of the exact length
 *    8  list not well-formed; or, where the call wants a list of all n taxa, another number of taxa
 *    9  first byte of a tree disagrees with the length, or a link or home above it
 *   10  some vertex's walk never reaches the root           place: the lowest such vertex
 *   11  taxon 0 not at home at the root
 *   12  an edge with no taxon beyond it                     place: the lowest such vertex *
 *   13  two edges with equal clusters                       place: the lowest of them *
 *   14  tree weight 0 or above 2,000,000                    place: the lowest such vertex *
 *   15  mark wrong
 *   16  under 8 bytes, or the record is cut
 *   17  unknown kind; or, after 18, a known kind the call doesn't take
 *   18  pad not zero, or words don't add to zero
 *   19  Newick text outside the grammar or too deep         place: its first bad byte; cut short, its length
 *   20  a taxon repeated or not below n; else one missing   place: the first byte of the first such; else the semicolon
 * * In a Newick text the first byte of the earliest such edge's weight; a weight of 0 is none there. Places in a text are indices
 *   of bytes, from 0 (one of 2^48-1 or more would be said as 2^48-1, which no text reaches).
 */
static inline unsigned splitbox_number(uint64_t reply) { return (unsigned)(reply & 255); }
static inline size_t splitbox_place(uint64_t reply) { return (size_t)(reply >> 8); }

/* A LIST of weighted splits of the first `taxa` taxa: its first `rows` rows are used, ascending by cluster, the others are
 * spare. The calls take its four parts one by one: SPLITBOX_LENT(&list) where a call may write them, SPLITBOX_GIVEN(&list)
 * where it only reads them. */
typedef struct splitbox_list {
    size_t taxa;
    size_t rows;
    uint64_t clusters[SPLITBOX_ROWS];
    uint32_t weights[SPLITBOX_ROWS];
} splitbox_list;
#define SPLITBOX_LENT(list) &(list)->taxa, &(list)->rows, (list)->clusters, (list)->weights
#define SPLITBOX_GIVEN(list) (list)->taxa, (list)->rows, (list)->clusters, (list)->weights

/* A list to grow from: taxa 1, no row, zeros throughout. */
void splitbox_start(size_t *taxa, size_t *rows, uint64_t clusters[SPLITBOX_ROWS], uint32_t weights[SPLITBOX_ROWS]);

/* THE WHOLE RUN on a matrix, n by n, row by row; and on a table of resolved fours, one byte for each four a<b<c<d at
 * a + C(b,2) + C(c,3) + C(d,4). Writes the list, with all n taxa and its spare rows zero, and the trials spent.
 * Refuses 1 2 3 4 5 for a matrix, 1 2 6 for a table. The given list is not looked at. */
uint64_t splitbox_run_matrix(size_t n, const uint32_t *entries, size_t entries_length, size_t *taxa, size_t *rows,
                             uint64_t clusters[SPLITBOX_ROWS], uint32_t weights[SPLITBOX_ROWS], uint64_t *trials);
uint64_t splitbox_run_table(size_t n, const uint8_t *bytes, size_t bytes_length, size_t *taxa, size_t *rows,
                            uint64_t clusters[SPLITBOX_ROWS], uint32_t weights[SPLITBOX_ROWS], uint64_t *trials);

/* GROWTH of the given list by as many taxa as the allowance of trials covers: DONE when the list has all n taxa, SHORT when the
 * next taxon costs more than remains. Adding one to a list over k taxa costs 2s+1 trials: on a table s is its number of rows, on
 * a matrix the number of trivial splits of k taxa (1: none, 2: one, else k), listed or not, and of its rows that are not trivial.
 * Writes the list and the trials spent in this call. Where no taxon is added the list is left as it was given, spare rows too; an
 * allowance of 0 only checks.
 * Refuses what the whole run does, then 8. */
uint64_t splitbox_grow_matrix(size_t n, const uint32_t *entries, size_t entries_length, uint64_t allowance, size_t *taxa,
                              size_t *rows, uint64_t clusters[SPLITBOX_ROWS], uint32_t weights[SPLITBOX_ROWS],
                              uint64_t *trials);
uint64_t splitbox_grow_table(size_t n, const uint8_t *bytes, size_t bytes_length, uint64_t allowance, size_t *taxa,
                             size_t *rows, uint64_t clusters[SPLITBOX_ROWS], uint32_t weights[SPLITBOX_ROWS],
                             uint64_t *trials);

/* THE TREE of a list with all n taxa, into SPLITBOX_TREE(n, rows) bytes: the number m of rows, m links, n homes (a byte each),
 * then m weights of four bytes, little-endian. Vertex i is row i, and the root is m. Refuses 1 8 7. */
uint64_t splitbox_write_tree(size_t n, size_t taxa, size_t rows, const uint64_t clusters[SPLITBOX_ROWS],
                             const uint32_t weights[SPLITBOX_ROWS], uint8_t *out, size_t out_length);

/* A tree read, its vertices numbered freely except that the root is m. Writes its list. Refuses 1 2 9 14 10 11 12 13. */
uint64_t splitbox_read_tree(size_t n, const uint8_t *body, size_t body_length, size_t *taxa, size_t *rows,
                            uint64_t clusters[SPLITBOX_ROWS], uint32_t weights[SPLITBOX_ROWS]);

/* THE NEWICK TEXT of a list with all n taxa, ending in a semicolon: a vertex is its taxa, ascending, and its children, by row, in
 * brackets, then a colon and its weight; a taxon there is a leaf of length 0. A childless vertex with one taxon is that taxon's
 * number with the weight, and the root has no weight. Refuses 1 8, and 7 where the text is written.
 * The text's length in bytes, and the text, into exactly so many. */
uint64_t splitbox_newick_length(size_t n, size_t taxa, size_t rows, const uint64_t clusters[SPLITBOX_ROWS],
                                const uint32_t weights[SPLITBOX_ROWS], size_t *length);
uint64_t splitbox_write_newick(size_t n, size_t taxa, size_t rows, const uint64_t clusters[SPLITBOX_ROWS],
                               const uint32_t weights[SPLITBOX_ROWS], uint8_t *out, size_t out_length);

/* A text read, any program's: its children in any order, every one with a weight, no spaces, quotes or names, brackets nested at
 * most SPLITBOX_DEPTH deep; bytes behind the semicolon are not looked at. It is re-rooted at taxon 0's home; an edge of length 0 is
 * dropped, its ends joined. Two edges that meet by themselves at a vertex without taxa, such as a root with two branches, are not
 * added up: 13. Writes its list. Refuses 1 19 20 14 12 13. */
uint64_t splitbox_read_newick(size_t n, const uint8_t *text, size_t text_length, size_t *taxa, size_t *rows,
                              uint64_t clusters[SPLITBOX_ROWS], uint32_t weights[SPLITBOX_ROWS]);

/* PATH SUMS of a list with all n taxa, into n by n numbers, row by row: the sum of weights on the path between two taxa, never
 * above 250,000,000. Refuses 1 8 7. */
uint64_t splitbox_sum_paths(size_t n, size_t taxa, size_t rows, const uint64_t clusters[SPLITBOX_ROWS],
                            const uint32_t weights[SPLITBOX_ROWS], uint64_t *out, size_t out_length);

/* A RECORD at the start of the bytes, checked up to its sum word; what follows it is not looked at. Refuses 16 15 17 1 2 16 18.
 * The body's own checks belong to the call that reads the body. kind is bytes[2] and n is bytes[3]. */
uint64_t splitbox_find_record(const uint8_t *bytes, size_t bytes_length);

/* The same for a caller that takes only some kinds: 17, after 18, for a known kind that it doesn't take. */
uint64_t splitbox_find_taken(const uint8_t *bytes, size_t bytes_length, bool matrices, bool tables, bool trees);

/* The body of the record at the start of the bytes, as that stretch of the caller's own: bytes + start, so long. An empty
 * stretch (0 and 0) where splitbox_find_record refuses. */
size_t splitbox_body_start(const uint8_t *bytes, size_t bytes_length);
size_t splitbox_body_length(const uint8_t *bytes, size_t bytes_length);

/* A record written into SPLITBOX_RECORD(body_length) bytes. A matrix body is n*n words of four bytes, little-endian.
 * Refuses 17 for an unknown kind, 1, 2, the body's own checks (3 4 5, or 6, or 9 14 10 11 12 13), and 7. */
uint64_t splitbox_write_record(uint8_t kind, size_t n, const uint8_t *body, size_t body_length, uint8_t *out,
                               size_t out_length);

/* A WALKER over a file of records: the caller keeps the place, 0 at first. A record found: DONE, the start of its body (counted
 * from the start of the file) and its length are written, and the place moves behind the record. END at or past the end of the
 * bytes. At a refused record (as by splitbox_find_record) and at the end nothing moves. */
uint64_t splitbox_walk(const uint8_t *file, size_t file_length, size_t *place, size_t *start, size_t *length);

/* THE MAIN JOB: the record at the start of the bytes, a matrix or a table, found and run whole. Refuses what
 * splitbox_find_taken does for these two kinds, then what the run does; the place is then counted in the body. */
uint64_t splitbox_run_record(const uint8_t *bytes, size_t bytes_length, size_t *taxa, size_t *rows,
                             uint64_t clusters[SPLITBOX_ROWS], uint32_t weights[SPLITBOX_ROWS], uint64_t *trials);

#ifdef __cplusplus
}
#endif
#endif
