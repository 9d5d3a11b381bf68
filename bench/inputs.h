/* Inputs for the measurements: matrices, tables and records of n taxa, the same on every machine and in every run. */
#ifndef INPUTS_H
#define INPUTS_H

#include "splitbox.h"

#define MATRIX_ROOM SPLITBOX_MATRIX(SPLITBOX_TAXA)
#define TABLE_ROOM SPLITBOX_TABLE(SPLITBOX_TAXA)
#define TREE_ROOM SPLITBOX_TREE(SPLITBOX_TAXA, SPLITBOX_ROWS)
#define RECORD_ROOM SPLITBOX_RECORD(TABLE_ROOM)
#define TEXT_ROOM 4096 /* more than any list's Newick text has */

/* Distances from 1 to 1,000,000, each by itself. */
void uniform_matrix(size_t n, uint32_t *entries);

/* The path sums of a random tree whose every inner vertex has three edges, each of a whole length above zero. */
void tree_matrix(size_t n, uint32_t *entries);

/* The same, with a little added to each distance. */
void noisy_matrix(size_t n, uint32_t *entries);

/* What such a tree says of each four: with 2n-3 splits, all resolved. */
void tree_table(size_t n, uint8_t *bytes);

/* Lists of 64 taxa by themselves: the deepest, one taxon after the other beside all that follow (125 rows, a Newick text of 63
 * nested brackets); and a star, each taxon by itself. */
void deepest_list(splitbox_list *list);
void star_list(splitbox_list *list);

/* The words of a matrix as the bytes of a body. */
void matrix_body(size_t n, const uint32_t *entries, uint8_t *body);

/* A record of this body, by the library; gives its length. A refusal ends the program. */
size_t make_record(uint8_t kind, size_t n, const uint8_t *body, size_t length, uint8_t *out);

/* Ends the program with exit status 1, saying what went wrong. */
_Noreturn void fail(const char *what);

#endif
