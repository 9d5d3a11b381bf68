/* Inputs for the outside tests, valid and damaged, all from the pseudo-random numbers of compare.h. */
#ifndef INPUTS_H
#define INPUTS_H

#include "reference.h"

enum { BODY_ROOM = 640000, RECORD_ROOM = BODY_ROOM + 64, TEXT_ROOM = 1 << 16, FREE_EDGES = 600 };

size_t odd_n(size_t n); /* a number of taxa that is refused, or the wrong one */

/* A well-formed list of so many taxa, its spare rows random: each cluster of a random full tree is kept by chance (percent). */
void make_list(splitbox_list *list, size_t taxa, unsigned kept, uint32_t heaviest);

/* Breaks some clause of "well-formed" (now and then none, at its very limit). */
void break_list(splitbox_list *list, size_t n, uint32_t heaviest);

/* An accepted matrix or table of any sort. It lies in memory of this file, until the next one is made. */
source make_source(uint8_t kind, size_t n);

/* One made from a tree, so that its whole list is known: the splits of the tree with doubled edge lengths; for a table, its
 * splits and those with a group of one. */
source make_tree_source(uint8_t kind, size_t n, splitbox_list *known);

/* Damages the source made last: n, length, entries or bytes, up to three of them. */
void damage_source(source *s);

/* A tree's body, its length returned: of a list (row order), or free (edges without taxa and equal clusters occur). */
size_t make_tree(size_t n, const splitbox_list *list, uint8_t *body);
size_t make_free_tree(size_t n, uint8_t *body);
void renumber_tree(size_t n, uint8_t *body);
size_t damage_tree(size_t n, uint8_t *body, size_t length);

/* A body of a kind, its length returned; and a whole record, its body damaged or not. */
size_t make_body(uint8_t kind, size_t n, bool damaged, uint8_t *body);
size_t make_record(size_t most_taxa, uint8_t *record);
size_t damage_record(uint8_t *record, size_t length);

/* A tree to write Newick texts of: it has no root, and any vertex may be taken for it. */
#define LONG_NUMBER (UINT64_MAX - 1) /* a length that is written as some number of 8 to 67 digits, above all limits */
typedef struct free_edge {
    size_t one, other;
    uint64_t length;
} free_edge;
typedef struct free_tree {
    size_t n, vertices, edges;
    free_edge edge[FREE_EDGES];
    size_t homes[64];
    uint64_t names[64]; /* the number that is written for a taxon */
    size_t stump;       /* a vertex with one edge and no taxon, which has to be the root; else SIZE_MAX */
} free_tree;

/* The tree of a list with all taxa; every text of it gives that list. */
void make_free(const splitbox_list *list, free_tree *t);

/* Divides some vertex in two by an edge of length 0, which changes nothing; to lengthen a path, one thing is moved. */
void loosen(free_tree *t, bool lengthen);

/* Changes a length or a taxon's number, or puts in a vertex without a taxon. The tree may still be accepted. */
void spoil(free_tree *t);

/* A text from any vertex on, with all children in any order; its length. Damage to a text, its new length. */
size_t make_text(const free_tree *t, uint8_t *text);
size_t damage_text(uint8_t *text, size_t length);
uint8_t text_byte(void);

/* A text of taxa 0, 1 and 2 with brackets nested so deep, two at least. */
size_t nested_text(size_t depth, uint8_t *text);

#endif
