/* One checked call for each function of the header: lends the arguments, makes the call, and holds the reply and all that was
 * lent against the reference. Nothing given here is lent itself, only copies of it. */
#ifndef CALLS_H
#define CALLS_H

#include "reference.h"

void call_start(void);

/* A whole run. Where the answer is known from the way the source was made, it is wanted; else (null) the reference's is. */
void call_run(const source *s, const splitbox_list *known);

/* Growth of the list, which then is what the reference makes of it. The reference's reply. */
uint64_t call_grow(const source *s, uint64_t allowance, splitbox_list *list);

/* The tree and path calls, with output slices of so many elements. */
uint64_t call_write_tree(size_t n, const splitbox_list *list, size_t out_length);
uint64_t call_sum_paths(size_t n, const splitbox_list *list, size_t out_length);

uint64_t call_read_tree(size_t n, const uint8_t *body, size_t length);

/* Newick texts: the length, and the text into so many bytes; a text read. Length and list are then what the reference makes. */
uint64_t call_newick_length(size_t n, const splitbox_list *list, size_t *length);
uint64_t call_write_newick(size_t n, const splitbox_list *list, size_t out_length);
uint64_t call_read_newick(size_t n, const uint8_t *text, size_t length, splitbox_list *list);

/* Every function that takes a record at the start of some bytes; the running one where wanted. */
void call_record(const uint8_t *bytes, size_t length, bool run);

uint64_t call_write_record(uint8_t kind, size_t n, const uint8_t *body, size_t length, size_t out_length);

/* One step of a walker; the place moves as the reference says. */
uint64_t call_walk(const uint8_t *file, size_t length, size_t *place);

#endif
