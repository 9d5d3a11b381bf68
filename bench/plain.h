/* The calls of include/splitbox.h in plain C, to hold the library against: same answers, the straightforward way (see plain.c).
 * A list is lent by a pointer to all of it, and a call that refuses leaves it as it was. */
#ifndef PLAIN_H
#define PLAIN_H

#include "splitbox.h"

/* The whole run, and growth with an allowance. */
uint64_t plain_run_matrix(size_t n, const uint32_t *entries, size_t length, splitbox_list *list, uint64_t *trials);
uint64_t plain_run_table(size_t n, const uint8_t *bytes, size_t length, splitbox_list *list, uint64_t *trials);
uint64_t plain_grow_matrix(size_t n, const uint32_t *entries, size_t length, uint64_t allowance, splitbox_list *list,
                           uint64_t *trials);
uint64_t plain_grow_table(size_t n, const uint8_t *bytes, size_t length, uint64_t allowance, splitbox_list *list,
                          uint64_t *trials);

/* The tree and the path sums of a list with k = n. */
uint64_t plain_write_tree(size_t n, const splitbox_list *list, uint8_t *out, size_t out_length);
uint64_t plain_read_tree(size_t n, const uint8_t *body, size_t length, splitbox_list *list);
uint64_t plain_sum_paths(size_t n, const splitbox_list *list, uint64_t *out, size_t out_length);

/* Newick texts (newick.c). They share with trees: the refusal of n or of the list (0: none), a row's link, a taxon's home. */
uint64_t plain_newick_length(size_t n, const splitbox_list *list, size_t *length);
uint64_t plain_write_newick(size_t n, const splitbox_list *list, uint8_t *out, size_t out_length);
uint64_t plain_read_newick(size_t n, const uint8_t *text, size_t length, splitbox_list *list);
unsigned plain_whole_refusal(size_t n, const splitbox_list *list);
size_t plain_link(const uint64_t *clusters, size_t m, size_t i);
size_t plain_home(const uint64_t *clusters, size_t m, size_t taxon);

/* A record at the start of the bytes: found, and run. */
uint64_t plain_find_record(const uint8_t *bytes, size_t length);
uint64_t plain_run_record(const uint8_t *bytes, size_t length, splitbox_list *list, uint64_t *trials);

#endif
