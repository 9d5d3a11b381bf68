/* A second implementation of documents 01 and 02, written from their definitions alone, to hold the library against. It is plain
 * rather than fast: every four is looked at one by one, and small answers come from trying all splits there are.
 *
 * Replies have the library's numbers and places. As with the library, a refusal leaves everything that is lent as it was. */
#ifndef REFERENCE_H
#define REFERENCE_H

#include "splitbox.h"

enum { BRUTE_FORCE = 8 }; /* whole runs on up to so many taxa try every split */

/* A matrix (entries) or a table (bytes), as given to a call: n and length may be wrong. */
typedef struct source {
    uint8_t kind; /* SPLITBOX_KIND_MATRIX or SPLITBOX_KIND_TABLE: which of the two pointers is used */
    size_t n;
    const uint32_t *entries;
    const uint8_t *bytes;
    size_t length; /* in elements */
} source;

uint64_t reference_reply(unsigned number, size_t place);
bool reference_has(uint64_t set, size_t taxon);
uint64_t reference_first(size_t k);          /* the set of the first k taxa */
size_t reference_choose(size_t p, size_t q); /* C(p,q) */
void reference_sort_rows(splitbox_list *list);
void reference_put_four(uint8_t *out, uint32_t number); /* four bytes, little-endian */

bool reference_n_refused(size_t n);
uint64_t reference_check_source(const source *s);
bool reference_well_formed(size_t n, uint32_t heaviest, const splitbox_list *list);
uint64_t reference_run(const source *s, splitbox_list *list, uint64_t *trials);
uint64_t reference_next_cost(const source *s, const splitbox_list *list);
uint64_t reference_grow(const source *s, uint64_t allowance, splitbox_list *list, uint64_t *trials);

uint64_t reference_write_tree(size_t n, const splitbox_list *list, uint8_t *out, size_t out_length);
uint64_t reference_read_tree(size_t n, const uint8_t *body, size_t length, splitbox_list *list);
uint64_t reference_sum_paths(size_t n, const splitbox_list *list, uint64_t *out, size_t out_length);

uint64_t reference_newick_length(size_t n, const splitbox_list *list, size_t *length);
uint64_t reference_write_newick(size_t n, const splitbox_list *list, uint8_t *out, size_t out_length);
uint64_t reference_read_newick(size_t n, const uint8_t *text, size_t length, splitbox_list *list);

/* A record of any kind, n and body, unchecked: its length, and its bytes into out. Sealing sets the sum word anew. */
size_t reference_compose(uint8_t kind, uint8_t n, const uint8_t *body, size_t length, uint8_t *out);
void reference_seal(uint8_t *record, size_t length);

uint64_t reference_find_record(const uint8_t *bytes, size_t length);
uint64_t reference_find_taken(const uint8_t *bytes, size_t length, bool matrices, bool tables, bool trees);
void reference_body(const uint8_t *bytes, size_t bytes_length, size_t *start, size_t *length);
uint64_t reference_write_record(uint8_t kind, size_t n, const uint8_t *body, size_t length, uint8_t *out, size_t out_length);
uint64_t reference_walk(const uint8_t *file, size_t file_length, size_t *place, size_t *start, size_t *length);
uint64_t reference_run_record(const uint8_t *bytes, size_t length, splitbox_list *list, uint64_t *trials);

#endif
