/* Whole runs by the fast algorithms in plain C, to hold the library against: same answers as plain.h, same algorithms as the
 * library (see fast.c). */
#ifndef FAST_H
#define FAST_H

#include "splitbox.h"

uint64_t fast_run_matrix(size_t n, const uint32_t *entries, size_t length, splitbox_list *list, uint64_t *trials);
uint64_t fast_run_table(size_t n, const uint8_t *bytes, size_t length, splitbox_list *list, uint64_t *trials);

#endif
