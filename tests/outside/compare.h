/* Ground of the outside tests: pseudo-random numbers from a seed, memory to lend, and the count of cases and mismatches.
 *
 * A case is one call of the library: begin_case, then lend whatever the call is to get, want what should stand there later,
 * make the call, and end_case. All lent slices lie in one stretch of memory with random bytes before, between and behind them;
 * end_case compares the whole stretch, so that every byte which nobody wanted changed has to be as it was. */
#ifndef COMPARE_H
#define COMPARE_H

#include "splitbox.h"

/* Every function of the header. */
#define FUNCTIONS(each)                                                                                                        \
    each(start) each(run_matrix) each(run_table) each(grow_matrix) each(grow_table) each(write_tree) each(read_tree)           \
    each(newick_length) each(write_newick) each(read_newick) each(sum_paths) each(find_record) each(find_taken)                \
    each(body_start) each(body_length) each(write_record) each(walk) each(run_record)
#define FUNCTION_NUMBER(name) FUNCTION_##name,
typedef enum function { FUNCTIONS(FUNCTION_NUMBER) FUNCTION_COUNT } function;

void seed_draws(uint64_t seed);
uint64_t draw(void);
size_t below(size_t bound);      /* 0 to bound-1 */
bool chance(unsigned percent);
void fill(void *memory, size_t length); /* with random bytes */

/* Begins a case; the note says what it is about, for a mismatch. */
void begin_case(function called, const char *note, ...);

/* Lends so many elements of a size: the content given, or random bytes where it is null. Numbers are aligned, bytes are not. */
void *lend(const char *name, size_t size, size_t elements, const void *content);

/* What should stand in a lent slice after the call. Without it a slice has to keep its bytes. */
void want(const void *lent, const void *content, size_t length);

void end_case(uint64_t wanted, uint64_t got);

/* Something that has to hold of the reference itself: a mismatch if it does not. */
void agree(const char *what, bool holds);

/* Prints the cases of each function and the last line; the exit status. */
int finish(void);

#endif
