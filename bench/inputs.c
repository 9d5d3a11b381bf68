/* Inputs for the measurements (inputs.h). */
#include "inputs.h"

#include <stdio.h>
#include <stdlib.h>

void fail(const char *what)
{
    fflush(stdout);
    fprintf(stderr, "error: %s\n", what);
    exit(1);
}

/* The next of a fixed row of pseudo-random numbers, from 1 to `most`. */
static uint32_t random_to(uint32_t most)
{
    static uint64_t state = 1;
    state = state * 6364136223846793005u + 1442695040888963407u;
    return (uint32_t)(state >> 33) % most + 1;
}

static void put_pair(size_t n, uint32_t *entries, size_t i, size_t j, uint32_t distance)
{
    entries[i * n + j] = distance;
    entries[j * n + i] = distance;
}

void uniform_matrix(size_t n, uint32_t *entries)
{
    for (size_t i = 0; i < n; i++) {
        entries[i * n + i] = 0;
        for (size_t j = 0; j < i; j++)
            put_pair(n, entries, i, j, random_to(SPLITBOX_DISTANCE));
    }
}

/* Subtrees, at first a taxon each, are joined by twos at random, each of the two by a new edge to a new top. Two taxa that meet
 * there are as far apart as both are from that top. No taxon gets more than 63 edges, so no distance is above 1,000,000. */
void tree_matrix(size_t n, uint32_t *entries)
{
    size_t subtree[SPLITBOX_TAXA];  /* which one each taxon is in */
    uint32_t height[SPLITBOX_TAXA]; /* how far each taxon is from its subtree's top */
    for (size_t i = 0; i < n; i++) {
        subtree[i] = i;
        height[i] = 0;
        entries[i * n + i] = 0;
    }
    for (size_t subtrees = n; subtrees > 1; subtrees--) {
        size_t one = random_to((uint32_t)subtrees) - 1;
        size_t other = (one + random_to((uint32_t)subtrees - 1)) % subtrees;
        uint32_t to_one = random_to(7000);
        uint32_t to_other = random_to(7000);
        for (size_t i = 0; i < n; i++)
            height[i] += subtree[i] == one ? to_one : subtree[i] == other ? to_other : 0;
        for (size_t i = 0; i < n; i++)
            for (size_t j = 0; j < n; j++)
                if (subtree[i] == one && subtree[j] == other)
                    put_pair(n, entries, i, j, height[i] + height[j]);
        for (size_t i = 0; i < n; i++) {
            if (subtree[i] == other)
                subtree[i] = one;
            if (subtree[i] == subtrees - 1)
                subtree[i] = other;
        }
    }
}

void noisy_matrix(size_t n, uint32_t *entries)
{
    tree_matrix(n, entries);
    for (size_t i = 0; i < n; i++)
        for (size_t j = 0; j < i; j++)
            put_pair(n, entries, i, j, entries[i * n + j] + random_to(1000));
}

void tree_table(size_t n, uint8_t *bytes)
{
    uint32_t entries[MATRIX_ROOM];
    tree_matrix(n, entries);
#define BETWEEN(i, j) entries[(i) * n + (j)]
    for (size_t d = 0; d < n; d++)
        for (size_t c = 0; c < d; c++)
            for (size_t b = 0; b < c; b++)
                for (size_t a = 0; a < b; a++) {
                    uint32_t ab_cd = BETWEEN(a, b) + BETWEEN(c, d);
                    uint32_t ac_bd = BETWEEN(a, c) + BETWEEN(b, d);
                    uint32_t ad_bc = BETWEEN(a, d) + BETWEEN(b, c);
                    /* The places a + C(b,2) + C(c,3) + C(d,4) ascend in the order of these loops. */
                    if (ab_cd < ac_bd && ab_cd < ad_bc)
                        *bytes++ = 1;
                    else if (ac_bd < ab_cd && ac_bd < ad_bc)
                        *bytes++ = 2;
                    else
                        *bytes++ = ad_bc < ab_cd && ad_bc < ac_bd ? 3 : 0;
                }
#undef BETWEEN
}

/* Rows by ascending cluster: each taxon from 1 on by itself; then the groups of the last ones, from so many on. */
static void list_of_singles(splitbox_list *list, size_t least_group)
{
    *list = (splitbox_list){.taxa = SPLITBOX_TAXA};
    for (size_t i = 1; i < SPLITBOX_TAXA; i++)
        list->clusters[list->rows++] = (uint64_t)1 << i;
    for (size_t size = least_group; size < SPLITBOX_TAXA; size++)
        list->clusters[list->rows++] = ~(uint64_t)0 << (SPLITBOX_TAXA - size);
    for (size_t row = 0; row < list->rows; row++)
        list->weights[row] = random_to(SPLITBOX_WEIGHT);
}

void deepest_list(splitbox_list *list) { list_of_singles(list, 2); }
void star_list(splitbox_list *list) { list_of_singles(list, SPLITBOX_TAXA - 1); }

void matrix_body(size_t n, const uint32_t *entries, uint8_t *body)
{
    for (size_t e = 0; e < n * n; e++)
        for (int i = 0; i < 4; i++)
            body[4 * e + i] = (uint8_t)(entries[e] >> 8 * i);
}

size_t make_record(uint8_t kind, size_t n, const uint8_t *body, size_t length, uint8_t *out)
{
    size_t whole = SPLITBOX_RECORD(length);
    if (splitbox_write_record(kind, n, body, length, out, whole) != SPLITBOX_DONE)
        fail("a record for the measurements was refused");
    return whole;
}
