/* Whole runs by the fast algorithms in plain C (fast.h), as well written as we know how.
 *
 * THE SAME AS THE LIBRARY. On a matrix: a trial ends at the first score that is not above zero; the fours that hold the
 * newcomer's nearest neighbour come first; the rest in separated form, for each z of the other side the least over x of
 * xz - ax, then the least over y and z, so O(k^2) a trial; the weights of the splits of one taxon by itself are kept, and lowered
 * by each newcomer's fours. On a table: once for each newcomer and each two earlier taxa the set of those that the table joins
 * with it against the two, as the bits of a number; a trial is then one `and` for each two taxa of the other side.
 *
 * AS C IS WRITTEN: taxa of a side are the bits of a number, taken lowest first; rows are pointers; scores are signed 32-bit
 * numbers; what is extended is merged in one go.
 */
#include "fast.h"

#include <string.h>

#define MOST 4000000 /* above every score */

static uint64_t refused(unsigned number, size_t place) { return number + 256 * (uint64_t)place; }
static int32_t lesser(int32_t p, int32_t q) { return p < q ? p : q; }
static uint64_t one_taxon(size_t i) { return (uint64_t)1 << i; }
static size_t choose2(size_t p) { return p * (p - 1) / 2; }
static size_t choose4(size_t p) { return p < 4 ? 0 : p * (p - 1) * (p - 2) * (p - 3) / 24; }

/* The taxa of a group, ascending; gives their number. */
static size_t list_taxa(uint64_t group, uint8_t *taxa)
{
    size_t count = 0;
    for (; group != 0; group &= group - 1)
        taxa[count++] = (uint8_t)__builtin_ctzll(group);
    return count;
}

/* A matrix in `entries`, or else a table in `bytes`; and what is prepared for a newcomer. */
struct source {
    size_t n;
    const uint32_t *entries;
    const uint8_t *bytes;
    uint32_t most;
    size_t near;                  /* on a matrix, its nearest neighbour */
    int32_t lone[SPLITBOX_TAXA];  /* and the weight of each split of one taxon by itself, 0 where it is not supported */
    uint64_t sets[SPLITBOX_TAXA * (SPLITBOX_TAXA - 1) / 2]; /* on a table, at C(q,2) + p those joined with it against p<q */
};

/* ---- A matrix. ---- */

static uint64_t check_matrix(size_t n, const uint32_t *entries, size_t length)
{
    if (n < 2 || n > SPLITBOX_TAXA)
        return refused(1, 0);
    if (length != n * n)
        return refused(2, 0);
    for (size_t i = 0; i < n; i++)
        if (entries[i * n + i] != 0)
            return refused(3, i * n + i);
    for (size_t e = 0; e < n * n; e++)
        if (entries[e] > SPLITBOX_DISTANCE)
            return refused(4, e);
    for (size_t i = 0; i < n; i++)
        for (size_t j = i + 1; j < n; j++)
            if (entries[i * n + j] != entries[j * n + i])
                return refused(5, i * n + j);
    return SPLITBOX_DONE;
}

static const int32_t *row_of(const struct source *from, size_t i) { return (const int32_t *)from->entries + i * from->n; }

/* The weight of v by itself, lowered by its scores with z and each of the first m taxa but v. */
static int32_t lower_lone(const struct source *from, size_t v, size_t z, size_t m, int32_t weight)
{
    if (weight == 0)
        return 0;
    const int32_t *from_v = row_of(from, v), *from_z = row_of(from, z);
    int32_t low = MOST;
    for (size_t y = 0; y < m; y++)
        low = lesser(low, y == v ? MOST : from_v[y] - from_z[y]);
    low += from_v[z];
    return low <= 0 ? 0 : lesser(low, weight);
}

static void prepare_matrix(struct source *from, size_t k)
{
    const int32_t *from_k = row_of(from, k);
    from->near = 0;
    for (size_t i = 1; i < k; i++)
        if (from_k[i] < from_k[from->near])
            from->near = i;
    for (size_t v = 0; v < k; v++)
        from->lone[v] = lower_lone(from, v, k, k, from->lone[v]);
    from->lone[k] = SPLITBOX_WEIGHT;
    for (size_t z = 1; z < k; z++)
        from->lone[k] = lower_lone(from, k, z, z, from->lone[k]);
}

/* The least over the listed x of xz - ax. */
static int32_t reach_of(const int32_t *from_z, const int32_t *from_a, size_t count, const uint8_t *xs)
{
    int32_t low = MOST;
    for (size_t i = 0; i < count; i++)
        low = lesser(low, from_z[xs[i]] - from_a[xs[i]]);
    return low;
}

/* Whether a score of ax|yz is not above zero, for a listed z. */
static bool fails_with(const struct source *from, size_t a, size_t x, size_t y, size_t count, const uint8_t *zs)
{
    const int32_t *from_a = row_of(from, a), *from_x = row_of(from, x), *from_y = row_of(from, y);
    int32_t ax = from_a[x], ay = from_a[y], xy = from_x[y];
    for (size_t j = 0; j < count; j++)
        if (lesser(ay + from_x[zs[j]], from_a[zs[j]] + xy) - ax - from_y[zs[j]] <= 0)
            return true;
    return false;
}

/* The split c of the first k taxa and the newcomer k: 0 where a score is not above zero, else the least of w and the scores. */
static int32_t try_matrix(const struct source *from, size_t k, uint64_t c, int32_t w)
{
    size_t near = from->near;
    const int32_t *from_k = row_of(from, k), *from_near = row_of(from, near);
    uint64_t earlier = one_taxon(k) - 1;
    uint64_t other = c >> k & 1 ? earlier & ~c : c;
    uint64_t own = earlier & ~other;
    if (k == 1)
        return lesser(w, 2 * from_k[0]);
    if ((other & (other - 1)) == 0)
        return lesser(w, from->lone[__builtin_ctzll(other)]);
    if (own == 0)
        return lesser(w, from->lone[k]);
    uint8_t xs[SPLITBOX_TAXA], ys[SPLITBOX_TAXA];
    size_t count = list_taxa(other & ~one_taxon(near), ys), x_count;
    if (other >> near & 1) {
        if (fails_with(from, k, (size_t)__builtin_ctzll(own), near, count, ys))
            return 0;
        x_count = list_taxa(own, xs);
        int32_t reach = reach_of(from_near, from_k, x_count, xs);
        for (size_t j = 0; j < count; j++)
            if (from_k[ys[j]] + reach <= from_near[ys[j]])
                return 0;
        ys[count++] = (uint8_t)near;
    } else {
        for (size_t i = 0; i < count; i++)
            if (fails_with(from, k, near, ys[i], i, ys))
                return 0;
        x_count = list_taxa(own, xs);
    }
    int32_t best = w, reaches[SPLITBOX_TAXA];
    for (size_t i = 0; i < count; i++) {
        const int32_t *from_z = row_of(from, ys[i]);
        int32_t az = from_k[ys[i]], reach = reach_of(from_z, from_k, x_count, xs);
        reaches[i] = reach;
        for (size_t j = 0; j < i; j++)
            best = lesser(best, lesser(from_k[ys[j]] + reach, az + reaches[j]) - from_z[ys[j]]);
        if (best <= 0)
            return 0;
    }
    return best;
}

/* ---- A table. ---- */

static uint64_t check_table(size_t n, const uint8_t *bytes, size_t length)
{
    if (n < 2 || n > SPLITBOX_TAXA)
        return refused(1, 0);
    if (length != choose4(n))
        return refused(2, 0);
    size_t at = 0;
    for (uint64_t eight; at + 8 <= length; at += 8) { /* a byte above 3 has a bit above the lowest two */
        memcpy(&eight, bytes + at, 8);
        if ((eight & 0xfcfcfcfcfcfcfcfc) != 0)
            break;
    }
    for (; at < length; at++)
        if (bytes[at] > 3)
            return refused(6, at);
    return SPLITBOX_DONE;
}

/* The bytes of the fours i<j<l<k stand in the order of these loops. */
static void prepare_table(struct source *from, size_t k)
{
    const uint8_t *at = from->bytes + choose4(k);
    memset(from->sets, 0, choose2(k) * sizeof from->sets[0]);
    for (size_t l = 2; l < k; l++)
        for (size_t j = 1; j < l; j++) {
            uint64_t *below = from->sets + choose2(j), *above = from->sets + choose2(l);
            uint64_t with_j = above[j];
            for (size_t i = 0; i < j; i++) {
                uint8_t byte = *at++;
                below[i] |= (uint64_t)(byte == 1) << l;
                above[i] |= (uint64_t)(byte == 2) << j;
                with_j |= (uint64_t)(byte == 3) << i;
            }
            above[j] = with_j;
        }
}

/* The split c of the first k taxa and the newcomer k: 0 where a four of different taxa does not stand, else the lesser of w, 1. */
static int32_t try_table(const struct source *from, size_t k, uint64_t c, int32_t w)
{
    uint64_t earlier = one_taxon(k) - 1;
    uint64_t other = c >> k & 1 ? earlier & ~c : c;
    uint64_t own = earlier & ~other;
    uint8_t ys[SPLITBOX_TAXA];
    size_t count = list_taxa(other, ys);
    for (size_t i = 0; i < count; i++) {
        const uint64_t *row = from->sets + choose2(ys[i]);
        for (size_t j = 0; j < i; j++)
            if ((own & ~row[ys[j]]) != 0)
                return 0;
    }
    return w;
}

/* ---- Growth. ---- */

static void push(splitbox_list *list, uint64_t cluster, uint32_t weight)
{
    list->clusters[list->rows] = cluster;
    list->weights[list->rows] = weight;
    list->rows++;
}

/* What the newcomer k extends: the list, on a matrix with every trivial split put in. Both ascend, so they are merged. */
static void parents(const struct source *from, size_t k, const splitbox_list *list, splitbox_list *out)
{
    if (from->entries == NULL || k < 2) {
        *out = *list;
        return;
    }
    size_t row = 0;
    out->rows = 0;
    for (size_t i = 1; i <= k; i++) {
        uint64_t trivial = i < k ? one_taxon(i) : one_taxon(k) - 2;
        if (i == k && k == 2)
            break; /* two taxa have one split */
        while (row < list->rows && list->clusters[row] < trivial) {
            push(out, list->clusters[row], list->weights[row]);
            row++;
        }
        if (row < list->rows && list->clusters[row] == trivial)
            row++;
        push(out, trivial, from->most);
    }
}

static void offer(const struct source *from, size_t k, splitbox_list *list, uint64_t c, uint32_t w)
{
    int32_t v = from->entries ? try_matrix(from, k, c, (int32_t)w) : try_table(from, k, c, (int32_t)w);
    if (v > 0)
        push(list, c, (uint32_t)v);
}

static uint64_t run(struct source *from, splitbox_list *list, uint64_t *trials)
{
    splitbox_list old;
    memset(list, 0, sizeof *list);
    from->lone[0] = SPLITBOX_WEIGHT;
    *trials = 0;
    for (size_t k = 1; k < from->n; k++) {
        parents(from, k, list, &old);
        *trials += 2 * old.rows + 1;
        if (from->entries)
            prepare_matrix(from, k);
        else
            prepare_table(from, k);
        list->rows = 0;
        for (size_t i = 0; i < old.rows; i++)
            offer(from, k, list, old.clusters[i], old.weights[i]);
        offer(from, k, list, one_taxon(k), from->most);
        for (size_t i = 0; i < old.rows; i++)
            offer(from, k, list, old.clusters[i] + one_taxon(k), old.weights[i]);
    }
    list->taxa = from->n;
    memset(list->clusters + list->rows, 0, (SPLITBOX_ROWS - list->rows) * sizeof list->clusters[0]);
    memset(list->weights + list->rows, 0, (SPLITBOX_ROWS - list->rows) * sizeof list->weights[0]);
    return SPLITBOX_DONE;
}

uint64_t fast_run_matrix(size_t n, const uint32_t *entries, size_t length, splitbox_list *list, uint64_t *trials)
{
    uint64_t said = check_matrix(n, entries, length);
    struct source from = {.n = n, .entries = entries, .most = SPLITBOX_WEIGHT};
    return said == SPLITBOX_DONE ? run(&from, list, trials) : said;
}

uint64_t fast_run_table(size_t n, const uint8_t *bytes, size_t length, splitbox_list *list, uint64_t *trials)
{
    uint64_t said = check_table(n, bytes, length);
    struct source from = {.n = n, .bytes = bytes, .most = 1};
    return said == SPLITBOX_DONE ? run(&from, list, trials) : said;
}
