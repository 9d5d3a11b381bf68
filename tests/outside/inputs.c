/* The inputs of the outside tests: see inputs.h. */
#include "inputs.h"

#include "compare.h"

#include <string.h>

#define COUNT(array) (sizeof(array) / sizeof *(array))

static uint32_t entries[66 * 66];
static uint8_t bytes[BODY_ROOM];
static uint64_t sums[64 * 64];

size_t odd_n(size_t n)
{
    const size_t wide = (size_t)1 << 32;
    const size_t odd[] = {0, 1, 65, 66, 128, 256 + n, n - 1, n + 1, wide, wide + n, (size_t)1 << 63, SIZE_MAX};
    return odd[below(COUNT(odd))];
}

/* Lists */

/* Divides the taxa in two again and again, at random or (percent) one from the others, and keeps some of the clusters. */
static void nest(splitbox_list *list, uint64_t taxa, unsigned kept, unsigned single)
{
    if (chance(kept))
        list->clusters[list->rows++] = taxa;
    uint64_t part = taxa & (~taxa + 1);
    if (part == taxa)
        return;
    if (!chance(single))
        do
            part = taxa & draw();
        while (part == 0 || part == taxa);
    nest(list, part, kept, single);
    nest(list, taxa & ~part, kept, single);
}

void make_list(splitbox_list *list, size_t taxa, unsigned kept, uint32_t heaviest)
{
    const unsigned singles[] = {0, 20, 90};
    fill(list, sizeof *list);
    list->taxa = taxa;
    list->rows = 0;
    if (taxa > 1)
        nest(list, reference_first(taxa) - 1, kept, singles[below(3)]);
    uint32_t lightest = chance(10) ? heaviest : 1;
    for (size_t i = 0; i < list->rows; i++)
        list->weights[i] = chance(5) ? heaviest : lightest + (uint32_t)below(heaviest - lightest + 1);
    reference_sort_rows(list);
}

void break_list(splitbox_list *list, size_t n, uint32_t heaviest)
{
    const size_t huge[] = {125, 126, 127, 1000, (size_t)1 << 32, (size_t)1 << 63, SIZE_MAX};
    size_t k = list->taxa, rows = list->rows, at = rows > 0 ? below(rows) : 0;
    uint64_t any = draw() & reference_first(k) & ~(uint64_t)1;
    switch (below(14)) {
    case 0: list->taxa = 0; break;
    case 1: list->taxa = n + 1 + below(2); break;
    case 2: list->taxa = chance(50) ? (size_t)-1 - below(3) : ((size_t)1 << 32) + k; break;
    case 3: list->rows = huge[below(COUNT(huge))]; break;
    case 4: list->rows = 2 * k - 3 + below(3); break;
    case 5: list->weights[at] = chance(50) ? 0 : UINT32_MAX; break;
    case 6: list->weights[at] = heaviest + (uint32_t)below(2); break;
    case 7: list->clusters[at] |= 1; break;
    case 8: list->clusters[at] |= k < 64 ? (uint64_t)1 << (k + below(64 - k)) : 1; break;
    case 9: list->clusters[rows - (rows > 0)] |= k < 64 ? (uint64_t)1 << k : 1; break;
    case 10: list->clusters[0] = 0; break;
    case 11: /* equal or descending neighbours */
        if (at + 1 < rows) {
            uint64_t kept = list->clusters[at + 1];
            list->clusters[at + 1] = list->clusters[at];
            if (chance(50))
                list->clusters[at] = kept;
        }
        break;
    default: /* another cluster, in its order: in conflict more often than not */
        if (rows > 0 && any != 0) {
            list->clusters[at] = any;
            reference_sort_rows(list);
        }
    }
}

/* Matrices and tables */

/* A list whose path sums are distances. */
static void make_short_list(splitbox_list *list, size_t n)
{
    const unsigned keeps[] = {100, 100, 70, 30};
    const uint32_t lengths[] = {1, 3, 100, 1000000 / (uint32_t)(2 * n - 3)};
    make_list(list, n, keeps[below(4)], lengths[below(4)]);
}

static void set_pair(size_t n, size_t i, size_t j, uint32_t distance)
{
    entries[i * n + j] = entries[j * n + i] = distance;
}

static source matrix_of_list(size_t n, const splitbox_list *list)
{
    reference_sum_paths(n, list, sums, n * n);
    for (size_t at = 0; at < n * n; at++)
        entries[at] = (uint32_t)sums[at];
    return (source){.kind = SPLITBOX_KIND_MATRIX, .n = n, .entries = entries, .bytes = bytes, .length = n * n};
}

/* The byte of a four: how the first cluster that divides it into pairs divides it. */
static uint8_t byte_of_four(const splitbox_list *list, size_t a, size_t b, size_t c, size_t d)
{
    for (size_t i = 0; i < list->rows; i++) {
        bool in_a = list->clusters[i] >> a & 1, in_b = list->clusters[i] >> b & 1;
        bool in_c = list->clusters[i] >> c & 1, in_d = list->clusters[i] >> d & 1;
        if (in_a + in_b + in_c + in_d == 2)
            return in_a == in_b ? 1 : in_a == in_c ? 2 : 3;
    }
    return 0;
}

static source table_of_list(size_t n, const splitbox_list *list)
{
    size_t at = 0;
    for (size_t d = 3; d < n; d++)
        for (size_t c = 2; c < d; c++)
            for (size_t b = 1; b < c; b++)
                for (size_t a = 0; a < b; a++)
                    bytes[at++] = byte_of_four(list, a, b, c, d);
    return (source){.kind = SPLITBOX_KIND_TABLE, .n = n, .entries = entries, .bytes = bytes, .length = at};
}

source make_tree_source(uint8_t kind, size_t n, splitbox_list *known)
{
    splitbox_list list;
    make_short_list(&list, n);
    *known = (splitbox_list){.taxa = n};
    bool matrix = kind == SPLITBOX_KIND_MATRIX;
    for (size_t i = 0; i < list.rows; i++)
        if (matrix || (list.clusters[i] & (list.clusters[i] - 1) && list.clusters[i] != reference_first(n) - 1)) {
            known->clusters[known->rows] = list.clusters[i];
            known->weights[known->rows++] = matrix ? 2 * list.weights[i] : 1;
        }
    if (matrix)
        return matrix_of_list(n, &list);
    for (size_t taxon = 0; taxon < (n == 2 ? 1 : n); taxon++) {
        known->clusters[known->rows] = taxon == 0 ? reference_first(n) - 1 : (uint64_t)1 << taxon;
        known->weights[known->rows++] = 1;
    }
    reference_sort_rows(known);
    return table_of_list(n, &list);
}

/* Changes some of the distances of the matrix, or of the bytes of the table, and leaves it an accepted one. */
static void add_noise(source *s)
{
    const uint32_t tops[] = {1, 2, 5, 100};
    uint32_t top = tops[below(4)];
    for (size_t i = 0, changes = 1 + below(2 * s->n); i < changes; i++) {
        size_t one = below(s->n), other = below(s->n);
        if (s->kind == SPLITBOX_KIND_TABLE && s->length > 0)
            bytes[below(s->length)] = (uint8_t)below(4);
        else if (s->kind == SPLITBOX_KIND_MATRIX && one != other)
            set_pair(s->n, one, other, (entries[one * s->n + other] + (uint32_t)below(top + 1)) % 1000001);
    }
}

/* Each distance, or byte, for itself: few values, so that ties abound, or many. */
static void make_uniform(source *s)
{
    const uint32_t tops[] = {1, 2, 3, 10, 1000, 1000000};
    const unsigned shares[] = {0, 10, 50, 100};
    uint32_t top = tops[below(6)], step = chance(10) ? 1000000 / top : 1, low = chance(30) ? (1000000 - top * step) : 0;
    unsigned share = shares[below(4)];
    uint8_t usual = (uint8_t)below(4);
    for (size_t i = 0; i < s->n && s->kind == SPLITBOX_KIND_MATRIX; i++)
        for (size_t j = 0; j < i; j++)
            set_pair(s->n, i, j, low + step * (uint32_t)below(top + 1));
    for (size_t at = 0; at < s->length && s->kind == SPLITBOX_KIND_TABLE; at++)
        bytes[at] = chance(share) ? (uint8_t)below(4) : usual;
}

source make_source(uint8_t kind, size_t n)
{
    splitbox_list known;
    source s = make_tree_source(kind, n, &known);
    if (chance(40))
        make_uniform(&s);
    else if (chance(70))
        add_noise(&s);
    return s;
}

void damage_source(source *s)
{
    const uint32_t distances[] = {1, 999999, 1000000, 1000001, 2000000, 0x80000000, UINT32_MAX};
    size_t n = s->n, whole = s->length, room = s->kind == SPLITBOX_KIND_MATRIX ? COUNT(entries) : COUNT(bytes);
    const size_t lengths[] = {0, whole - (whole > 0), whole + 1, below(whole + 1), (n + 1) * (n + 1), whole};
    for (size_t damages = 1 + below(3); damages > 0; damages--) {
        uint32_t distance = distances[below(COUNT(distances))];
        size_t i = below(n), j = below(n), sort = below(12);
        if (sort == 0)
            s->n = odd_n(n);
        else if (sort == 1)
            s->length = lengths[below(COUNT(lengths))];
        else if (s->kind == SPLITBOX_KIND_TABLE) {
            if (whole > 0)
                bytes[below(whole)] = (uint8_t)(chance(50) ? 4 : 4 + below(252));
        } else if (sort < 4)
            entries[i * n + i] = distance;
        else if (sort < 7)
            entries[i * n + j] = distance;
        else if (i != j && sort < 10)
            set_pair(n, i, j, distance);
        else if (i != j)
            entries[i * n + j] += chance(50) || entries[i * n + j] == 0 ? 1 : (uint32_t)-1;
    }
    if (s->length > room)
        s->length = room;
}

/* Trees */

size_t make_tree(size_t n, const splitbox_list *list, uint8_t *body)
{
    size_t length = SPLITBOX_TREE(n, list->rows);
    reference_write_tree(n, list, body, length);
    return length;
}

/* A random order of 0 to count-1. */
static void shuffle(uint8_t *order, size_t count)
{
    for (size_t i = 0; i < count; i++) {
        size_t j = below(i + 1);
        order[i] = order[j];
        order[j] = (uint8_t)i;
    }
}

size_t make_free_tree(size_t n, uint8_t *body)
{
    uint8_t order[SPLITBOX_ROWS + 1];
    size_t m = below(chance(30) ? 2 * n - 2 : (n + 3) / 2), free = 1 + below(m + 1);
    shuffle(order, m);
    order[m] = body[0] = (uint8_t)m;
    for (size_t i = 0; i < m; i++) {
        body[1 + order[i]] = order[i + 1 + below(m - i)];
        reference_put_four(body + 1 + m + n + 4 * i, 1 + (uint32_t)below(2000000));
    }
    for (size_t taxon = 0; taxon < n; taxon++) /* most edges get a taxon */
        body[1 + m + taxon] = taxon == 0 ? (uint8_t)m : taxon <= m ? order[taxon - 1] : order[below(free)];
    return SPLITBOX_TREE(n, m);
}

void renumber_tree(size_t n, uint8_t *body)
{
    uint8_t order[SPLITBOX_ROWS + 1], old[SPLITBOX_TREE(64, SPLITBOX_ROWS)];
    size_t m = body[0];
    memcpy(old, body, SPLITBOX_TREE(n, m));
    shuffle(order, m);
    order[m] = (uint8_t)m;
    for (size_t i = 0; i < m; i++) {
        body[1 + order[i]] = order[old[1 + i]];
        memcpy(body + 1 + m + n + 4 * order[i], old + 1 + m + n + 4 * i, 4);
    }
    for (size_t taxon = 0; taxon < n; taxon++)
        body[1 + m + taxon] = order[old[1 + m + taxon]];
}

size_t damage_tree(size_t n, uint8_t *body, size_t length)
{
    const uint32_t weights[] = {0, 1, 2000000, 2000001, 0x80000000, UINT32_MAX};
    size_t m = body[0], whole = length;
    uint8_t *links = body + 1, *homes = links + m, *weight = homes + n;
    fill(body + length, 16);
    for (size_t damages = 1 + below(3); damages > 0; damages--) {
        size_t vertex = below(m + 1), other = below(m + 1), taxon = below(n);
        uint8_t above = (uint8_t)(chance(70) ? m + 1 : m + below(256 - m)), left = homes[taxon];
        switch (below(vertex < m ? 13 : 4)) {
        case 0: body[0] = (uint8_t)(chance(50) ? m + 1 : m - 1); break;
        case 1: length = chance(50) ? below(whole + 16) : whole + 5 * below(3) - 5 * (m > 0); break;
        case 2: body[below(whole)] ^= (uint8_t)(1 << below(8)); break;
        case 3: homes[0] = (uint8_t)other; break;
        case 4: homes[taxon] = above; break;
        case 5: links[vertex] = above; break;
        case 6: reference_put_four(weight + 4 * vertex, weights[below(COUNT(weights))]); break;
        case 7: links[vertex] = (uint8_t)vertex; break;
        case 8: links[vertex] = (uint8_t)other; break;
        case 9: homes[taxon] = (uint8_t)other; break;
        default: /* all taxa of one home move to another */
            for (size_t i = 1; i < n; i++)
                if (homes[i] == left)
                    homes[i] = (uint8_t)other;
        }
    }
    return length;
}

/* Records */

size_t make_body(uint8_t kind, size_t n, bool damaged, uint8_t *body)
{
    if (kind == SPLITBOX_KIND_TREE) {
        splitbox_list list;
        make_list(&list, n, 50, 2000000);
        size_t length = chance(80) ? make_tree(n, &list, body) : make_free_tree(n, body);
        renumber_tree(n, body);
        return damaged ? damage_tree(n, body, length) : length;
    }
    source s = make_source(kind, n);
    size_t whole = s.length;
    if (damaged)
        damage_source(&s);
    if (kind == SPLITBOX_KIND_TABLE) {
        memcpy(body, bytes, s.length);
        return s.length;
    }
    for (size_t at = 0; at < s.length; at++)
        reference_put_four(body + 4 * at, entries[at]);
    return 4 * s.length - (damaged && s.length != whole ? below(4) * (s.length > 0) : 0);
}

size_t make_record(size_t most_taxa, uint8_t *record)
{
    static uint8_t body[BODY_ROOM];
    uint8_t kind = (uint8_t)(1 + below(3));
    size_t n = 2 + below(most_taxa - 1), length = make_body(kind, n, chance(15), body);
    return reference_compose(kind, (uint8_t)n, body, length, record);
}

size_t damage_record(uint8_t *record, size_t length)
{
    size_t body_length = length - 10, at = below(length), sort = below(10);
    switch (sort) {
    case 0: record[below(2)] ^= (uint8_t)(1 << below(8)); break;
    case 1: record[2] = (uint8_t)(chance(50) ? below(6) : below(256)); break;
    case 2: record[3] = (uint8_t)(chance(50) ? odd_n(record[3]) : below(256)); break;
    case 3: record[4 + below(4)] += (uint8_t)(chance(70) ? 1 : below(256)); break;
    case 4: record[8 + body_length - (body_length > 0)] = (uint8_t)draw(); break; /* the pad, where there is one */
    case 5: record[length - 1 - below(2)] ^= (uint8_t)(1 << below(8)); break;
    case 6: return below(length);
    case 7: return length - 1 - below(2);
    default: record[at] ^= (uint8_t)(1 << below(8));
    }
    if (chance(60) && sort != 5)
        reference_seal(record, length);
    if (chance(20))
        return below(length + 1);
    return length;
}
