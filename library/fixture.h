/* A seal made through the library, for the tests: a table committed, folded by challenges, with its trees, roots and records. The sizes are
   computed here once more, from docs/LINKING.md's formulas. A key comes first, a set of widths before n. */
#ifndef FIXTURE_H
#define FIXTURE_H

#include "../include/dequmlo.h"
#include <stdio.h>
#include <stdlib.h>
#include <string.h>

typedef struct {
    dequmlo_key key;
    uint32_t widths;
    size_t n, k;
    const char *base;
    uint64_t *table, *gammas, *levels, *challenges;
    size_t *coordinates; /* the codeword's list */
    uint8_t *trees, *roots, *query, *tail;
    size_t position;
    dequmlo_word claim;
} seal;

#define MUST(what)                                                                            \
    do {                                                                                      \
        if (!(what)) {                                                                        \
            fprintf(stderr, "%s:%d: %s does not hold\n", __FILE__, __LINE__, #what);          \
            exit(1);                                                                          \
        }                                                                                     \
    } while (0)

/* ---- sizes */

static inline size_t level_words(size_t n, size_t k, size_t l) { return (size_t)1 << (n + k - l); }

static inline size_t width_of(uint32_t widths, size_t words) {
    if (widths == DEQUMLO_WIDTHS_WIDE) return words >= 64 ? 32 : words >= 2 ? 2 : 1;
    return words >= 16 ? 8 : words >= 2 ? 2 : 1;
}

static inline size_t groups_of(uint32_t widths, size_t words) { return words / width_of(widths, words); }
static inline size_t tree_bytes(uint32_t widths, size_t words) { return 32 * (2 * groups_of(widths, words) - 1); }

static inline size_t depth_of(uint32_t widths, size_t words) {
    size_t depth = 0;
    while ((groups_of(widths, words) >> depth) > 1) depth++;
    return depth;
}

static inline size_t group_bytes(uint32_t widths, size_t words) { return 8 + 16 * width_of(widths, words) + 32 * depth_of(widths, words); }

static inline size_t levels_words(size_t n, size_t k) { return ((size_t)1 << k) * (((size_t)2 << n) - 1); }

static inline size_t trees_bytes(uint32_t widths, size_t n, size_t k) {
    size_t sum = 0;
    for (size_t l = 0; l <= n; l++) sum += tree_bytes(widths, level_words(n, k, l));
    return sum;
}

static inline size_t query_bytes(uint32_t widths, size_t n, size_t k) {
    size_t sum = 4;
    for (size_t l = 0; l < n; l++) sum += 48 + group_bytes(widths, level_words(n, k, l)) + group_bytes(widths, level_words(n, k, l + 1));
    return sum;
}

static inline size_t tail_bytes(uint32_t widths, size_t k) {
    size_t words = (size_t)1 << k;
    return 4 + groups_of(widths, words) * group_bytes(widths, words);
}

/* ---- numbers that look random, the same in every run */

static inline uint64_t drawn(uint64_t *state) {
    uint64_t x = (*state += 0x9e3779b97f4a7c15u);
    x = (x ^ (x >> 30)) * 0xbf58476d1ce4e5b9u;
    x = (x ^ (x >> 27)) * 0x94d049bb133111ebu;
    return x ^ (x >> 31);
}

static inline void *room(size_t bytes) {
    void *p = calloc(bytes == 0 ? 1 : bytes, 1);
    MUST(p != NULL);
    return p;
}

/* ---- keys */

/* None: the bytes count for nothing, so they are not zeros. */
static inline dequmlo_key no_key(void) {
    dequmlo_key key;
    key.keyed = 0;
    memset(key.bytes, 0xee, sizeof key.bytes);
    return key;
}

/* A key whose bytes look random. */
static inline dequmlo_key key_of(uint64_t seed) {
    dequmlo_key key;
    key.keyed = 1;
    for (size_t i = 0; i < sizeof key.bytes; i++) key.bytes[i] = (uint8_t)drawn(&seed);
    return key;
}

/* ---- lists of coordinates */

/* Whether a list of n is what a fold at `var` leaves of one that was `before`: without its entry, and 0 after its end. */
static inline int is_without(const size_t *list, const size_t *before, size_t n, size_t var) {
    for (size_t i = 0; i + 1 < n; i++)
        if (list[i] != before[i < var ? i : i + 1]) return 0;
    return list[n - 1] == 0;
}

/* ---- the seal */

/* Level l + 1 and its tree, and its root. The list is that of level l, and becomes that of level l + 1. */
static inline void next_level(seal *s, size_t l, size_t *list, size_t first, size_t first_tree) {
    size_t from = level_words(s->n, s->k, l), to = from / 2;
    uint64_t *level = s->levels + 2 * first, *next = level + 2 * from;
    dequmlo_word r = {s->challenges[2 * l], s->challenges[2 * l + 1]};
    dequmlo_folded f = dequmlo_fold(s->n - l, s->k, s->n, 0, r, list, s->n - l, level, 2 * from, next, 2 * to);
    MUST(f.number == 0 && f.n == s->n - l - 1 && is_without(list, s->coordinates + l, s->n - l, 0));
    char domain[64];
    int length = snprintf(domain, sizeof domain, "%s/level/%zu", s->base, l + 1);
    uint8_t *tree = s->trees + first_tree + tree_bytes(s->widths, from);
    size_t width = dequmlo_fold_tree_width(s->widths, to), size = tree_bytes(s->widths, to);
    MUST(dequmlo_tree(s->key, (const uint8_t *)domain, (size_t)length, to, width, next, 2 * to, tree, size) == 0);
    memcpy(s->roots + 32 * (l + 1), tree + size - 32, 32);
}

static inline seal sealed_under(dequmlo_key key, uint32_t widths, size_t n, size_t k, size_t position, uint64_t seed) {
    seal s;
    s.key = key, s.widths = widths, s.n = n, s.k = k, s.base = "dequmlo/test", s.position = position;
    s.table = (uint64_t *)room(16 << n);
    s.gammas = (uint64_t *)room(16 * k * n);
    s.levels = (uint64_t *)room(16 * levels_words(n, k));
    s.coordinates = (size_t *)room(n * sizeof(size_t));
    s.challenges = (uint64_t *)room(16 * n);
    s.trees = (uint8_t *)room(trees_bytes(widths, n, k));
    s.roots = (uint8_t *)room(32 * (n + 1));
    s.query = (uint8_t *)room(query_bytes(widths, n, k));
    s.tail = (uint8_t *)room(tail_bytes(widths, k));
    for (size_t i = 0; i < (size_t)2 << n; i++) s.table[i] = drawn(&seed);
    for (size_t i = 0; i < 2 * n; i++) s.challenges[i] = drawn(&seed);
    size_t words = level_words(n, k, 0), size = tree_bytes(widths, words);
    MUST(dequmlo_commit(key, widths, n, k, (const uint8_t *)s.base, strlen(s.base), s.table, (size_t)2 << n, s.gammas, 2 * k * n, s.levels,
                        2 * words, s.coordinates, n, s.trees, size) == 0);
    memcpy(s.roots, s.trees + size - 32, 32);
    for (size_t i = 0; i < n; i++) MUST(s.coordinates[i] == i);
    size_t first = 0, first_tree = 0, *list = (size_t *)room(n * sizeof(size_t));
    memcpy(list, s.coordinates, n * sizeof(size_t));
    for (size_t l = 0; l < n; l++) {
        next_level(&s, l, list, first, first_tree);
        first += level_words(n, k, l);
        first_tree += tree_bytes(widths, level_words(n, k, l));
    }
    free(list);
    s.claim.lo = s.levels[2 * first], s.claim.hi = s.levels[2 * first + 1];
    size_t last = (size_t)1 << k;
    MUST(dequmlo_build_tail(s.tail, tail_bytes(widths, k), s.levels + 2 * first, 2 * last, s.trees + first_tree, tree_bytes(widths, last), widths, n,
                            k) == 0);
    MUST(dequmlo_build_query(s.query, query_bytes(widths, n, k), s.levels, 2 * levels_words(n, k), s.trees, trees_bytes(widths, n, k), widths, n, k,
                             position) == 0);
    return s;
}

/* The same under no key. */
static inline seal sealed(uint32_t widths, size_t n, size_t k, size_t position, uint64_t seed) {
    return sealed_under(no_key(), widths, n, k, position, seed);
}

static inline void unsealed(seal *s) {
    free(s->table), free(s->gammas), free(s->levels), free(s->coordinates), free(s->challenges);
    free(s->trees), free(s->roots), free(s->query), free(s->tail);
}

#endif
