/* Times what a deposit costs at one n and k, from the codeword to the check of a record. */
#include "bench.h"

static size_t fold_tree_width(size_t length) {
    return length >= 16 ? 8 : length >= 2 ? 2 : 1;
}

static size_t tree_size(size_t length) {
    return 32 * (2 * (length / fold_tree_width(length)) - 1);
}

/* A group and its path, each after its count. */
static size_t group_size(size_t length) {
    size_t width = fold_tree_width(length), depth = 0;
    while (width << depth < length) depth++;
    return 8 + 16 * width + 32 * depth;
}

/* A deposit in its buffers: levels, trees and roots end to end, level 0 first. */
typedef struct {
    size_t n, k, count, words, trees_size, record_size;
    uint64_t *table, *gammas, *levels, *challenges;
    uint8_t *trees, *roots;
} parts;

static parts make(size_t n, size_t k) {
    parts d = {.n = n, .k = k, .count = (size_t)1 << (n + k), .record_size = 4};
    for (size_t l = 0; l <= n; l++) {
        size_t length = d.count >> l;
        d.words += length;
        d.trees_size += tree_size(length);
        if (l < n) d.record_size += 48 + group_size(length) + group_size(length / 2);
    }
    d.table = words((size_t)1 << n);
    d.gammas = words(n * k);
    d.levels = words(d.words);
    d.challenges = words(n);
    d.trees = bytes(d.trees_size);
    d.roots = bytes(32 * (n + 1));
    return d;
}

static void drop(parts d) {
    free(d.table);
    free(d.gammas);
    free(d.levels);
    free(d.challenges);
    free(d.trees);
    free(d.roots);
}

/* The tree of level l, under its domain, into the lent bytes; how many bytes it has. Its last digest is the root. */
static size_t level_tree(size_t l, size_t length, const uint64_t *values, uint8_t *tree, uint8_t *root) {
    char domain[64];
    size_t size = tree_size(length);
    int domain_length = snprintf(domain, sizeof domain, "%s/level/%zu", (const char *)DOMAIN, l);
    must(dequmlo_test_build((const uint8_t *)domain, (size_t)domain_length, length, fold_tree_width(length), values, 2 * length, tree, size) == 0, "level tree");
    memcpy(root, tree + size - 32, 32);
    return size;
}

static void commit(parts d) {
    size_t coordinates[20];
    must(dequmlo_test_commit(d.n, d.k, DOMAIN, DOMAIN_LENGTH, d.table, (size_t)2 << d.n, d.gammas, 2 * d.n * d.k, d.levels, 2 * d.count, coordinates, d.n, d.trees, tree_size(d.count)) == 0, "commit");
    memcpy(d.roots, d.trees + tree_size(d.count) - 32, 32);
}

/* All n folds at variable 0, each level behind the one before, and the trees of levels 1 to n where they are asked for. */
static void folds(parts d, int with_trees) {
    uint64_t *level = d.levels;
    uint8_t *tree = d.trees + tree_size(d.count);
    size_t coordinates[20];
    for (size_t i = 0; i < d.n; i++) coordinates[i] = i;
    for (size_t l = 0; l < d.n; l++) {
        size_t length = d.count >> l;
        word r = {d.challenges[2 * l], d.challenges[2 * l + 1]};
        must(dequmlo_test_fold(d.n - l, d.k, d.n, 0, r, coordinates, d.n - l, level, 2 * length, level + 2 * length, length).number == 0, "fold");
        level += 2 * length;
        if (with_trees) tree += level_tree(l + 1, length / 2, level, tree, d.roots + 32 * (l + 1));
    }
}

enum { POSITIONS = 64 };
#define POSITION(i) ((size_t)(i) * 0x9e3779b1u % d.count)

/* The longest that records take to be refused which are changed in one byte each: in the word a of level 0, in the path of its c, and in level 1's
   path of a; they are refused with 19 and 24 at level 0, and with 18 at level 1. */
static double refused(parts d, uint8_t *records) {
    size_t level_0 = 48 + group_size(d.count) + group_size(d.count / 2);
    size_t path_of_a = 4 + level_0 + 48 + 8 + 16 * (fold_tree_width(d.count / 2) + fold_tree_width(d.count / 4)) + 4;
    const size_t changed[] = {4, 4 + level_0 - 1, path_of_a};
    const uint32_t numbers[] = {19, 24, 18};
    double longest = 0, best;
    for (int c = 0; c < 3; c++) {
        for (size_t i = 0; i < POSITIONS; i++) records[d.record_size * i + changed[c]] ^= 1;
        BEST(best, POSITIONS, must(dequmlo_test_check_query(DOMAIN, DOMAIN_LENGTH, d.n, d.k, POSITION(i), d.challenges, 2 * d.n, d.roots, 32 * (d.n + 1), records + d.record_size * (size_t)i, d.record_size).number == numbers[c], "refused record"));
        for (size_t i = 0; i < POSITIONS; i++) records[d.record_size * i + changed[c]] ^= 1;
        if (best > longest) longest = best;
    }
    return longest;
}

/* Query records, built at 64 positions, checked, and refused. */
static void records(parts d, double *built, double *checking, double *refusing) {
    uint8_t *out = bytes(d.record_size * POSITIONS);
    BEST(*built, POSITIONS, must(dequmlo_test_build_query(out + d.record_size * (size_t)i, d.record_size, d.levels, 2 * d.words, d.trees, d.trees_size, d.n, d.k, POSITION(i)) == 0, "query record"));
    BEST(*checking, POSITIONS, must(dequmlo_test_check_query(DOMAIN, DOMAIN_LENGTH, d.n, d.k, POSITION(i), d.challenges, 2 * d.n, d.roots, 32 * (d.n + 1), out + d.record_size * (size_t)i, d.record_size).number == 0, "record's check"));
    *refusing = refused(d, out);
    free(out);
}

/* A row: what it is in words, and the Rust's name for it. */
static void row(parts d, const char *what, const char *rust, double ours) {
    char words_for_it[80], name[64];
    snprintf(words_for_it, sizeof words_for_it, "%s, n = %zu, k = %zu", what, d.n, d.k);
    snprintf(name, sizeof name, "%s_n%zu_k%zu", rust, d.n, d.k);
    alone(words_for_it, name, ours);
}

void deposit(size_t n, size_t k, int rounds) {
    double ours, checking, refusing;
    parts d = make(n, k);
    must(dequmlo_test_derive(n, k, DOMAIN, DOMAIN_LENGTH, d.gammas, 2 * n * k) == 0, "gammas");
    BEST_OF(ours, rounds, must(dequmlo_test_encode(n, k, d.table, (size_t)2 << n, d.gammas, 2 * n * k, d.levels, 2 * d.count) == 0, "encode"));
    row(d, "encode", "encode", ours);
    BEST_OF(ours, rounds, level_tree(0, d.count, d.levels, d.trees, d.roots));
    row(d, "tree", "tree", ours);
    BEST_OF(ours, rounds, commit(d));
    row(d, "commit", "commit", ours);
    BEST_OF(ours, rounds, folds(d, 0));
    row(d, "all folds", "folds", ours);
    BEST_OF(ours, rounds, folds(d, 1));
    row(d, "all folds with trees", "folds_with_trees", ours);
    records(d, &ours, &checking, &refusing);
    row(d, "query record built", "query_built", ours);
    row(d, "query record checked", "query_checked", checking);
    row(d, "query record refused, the longest of three", "-", refusing);
    drop(d);
}
