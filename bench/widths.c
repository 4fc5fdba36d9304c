/* Times a deposit under both sets of widths, and under the present one with a key, through the exported functions, in one run: committing, all levels with
   their trees, and records built and checked. In each round one way comes after the other, in the same buffers. Prints
   `what<TAB>present<TAB>wide<TAB>ns<TAB>present under a key`, nanoseconds an operation, best of several, and the same with `bytes` in place of `ns` for what
   the sizes come to.

     widths n,k,rounds .. */
#include "../include/dequmlo.h"
#include <stdio.h>
#include <stdlib.h>
#include <string.h>
#include <time.h>

enum { WAYS = 3, POSITIONS = 64, PASSES = 5 };

/* A domain of 20 bytes: the default's. */
static const uint8_t base[] = "magnetar/pcs/default";
enum { BASE = sizeof base - 1 };

/* The ways: under which key and which set. */
static const dequmlo_key keys[WAYS] = {{0, {0}}, {0, {0}}, {1, {7, 5, 3, 1}}};
static const uint32_t sets[WAYS] = {DEQUMLO_WIDTHS_PRESENT, DEQUMLO_WIDTHS_WIDE, DEQUMLO_WIDTHS_PRESENT};

static double now(void) {
    struct timespec t;
    clock_gettime(CLOCK_MONOTONIC, &t);
    return 1e9 * (double)t.tv_sec + (double)t.tv_nsec;
}

static void must(int held, const char *what) {
    if (held) return;
    fprintf(stderr, "bench: %s is refused\n", what);
    exit(1);
}

static void *room(size_t size) {
    void *p = malloc(size);
    if (!p) exit(2);
    return p;
}

/* Words that no shortcut fits. */
static uint64_t *words(size_t count) {
    static uint64_t state = 88172645463325252u;
    uint64_t *s = room(16 * count + 1);
    for (size_t i = 0; i < 2 * count; i++) {
        state ^= state << 13;
        state ^= state >> 7;
        state ^= state << 17;
        s[i] = state;
    }
    return s;
}

/* What is timed. */
enum { COMMIT, LEVELS, BUILT, CHECKED, TAIL_BUILT, TAIL_CHECKED, TIMED };
static const char *const named[TIMED] = {"commit",       "all levels and trees", "query record built", "query record checked",
                                         "tail built", "tail checked"};

/* A deposit's buffers, large enough for every way. */
typedef struct {
    size_t n, k;
    uint64_t *table, *gammas, *levels, *half, *challenges;
    size_t *coordinates;
    uint8_t *trees, *roots, *queries, *tail;
} buffers;

/* The best of what a call took and of its earlier times; of several calls, one's share. */
#define TIME(best, count, body)                                  \
    do {                                                         \
        double began = now();                                    \
        for (size_t i = 0; i < (count); i++) { body; }           \
        double took = (now() - began) / (double)(count);         \
        if (took < (best)) (best) = took;                        \
    } while (0)

/* Records at some positions and the tail record, built and checked, from levels and trees that are made. */
static void records(dequmlo_key key, uint32_t set, buffers b, dequmlo_seal_sizes s, double best[TIMED]) {
    size_t n = b.n, k = b.k;
    const uint64_t *last = b.levels + 2 * (s.levels - s.last_level);
    const uint8_t *last_tree = b.trees + s.trees - s.last_tree, *last_root = b.roots + s.roots - 32;
    dequmlo_word claim = {last[0], last[1]};
#define POSITION (i * 0x9e3779b1u % s.codeword)
#define RECORD (b.queries + s.query * i)
    TIME(best[BUILT], POSITIONS, must(dequmlo_build_query(RECORD, s.query, b.levels, 2 * s.levels, b.trees, s.trees, set, n, k, POSITION) == 0, "query record"));
    TIME(best[CHECKED], POSITIONS,
         must(dequmlo_check_query(key, base, BASE, set, n, k, POSITION, b.challenges, 2 * n, b.roots, s.roots, RECORD, s.query).number == 0, "record's check"));
#undef RECORD
#undef POSITION
    TIME(best[TAIL_BUILT], POSITIONS, must(dequmlo_build_tail(b.tail, s.tail, last, 2 * s.last_level, last_tree, s.last_tree, set, n, k) == 0, "tail record"));
    TIME(best[TAIL_CHECKED], POSITIONS, must(dequmlo_check_tail(key, base, BASE, set, n, k, last_root, 32, claim, b.tail, s.tail) == 0, "tail's check"));
}

/* One round in a way: its best times so far. */
static void round_of(dequmlo_key key, uint32_t set, buffers b, dequmlo_seal_sizes s, double best[TIMED]) {
    size_t n = b.n, k = b.k;
    TIME(best[COMMIT], 1,
         must(dequmlo_commit(key, set, n, k, base, BASE, b.table, 2 * s.table, b.gammas, 2 * s.gammas, b.levels, 2 * s.codeword, b.coordinates, n, b.trees, s.tree) == 0,
              "commit"));
    TIME(best[LEVELS], 1,
         must(dequmlo_fold_levels(key, set, n, k, base, BASE, b.challenges, 2 * n, b.levels, 2 * s.levels, b.half, 2 * s.half, b.trees, s.trees, b.roots, s.roots) == 0, "levels"));
    for (int pass = 0; pass < PASSES; pass++) records(key, set, b, s, best);
}

static size_t larger(size_t a, size_t b) {
    return a > b ? a : b;
}

static void deposit(size_t n, size_t k, int rounds) {
    dequmlo_seal_sizes s[WAYS];
    for (int way = 0; way < WAYS; way++) {
        s[way] = dequmlo_sizes(sets[way], n, k);
        must(s[way].number == 0, "n or k");
    }
    buffers b = {n, k, words(s[0].table), words(s[0].gammas), words(s[0].levels), words(s[0].half), words(n), room(n * sizeof(size_t)), room(larger(s[0].trees, s[1].trees)),
                 room(s[0].roots), room(POSITIONS * larger(s[0].query, s[1].query)), room(larger(s[0].tail, s[1].tail))};
    double best[WAYS][TIMED];
    for (int way = 0; way < WAYS; way++)
        for (int i = 0; i < TIMED; i++) best[way][i] = 1e18;
    for (int round = 0; round < rounds; round++)
        for (int way = 0; way < WAYS; way++) round_of(keys[way], sets[way], b, s[way], best[way]);
    for (int i = 0; i < TIMED; i++)
        printf("%s, n = %zu, k = %zu\t%.1f\t%.1f\tns\t%.1f\n", named[i], n, k, best[0][i], best[1][i], best[2][i]);
    printf("all trees, n = %zu, k = %zu\t%zu\t%zu\tbytes\t%zu\n", n, k, s[0].trees, s[1].trees, s[2].trees);
    printf("query record, n = %zu, k = %zu\t%zu\t%zu\tbytes\t%zu\n", n, k, s[0].query, s[1].query, s[2].query);
    printf("tail record, n = %zu, k = %zu\t%zu\t%zu\tbytes\t%zu\n", n, k, s[0].tail, s[1].tail, s[2].tail);
    void *all[] = {b.table, b.gammas, b.levels, b.half, b.challenges, b.coordinates, b.trees, b.roots, b.queries, b.tail};
    for (size_t i = 0; i < sizeof all / sizeof *all; i++) free(all[i]);
}

int main(int count, char **arguments) {
    for (int i = 1; i < count; i++) {
        size_t n, k;
        int rounds;
        if (sscanf(arguments[i], "%zu,%zu,%d", &n, &k, &rounds) != 3) return 2;
        deposit(n, k, rounds);
    }
    return 0;
}
