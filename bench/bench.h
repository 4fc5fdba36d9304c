/* What the parts of the benchmark share: the archive's functions, words and bytes to work on, and the best time of several. */
#ifndef BENCH_H
#define BENCH_H
#include "plain.h"
#include <stdio.h>
#include <stdlib.h>
#include <string.h>
#include <time.h>

typedef struct {
    uint32_t number;
    word word;
} answer;

word dequmlo_test_mul(word a, word b);
word dequmlo_test_square(word a);
word dequmlo_test_square_by_table(word a);
answer dequmlo_test_inv(word a);
word dequmlo_test_inv_by_masks(word a);
void dequmlo_test_scale(uint64_t *s, size_t length, word r);
uint32_t dequmlo_test_eq_table(size_t n, const uint64_t *point, size_t point_length, uint64_t *out, size_t out_length);

typedef struct {
    uint32_t number;
    uint8_t bytes[32];
} digested;

typedef struct {
    uint8_t bytes[4][32];
} four_digests;

digested dequmlo_test_digest(const uint8_t *input, size_t length);
four_digests dequmlo_test_four(const uint8_t *s0, size_t n0, const uint8_t *s1, size_t n1, const uint8_t *s2, size_t n2, const uint8_t *s3, size_t n3);

/* A block travels as its two halves do, each of 8 bytes. */
typedef struct {
    uint32_t number;
    word block;
} hashed;

hashed dequmlo_test_ghash(word key, const uint8_t *blocks, size_t length);

typedef struct {
    uint32_t number;
    size_t n;
} folded;

word dequmlo_test_phi_c(word w, coefficients c);
word dequmlo_test_phi_tab(word w, coefficients c);

/* The sum of phi over the words of a run, by tables that are filled once. */
word dequmlo_test_phi_tab_sum(const uint64_t *s, size_t length, coefficients c);

uint32_t dequmlo_test_derive(size_t n, size_t k, const uint8_t *domain, size_t domain_length, uint64_t *out, size_t out_length);
uint32_t dequmlo_test_encode(size_t n, size_t k, const uint64_t *table, size_t table_length, const uint64_t *gammas, size_t gammas_length, uint64_t *out, size_t out_length);
folded dequmlo_test_fold(size_t n, size_t k, size_t original, size_t var, word r, size_t *coordinates, size_t coordinates_length, const uint64_t *src, size_t src_length, uint64_t *out, size_t out_length);
uint32_t dequmlo_test_partial_evals(size_t n, const uint64_t *packed, size_t packed_length, const uint64_t *eq, size_t eq_length, uint64_t *out, size_t out_length);
answer dequmlo_test_eval_at(size_t n, const uint64_t *z, size_t z_length, coefficients rb, const uint64_t *point, size_t point_length);

/* A point of 7 coordinates by value. */
typedef struct {
    word words[7];
} point7;

/* A number, and both sides of an identity. */
typedef struct {
    uint32_t number;
    word left;
    word right;
} sides;

sides dequmlo_test_extension_sides(size_t n, const uint64_t *packed, size_t packed_length, const uint64_t *point, size_t point_length, point7 row, uint64_t *table, size_t table_length);
sides dequmlo_test_fold_sides(size_t n, const uint64_t *packed, size_t packed_length, const uint64_t *point, size_t point_length, coefficients rb, uint64_t *table, size_t table_length);

typedef struct {
    uint32_t number;
    uint32_t level;
} checked;

uint32_t dequmlo_test_commit(size_t n, size_t k, const uint8_t *base, size_t base_length, const uint64_t *table, size_t table_length, uint64_t *gammas, size_t gammas_length, uint64_t *codeword, size_t codeword_length, size_t *coordinates, size_t coordinates_length, uint8_t *tree, size_t tree_length);
uint32_t dequmlo_test_build(const uint8_t *domain, size_t domain_length, size_t count, size_t width, const uint64_t *values, size_t values_length, uint8_t *tree, size_t tree_length);
uint32_t dequmlo_test_build_query(uint8_t *out, size_t out_length, const uint64_t *levels, size_t levels_length, const uint8_t *trees, size_t trees_length, size_t n, size_t k, size_t position);
checked dequmlo_test_check_query(const uint8_t *base, size_t base_length, size_t n, size_t k, size_t position, const uint64_t *challenges, size_t challenges_length, const uint8_t *roots, size_t roots_length, const uint8_t *s, size_t s_length);

enum { ROUNDS = 15 };

/* A domain of 20 bytes: the default's. */
#define DOMAIN ((const uint8_t *)"magnetar/pcs/default")
enum { DOMAIN_LENGTH = 20 };

double now(void);
word next_word(void);
void must(int held, const char *what);

/* Words and bytes that no shortcut fits. */
uint64_t *words(size_t n);
uint8_t *bytes(size_t n);

#define BEST(best, count, body)                                   \
    do {                                                          \
        best = 1e18;                                              \
        for (int round = 0; round < ROUNDS; round++) {            \
            double began = now();                                 \
            for (long i = 0; i < (count); i++) { body; }          \
            double took = (now() - began) / (double)(count);      \
            if (took < best) best = took;                         \
        }                                                         \
    } while (0)

/* As BEST, for what takes some tenths of a second: fewer rounds, and the body need only be timed once in each. */
#define BEST_OF(best, rounds, body)                               \
    do {                                                          \
        best = 1e18;                                              \
        for (int round = 0; round < (rounds); round++) {          \
            double began = now();                                 \
            body;                                                 \
            double took = now() - began;                          \
            if (took < best) best = took;                         \
        }                                                         \
    } while (0)

/* A row of the table: ours beside plain C, and ours alone, where what is answered is proved and compared with the Rust by differential/run. */
void line(const char *what, const char *rust, double ours, double plain);
void alone(const char *what, const char *rust, double ours);

/* Everything at one n and k: encoding, the tree of level 0, committing, folds, trees of all levels, records. */
void deposit(size_t n, size_t k, int rounds);

#endif
