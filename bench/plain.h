/* The same algorithms in plain C, without intrinsics: what the compiler makes of them when no proof stands beside. */
#ifndef PLAIN_H
#define PLAIN_H
#include <stddef.h>
#include <stdint.h>

typedef struct {
    uint64_t lo, hi;
} word;

word plain_mul(word a, word b);
word plain_square(word a);
word plain_square_by_table(word a);
word plain_inv(word a);
word plain_inv_by_table(word a);
void plain_scale(uint64_t *s, size_t words, word r);
void plain_eq_table(size_t n, const uint64_t *point, uint64_t *out);

typedef struct {
    word words[128];
} coefficients;

/* phi of a word: the sum of the coefficients whose bits are set, by masks without a branch. They come by value, as the archive's do. */
word plain_phi(word w, coefficients c);

/* GHASH of whole blocks (SP 800-38D), by Shoup's tables of four bits. */
void plain_ghash(const uint8_t key[16], const uint8_t *blocks, size_t count, uint8_t out[16]);

/* BLAKE3 in hash mode, one block at a time. */
void plain_blake3(const uint8_t *input, size_t length, uint8_t digest[32]);
#endif
