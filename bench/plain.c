/* See plain.h. */
#include "plain.h"
#include <string.h>

static word add(word a, word b) {
    return (word){a.lo ^ b.lo, a.hi ^ b.hi};
}

static word doubled(word a) {
    return (word){a.lo << 1 ^ (a.hi >> 63) * 0x87, a.hi << 1 | a.lo >> 63};
}

/* The product of two halves, not reduced, by windows of four bits. */
static word clmul64(uint64_t a, uint64_t b) {
    word t[16] = {{0, 0}, {a, 0}};
    for (int v = 1; v < 8; v++) {
        t[2 * v] = (word){t[v].lo << 1, t[v].hi << 1 | t[v].lo >> 63};
        t[2 * v + 1] = (word){t[2 * v].lo ^ a, t[2 * v].hi};
    }
    word p = {0, 0};
    for (int j = 15; j >= 0; j--) {
        p = (word){p.lo << 4, p.hi << 4 | p.lo >> 60};
        p = add(p, t[b >> 4 * j & 15]);
    }
    return p;
}

static word reduced(word l, word h) {
    uint64_t over = h.hi >> 63 ^ h.hi >> 62 ^ h.hi >> 57;
    uint64_t back = over ^ over << 1 ^ over << 2 ^ over << 7;
    uint64_t lo = h.lo ^ h.lo << 1 ^ h.lo << 2 ^ h.lo << 7;
    uint64_t hi = h.hi ^ h.hi << 1 ^ h.hi << 2 ^ h.hi << 7;
    return (word){l.lo ^ lo ^ back, l.hi ^ hi ^ h.lo >> 63 ^ h.lo >> 62 ^ h.lo >> 57};
}

word plain_mul(word a, word b) {
    word l = clmul64(a.lo, b.lo), h = clmul64(a.hi, b.hi);
    word m = add(clmul64(a.lo ^ a.hi, b.lo ^ b.hi), add(l, h));
    return reduced((word){l.lo, l.hi ^ m.lo}, (word){h.lo ^ m.hi, h.hi});
}

static uint64_t spread(uint64_t x) {
    x = (x ^ x << 16) & 0x0000ffff0000ffff;
    x = (x ^ x << 8) & 0x00ff00ff00ff00ff;
    x = (x ^ x << 4) & 0x0f0f0f0f0f0f0f0f;
    x = (x ^ x << 2) & 0x3333333333333333;
    return (x ^ x << 1) & 0x5555555555555555;
}

word plain_square(word a) {
    return reduced((word){spread(a.lo & 0xffffffff), spread(a.lo >> 32)}, (word){spread(a.hi & 0xffffffff), spread(a.hi >> 32)});
}

/* Entry v has bit 2i set where v has bit i. */
#define ENTRY(v) ((v & 1) | (v & 2) << 1 | (v & 4) << 2 | (v & 8) << 3 | (v & 16) << 4 | (v & 32) << 5 | (v & 64) << 6 | (v & 128) << 7)
#define FOUR(v) ENTRY(v), ENTRY((v + 1)), ENTRY((v + 2)), ENTRY((v + 3))
#define SIXTEEN(v) FOUR(v), FOUR((v + 4)), FOUR((v + 8)), FOUR((v + 12))
#define ROW(v) SIXTEEN(v), SIXTEEN((v + 16)), SIXTEEN((v + 32)), SIXTEEN((v + 48))
static const uint16_t spread_bytes[256] = {ROW(0), ROW(64), ROW(128), ROW(192)};

static uint64_t spread_by_table(uint64_t x) {
    const uint16_t *t = spread_bytes;
    uint64_t low = t[x & 255] ^ (uint64_t)t[x >> 8 & 255] << 16;
    uint64_t high = t[x >> 16 & 255] ^ (uint64_t)t[x >> 24 & 255] << 16;
    return low ^ high << 32;
}

word plain_square_by_table(word a) {
    return reduced((word){spread_by_table(a.lo), spread_by_table(a.lo >> 32)}, (word){spread_by_table(a.hi), spread_by_table(a.hi >> 32)});
}

/* a times b squared n times. */
static inline word mul_squares(int by_table, word a, word b, int n) {
    while (n-- > 0) b = by_table ? plain_square_by_table(b) : plain_square(b);
    return plain_mul(a, b);
}

/* a^(2^128 - 2) by the chain 1, 2, 3, 6, 12, 24, 48, 96, 120, 126, 127 of exponents 2^n - 1. */
static inline word inverse(int by_table, word a) {
    word a2 = mul_squares(by_table, a, a, 1), a3 = mul_squares(by_table, a, a2, 1), a6 = mul_squares(by_table, a3, a3, 3);
    word a12 = mul_squares(by_table, a6, a6, 6), a24 = mul_squares(by_table, a12, a12, 12), a48 = mul_squares(by_table, a24, a24, 24);
    word a96 = mul_squares(by_table, a48, a48, 48), a120 = mul_squares(by_table, a24, a96, 24), a126 = mul_squares(by_table, a6, a120, 6);
    word a127 = mul_squares(by_table, a, a126, 1);
    return by_table ? plain_square_by_table(a127) : plain_square(a127);
}

word plain_inv(word a) {
    return inverse(0, a);
}

word plain_inv_by_table(word a) {
    return inverse(1, a);
}

/* 16 rows of 256: entry v of row j is r times the byte v at place j. */
static void fill(word *t, word r) {
    for (int j = 0; j < 16; j++) {
        word *row = t + 256 * j;
        row[0] = (word){0, 0};
        for (int n = 1; n < 256; n *= 2) {
            for (int i = 0; i < n; i++) row[n + i] = add(row[i], r);
            r = doubled(r);
        }
    }
}

static word times(const word *t, word w) {
    word p = {0, 0};
    for (int j = 0; j < 8; j++) p = add(p, t[256 * j + (w.lo >> 8 * j & 255)]);
    for (int j = 0; j < 8; j++) p = add(p, t[256 * (8 + j) + (w.hi >> 8 * j & 255)]);
    return p;
}

void plain_scale(uint64_t *s, size_t words, word r) {
    word t[4096];
    fill(t, r);
    for (size_t v = 0; v < words; v++) {
        word p = times(t, (word){s[2 * v], s[2 * v + 1]});
        s[2 * v] = p.lo;
        s[2 * v + 1] = p.hi;
    }
}

void plain_eq_table(size_t n, const uint64_t *point, uint64_t *out) {
    static word t[4096];
    size_t len = 1;
    out[0] = 1;
    out[1] = 0;
    for (size_t i = 0; i < n; i++, len *= 2) {
        fill(t, (word){point[2 * i], point[2 * i + 1]});
        for (size_t v = 0; v < len; v++) {
            word p = times(t, (word){out[2 * v], out[2 * v + 1]});
            out[2 * (len + v)] = p.lo;
            out[2 * (len + v) + 1] = p.hi;
            out[2 * v] ^= p.lo;
            out[2 * v + 1] ^= p.hi;
        }
    }
}

/* A coefficient that is not chosen is added too, under a mask of zeros. */
static word masked(word sum, uint64_t half, const word *c) {
    for (int b = 0; b < 64; b++) {
        uint64_t mask = 0 - (half >> b & 1);
        sum = add(sum, (word){c[b].lo & mask, c[b].hi & mask});
    }
    return sum;
}

word plain_phi(word w, coefficients c) {
    return masked(masked((word){0, 0}, w.lo, c.words), w.hi, c.words + 64);
}

/* ---- GHASH by Shoup's tables of four bits. A block is two numbers here, its bits read from left to right: the coefficient of x^127 is bit 0 of `lo`. */

static uint64_t from_left(const uint8_t *s) {
    uint64_t x = 0;
    for (int i = 0; i < 8; i++) x = x << 8 | s[i];
    return x;
}

static void to_left(uint8_t *s, uint64_t x) {
    for (int i = 7; i >= 0; i--, x >>= 8) s[i] = (uint8_t)x;
}

/* Times x: the bits move to the right. */
static word moved(word a) {
    return (word){a.lo >> 1 | a.hi << 63, a.hi >> 1 ^ (a.lo & 1) * 0xe100000000000000};
}

/* t has the key's product with each four bits; `back`, for each four bits that fall out on the right, what comes back for them on the left. */
static void four_bits(word t[16], uint64_t back[16], word key) {
    t[0] = (word){0, 0};
    t[8] = key;
    for (int v = 4; v > 0; v /= 2) t[v] = moved(t[2 * v]);
    for (int v = 1; v < 16; v *= 2)
        for (int i = 1; i < v; i++) t[v + i] = add(t[v], t[i]);
    for (uint64_t v = 0; v < 16; v++) {
        word w = {v, 0};
        for (int i = 0; i < 4; i++) w = moved(w);
        back[v] = w.hi;
    }
}

/* Sixteen turns for each number of the block, the last four bits first. */
static word by_fours(const word t[16], const uint64_t back[16], word p, uint64_t x) {
    for (int j = 0; j < 16; j++, x >>= 4) {
        p = (word){p.lo >> 4 | p.hi << 60, p.hi >> 4 ^ back[p.lo & 15]};
        p = add(p, t[x & 15]);
    }
    return p;
}

void plain_ghash(const uint8_t key[16], const uint8_t *blocks, size_t count, uint8_t out[16]) {
    word t[16], y = {0, 0};
    uint64_t back[16];
    four_bits(t, back, (word){from_left(key + 8), from_left(key)});
    for (size_t i = 0; i < count; i++) {
        word x = add(y, (word){from_left(blocks + 16 * i + 8), from_left(blocks + 16 * i)});
        y = by_fours(t, back, by_fours(t, back, (word){0, 0}, x.lo), x.hi);
    }
    to_left(out, y.hi);
    to_left(out + 8, y.lo);
}

/* ---- BLAKE3 */

static const uint32_t IV[8] = {0x6A09E667, 0xBB67AE85, 0x3C6EF372, 0xA54FF53A, 0x510E527F, 0x9B05688C, 0x1F83D9AB, 0x5BE0CD19};
static const uint8_t ORDER[7][16] = {
    {0, 1, 2, 3, 4, 5, 6, 7, 8, 9, 10, 11, 12, 13, 14, 15},
    {2, 6, 3, 10, 7, 0, 4, 13, 1, 11, 12, 5, 9, 14, 15, 8},
    {3, 4, 10, 12, 13, 2, 7, 14, 6, 5, 9, 0, 11, 15, 8, 1},
    {10, 7, 12, 9, 14, 3, 13, 15, 4, 0, 11, 2, 5, 8, 1, 6},
    {12, 13, 9, 11, 15, 10, 14, 8, 7, 2, 5, 3, 0, 1, 6, 4},
    {9, 14, 11, 5, 8, 12, 15, 1, 13, 3, 0, 10, 2, 6, 4, 7},
    {11, 15, 5, 0, 1, 9, 8, 6, 14, 10, 2, 12, 3, 4, 7, 13},
};

enum { CHUNK_START = 1, CHUNK_END = 2, PARENT = 4, ROOT = 8 };

static uint32_t rotr(uint32_t x, int n) {
    return x >> n | x << (32 - n);
}

static inline void mix(uint32_t s[16], int a, int b, int c, int d, uint32_t x, uint32_t y) {
    s[a] += s[b] + x;
    s[d] = rotr(s[d] ^ s[a], 16);
    s[c] += s[d];
    s[b] = rotr(s[b] ^ s[c], 12);
    s[a] += s[b] + y;
    s[d] = rotr(s[d] ^ s[a], 8);
    s[c] += s[d];
    s[b] = rotr(s[b] ^ s[c], 7);
}

static inline void round_of(uint32_t s[16], const uint32_t m[16], const uint8_t o[16]) {
    mix(s, 0, 4, 8, 12, m[o[0]], m[o[1]]);
    mix(s, 1, 5, 9, 13, m[o[2]], m[o[3]]);
    mix(s, 2, 6, 10, 14, m[o[4]], m[o[5]]);
    mix(s, 3, 7, 11, 15, m[o[6]], m[o[7]]);
    mix(s, 0, 5, 10, 15, m[o[8]], m[o[9]]);
    mix(s, 1, 6, 11, 12, m[o[10]], m[o[11]]);
    mix(s, 2, 7, 8, 13, m[o[12]], m[o[13]]);
    mix(s, 3, 4, 9, 14, m[o[14]], m[o[15]]);
}

/* The rounds are written out, so that the orders are constants to the compiler. */
static void compressed(uint32_t h[8], const uint32_t m[16], uint64_t counter, uint32_t length, uint32_t flags) {
    uint32_t s[16] = {h[0], h[1], h[2], h[3], h[4], h[5], h[6], h[7], IV[0], IV[1], IV[2], IV[3], (uint32_t)counter, (uint32_t)(counter >> 32), length, flags};
    round_of(s, m, ORDER[0]);
    round_of(s, m, ORDER[1]);
    round_of(s, m, ORDER[2]);
    round_of(s, m, ORDER[3]);
    round_of(s, m, ORDER[4]);
    round_of(s, m, ORDER[5]);
    round_of(s, m, ORDER[6]);
    for (int i = 0; i < 8; i++) h[i] = s[i] ^ s[i + 8];
}

static void chunk(uint32_t h[8], const uint8_t *input, size_t length, uint64_t counter, uint32_t last) {
    memcpy(h, IV, sizeof IV);
    for (size_t from = 0;; from += 64) {
        size_t left = length - from, size = left < 64 ? left : 64;
        uint32_t block[16] = {0};
        memcpy(block, input + from, size);
        uint32_t flags = (from ? 0 : CHUNK_START) | (left <= 64 ? CHUNK_END | last : 0);
        compressed(h, block, counter, (uint32_t)size, flags);
        if (left <= 64) return;
    }
}

/* The left subtree is the largest power of two of chunks that leaves something. */
static void tree(uint32_t h[8], const uint8_t *input, size_t length, uint64_t counter, uint32_t last) {
    if (length <= 1024) {
        chunk(h, input, length, counter, last);
        return;
    }
    size_t left = 1024;
    while (2 * left < length) left *= 2;
    uint32_t pair[16];
    tree(pair, input, left, counter, 0);
    tree(pair + 8, input + left, length - left, counter + left / 1024, 0);
    memcpy(h, IV, sizeof IV);
    compressed(h, pair, 0, 64, PARENT | last);
}

void plain_blake3(const uint8_t *input, size_t length, uint8_t digest[32]) {
    uint32_t h[8];
    tree(h, input, length, 0, ROOT);
    memcpy(digest, h, 32);
}
