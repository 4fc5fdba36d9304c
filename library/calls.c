/* Calls every function of include/dequmlo.h, those that take a set of widths under both sets, those that take a key under none and under one, with the
   small values of SPECIFICATION 12 where there are some. Compiled as C and as C++. */
#include "fixture.h"

static dequmlo_word word(uint64_t lo) {
    dequmlo_word w;
    w.lo = lo, w.hi = 0;
    return w;
}

/* Numbers that are no set's: also some that a byte or a bit of them would take for one. */
static const uint32_t unknown[] = {2, 3, 256, 257, 65536, 0x80000000, 0x80000001, UINT32_MAX};
enum { UNKNOWN = sizeof unknown / sizeof *unknown };

static void no_sizes(uint32_t widths, size_t n, size_t k) {
    dequmlo_seal_sizes s = dequmlo_sizes(widths, n, k);
    MUST(s.number == 4 && s.table == 0 && s.gammas == 0 && s.codeword == 0 && s.tree == 0 && s.levels == 0 && s.trees == 0);
    MUST(s.half == 0 && s.roots == 0 && s.last_level == 0 && s.last_tree == 0 && s.query == 0 && s.tail == 0);
}

/* The sizes that the fixture computes by itself, and refusals. */
static void sizes(uint32_t widths) {
    for (size_t n = 1; n <= 20; n++)
        for (size_t k = 0; k <= 4; k++) {
            dequmlo_seal_sizes s = dequmlo_sizes(widths, n, k);
            MUST(s.number == 0 && s.table == (size_t)1 << n && s.gammas == k * n && s.codeword == level_words(n, k, 0));
            MUST(s.tree == tree_bytes(widths, level_words(n, k, 0)) && s.levels == levels_words(n, k) && s.trees == trees_bytes(widths, n, k));
            MUST(s.half == level_words(n, k, 1) && s.roots == 32 * (n + 1));
            MUST(s.last_level == level_words(n, k, n) && s.last_tree == tree_bytes(widths, level_words(n, k, n)));
            MUST(s.query == query_bytes(widths, n, k) && s.tail == tail_bytes(widths, k));
            for (size_t i = 0; i < UNKNOWN; i++) no_sizes(unknown[i], n, k);
        }
    static const size_t wrong[][2] = {{0, 0}, {21, 0}, {(size_t)-1, 0}, {1, 5}, {1, (size_t)-1}};
    for (size_t i = 0; i < sizeof wrong / sizeof *wrong; i++) {
        no_sizes(widths, wrong[i][0], wrong[i][1]);
        no_sizes(unknown[i], wrong[i][0], wrong[i][1]);
    }
}

/* Where the sets' widths begin; 0 for a number that is no set's. */
static void tree_widths(void) {
    static const size_t present[][2] = {{0, 1}, {1, 1}, {2, 2}, {8, 2}, {15, 2}, {16, 8}, {32, 8}, {63, 8}, {64, 8}, {(size_t)1 << 24, 8}};
    static const size_t wide[][2] = {{0, 1}, {1, 1}, {2, 2}, {8, 2}, {15, 2}, {16, 2}, {32, 2}, {63, 2}, {64, 32}, {(size_t)1 << 24, 32}};
    for (size_t i = 0; i < sizeof wide / sizeof *wide; i++) {
        MUST(dequmlo_fold_tree_width(DEQUMLO_WIDTHS_PRESENT, present[i][0]) == present[i][1]);
        MUST(dequmlo_fold_tree_width(DEQUMLO_WIDTHS_WIDE, wide[i][0]) == wide[i][1]);
        for (size_t j = 0; j < UNKNOWN; j++) MUST(dequmlo_fold_tree_width(unknown[j], wide[i][0]) == 0);
    }
}

static void hash(void) {
    static const uint8_t abc[4] = {0x64, 0x37, 0xb3, 0xac};
    dequmlo_digested d = dequmlo_digest((const uint8_t *)"abc", 3);
    MUST(d.number == 0 && memcmp(d.bytes, abc, 4) == 0);
}

static int is_of(dequmlo_digested d, const uint8_t *first, size_t count) { return d.number == 0 && memcmp(d.bytes, first, count) == 0; }

/* The other two modes, by the vectors that are published with BLAKE3 for no byte and for 1,025 (SPECIFICATION 12.9), and what they refuse. */
static void modes(void) {
    static const uint8_t keyed[2][4] = {{0x92, 0xb2, 0xb7, 0x56}, {0x35, 0x7d, 0xc5, 0x5d}}, derived[2][4] = {{0x2c, 0xc3, 0x97, 0x83}, {0xef, 0xfa, 0xa2, 0x45}};
    const uint8_t *key = (const uint8_t *)"whats the Elvish word for friend", *context = (const uint8_t *)"BLAKE3 2019-12-27 16:29:52 test vectors context";
    uint8_t input[1025];
    for (size_t i = 0; i < sizeof input; i++) input[i] = (uint8_t)(i % 251);
    for (size_t i = 0; i < 2; i++) {
        size_t length = i == 0 ? 0 : sizeof input;
        MUST(is_of(dequmlo_keyed_digest(key, 32, input, length), keyed[i], 4));
        MUST(is_of(dequmlo_derive_key(context, 47, input, length), derived[i], 4));
    }
    static const size_t wrong[] = {0, 31, 33, 64};
    static const uint8_t long_key[64] = {0}, zeros[32] = {0};
    for (size_t i = 0; i < sizeof wrong / sizeof *wrong; i++) {
        dequmlo_digested d = dequmlo_keyed_digest(long_key, wrong[i], input, 3);
        MUST(d.number == 5 && memcmp(d.bytes, zeros, 32) == 0);
    }
}

/* n = k = 1, table 5, 9, gamma 7: codeword 5, 9, 33, 45, folded by 2: 29, 57. Here the codeword is lent as it stands. */
static void code(dequmlo_key key, uint32_t widths) {
    uint64_t codeword[8] = {5, 0, 9, 0, 33, 0, 45, 0}, out[4];
    size_t list[1] = {0};
    dequmlo_folded f = dequmlo_fold(1, 1, 1, 0, word(2), list, 1, codeword, 8, out, 4);
    MUST(f.number == 0 && f.n == 0 && out[0] == 29 && out[1] == 0 && out[2] == 57 && out[3] == 0 && list[0] == 0);
    uint64_t table[4] = {5, 0, 9, 0}, gammas[2];
    uint8_t tree[96];
    MUST(tree_bytes(widths, 4) == 96);
    list[0] = 7;
    MUST(dequmlo_commit(key, widths, 1, 1, (const uint8_t *)"d", 1, table, 4, gammas, 2, codeword, 8, list, 1, tree, 96) == 0);
    MUST(codeword[0] == 5 && codeword[2] == 9 && list[0] == 0);
}

/* ---- codewords in use */

enum { MOST_N = 6, MOST_K = 2, MOST_WORDS = 1 << (MOST_N + MOST_K) };

/* A codeword folded part way: its n, its list, its words; and at which variables it was folded, by which challenges, and which coordinates went. */
typedef struct {
    size_t n, folds, list[MOST_N], vars[MOST_N], gone[MOST_N];
    uint64_t words[2 * MOST_WORDS];
    dequmlo_word challenges[MOST_N];
} in_use;

static void folded_at(const seal *s, in_use *c, size_t var, dequmlo_word r) {
    size_t before[MOST_N], words = level_words(c->n, s->k, 0);
    uint64_t *out = (uint64_t *)room(8 * words);
    memcpy(before, c->list, sizeof before);
    dequmlo_folded f = dequmlo_fold(c->n, s->k, s->n, var, r, c->list, c->n, c->words, 2 * words, out, words);
    MUST(f.number == 0 && f.n == c->n - 1 && is_without(c->list, before, c->n, var));
    c->vars[c->folds] = var, c->gone[c->folds] = before[var], c->challenges[c->folds] = r;
    c->folds++, c->n--;
    memcpy(c->words, out, 8 * words);
    free(out);
}

/* Half h of coordinate i of L(eps). */
static uint64_t shift_half(const seal *s, size_t eps, size_t i, size_t h) {
    uint64_t sum = 0;
    for (size_t j = 0; j < s->k; j++)
        if (eps >> j & 1) sum ^= s->gammas[2 * (j * s->n + i) + h];
    return sum;
}

/* The table folded at the codeword's variables, each challenge plus the coordinate of L(eps) that it folds away. A table is a codeword of one block. */
static void folded_table(const seal *s, const in_use *c, size_t eps, uint64_t *table) {
    size_t list[MOST_N], n = s->n;
    memcpy(list, s->coordinates, n * sizeof *list);
    memcpy(table, s->table, (size_t)16 << n);
    for (size_t i = 0; i < c->folds; i++, n--) {
        uint64_t out[1 << MOST_N];
        dequmlo_word r = c->challenges[i];
        r.lo ^= shift_half(s, eps, c->gone[i], 0), r.hi ^= shift_half(s, eps, c->gone[i], 1);
        MUST(dequmlo_fold(n, 0, s->n, c->vars[i], r, list, n, table, (size_t)2 << n, out, (size_t)1 << n).number == 0);
        memcpy(table, out, (size_t)8 << n);
    }
}

/* What the words of a folded codeword are (SPECIFICATION 6.5): block eps of the encoding of that table, under the coordinates that are left. */
static void is_what_it_means(const seal *s, const in_use *c) {
    uint64_t gammas[2 * MOST_K * MOST_N + 1], table[2 << MOST_N], block[2 << MOST_N];
    size_t n = c->n, halves = (size_t)2 << n;
    for (size_t j = 0; j < s->k; j++)
        for (size_t i = 0; i < n; i++) memcpy(gammas + 2 * (j * n + i), s->gammas + 2 * (j * s->n + c->list[i]), 16);
    for (size_t eps = 0; eps < (size_t)1 << s->k; eps++) {
        folded_table(s, c, eps, table);
        MUST(dequmlo_codeword_block(n, s->k, eps, table, halves, gammas, 2 * s->k * n, block, halves) == 0);
        MUST(memcmp(block, c->words + eps * halves, 8 * halves) == 0);
    }
}

/* A codeword folded to its end at variables that are drawn, from every variable for its first fold. After each fold, the list and the words. */
static void folds_at_any_variable(size_t n, size_t k) {
    seal s = sealed(DEQUMLO_WIDTHS_PRESENT, n, k, 0, n + k);
    uint64_t seed = n + k;
    for (size_t first = 0; first < n; first++) {
        in_use c;
        memset(&c, 0, sizeof c);
        c.n = n;
        memcpy(c.list, s.coordinates, n * sizeof(size_t));
        memcpy(c.words, s.levels, 16 * level_words(n, k, 0));
        is_what_it_means(&s, &c);
        for (size_t l = 0; l < n; l++) {
            dequmlo_word r = {s.challenges[2 * l], s.challenges[2 * l + 1]};
            folded_at(&s, &c, l == 0 ? first : (size_t)(drawn(&seed) % c.n), r);
            is_what_it_means(&s, &c);
        }
    }
    unsealed(&s);
}

static void trees(dequmlo_key key) {
    uint64_t values[16];
    for (size_t i = 0; i < 16; i++) values[i] = i;
    uint8_t tree[224], path[64];
    const uint8_t *domain = (const uint8_t *)"d";
    MUST(dequmlo_tree(key, domain, 1, 8, 2, values, 16, tree, sizeof tree) == 0);
    MUST(dequmlo_open(8, 2, 5, tree, sizeof tree, path, sizeof path) == 0);
    dequmlo_digested d = dequmlo_root_of_path(key, domain, 1, 8, 2, 5, values + 8, 4, path, sizeof path);
    MUST(d.number == 0 && memcmp(d.bytes, tree + 192, 32) == 0);
}

/* Blocks and their halves are those of the codeword; a fold and level 0's tree, divided into parts of this many entries or digests, are those made whole. */
static void parts(dequmlo_key key, uint32_t widths, size_t n, size_t k, size_t each) {
    seal s = sealed_under(key, widths, n, k, 0, n + k);
    size_t words = level_words(n, k, 0), width = dequmlo_fold_tree_width(widths, words), groups = words / width, size = tree_bytes(widths, words);
    size_t block = (size_t)2 << n, list[20];
    uint64_t *folded = (uint64_t *)room(8 * words), *made = (uint64_t *)room(16 * words);
    uint8_t *tree = (uint8_t *)room(size), domain[64];
    size_t length = dequmlo_level_domain_length((const uint8_t *)s.base, strlen(s.base), 0).length;
    MUST(dequmlo_level_domain((const uint8_t *)s.base, strlen(s.base), 0, domain, length) == 0);
    for (size_t eps = 0; eps < (size_t)1 << k; eps++)
        MUST(dequmlo_codeword_block(n, k, eps, s.table, block, s.gammas, 2 * k * n, made + eps * block, block) == 0);
    MUST(memcmp(made, s.levels, 16 * words) == 0);
    memset(made, 0x5a, 16 * words);
    for (size_t half = 0; half < (size_t)2 << k; half++)
        MUST(dequmlo_codeword_half(n, k, half, s.table, block, s.gammas, 2 * k * n, made + half * (block / 2), block / 2) == 0);
    MUST(memcmp(made, s.levels, 16 * words) == 0);
    for (size_t var = 0; var < n; var++) {
        memcpy(list, s.coordinates, n * sizeof *list);
        MUST(dequmlo_fold(n, k, n, var, s.claim, list, n, s.levels, 2 * words, folded, words).number == 0);
        memset(made, 0x5a, 8 * words);
        for (size_t first = 0, m; first < words / 2; first += m) {
            m = words / 2 - first < each ? words / 2 - first : each;
            MUST(dequmlo_fold_part(n, k, var, s.claim, first, s.levels, 2 * words, made + 2 * first, 2 * m) == 0);
        }
        MUST(memcmp(made, folded, 8 * words) == 0);
    }
    for (size_t first = 0, m; first < groups; first += m) {
        m = groups - first < each ? groups - first : each;
        MUST(dequmlo_tree_leaves(s.key, domain, length, words, width, first, s.levels, 2 * words, tree + 32 * first, 32 * m) == 0);
    }
    uint8_t *below = tree;
    for (size_t level = 0, half = groups / 2; half > 0; level++, below += 64 * half, half /= 2)
        for (size_t first = 0, m; first < half; first += m) {
            m = half - first < each ? half - first : each;
            MUST(dequmlo_tree_parents(s.key, domain, length, level, below + 64 * first, 64 * m, below + 64 * half + 32 * first, 32 * m) == 0);
        }
    MUST(memcmp(tree, s.trees, size) == 0);
    free(folded), free(made), free(tree);
    unsealed(&s);
}

/* Every level and its tree in parts of this many entries or digests are those of the fixture; the gammas too. */
static void level_parts(dequmlo_key key, uint32_t widths, size_t n, size_t k, size_t each) {
    seal s = sealed_under(key, widths, n, k, 0, n + k);
    const uint8_t *base = (const uint8_t *)s.base, *trees = s.trees;
    const uint64_t *level = s.levels;
    size_t length = strlen(s.base);
    uint64_t *next = (uint64_t *)room(8 * level_words(n, k, 0)), *gammas = (uint64_t *)room(16 * k * n + 1);
    uint8_t *tree = (uint8_t *)room(trees_bytes(widths, n, k));
    MUST(dequmlo_gammas(n, k, base, length, gammas, 2 * k * n) == 0 && memcmp(gammas, s.gammas, 16 * k * n) == 0);
    for (size_t l = 0; l <= n; l++) {
        size_t words = level_words(n, k, l), size = tree_bytes(widths, words), groups = (size / 32 + 1) / 2, height = 0;
        for (size_t first = 0, m; first < groups; first += m) {
            m = groups - first < each ? groups - first : each;
            MUST(dequmlo_level_leaves(s.key, widths, n, k, l, base, length, first, level, 2 * words, tree + 32 * first, 32 * m) == 0);
        }
        uint8_t *below = tree;
        for (size_t half = groups / 2; half > 0; height++, below += 64 * half, half /= 2)
            for (size_t first = 0, m; first < half; first += m) {
                m = half - first < each ? half - first : each;
                MUST(dequmlo_level_parents(s.key, n, k, l, base, length, height, below + 64 * first, 64 * m, below + 64 * half + 32 * first, 32 * m) == 0);
            }
        MUST(memcmp(tree, trees, size) == 0);
        for (size_t first = 0, m; l < n && first < words / 2; first += m) {
            dequmlo_word r = {s.challenges[2 * l], s.challenges[2 * l + 1]};
            m = words / 2 - first < each ? words / 2 - first : each;
            MUST(dequmlo_next_part(n, k, l, r, first, level, 2 * words, next + 2 * first, 2 * m) == 0);
        }
        level += 2 * words, trees += size;
        MUST(l == n || memcmp(next, level, 8 * words) == 0);
    }
    free(next), free(gammas), free(tree);
    unsealed(&s);
}

/* The domain of every level, as the fixture writes it. */
static void domains(void) {
    const uint8_t *base = (const uint8_t *)"dequmlo/test";
    for (size_t level = 0; level <= 20; level++) {
        char want[64];
        uint8_t out[64];
        size_t length = (size_t)snprintf(want, sizeof want, "dequmlo/test/level/%zu", level);
        dequmlo_domain_length d = dequmlo_level_domain_length(base, 12, level);
        MUST(d.number == 0 && d.length == length);
        MUST(dequmlo_level_domain(base, 12, level, out, length) == 0 && memcmp(out, want, length) == 0);
    }
}

/* All levels, trees and roots in one call, and each tree by itself, are what the fixture made fold by fold and tree by tree. */
static void levels(dequmlo_key key, uint32_t widths, size_t n, size_t k) {
    seal s = sealed_under(key, widths, n, k, 0, n + k);
    const uint8_t *base = (const uint8_t *)s.base;
    size_t length = strlen(s.base), first = 0, first_tree = 0;
    dequmlo_seal_sizes z = dequmlo_sizes(widths, n, k);
    uint64_t *all = (uint64_t *)room(16 * z.levels), *half = (uint64_t *)room(16 * z.half);
    uint8_t *trees = (uint8_t *)room(z.trees), *roots = (uint8_t *)room(z.roots);
    memset(all, 0x5a, 16 * z.levels), memset(half, 0x5a, 16 * z.half);
    memcpy(all, s.levels, 16 * z.codeword);
    MUST(dequmlo_fold_levels(s.key, widths, n, k, base, length, s.challenges, 2 * n, all, 2 * z.levels, half, 2 * z.half, trees, z.trees, roots, z.roots) == 0);
    MUST(memcmp(all, s.levels, 16 * z.levels) == 0 && memcmp(trees, s.trees, z.trees) == 0 && memcmp(roots, s.roots, z.roots) == 0);
    for (size_t i = 0; i < 2 * z.half; i++) MUST(half[i] == 0);
    for (size_t l = 0; l <= n; l++) {
        size_t words = level_words(n, k, l), size = tree_bytes(widths, words);
        memset(trees, 0x5a, z.trees);
        MUST(dequmlo_level_tree(s.key, widths, n, k, l, base, length, s.levels + 2 * first, 2 * words, trees, size) == 0);
        MUST(memcmp(trees, s.trees + first_tree, size) == 0);
        first += words, first_tree += size;
    }
    free(all), free(half), free(trees), free(roots);
    unsealed(&s);
}

/* The records of a seal are accepted under its own set. Where the sets' widths differ, the other one refuses them: the query record by the width of its
   first group, the tail record by its group count. */
static void records(dequmlo_key key, uint32_t widths, size_t n, size_t k, size_t position) {
    seal s = sealed_under(key, widths, n, k, position, 1);
    const uint8_t *base = (const uint8_t *)s.base, *last = s.roots + 32 * n;
    size_t length = strlen(s.base), query = query_bytes(widths, n, k), tail = tail_bytes(widths, k), roots = 32 * (n + 1);
    static uint8_t first[DEQUMLO_MESSAGE_BUFFER], second[DEQUMLO_MESSAGE_BUFFER];
    for (uint32_t set = 0; set < 2; set++) {
        uint32_t own = set == widths || n + k < 4;
        dequmlo_checked c = dequmlo_check_query(s.key, base, length, set, n, k, position, s.challenges, 2 * n, s.roots, roots, s.query, query);
        MUST(c.number == (own ? 0u : 16u) && c.level == 0);
        MUST(dequmlo_check_tail(s.key, base, length, set, n, k, last, 32, s.claim, s.tail, tail) == (set == widths || k < 4 ? 0u : 27u));
        dequmlo_compared same = dequmlo_compare(s.key, base, length, set, n, k, position, s.challenges, 2 * n, s.roots, roots, s.query, query, s.query,
                                                query, first, sizeof first, second, sizeof second);
        MUST(same.number == (own ? 33u : 32u) && same.first == 0 && same.second == 0);
    }
    unsealed(&s);
}

/* Whether the records of a seal are accepted under a key: else 18 at level 0 says so, 30 of the tail, and 32 of two records. */
static void under(const seal *s, dequmlo_key key, int accepted) {
    const uint8_t *base = (const uint8_t *)s->base, *last = s->roots + 32 * s->n;
    size_t n = s->n, k = s->k, length = strlen(s->base), query = query_bytes(s->widths, n, k), tail = tail_bytes(s->widths, k), roots = 32 * (n + 1);
    static uint8_t first[DEQUMLO_MESSAGE_BUFFER], second[DEQUMLO_MESSAGE_BUFFER];
    dequmlo_checked c = dequmlo_check_query(key, base, length, s->widths, n, k, s->position, s->challenges, 2 * n, s->roots, roots, s->query, query);
    MUST(c.number == (accepted ? 0u : 18u) && c.level == 0);
    MUST(dequmlo_check_tail(key, base, length, s->widths, n, k, last, 32, s->claim, s->tail, tail) == (accepted ? 0u : 30u));
    dequmlo_compared same = dequmlo_compare(key, base, length, s->widths, n, k, s->position, s->challenges, 2 * n, s->roots, roots, s->query, query,
                                            s->query, query, first, sizeof first, second, sizeof second);
    MUST(same.number == (accepted ? 33u : 32u) && same.first == 0 && same.second == 0);
}

/* A seal under a key, under others and under none. The number before the bytes is 0 for none, whatever the bytes are, and any other for a key: also one
   that a byte or a bit of it would take for none. A key of zeros is a key. Table, gammas, levels and claim are the same under every key. */
static void keys(uint32_t widths, size_t n, size_t k, size_t position) {
    static const uint32_t yes[] = {1, 2, 256, 65536, 0x80000000, UINT32_MAX};
    dequmlo_key key = key_of(3), other = key, zeros = no_key(), none = no_key(), bare = zeros;
    memset(zeros.bytes, 0, 32);
    bare = zeros, zeros.keyed = 1;
    seal keyed = sealed_under(key, widths, n, k, position, 1), plain = sealed(widths, n, k, position, 1);
    for (size_t i = 0; i < sizeof yes / sizeof *yes; i++) {
        key.keyed = yes[i];
        under(&keyed, key, 1);
        under(&plain, key, 0);
    }
    for (size_t i = 0; i < 32; i++) {
        other = key;
        other.bytes[i] ^= (uint8_t)(1u << i % 8);
        under(&keyed, other, 0);
    }
    key.keyed = 0;
    under(&keyed, key, 0), under(&keyed, none, 0), under(&keyed, bare, 0), under(&keyed, zeros, 0);
    under(&plain, key, 1), under(&plain, none, 1), under(&plain, bare, 1), under(&plain, zeros, 0);
    MUST(memcmp(keyed.gammas, plain.gammas, 16 * k * n) == 0 && memcmp(keyed.levels, plain.levels, 16 * levels_words(n, k)) == 0);
    for (size_t l = 0; l <= n; l++) MUST(memcmp(keyed.roots + 32 * l, plain.roots + 32 * l, 32) != 0);
    unsealed(&keyed), unsealed(&plain);
}

/* z = (2), point (2), rb[0] = 1, rb[1] = 4, others 0: indicator 7. Words (5), empty point: s_0 = s_2 = 1, others 0. */
static void ring(void) {
    dequmlo_coefficients rb;
    memset(&rb, 0, sizeof rb);
    rb.words[0] = word(1), rb.words[1] = word(4);
    uint64_t z[2] = {2, 0}, table[4], packed[2] = {5, 0}, eq[2] = {1, 0}, s[256];
    MUST(dequmlo_materialize(1, z, 2, rb, table, 4) == 0);
    MUST(table[0] == 5 && table[2] == 4);
    dequmlo_answered a = dequmlo_eval_at(1, z, 2, rb, z, 2);
    MUST(a.number == 0 && a.word.lo == 7 && a.word.hi == 0);
    MUST(dequmlo_partial_evals(0, packed, 2, eq, 2, s, 256) == 0);
    for (size_t b = 0; b < 128; b++) MUST(s[2 * b] == (b == 0 || b == 2) && s[2 * b + 1] == 0);
    dequmlo_answered folded = dequmlo_fold_partials(s, 256, rb);
    MUST(folded.number == 0 && folded.word.lo == 5 && folded.word.hi == 0);
}

/* The first byte of a block, and zeros. */
static dequmlo_block block(uint8_t first) {
    dequmlo_block b;
    memset(&b, 0, sizeof b);
    b.bytes[0] = first;
    return b;
}

/* A block travels by value as its two halves do, and in an answer stands behind the number as they would. */
typedef struct {
    uint32_t number;
    uint64_t first, second;
} hashed_halves;

static void blocks_by_value(void) {
    MUST(sizeof(dequmlo_block) == 16 && sizeof(dequmlo_hashed) == sizeof(hashed_halves));
    MUST(offsetof(dequmlo_hashed, block) == offsetof(hashed_halves, first));
    dequmlo_word w = dequmlo_import_block(block(0x80));
    MUST(w.lo == 1 && w.hi == 0);
    w = dequmlo_import_block(block(0xe1));
    MUST(w.lo == 0x87 && w.hi == 0);
    /* Every bit by itself: bit i, counted from the left, is the coefficient of x^i. */
    for (size_t i = 0; i < 128; i++) {
        dequmlo_block b = block(0);
        b.bytes[i / 8] = (uint8_t)(0x80 >> i % 8);
        w = dequmlo_import_block(b);
        MUST(w.lo == (i < 64 ? (uint64_t)1 << i : 0) && w.hi == (i < 64 ? 0 : (uint64_t)1 << (i - 64)));
        dequmlo_block back = dequmlo_export_block(w);
        MUST(memcmp(back.bytes, b.bytes, 16) == 0);
    }
}

/* A run is its blocks one by one, and exported it is as it was. */
static void block_runs(size_t count) {
    uint8_t *bytes = (uint8_t *)room(16 * count), *back = (uint8_t *)room(16 * count);
    uint64_t *words = (uint64_t *)room(16 * count), seed = count;
    for (size_t i = 0; i < 16 * count; i++) bytes[i] = (uint8_t)drawn(&seed);
    MUST(dequmlo_import_blocks(bytes, 16 * count, words, 2 * count) == 0);
    for (size_t i = 0; i < count; i++) {
        dequmlo_block b;
        memcpy(b.bytes, bytes + 16 * i, 16);
        dequmlo_word w = dequmlo_import_block(b);
        MUST(words[2 * i] == w.lo && words[2 * i + 1] == w.hi);
    }
    MUST(dequmlo_export_blocks(words, 2 * count, back, 16 * count) == 0 && memcmp(back, bytes, 16 * count) == 0);
    free(bytes), free(back), free(words);
}

/* GHASH of test case 2 of NIST's examples, of no block, and by the standard's 1, under which it is the sum of the blocks. */
static void ghash(void) {
    static const uint8_t key[16] = {0x66, 0xe9, 0x4b, 0xd4, 0xef, 0x8a, 0x2c, 0x3b, 0x88, 0x4c, 0xfa, 0x59, 0xca, 0x34, 0x2b, 0x2e};
    static const uint8_t blocks[32] = {0x03, 0x88, 0xda, 0xce, 0x60, 0xb6, 0xa3, 0x92, 0xf3, 0x28, 0xc2, 0xb9, 0x71, 0xb2, 0xfe, 0x78,
                                       0, 0, 0, 0, 0, 0, 0, 0, 0, 0, 0, 0, 0, 0, 0, 0x80};
    static const uint8_t value[16] = {0xf3, 0x8c, 0xbb, 0x1a, 0xd6, 0x92, 0x23, 0xdc, 0xc3, 0x45, 0x7a, 0xe5, 0xb6, 0xb0, 0xf8, 0x85};
    static const uint8_t zeros[16] = {0};
    dequmlo_block h;
    memcpy(h.bytes, key, 16);
    dequmlo_hashed y = dequmlo_ghash(h, blocks, 32);
    MUST(y.number == 0 && memcmp(y.block.bytes, value, 16) == 0);
    y = dequmlo_ghash(h, blocks, 0);
    MUST(y.number == 0 && memcmp(y.block.bytes, zeros, 16) == 0);
    y = dequmlo_ghash(block(0x80), blocks, 32);
    MUST(y.number == 0 && memcmp(y.block.bytes, blocks, 15) == 0 && y.block.bytes[15] == (0x78 ^ 0x80));
}

static void profile(dequmlo_parameters p, size_t k, size_t queries, const char *domain) {
    MUST(p.k == k && p.queries == queries && p.length == strlen(domain) && memcmp(p.domain, domain, p.length) == 0);
    for (size_t i = p.length; i < sizeof p.domain; i++) MUST(p.domain[i] == 0);
}

static void parameters(void) {
    profile(dequmlo_default_parameters(), 2, 40, "magnetar/pcs/default");
    profile(dequmlo_fastchunk(), 1, 40, "magnetar/pcs/fastchunk");
    profile(dequmlo_balanced(), 2, 40, "magnetar/pcs/balanced");
    profile(dequmlo_compactwrap(), 3, 20, "magnetar/pcs/compactwrap");
    profile(dequmlo_deepwrap(), 4, 14, "magnetar/pcs/deepwrap");
    profile(dequmlo_firstdefault(), 1, 40, "magnetar/pcs/default");
    /* 0 is no; every other number is yes, also one that a byte or a bit of it would take for no. */
    profile(dequmlo_unnamed_parameters(0), 2, 40, "magnetar/pcs/default");
    const uint32_t yes[] = {1, 2, 256, 65536, 0x80000000, UINT32_MAX};
    for (size_t i = 0; i < sizeof yes / sizeof *yes; i++) profile(dequmlo_unnamed_parameters(yes[i]), 1, 40, "magnetar/pcs/default");
}

/* All that is done with trees, under a key or none. */
static void under_a_key(dequmlo_key key, uint32_t widths) {
    trees(key);
    code(key, widths);
    levels(key, widths, 1, 0);
    levels(key, widths, 1, 4);
    levels(key, widths, 3, 1);
    levels(key, widths, 6, 2);
    levels(key, widths, 11, 0);
    parts(key, widths, 1, 0, 1);
    parts(key, widths, 3, 1, 3);
    parts(key, widths, 6, 2, 5);
    parts(key, widths, 8, 3, 64);
    parts(key, widths, 8, 3, 100000);
    level_parts(key, widths, 1, 0, 1);
    level_parts(key, widths, 3, 1, 3);
    level_parts(key, widths, 8, 4, 100);
    records(key, widths, 2, 1, 5);
    records(key, widths, 3, 1, 5);
    records(key, widths, 4, 2, 37);
    records(key, widths, 6, 4, 1000);
}

int main(void) {
    hash();
    modes();
    tree_widths();
    domains();
    for (uint32_t widths = DEQUMLO_WIDTHS_PRESENT; widths <= DEQUMLO_WIDTHS_WIDE; widths++) {
        sizes(widths);
        under_a_key(no_key(), widths);
        under_a_key(key_of(7), widths);
        keys(widths, 1, 0, 1);
        keys(widths, 4, 2, 37);
        keys(widths, 6, 4, 1000);
    }
    for (size_t k = 0; k <= MOST_K; k++)
        for (size_t n = 1; n <= MOST_N; n++) folds_at_any_variable(n, k);
    ring();
    blocks_by_value();
    block_runs(0);
    block_runs(1);
    block_runs(1000);
    ghash();
    parameters();
    puts("calls: every function answers");
    return 0;
}
