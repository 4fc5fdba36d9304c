/* Times the exported functions of the archive test_archive beside plain C, and checks that both answer the same.
   Prints `what<TAB>the Rust's name for it<TAB>ours<TAB>plain C`, nanoseconds an operation, best of several. */
#include "bench.h"

double now(void) {
    struct timespec t;
    clock_gettime(CLOCK_MONOTONIC, &t);
    return 1e9 * (double)t.tv_sec + (double)t.tv_nsec;
}

static uint64_t state = 88172645463325252u;

static uint64_t next(void) {
    state ^= state << 13;
    state ^= state >> 7;
    state ^= state << 17;
    return state;
}

word next_word(void) {
    uint64_t lo = next();
    return (word){lo, next()};
}

void must(int held, const char *what) {
    if (held) return;
    fprintf(stderr, "bench: %s: the two answers differ\n", what);
    exit(1);
}

static int same(word a, word b) {
    return a.lo == b.lo && a.hi == b.hi;
}

uint64_t *words(size_t n) {
    uint64_t *s = malloc(16 * n);
    if (!s) exit(2);
    for (size_t i = 0; i < 2 * n; i++) s[i] = next();
    return s;
}

uint8_t *bytes(size_t n) {
    uint8_t *s = malloc(n);
    if (!s) exit(2);
    for (size_t i = 0; i < n; i++) s[i] = (uint8_t)next();
    return s;
}

void line(const char *what, const char *rust, double ours, double plain) {
    printf("%s\t%s\t%.1f\t%.1f\n", what, rust, ours, plain);
}

void alone(const char *what, const char *rust, double ours) {
    printf("%s\t%s\t%.1f\t-\n", what, rust, ours);
}

static void products(void) {
    double ours, plain;
    word a = next_word(), b = next_word(), c = a;
    for (int i = 0; i < 1000; i++) {
        word x = next_word(), y = next_word();
        must(same(dequmlo_test_mul(x, y), plain_mul(x, y)), "product");
        must(same(dequmlo_test_square(x), plain_square(x)), "square");
        must(same(dequmlo_test_square_by_table(x), plain_square_by_table(x)), "square by the table");
    }
    BEST(ours, 100000, a = dequmlo_test_mul(a, b));
    BEST(plain, 100000, c = plain_mul(c, b));
    must(same(a, c), "chain of products");
    line("product", "mul_chain", ours, plain);
    BEST(ours, 100000, a = dequmlo_test_square(a));
    BEST(plain, 100000, c = plain_square(c));
    must(same(a, c), "chain of squares");
    line("square", "square_chain", ours, plain);
    BEST(ours, 100000, a = dequmlo_test_square_by_table(a));
    BEST(plain, 100000, c = plain_square_by_table(c));
    must(same(a, c), "chain of squares by the table");
    line("square by the table", "square_chain", ours, plain);
    BEST(ours, 2000, a = dequmlo_test_inv(a).word);
    BEST(plain, 2000, c = plain_inv_by_table(c));
    must(same(a, c), "chain of inverses");
    line("inverse", "inv", ours, plain);
    BEST(ours, 2000, a = dequmlo_test_inv_by_masks(a));
    BEST(plain, 2000, c = plain_inv(c));
    must(same(a, c), "chain of inverses by masks");
    line("inverse, its squares by masks", "inv", ours, plain);
}

/* A word with 8 bits set, one in each 16 of its bits. */
static word eight_bits(void) {
    uint64_t halves[2] = {0, 0}, places = next();
    for (int i = 0; i < 8; i++) halves[i / 4] |= (uint64_t)1 << (16 * (i % 4) + (int)(places >> 4 * i & 15));
    return (word){halves[0], halves[1]};
}

/* The sum of phi over words, each in a call of its own. */
enum { WORDS = 1 << 12 };
static word sum_of(word phi(word, coefficients), const word *s, const coefficients *c) {
    word sum = {0, 0};
    for (size_t v = 0; v < WORDS; v++) {
        word p = phi(s[v], *c);
        sum = (word){sum.lo ^ p.lo, sum.hi ^ p.hi};
    }
    return sum;
}

static void phi_of(const char *what, const char *rust, const word *s, const coefficients *c) {
    double ours, plain;
    word sum, other;
    BEST(ours, 1, sum = sum_of(dequmlo_test_phi_c, s, c));
    BEST(plain, 1, other = sum_of(plain_phi, s, c));
    must(same(sum, other), what);
    line(what, rust, ours / WORDS, plain / WORDS);
}

/* phi of a word by its set bits, by tables that are filled for it, and by tables that are filled once for all. */
static void phi(void) {
    double ours;
    word *s = (word *)words(WORDS), *few = (word *)words(WORDS), sum;
    coefficients c;
    for (size_t i = 0; i < 128; i++) c.words[i] = next_word();
    for (size_t v = 0; v < WORDS; v++) few[v] = eight_bits();
    word plain = sum_of(plain_phi, s, &c);
    phi_of("phi of a word", "phi_c", s, &c);
    phi_of("phi of a word with 8 bits set", "phi_c_8_bits", few, &c);
    BEST(ours, 1, sum = sum_of(dequmlo_test_phi_tab, s, &c));
    must(same(sum, plain), "phi by tables, filled for it");
    alone("phi of a word by tables, filled for it", "phi_tab_filled", ours / WORDS);
    BEST(ours, 1, sum = dequmlo_test_phi_tab_sum((const uint64_t *)s, 2 * WORDS, c));
    must(same(sum, plain), "phi by tables, once filled");
    alone("phi of a word by tables, once filled", "phi_tab_apply", ours / WORDS);
    free(s);
    free(few);
}

static void runs(void) {
    enum { N = 1 << 16 };
    double ours, plain;
    uint64_t *s = words(N), *t = words(N);
    word r = next_word();
    memcpy(t, s, 16 * N);
    BEST(ours, 5, dequmlo_test_scale(s, 2 * N, r));
    BEST(plain, 5, plain_scale(t, N, r));
    must(memcmp(s, t, 16 * N) == 0, "run by one word");
    line("run of 2^16 by one word, a word", "mul_run_65536_a_word", ours / N, plain / N);
    free(s);
    free(t);
}

static void equality(void) {
    enum { N = 20 };
    double ours, plain;
    uint64_t *point = words(N), *s = words((size_t)1 << N), *t = words((size_t)1 << N);
    BEST(ours, 1, dequmlo_test_eq_table(N, point, 2 * N, s, (size_t)2 << N));
    BEST(plain, 1, plain_eq_table(N, point, t));
    must(memcmp(s, t, (size_t)16 << N) == 0, "equality table");
    line("equality table, 20 variables", "eq_build_fused_into_20", ours, plain);
    free(point);
    free(s);
    free(t);
}

static void ghash(void) {
    enum { N = 1 << 20 };
    double ours, plain;
    uint8_t *s = bytes(N), key[16], out[16];
    word h = next_word();
    hashed y;
    memcpy(key, &h, 16);
    for (size_t count = 0; count <= 1024; count++) {
        y = dequmlo_test_ghash(h, s, 16 * count);
        plain_ghash(key, s, count, out);
        must(y.number == 0 && memcmp(&y.block, out, 16) == 0, "GHASH");
    }
    BEST(ours, 1, y = dequmlo_test_ghash(h, s, N));
    BEST(plain, 1, plain_ghash(key, s, N / 16, out));
    must(y.number == 0 && memcmp(&y.block, out, 16) == 0, "GHASH of 1 MiB");
    line("GHASH of 1 MiB", "-", ours, plain);
    free(s);
}

static void long_digest(void) {
    enum { N = 1 << 24 };
    double ours, plain;
    uint8_t *s = bytes(N), digest[32];
    digested d;
    BEST(ours, 1, d = dequmlo_test_digest(s, N));
    BEST(plain, 1, plain_blake3(s, N, digest));
    must(d.number == 0 && memcmp(d.bytes, digest, 32) == 0, "digest of 16 MiB");
    line("digest of 16 MiB", "blake3_16MiB", ours, plain);
    free(s);
}

/* Messages of one length: one at a time, and four at once. Returns the time of a message in the four. */
static double messages(size_t n, const char *one, const char *four, const char *rust) {
    enum { COUNT = 4096 };
    double ours, plain, lanes;
    uint8_t *s = bytes(COUNT * n), digest[32], folded = 0;
    for (size_t i = 0; i < 64; i += 4) {
        const uint8_t *m = s + i * n;
        four_digests f = dequmlo_test_four(m, n, m + n, n, m + 2 * n, n, m + 3 * n, n);
        for (size_t l = 0; l < 4; l++) {
            plain_blake3(m + l * n, n, digest);
            must(memcmp(f.bytes[l], digest, 32) == 0, four);
            must(memcmp(dequmlo_test_digest(m + l * n, n).bytes, digest, 32) == 0, one);
        }
    }
    BEST(ours, COUNT, folded ^= dequmlo_test_digest(s + (size_t)i * n, n).bytes[0]);
    BEST(plain, COUNT, (plain_blake3(s + (size_t)i * n, n, digest), folded ^= digest[0]));
    BEST(lanes, COUNT / 4, {
        const uint8_t *m = s + 4 * (size_t)i * n;
        folded ^= dequmlo_test_four(m, n, m + n, n, m + 2 * n, n, m + 3 * n, n).bytes[3][0];
    });
    line(one, rust, ours, plain);
    line(four, rust, lanes / 4, plain);
    if (folded == 1) fputs("", stderr);
    free(s);
    return lanes / 4 / ours;
}

/* The two sides of an identity are one word. */
static void agree(sides s) {
    must(s.number == 0 && s.left.lo == s.right.lo && s.left.hi == s.right.hi, "identity");
}

static void ring(void) {
    double ours;
    enum { N = 16, M = 20 };
    uint64_t *packed = words((size_t)1 << N), *eq = words((size_t)1 << N), *out = words(128), *z = words(M), *point = words(M);
    coefficients rb;
    for (size_t i = 0; i < 128; i++) rb.words[i] = next_word();
    BEST(ours, 1, must(dequmlo_test_partial_evals(N, packed, (size_t)2 << N, eq, (size_t)2 << N, out, 256) == 0, "partial evaluations"));
    alone("partial evaluations, n = 16", "partial_evals_n16", ours);
    BEST(ours, 1, must(dequmlo_test_eval_at(M, z, 2 * M, rb, point, 2 * M).number == 0, "indicator"));
    alone("indicator at a point, n = 20", "eval_at_n20", ours);
    point7 row;
    for (size_t i = 0; i < 7; i++) row.words[i] = next_word();
    BEST(ours, 1, agree(dequmlo_test_extension_sides(N, packed, (size_t)2 << N, z, 2 * N, row, eq, (size_t)2 << N)));
    alone("both sides of the first identity, n = 16", "extension_sides_n16", ours);
    BEST(ours, 1, agree(dequmlo_test_fold_sides(N, packed, (size_t)2 << N, z, 2 * N, rb, eq, (size_t)2 << N)));
    alone("both sides of the second identity, n = 16", "fold_sides_n16", ours);
    free(packed);
    free(eq);
    free(out);
    free(z);
    free(point);
}

static void tree(void) {
    double ours;
    enum { COUNT = 1 << 20, WIDTH = 8, LENGTH = 32 * (2 * (COUNT / WIDTH) - 1) };
    uint64_t *values = words(COUNT);
    uint8_t *digests = bytes(LENGTH);
    BEST_OF(ours, 5, must(dequmlo_test_build(DOMAIN, DOMAIN_LENGTH, COUNT, WIDTH, values, 2 * COUNT, digests, LENGTH) == 0, "tree"));
    alone("tree of 2^20 words, width 8", "tree_2^20_width8_domain20", ours);
    free(values);
    free(digests);
}

int main(int count, char **arguments) {
    int large = count > 1 && strcmp(arguments[1], "--large") == 0;
    products();
    runs();
    equality();
    phi();
    ghash();
    long_digest();
    double leaf = messages(253, "message of 253 bytes", "the same, four at once", "leaf_width8_domain20");
    double node = messages(164, "message of 164 bytes", "the same, four at once", "node_domain20");
    tree();
    deposit(16, 1, 7);
    deposit(18, 2, 5);
    if (large) deposit(20, 4, 3);
    ring();
    /* Nothing in the proofs notices when the compiler no longer makes the four lanes one vector. */
    if (leaf > 0.75 || node > 0.75) {
        fputs("bench: FAILED: four messages at once are no faster than one by one, so the lanes are not vectorised\n", stderr);
        return 1;
    }
    return 0;
}
