/* Every exported function that takes a buffer, called with each lent length one short, one long and 0, and with n, k and every other number
   out of range; those that take a set of widths under both sets, and under numbers that are no set's; those that take a key under none and under one of
   any number and any bytes, which are refused nothing. A refused call must answer the number of the
   question, 0 in every other field, and leave every lent byte; no call may touch a byte outside its buffers. Each call is made twice, with the
   forbidden page after and before the buffers. */
#include "lent.h"

enum { SLICES = 6, NUMBERS = 5 };

typedef struct {
    uint32_t number;
    int rest_is_zero; /* every other field of the answer */
} answer;

/* A lent slice: its content, its element's size, its count, and the answers to another count: `short_by_one` and `long_by_one` and `none`. */
typedef struct {
    const void *content;
    size_t element, count;
    int writable;
    uint32_t short_by_one, long_by_one, none;
} slice;

typedef struct call {
    const char *name;
    answer (*run)(const struct call *c, const lent *b);
    size_t numbers[NUMBERS];
    size_t slices;
    slice slice[SLICES];
    uint32_t expected;
    dequmlo_word word;
} call;

static const seal *of;
static uint32_t widths; /* the set that is called with */
static dequmlo_key key; /* the key that is called with */
static dequmlo_coefficients rows;
static size_t calls;

#define AT(i) b[i].bytes, b[i].size
#define WORDS(i) (uint64_t *)(void *)b[i].bytes, b[i].size / 8
#define LIST(i) (size_t *)(void *)b[i].bytes, b[i].size / sizeof(size_t)

static int zeros(const uint8_t *p, size_t size) {
    for (size_t i = 0; i < size; i++)
        if (p[i] != 0) return 0;
    return 1;
}

static answer plain(uint32_t number) {
    answer a = {number, 1};
    return a;
}

static answer digested(dequmlo_digested d) {
    answer a = {d.number, zeros(d.bytes, 32)};
    return a;
}

static answer answered(dequmlo_answered w) {
    answer a = {w.number, w.word.lo == 0 && w.word.hi == 0};
    return a;
}

/* Done, it leaves the list 0 to n - 1. */
static answer run_commit(const call *c, const lent *b) {
    uint32_t number = dequmlo_commit(key, widths, c->numbers[0], c->numbers[1], AT(0), WORDS(1), WORDS(2), WORDS(3), LIST(4), AT(5));
    const size_t *list = (const size_t *)(const void *)b[4].bytes;
    for (size_t i = 0; number == 0 && i < c->numbers[0]; i++) MUST(list[i] == i);
    return plain(number);
}

/* Done, it leaves the list without the variable's entry. */
static answer run_fold(const call *c, const lent *b) {
    const size_t *list = (const size_t *)(const void *)b[0].bytes, *before = (const size_t *)c->slice[0].content;
    dequmlo_folded f = dequmlo_fold(c->numbers[0], c->numbers[1], c->numbers[2], c->numbers[3], c->word, LIST(0), WORDS(1), WORDS(2));
    if (f.number == 0) MUST(f.n == c->numbers[0] - 1 && is_without(list, before, c->numbers[0], c->numbers[3]));
    answer a = {f.number, f.n == 0};
    return a;
}

static answer run_fold_levels(const call *c, const lent *b) {
    return plain(dequmlo_fold_levels(key, widths, c->numbers[0], c->numbers[1], AT(0), WORDS(1), WORDS(2), WORDS(3), AT(4), AT(5)));
}

static answer run_level_domain_length(const call *c, const lent *b) {
    dequmlo_domain_length d = dequmlo_level_domain_length(AT(0), c->numbers[0]);
    answer a = {d.number, d.length == 0};
    return a;
}

static answer run_level_domain(const call *c, const lent *b) { return plain(dequmlo_level_domain(AT(0), c->numbers[0], AT(1))); }

static answer run_level_tree(const call *c, const lent *b) {
    return plain(dequmlo_level_tree(key, widths, c->numbers[0], c->numbers[1], c->numbers[2], AT(0), WORDS(1), AT(2)));
}

static answer run_tree(const call *c, const lent *b) {
    return plain(dequmlo_tree(key, AT(0), c->numbers[0], c->numbers[1], WORDS(1), AT(2)));
}

static answer run_codeword_block(const call *c, const lent *b) {
    return plain(dequmlo_codeword_block(c->numbers[0], c->numbers[1], c->numbers[2], WORDS(0), WORDS(1), WORDS(2)));
}

static answer run_codeword_half(const call *c, const lent *b) {
    return plain(dequmlo_codeword_half(c->numbers[0], c->numbers[1], c->numbers[2], WORDS(0), WORDS(1), WORDS(2)));
}

static answer run_fold_part(const call *c, const lent *b) {
    return plain(dequmlo_fold_part(c->numbers[0], c->numbers[1], c->numbers[2], c->word, c->numbers[3], WORDS(0), WORDS(1)));
}

static answer run_tree_leaves(const call *c, const lent *b) {
    return plain(dequmlo_tree_leaves(key, AT(0), c->numbers[0], c->numbers[1], c->numbers[2], WORDS(1), AT(2)));
}

static answer run_tree_parents(const call *c, const lent *b) { return plain(dequmlo_tree_parents(key, AT(0), c->numbers[0], AT(1), AT(2))); }

static answer run_gammas(const call *c, const lent *b) { return plain(dequmlo_gammas(c->numbers[0], c->numbers[1], AT(0), WORDS(1))); }

static answer run_next_part(const call *c, const lent *b) {
    return plain(dequmlo_next_part(c->numbers[0], c->numbers[1], c->numbers[2], c->word, c->numbers[3], WORDS(0), WORDS(1)));
}

static answer run_level_leaves(const call *c, const lent *b) {
    return plain(dequmlo_level_leaves(key, widths, c->numbers[0], c->numbers[1], c->numbers[2], AT(0), c->numbers[3], WORDS(1), AT(2)));
}

static answer run_level_parents(const call *c, const lent *b) {
    return plain(dequmlo_level_parents(key, c->numbers[0], c->numbers[1], c->numbers[2], AT(0), c->numbers[3], AT(1), AT(2)));
}

static answer run_open(const call *c, const lent *b) {
    return plain(dequmlo_open(c->numbers[0], c->numbers[1], c->numbers[2], AT(0), AT(1)));
}

static answer run_root(const call *c, const lent *b) {
    return digested(dequmlo_root_of_path(key, AT(0), c->numbers[0], c->numbers[1], c->numbers[2], WORDS(1), AT(2)));
}

static answer run_build_query(const call *c, const lent *b) {
    return plain(dequmlo_build_query(AT(0), WORDS(1), AT(2), widths, c->numbers[0], c->numbers[1], c->numbers[2]));
}

static answer run_check_query(const call *c, const lent *b) {
    dequmlo_checked k = dequmlo_check_query(key, AT(0), widths, c->numbers[0], c->numbers[1], c->numbers[2], WORDS(1), AT(2), AT(3));
    answer a = {k.number, k.level == 0};
    return a;
}

static answer run_build_tail(const call *c, const lent *b) {
    return plain(dequmlo_build_tail(AT(0), WORDS(1), AT(2), widths, c->numbers[0], c->numbers[1]));
}

static answer run_check_tail(const call *c, const lent *b) {
    return plain(dequmlo_check_tail(key, AT(0), widths, c->numbers[0], c->numbers[1], AT(1), c->word, AT(2)));
}

static answer run_compare(const call *c, const lent *b) {
    const uint8_t *base = (const uint8_t *)of->base;
    dequmlo_compared m = dequmlo_compare(key, base, strlen(of->base), widths, c->numbers[0], c->numbers[1], c->numbers[2], WORDS(0), AT(1), AT(2), AT(3),
                                         AT(4), AT(5));
    answer a = {m.number, m.first == 0 && m.second == 0};
    return a;
}

static answer run_partial_evals(const call *c, const lent *b) {
    return plain(dequmlo_partial_evals(c->numbers[0], WORDS(0), WORDS(1), WORDS(2)));
}

static answer run_fold_partials(const call *c, const lent *b) {
    (void)c;
    return answered(dequmlo_fold_partials(WORDS(0), rows));
}

static answer run_materialize(const call *c, const lent *b) {
    return plain(dequmlo_materialize(c->numbers[0], WORDS(0), rows, WORDS(1)));
}

static answer run_eval_at(const call *c, const lent *b) {
    return answered(dequmlo_eval_at(c->numbers[0], WORDS(0), rows, WORDS(1)));
}

static answer run_import_blocks(const call *c, const lent *b) {
    (void)c;
    return plain(dequmlo_import_blocks(AT(0), WORDS(1)));
}

static answer run_export_blocks(const call *c, const lent *b) {
    (void)c;
    return plain(dequmlo_export_blocks(WORDS(0), AT(1)));
}

static answer run_ghash(const call *c, const lent *b) {
    dequmlo_block hash_key = {{0}};
    memcpy(hash_key.bytes, &c->word, 16);
    dequmlo_hashed h = dequmlo_ghash(hash_key, AT(0));
    answer a = {h.number, zeros(h.block.bytes, 16)};
    return a;
}

static answer run_digest(const call *c, const lent *b) {
    (void)c;
    return digested(dequmlo_digest(AT(0)));
}

static answer run_keyed_digest(const call *c, const lent *b) {
    (void)c;
    return digested(dequmlo_keyed_digest(AT(0), AT(1)));
}

static answer run_derive_key(const call *c, const lent *b) {
    (void)c;
    return digested(dequmlo_derive_key(AT(0), AT(1)));
}

/* ---- one call */

/* Makes the call on lent copies and looks at its answer and at every byte. */
static void made(const call *c, uint32_t expected, side page_at) {
    lent b[SLICES];
    for (size_t i = 0; i < c->slices; i++) b[i] = lend(c->slice[i].content, c->slice[i].element * c->slice[i].count, page_at);
    answer a = c->run(c, b);
    calls++;
    if (a.number != expected) {
        fprintf(stderr, "boundary: %s answers %u, not %u; keyed %u, widths %u, numbers %zu %zu %zu %zu, counts", c->name, a.number, expected, key.keyed,
                widths, c->numbers[0], c->numbers[1], c->numbers[2], c->numbers[3]);
        for (size_t i = 0; i < c->slices; i++) fprintf(stderr, " %zu", c->slice[i].count);
        fprintf(stderr, "\n");
        exit(1);
    }
    /* The level of 16 to 26 may be any; every other field of a refusal is 0. */
    MUST(a.number == 0 || (a.number >= 16 && a.number <= 26) || a.rest_is_zero);
    for (size_t i = 0; i < c->slices; i++) {
        if (a.number != 0 || !c->slice[i].writable) MUST(b[i].size == 0 || memcmp(b[i].bytes, c->slice[i].content, b[i].size) == 0);
        take_back(&b[i]);
    }
}

static void with(const call *c, uint32_t expected) {
    made(c, expected, PAGE_AFTER);
    made(c, expected, PAGE_BEFORE);
}

/* Every slice one short, one long and empty. Contents have room for one element more. */
static void lengths(const call *c) {
    with(c, c->expected);
    for (size_t i = 0; i < c->slices; i++) {
        const slice *s = &c->slice[i];
        call changed = *c;
        changed.slice[i].count = s->count + 1;
        with(&changed, s->long_by_one);
        if (s->count == 0) continue;
        changed.slice[i].count = s->count - 1;
        with(&changed, s->short_by_one);
        changed.slice[i].count = 0;
        with(&changed, s->none);
    }
}

static void number(const call *c, size_t i, size_t value, uint32_t expected) {
    call changed = *c;
    changed.numbers[i] = value;
    with(&changed, expected);
}

/* A slice of another count. */
static void count(const call *c, size_t i, size_t value, uint32_t expected) {
    call changed = *c;
    changed.slice[i].count = value;
    with(&changed, expected);
}

/* Two slices of other counts. */
static void counts(const call *c, size_t i, size_t value, size_t j, size_t other, uint32_t expected) {
    call changed = *c;
    changed.slice[i].count = value;
    count(&changed, j, other, expected);
}

/* A slice of other content. */
static void content(const call *c, size_t i, const void *other, uint32_t expected) {
    call changed = *c;
    changed.slice[i].content = other;
    with(&changed, expected);
}

/* A number out of range and a slice of another count: the number's question comes first. */
static void number_first(const call *c, size_t i, size_t value, size_t j, size_t other, uint32_t expected) {
    call changed = *c;
    changed.numbers[i] = value;
    count(&changed, j, other, expected);
}

/* n is number i and k the next. */
static void sizes(const call *c, size_t i, int k_too, int at_least_1) {
    number(c, i, 21, 4);
    number(c, i, (size_t)-1, 4);
    if (at_least_1) number(c, i, 0, 4);
    if (!k_too) return;
    number(c, i + 1, 5, 4);
    number(c, i + 1, (size_t)-1, 4);
}

/* Under numbers that are no set's: 4, whatever else is asked: n and k out of range, and any slice of another count. */
static void unnamed(const call *c) {
    uint32_t set = widths;
    static const uint32_t unknown[] = {2, UINT32_MAX};
    for (size_t i = 0; i < sizeof unknown / sizeof *unknown; i++) {
        widths = unknown[i];
        with(c, 4);
        sizes(c, 0, 1, 1);
        for (size_t j = 0; j < c->slices; j++) {
            count(c, j, c->slice[j].count + 1, 4);
            if (c->slice[j].count > 0) count(c, j, c->slice[j].count - 1, 4);
        }
    }
    widths = set;
}

/* ---- slices */

static slice reads(const void *content, size_t element, size_t count, uint32_t otherwise) {
    slice s = {content, element, count, 0, otherwise, otherwise, otherwise};
    return s;
}

/* What may have any number of items: none are refused nothing. */
static slice reads_any(const void *content, size_t element, size_t count) {
    slice s = {content, element, count, 0, 5, 5, 0};
    return s;
}

static slice writes(const void *content, size_t element, size_t count) {
    slice s = {content, element, count, 1, 5, 5, 5};
    return s;
}

/* A list of coordinates: its length too is a question of 36. */
static slice list_of(const size_t *content, size_t count) {
    slice s = {content, sizeof *content, count, 1, 36, 36, 36};
    return s;
}

static slice writes_any(const void *content, size_t element, size_t count) {
    slice s = {content, element, count, 1, 5, 5, 0};
    return s;
}

/* Content for a buffer that is written, with room to spare. */
static uint8_t scratch[1 << 16];

static void *copies[16];
static size_t copied;

/* A copy with room for one zero element more, so that a longer count can be lent. */
static void *longer(const void *content, size_t size) {
    void *copy = room(size + 8);
    memcpy(copy, content, size);
    MUST(copied < sizeof copies / sizeof *copies);
    return copies[copied++] = copy;
}

/* Folds of a codeword of 3 coordinates out of 5, and of one that has none left. The questions are put in this order: 4, 5, 36, 6. */
static void folds(const void *codeword, size_t k) {
    enum { N = 3, ORIGINAL = 2, VAR = 3 }; /* which numbers these are */
    const size_t past = (size_t)-1, high = (size_t)1 << 63;
    const size_t left[N + 1] = {0, 2, 4};
    const size_t rising[][N + 1] = {{0, 1, 2}, {2, 3, 4}, {0, 1, 4}, {1, 3, 4}};
    /* One too large; then equal neighbours; then not rising. */
    const size_t other[][N + 1] = {{0, 2, 5},    {5, 6, 7},    {0, 2, past},        {0, past, 4},     {past, 2, 4},
                                   {past, 0, 1}, {high, 2, 4}, {past, past, past}, {0, 2, high + 4},
                                   {0, 2, 2},    {0, 0, 4},    {0, 0, 0},           {4, 4, 4},
                                   {2, 0, 4},    {0, 4, 2},    {4, 2, 0},           {1, 2, 0}};
    size_t words = level_words(N, k, 0);
    call fold = {"fold", run_fold, {N, k, 5, 0}, 3, {list_of(left, N), reads(codeword, 8, 2 * words, 5), writes(scratch, 8, words)}, 0, {3, 4}};
    lengths(&fold);
    sizes(&fold, 0, 1, 0);
    number(&fold, ORIGINAL, 20, 0);
    number(&fold, ORIGINAL, 21, 4);
    number(&fold, ORIGINAL, past, 4);
    number(&fold, ORIGINAL, 4, 36);
    number(&fold, ORIGINAL, 0, 36);
    for (size_t i = 0; i < 3; i++) number_first(&fold, ORIGINAL, 21, i, fold.slice[i].count - 1, 4);
    for (size_t var = 0; var < N; var++) {
        call at = fold;
        at.numbers[VAR] = var;
        with(&at, 0);
        for (size_t i = 0; i < sizeof rising / sizeof *rising; i++) content(&at, 0, rising[i], 0);
        for (size_t i = 0; i < sizeof other / sizeof *other; i++) content(&at, 0, other[i], 36);
    }

    /* Lengths come before the list, and the list before the variable. */
    call unfit = fold, beyond = fold;
    unfit.slice[0].content = other[0], unfit.expected = 36;
    lengths(&unfit);
    number(&unfit, ORIGINAL, 21, 4);
    number(&unfit, VAR, N, 36);
    beyond.numbers[VAR] = N, beyond.expected = 6;
    lengths(&beyond);
    number(&beyond, VAR, past, 6);

    call none = {"fold", run_fold, {0, k, 5, 0}, 3,
                 {list_of(left, 0), reads(codeword, 8, (size_t)2 << k, 5), writes(scratch, 8, (size_t)1 << k)}, 6, {3, 4}};
    lengths(&none);
    number(&none, ORIGINAL, 0, 6);
    number(&none, ORIGINAL, 21, 4);
}

/* All calls that are made under a key and a set. Its level 0, of 16 words, has two groups of 8 under the present set and eight of 2 under the wide one. */
static void all(dequmlo_key given, uint32_t set) {
    enum { N = 3, K = 1, POSITION = 5 };
    key = given, widths = set;
    seal s = sealed_under(key, widths, N, K, POSITION, 1);
    of = &s;
    uint64_t seed = 2;
    for (size_t i = 0; i < 128; i++) rows.words[i].lo = drawn(&seed), rows.words[i].hi = drawn(&seed);
    static uint8_t domain[257];
    memcpy(domain, s.base, strlen(s.base));
    const size_t base = strlen(s.base), words = level_words(N, K, 0), trees = trees_bytes(widths, N, K), levels = 2 * levels_words(N, K);
    const void *challenges = longer(s.challenges, 16 * N), *roots = longer(s.roots, 32 * (N + 1)), *query = longer(s.query, query_bytes(widths, N, K));
    const size_t query_size = query_bytes(widths, N, K), tail_size = tail_bytes(widths, K), tree_size = tree_bytes(widths, words);
    const void *tail = longer(s.tail, tail_size), *all_levels = longer(s.levels, 8 * levels), *all_trees = longer(s.trees, trees);
    const void *table = longer(s.table, 16 << N);
    const uint8_t *last_root = (const uint8_t *)longer(s.roots + 32 * N, 32);
    const uint64_t *last_level = (const uint64_t *)longer(s.levels + levels - (4u << (K - 1)), 8 * (2 << K));
    const uint8_t *last_tree = (const uint8_t *)longer(s.trees + trees - tree_bytes(widths, 1 << K), tree_bytes(widths, 1 << K));
    const void *tree0 = longer(s.trees, tree_size);

    call digest = {"digest", run_digest, {0}, 1, {reads(scratch, 1, 1025, 0)}, 0, {0, 0}};
    lengths(&digest);

    /* A key of another length is refused, whatever the input is; the two texts of a derivation may have any length up to 2^24. */
    call keyed_digest = {"keyed_digest", run_keyed_digest, {0}, 2, {reads(scratch, 1, 32, 5), reads(scratch, 1, 1025, 0)}, 0, {0, 0}};
    lengths(&keyed_digest);
    counts(&keyed_digest, 0, 32, 1, 0, 0);
    counts(&keyed_digest, 0, 0, 1, 0, 5);
    counts(&keyed_digest, 0, 64, 1, 0, 5);
    call derive_key = {"derive_key", run_derive_key, {0}, 2, {reads(scratch, 1, 47, 0), reads(scratch, 1, 1025, 0)}, 0, {0, 0}};
    lengths(&derive_key);
    counts(&derive_key, 0, 0, 1, 0, 0);

    call commit = {"commit", run_commit, {N, K}, 6,
                   {reads(domain, 1, base, 0), reads(table, 8, 2 << N, 5), writes(scratch, 8, 2 * K * N), writes(scratch, 8, 2 * words),
                    writes(scratch, sizeof(size_t), N), writes(scratch, 1, tree_size)}, 0, {0, 0}};
    lengths(&commit);
    unnamed(&commit);
    sizes(&commit, 0, 1, 0);
    number(&commit, 0, N + 1, 5);
    number(&commit, 1, K + 1, 5);
    count(&commit, 0, 200, 0);
    count(&commit, 0, 201, 7);
    for (size_t i = 1; i < 6; i++) counts(&commit, 0, 201, i, commit.slice[i].count - 1, 5);

    folds(all_levels, K);

    /* 4 before 5 before 7: each number out of range with each length, and each length with a base domain of 201 bytes. */
    call fold_levels = {"fold_levels", run_fold_levels, {N, K}, 6,
                        {reads(domain, 1, base, 0), reads(challenges, 8, 2 * N, 5), writes(all_levels, 8, levels), writes(scratch, 8, words),
                         writes(scratch, 1, trees), writes(scratch, 1, 32 * (N + 1))}, 0, {0, 0}};
    lengths(&fold_levels);
    unnamed(&fold_levels);
    sizes(&fold_levels, 0, 1, 1);
    number(&fold_levels, 0, N + 1, 5);
    number(&fold_levels, 1, K + 1, 5);
    count(&fold_levels, 0, 200, 0);
    count(&fold_levels, 0, 201, 7);
    number_first(&fold_levels, 0, 0, 0, 201, 4);
    number_first(&fold_levels, 1, 5, 0, 201, 4);
    for (size_t i = 1; i < 6; i++) {
        number_first(&fold_levels, 0, 0, i, fold_levels.slice[i].count - 1, 4);
        number_first(&fold_levels, 0, 21, i, fold_levels.slice[i].count - 1, 4);
        number_first(&fold_levels, 1, 5, i, fold_levels.slice[i].count - 1, 4);
        counts(&fold_levels, 0, 201, i, fold_levels.slice[i].count - 1, 5);
        counts(&fold_levels, 0, 201, i, fold_levels.slice[i].count + 1, 5);
    }

    call domain_length = {"level_domain_length", run_level_domain_length, {N}, 1, {reads(domain, 1, base, 0)}, 0, {0, 0}};
    lengths(&domain_length);
    number(&domain_length, 0, 20, 0);
    number(&domain_length, 0, 21, 4);
    number(&domain_length, 0, (size_t)-1, 4);
    count(&domain_length, 0, 200, 0);
    count(&domain_length, 0, 201, 7);
    number_first(&domain_length, 0, 21, 0, 201, 4);

    /* The domain of a level below 10 is 8 bytes longer than the base domain, that of one from 10 on 9. */
    call level_domain = {"level_domain", run_level_domain, {9}, 2, {reads(domain, 1, base, 5), writes(scratch, 1, base + 8)}, 0, {0, 0}};
    lengths(&level_domain);
    number(&level_domain, 0, 10, 5);
    number(&level_domain, 0, 20, 5);
    number(&level_domain, 0, 21, 4);
    number(&level_domain, 0, (size_t)-1, 4);
    number_first(&level_domain, 0, 10, 1, base + 9, 0);
    number_first(&level_domain, 0, 20, 1, base + 9, 0);
    number_first(&level_domain, 0, 21, 1, base + 9, 4);
    number_first(&level_domain, 0, 21, 0, 201, 4);
    counts(&level_domain, 0, 200, 1, 208, 0);
    counts(&level_domain, 0, 201, 1, 209, 7);
    counts(&level_domain, 0, 201, 1, 208, 5);
    counts(&level_domain, 0, 0, 1, 8, 0);

    call level_tree = {"level_tree", run_level_tree, {N, K, 1}, 3,
                       {reads(domain, 1, base, 0), reads(all_levels, 8, words, 5), writes(scratch, 1, tree_bytes(widths, words / 2))}, 0, {0, 0}};
    lengths(&level_tree);
    unnamed(&level_tree);
    sizes(&level_tree, 0, 1, 1);
    number(&level_tree, 0, N + 1, 5);
    number(&level_tree, 2, 0, 5);
    number(&level_tree, 2, N, 5);
    number(&level_tree, 2, N + 1, 4);
    number(&level_tree, 2, (size_t)-1, 4);
    count(&level_tree, 0, 200, 0);
    count(&level_tree, 0, 201, 7);
    number_first(&level_tree, 2, N + 1, 0, 201, 4);
    for (size_t i = 1; i < 3; i++) {
        number_first(&level_tree, 0, 0, i, level_tree.slice[i].count - 1, 4);
        number_first(&level_tree, 2, N + 1, i, level_tree.slice[i].count - 1, 4);
        counts(&level_tree, 0, 201, i, level_tree.slice[i].count - 1, 5);
    }

    call tree = {"tree", run_tree, {words, 2}, 3,
                 {reads(domain, 1, base, 0), reads(all_levels, 8, 2 * words, 5), writes(scratch, 1, 32 * (words - 1))}, 0, {0, 0}};
    lengths(&tree);
    count(&tree, 0, 255, 0);
    count(&tree, 0, 256, 7);
    number(&tree, 0, 0, 8);
    number(&tree, 0, words - 1, 8);
    number(&tree, 0, (size_t)1 << 25, 8);
    number(&tree, 0, (size_t)-1, 8);
    number(&tree, 0, 2 * words, 5);
    number(&tree, 1, 0, 9);
    number(&tree, 1, 3, 9);
    number(&tree, 1, 1024, 9);
    number(&tree, 1, (size_t)-1, 9);
    number(&tree, 1, 2 * words, 10);
    number(&tree, 1, 4, 5);

    call block = {"codeword_block", run_codeword_block, {N, K, 1}, 3,
                  {reads(table, 8, 2 << N, 5), reads(scratch, 8, 2 * K * N, 5), writes(scratch, 8, 2 << N)}, 0, {0, 0}};
    lengths(&block);
    sizes(&block, 0, 1, 0);
    number(&block, 0, N + 1, 5);
    number(&block, 2, 0, 0);
    number(&block, 2, 1 << K, 11);
    number(&block, 2, (size_t)-1, 11);
    for (size_t i = 0; i < 3; i++) number_first(&block, 2, 1 << K, i, block.slice[i].count - 1, 5);

    call half = {"codeword_half", run_codeword_half, {N, K, 2}, 3,
                 {reads(table, 8, 2 << N, 5), reads(scratch, 8, 2 * K * N, 5), writes(scratch, 8, 1 << N)}, 0, {0, 0}};
    lengths(&half);
    sizes(&half, 0, 1, 1);
    number(&half, 0, N + 1, 5);
    number(&half, 2, 0, 0);
    number(&half, 2, (2 << K) - 1, 0);
    number(&half, 2, 2 << K, 11);
    number(&half, 2, (size_t)-1, 11);
    for (size_t i = 0; i < 3; i++) number_first(&half, 2, 2 << K, i, half.slice[i].count - 1, 5);

    /* The fold has 8 entries; the part is 3 of them. */
    call fold_part = {"fold_part", run_fold_part, {N, K, 0, 2}, 2, {reads(all_levels, 8, 2 * words, 5), writes_any(scratch, 8, 6)}, 0, {3, 4}};
    lengths(&fold_part);
    sizes(&fold_part, 0, 1, 0);
    number(&fold_part, 2, N - 1, 0);
    number(&fold_part, 2, N, 6);
    number(&fold_part, 2, (size_t)-1, 6);
    number(&fold_part, 3, words / 2 - 3, 0);
    number(&fold_part, 3, words / 2 - 2, 11);
    number(&fold_part, 3, (size_t)-1, 11);
    number_first(&fold_part, 3, words / 2, 1, 0, 0);
    number_first(&fold_part, 3, words / 2 + 1, 1, 0, 11);
    number_first(&fold_part, 3, (size_t)-1, 0, 2 * words - 1, 5);
    number_first(&fold_part, 2, N, 1, 2 * words, 6);
    count(&fold_part, 1, words - 2, 11);

    /* The tree has 8 leaves; the part is 3 of them. */
    call leaves = {"tree_leaves", run_tree_leaves, {words, 2, 4}, 3,
                   {reads(domain, 1, base, 0), reads(all_levels, 8, 2 * words, 5), writes_any(scratch, 1, 96)}, 0, {0, 0}};
    lengths(&leaves);
    count(&leaves, 0, 255, 0);
    count(&leaves, 0, 256, 7);
    number(&leaves, 0, 0, 8);
    number(&leaves, 0, words - 1, 8);
    number(&leaves, 0, (size_t)1 << 25, 8);
    number(&leaves, 0, (size_t)-1, 8);
    number(&leaves, 0, 2 * words, 5);
    number(&leaves, 1, 0, 9);
    number(&leaves, 1, 3, 9);
    number(&leaves, 1, 1024, 9);
    number(&leaves, 1, (size_t)-1, 9);
    number(&leaves, 1, 2 * words, 10);
    number(&leaves, 1, 4, 11);
    number(&leaves, 2, words / 2 - 3, 0);
    number(&leaves, 2, words / 2 - 2, 11);
    number(&leaves, 2, (size_t)-1, 11);
    number_first(&leaves, 2, words / 2, 2, 0, 0);
    number_first(&leaves, 2, words / 2 + 1, 2, 0, 11);
    for (size_t i = 1; i < 3; i++) number_first(&leaves, 2, words / 2, i, leaves.slice[i].count - 1, 11);

    /* Two pairs of digests, at any level. */
    call parents = {"tree_parents", run_tree_parents, {0}, 3, {reads(domain, 1, base, 0), reads(all_trees, 1, 128, 5), writes(scratch, 1, 64)}, 0, {0, 0}};
    lengths(&parents);
    number(&parents, 0, (size_t)-1, 0);
    counts(&parents, 1, 0, 2, 0, 0);
    counts(&parents, 1, 64, 2, 32, 0);
    counts(&parents, 1, 96, 2, 48, 5);
    count(&parents, 0, 255, 0);
    count(&parents, 0, 256, 7);
    for (size_t i = 1; i < 3; i++) counts(&parents, 0, 256, i, parents.slice[i].count - 1, 5);

    call gammas = {"gammas", run_gammas, {N, K}, 2, {reads(domain, 1, base, 0), writes(scratch, 8, 2 * K * N)}, 0, {0, 0}};
    lengths(&gammas);
    sizes(&gammas, 0, 1, 0);
    count(&gammas, 0, 200, 0);
    count(&gammas, 0, 201, 7);
    counts(&gammas, 0, 201, 1, 2 * K * N - 1, 5);

    /* Level 1 has 8 entries, level 2 has 4; the part is 3 of these. */
    call next_part = {"next_part", run_next_part, {N, K, 1, 1}, 2, {reads(all_levels, 8, words, 5), writes_any(scratch, 8, 6)}, 0, {3, 4}};
    lengths(&next_part);
    sizes(&next_part, 0, 1, 1);
    number(&next_part, 2, 0, 5);
    number(&next_part, 2, N, 4);
    number(&next_part, 2, (size_t)-1, 4);
    number(&next_part, 3, 2, 11);
    number(&next_part, 3, (size_t)-1, 11);
    number_first(&next_part, 3, 4, 1, 0, 0);
    number_first(&next_part, 3, 5, 1, 0, 11);
    for (size_t i = 0; i < 2; i++) {
        number_first(&next_part, 2, N, i, next_part.slice[i].count - 1, 4);
        number_first(&next_part, 3, 2, i, next_part.slice[i].count - 1, 5);
    }

    /* Level 1's tree has 4 leaves; the part is 2 of them. */
    call level_leaves = {"level_leaves", run_level_leaves, {N, K, 1, 2}, 3,
                         {reads(domain, 1, base, 0), reads(all_levels, 8, words, 5), writes_any(scratch, 1, 64)}, 0, {0, 0}};
    lengths(&level_leaves);
    unnamed(&level_leaves);
    sizes(&level_leaves, 0, 1, 1);
    number(&level_leaves, 2, 0, 5);
    number(&level_leaves, 2, N + 1, 4);
    number(&level_leaves, 2, (size_t)-1, 4);
    number(&level_leaves, 3, 3, 11);
    number(&level_leaves, 3, (size_t)-1, 11);
    number_first(&level_leaves, 3, 4, 2, 0, 0);
    number_first(&level_leaves, 3, 5, 2, 0, 11);
    number_first(&level_leaves, 3, 3, 0, 201, 7);
    count(&level_leaves, 0, 200, 0);
    count(&level_leaves, 0, 201, 7);
    for (size_t i = 1; i < 3; i++) {
        number_first(&level_leaves, 2, N + 1, i, level_leaves.slice[i].count - 1, 4);
        number_first(&level_leaves, 3, 3, i, level_leaves.slice[i].count - 1, 5);
        counts(&level_leaves, 0, 201, i, level_leaves.slice[i].count - 1, 5);
    }

    call level_parents = {"level_parents", run_level_parents, {N, K, 1, 0}, 3,
                          {reads(domain, 1, base, 0), reads(all_trees, 1, 128, 5), writes(scratch, 1, 64)}, 0, {0, 0}};
    lengths(&level_parents);
    sizes(&level_parents, 0, 1, 1);
    number(&level_parents, 2, N, 0);
    number(&level_parents, 2, N + 1, 4);
    number(&level_parents, 2, (size_t)-1, 4);
    number(&level_parents, 3, (size_t)-1, 0);
    counts(&level_parents, 1, 0, 2, 0, 0);
    counts(&level_parents, 1, 96, 2, 48, 5);
    count(&level_parents, 0, 200, 0);
    count(&level_parents, 0, 201, 7);
    for (size_t i = 1; i < 3; i++) {
        number_first(&level_parents, 2, N + 1, i, level_parents.slice[i].count - 1, 4);
        counts(&level_parents, 0, 201, i, level_parents.slice[i].count - 1, 5);
    }

    /* The tree of two groups of 8. */
    call open = {"open", run_open, {words, 8, POSITION}, 2, {reads(tree0, 1, 96, 5), writes(scratch, 1, 32)}, 0, {0, 0}};
    lengths(&open);
    number(&open, 0, 0, 8);
    number(&open, 0, (size_t)1 << 25, 8);
    number(&open, 1, 0, 9);
    number(&open, 1, 1024, 9);
    number(&open, 1, 2 * words, 10);
    number(&open, 2, words - 1, 0);
    number(&open, 2, words, 11);
    number(&open, 2, (size_t)-1, 11);

    call root = {"root_of_path", run_root, {words, 8, POSITION}, 3,
                 {reads(domain, 1, base, 0), reads(all_levels, 8, 16, 5), reads(tree0, 1, 32, 12)}, 0, {0, 0}};
    lengths(&root);
    count(&root, 0, 255, 0);
    count(&root, 0, 256, 7);
    number(&root, 0, 0, 8);
    number(&root, 1, 0, 9);
    number(&root, 1, 1024, 9);
    number(&root, 1, 2 * words, 10);
    number(&root, 2, words, 11);

    call build = {"build_query", run_build_query, {N, K, POSITION}, 3,
                  {writes(scratch, 1, query_size), reads(all_levels, 8, levels, 5), reads(all_trees, 1, trees, 5)}, 0, {0, 0}};
    lengths(&build);
    unnamed(&build);
    sizes(&build, 0, 1, 1);
    number(&build, 0, N + 1, 5);
    number(&build, 2, words - 1, 0);
    number(&build, 2, words, 11);
    number(&build, 2, (size_t)-1, 11);

    call check = {"check_query", run_check_query, {N, K, POSITION}, 4,
                  {reads(domain, 1, base, 18), reads(challenges, 8, 2 * N, 5), reads(roots, 1, 32 * (N + 1), 5),
                   reads(query, 1, query_size, 14)}, 0, {0, 0}};
    lengths(&check);
    unnamed(&check);
    sizes(&check, 0, 1, 1);
    number(&check, 0, N + 1, 5);
    number(&check, 1, K + 1, 17);
    count(&check, 0, 200, 18);
    count(&check, 0, 201, 7);
    number(&check, 2, words, 11);
    number(&check, 2, (size_t)-1, 11);

    call build_tail = {"build_tail", run_build_tail, {N, K}, 3,
                       {writes(scratch, 1, tail_size), reads(last_level, 8, 2 << K, 5), reads(last_tree, 1, tree_bytes(widths, 1 << K), 5)},
                       0, {0, 0}};
    lengths(&build_tail);
    unnamed(&build_tail);
    sizes(&build_tail, 0, 1, 1);

    call check_tail = {"check_tail", run_check_tail, {N, K}, 3,
                       {reads(domain, 1, base, 30), reads(last_root, 1, 32, 5), reads(tail, 1, tail_size, 14)}, 0, s.claim};
    lengths(&check_tail);
    unnamed(&check_tail);
    sizes(&check_tail, 0, 1, 1);
    count(&check_tail, 0, 201, 7);
    number(&check_tail, 1, K + 1, 27);

    call compare = {"compare", run_compare, {N, K, POSITION}, 6,
                    {reads(challenges, 8, 2 * N, 5), reads(roots, 1, 32 * (N + 1), 5), reads(query, 1, query_size, 32), reads(query, 1, query_size, 32),
                     writes(scratch, 1, DEQUMLO_MESSAGE_BUFFER), writes(scratch, 1, DEQUMLO_MESSAGE_BUFFER)}, 33, {0, 0}};
    lengths(&compare);
    unnamed(&compare);
    sizes(&compare, 0, 1, 1);
    number(&compare, 2, words, 11);

    call partial = {"partial_evals", run_partial_evals, {N}, 3,
                    {reads(table, 8, 2 << N, 5), reads(all_levels, 8, 2 << N, 5), writes(scratch, 8, 256)}, 0, {0, 0}};
    lengths(&partial);
    sizes(&partial, 0, 0, 0);
    number(&partial, 0, N + 1, 5);

    call fold_partials = {"fold_partials", run_fold_partials, {0}, 1, {reads(scratch, 8, 256, 5)}, 0, {0, 0}};
    lengths(&fold_partials);

    call materialize = {"materialize", run_materialize, {N}, 2, {reads(challenges, 8, 2 * N, 5), writes(scratch, 8, 2 << N)}, 0, {0, 0}};
    lengths(&materialize);
    sizes(&materialize, 0, 0, 0);

    call eval_at = {"eval_at", run_eval_at, {N}, 2, {reads(challenges, 8, 2 * N, 5), reads(table, 8, 2 * N, 5)}, 0, {0, 0}};
    lengths(&eval_at);
    sizes(&eval_at, 0, 0, 0);

    /* Three blocks; then none and two on both sides, and what is not whole on both. */
    call import_blocks = {"import_blocks", run_import_blocks, {0}, 2, {reads(scratch, 1, 48, 5), writes(scratch, 8, 6)}, 0, {0, 0}};
    lengths(&import_blocks);
    for (size_t i = 0; i < 48; i++) counts(&import_blocks, 0, i, 1, 2 * (i / 16), i % 16 == 0 ? 0 : 5);
    counts(&import_blocks, 0, 24, 1, 3, 5);

    call export_blocks = {"export_blocks", run_export_blocks, {0}, 2, {reads(scratch, 8, 6, 5), writes(scratch, 1, 48)}, 0, {0, 0}};
    lengths(&export_blocks);
    for (size_t i = 0; i < 6; i++) counts(&export_blocks, 0, i, 1, 8 * i, i % 2 == 0 ? 0 : 5);
    counts(&export_blocks, 0, 4, 1, 24, 5);

    /* Both kernels: the other one takes over at 384 blocks. */
    call ghash = {"ghash", run_ghash, {0}, 1, {reads_any(scratch, 1, 48)}, 0, {3, 4}};
    lengths(&ghash);
    for (size_t i = 0; i < 64; i++) count(&ghash, 0, i, i % 16 == 0 ? 0 : 5);
    for (size_t i = 6128; i <= 6160; i++) count(&ghash, 0, i, i % 16 == 0 ? 0 : 5);

    while (copied > 0) free(copies[--copied]);
    unsealed(&s);
}

int main(void) {
    for (size_t i = 0; i < sizeof scratch; i++) scratch[i] = (uint8_t)(i * 7 + 3);
    /* No key, and one whose number is not 1 and whose bytes are all the same. */
    dequmlo_key same;
    same.keyed = UINT32_MAX, memset(same.bytes, 0xff, sizeof same.bytes);
    for (uint32_t set = DEQUMLO_WIDTHS_PRESENT; set <= DEQUMLO_WIDTHS_WIDE; set++) {
        all(no_key(), set);
        all(same, set);
    }
    printf("boundary: %zu calls, each answer and every byte as it must be\n", calls);
    return 0;
}
