/* How much stack each function takes, under a key and either set of widths: it is run on a painted stack, and the paint that is left is counted. Fails above
   96 KiB, and where a check takes more than 24. */
#include "fixture.h"
#include <pthread.h>
#include <sys/mman.h>

enum { STACK = 1 << 20, MOST = 96 * 1024, MOST_OF_A_CHECK = 24 * 1024, PAINT = 0xc7 };

static seal s;
static dequmlo_coefficients rows;
static uint64_t words[1 << 11], table[1 << 9];
static uint8_t bytes[1 << 16];

#define BASE (const uint8_t *)s.base, strlen(s.base)
#define CHECKED s.position, s.challenges, 2 * s.n, s.roots, 32 * (s.n + 1), s.query, query_bytes(s.widths, s.n, s.k)

static void nothing(void) {}
static void digest(void) { dequmlo_digest(bytes, sizeof bytes); }
static void keyed_digest(void) { MUST(dequmlo_keyed_digest(bytes, 32, bytes, sizeof bytes).number == 0); }
static void derive_key(void) { MUST(dequmlo_derive_key(bytes, sizeof bytes, bytes, sizeof bytes).number == 0); }
static void commit(void) {
    size_t count = level_words(s.n, s.k, 0);
    MUST(dequmlo_commit(s.key, s.widths, s.n, s.k, BASE, s.table, (size_t)2 << s.n, s.gammas, 2 * s.k * s.n, s.levels, 2 * count, s.coordinates, s.n,
                        s.trees, tree_bytes(s.widths, count)) == 0);
}
static void fold(void) {
    static size_t list[20];
    size_t count = level_words(s.n, s.k, 0);
    memcpy(list, s.coordinates, s.n * sizeof *list);
    MUST(dequmlo_fold(s.n, s.k, s.n, 0, s.claim, list, s.n, s.levels, 2 * count, words, count).number == 0);
}
static void fold_levels(void) {
    size_t levels = 2 * levels_words(s.n, s.k);
    MUST(dequmlo_fold_levels(s.key, s.widths, s.n, s.k, BASE, s.challenges, 2 * s.n, s.levels, levels, words, level_words(s.n, s.k, 0), s.trees,
                             trees_bytes(s.widths, s.n, s.k), s.roots, 32 * (s.n + 1)) == 0);
}
static void level_domain(void) { MUST(dequmlo_level_domain(BASE, 8, bytes, strlen(s.base) + 8) == 0); }
static void level_tree(void) { MUST(dequmlo_level_tree(s.key, s.widths, s.n, s.k, 0, BASE, s.levels, 2048, bytes, tree_bytes(s.widths, 1024)) == 0); }
static void tree(void) { MUST(dequmlo_tree(s.key, BASE, 1024, 512, s.levels, 2048, bytes, 96) == 0); }
static void codeword_block(void) {
    size_t block = (size_t)2 << s.n;
    MUST(dequmlo_codeword_block(s.n, s.k, 1, s.table, block, s.gammas, 2 * s.k * s.n, words, block) == 0);
}
static void codeword_half(void) {
    size_t half = (size_t)1 << s.n;
    MUST(dequmlo_codeword_half(s.n, s.k, 2, s.table, 2 * half, s.gammas, 2 * s.k * s.n, words, half) == 0);
}
static void fold_part(void) { MUST(dequmlo_fold_part(s.n, s.k, 0, s.claim, 1, s.levels, 2 * level_words(s.n, s.k, 0), words, 1000) == 0); }
static void gammas(void) { MUST(dequmlo_gammas(s.n, s.k, BASE, s.gammas, 2 * s.k * s.n) == 0); }
static void next_part(void) { MUST(dequmlo_next_part(s.n, s.k, 0, s.claim, 1, s.levels, 2 * level_words(s.n, s.k, 0), words, 1000) == 0); }
static void level_leaves(void) { MUST(dequmlo_level_leaves(s.key, s.widths, s.n, s.k, 0, BASE, 1, s.levels, 2048, bytes, 32 * 30) == 0); }
static void level_parents(void) { MUST(dequmlo_level_parents(s.key, s.n, s.k, 0, BASE, 0, s.trees, 128 * 32, bytes, 64 * 32) == 0); }
static void tree_leaves(void) { MUST(dequmlo_tree_leaves(s.key, BASE, 1024, 512, 1, s.levels, 2048, bytes, 32) == 0); }
static void tree_parents(void) { MUST(dequmlo_tree_parents(s.key, BASE, 0, s.trees, 128 * 32, bytes, 64 * 32) == 0); }
static void open(void) {
    MUST(dequmlo_open(1024, width_of(s.widths, 1024), 5, s.trees, tree_bytes(s.widths, 1024), bytes, 32 * depth_of(s.widths, 1024)) == 0);
}
static void root(void) { MUST(dequmlo_root_of_path(s.key, BASE, 1024, 512, 5, s.levels, 1024, s.trees, 32).number == 0); }
static void build_query(void) {
    MUST(dequmlo_build_query(bytes, query_bytes(s.widths, s.n, s.k), s.levels, 2 * levels_words(s.n, s.k), s.trees, trees_bytes(s.widths, s.n, s.k),
                             s.widths, s.n, s.k, 3) == 0);
}
static void check_query(void) { MUST(dequmlo_check_query(s.key, BASE, s.widths, s.n, s.k, CHECKED).number == 0); }
static void build_tail(void) {
    size_t last = (size_t)1 << s.k;
    MUST(dequmlo_build_tail(bytes, tail_bytes(s.widths, s.k), s.levels + 2 * (levels_words(s.n, s.k) - last), 2 * last,
                            s.trees + trees_bytes(s.widths, s.n, s.k) - tree_bytes(s.widths, last), tree_bytes(s.widths, last), s.widths, s.n,
                            s.k) == 0);
}
static void check_tail(void) { MUST(dequmlo_check_tail(s.key, BASE, s.widths, s.n, s.k, s.roots + 32 * s.n, 32, s.claim, s.tail, tail_bytes(s.widths, s.k)) == 0); }
static void compare(void) {
    MUST(dequmlo_compare(s.key, BASE, s.widths, s.n, s.k, CHECKED, s.query, query_bytes(s.widths, s.n, s.k), bytes, DEQUMLO_MESSAGE_BUFFER,
                         bytes + DEQUMLO_MESSAGE_BUFFER, DEQUMLO_MESSAGE_BUFFER)
             .number == 33);
}
static void partial_evals(void) { MUST(dequmlo_partial_evals(s.n, s.table, (size_t)2 << s.n, table, (size_t)2 << s.n, words, 256) == 0); }
static void fold_partials(void) { MUST(dequmlo_fold_partials(words, 256, rows).number == 0); }
static void materialize(void) { MUST(dequmlo_materialize(s.n, s.challenges, 2 * s.n, rows, table, (size_t)2 << s.n) == 0); }
static void small_answers(void) {
    static volatile size_t kept;
    kept = dequmlo_sizes(s.widths, s.n, s.k).levels + dequmlo_fold_tree_width(s.widths, 64) + dequmlo_level_domain_length(BASE, 8).length;
    kept += dequmlo_default_parameters().k + dequmlo_unnamed_parameters(1).k + dequmlo_firstdefault().k;
    kept += dequmlo_fastchunk().k + dequmlo_balanced().k + dequmlo_compactwrap().k + dequmlo_deepwrap().k;
    kept += dequmlo_import_block(dequmlo_export_block(rows.words[0])).lo;
}
static void eval_at(void) { MUST(dequmlo_eval_at(s.n, s.challenges, 2 * s.n, rows, s.challenges, 2 * s.n).number == 0); }

static void import_blocks(void) { MUST(dequmlo_import_blocks(bytes, 16000, words, 2000) == 0); }
static void export_blocks(void) { MUST(dequmlo_export_blocks(words, 2000, bytes, 16000) == 0); }
static void ghash(void) {
    dequmlo_block key = {{0x80}};
    MUST(dequmlo_ghash(key, bytes, sizeof bytes).number == 0);
}

typedef struct {
    const char *name;
    void (*run)(void);
} function;

static void *run(void *f) {
    ((const function *)f)->run();
    return NULL;
}

/* The bytes of a thread's stack that are no longer painted. */
static size_t used(const function *f) {
    uint8_t *stack = (uint8_t *)mmap(NULL, STACK, PROT_READ | PROT_WRITE, MAP_PRIVATE | MAP_ANONYMOUS, -1, 0);
    MUST(stack != MAP_FAILED);
    memset(stack, PAINT, STACK);
    pthread_attr_t attributes;
    pthread_t thread;
    MUST(pthread_attr_init(&attributes) == 0 && pthread_attr_setstack(&attributes, stack, STACK) == 0);
    MUST(pthread_create(&thread, &attributes, run, (void *)f) == 0 && pthread_join(thread, NULL) == 0);
    size_t left = 0;
    while (stack[left] == PAINT) left++;
    MUST(munmap(stack, STACK) == 0);
    return STACK - left;
}

int main(void) {
    static const function functions[] = {
        {"digest", digest},
        {"keyed_digest", keyed_digest},
        {"derive_key", derive_key},
        {"commit", commit},
        {"fold", fold},
        {"fold_levels", fold_levels},
        {"level_domain", level_domain},
        {"level_tree", level_tree},
        {"tree", tree},
        {"gammas", gammas},
        {"next_part", next_part},
        {"level_leaves", level_leaves},
        {"level_parents", level_parents},
        {"codeword_block", codeword_block},
        {"codeword_half", codeword_half},
        {"fold_part", fold_part},
        {"tree_leaves", tree_leaves},
        {"tree_parents", tree_parents},
        {"open", open},
        {"root_of_path", root},
        {"build_query", build_query},
        {"check_query", check_query},
        {"build_tail", build_tail},
        {"check_tail", check_tail},
        {"compare", compare},
        {"partial_evals", partial_evals},
        {"fold_partials", fold_partials},
        {"materialize", materialize},
        {"eval_at", eval_at},
        {"sizes, parameters and blocks", small_answers},
        {"import_blocks", import_blocks},
        {"export_blocks", export_blocks},
        {"ghash", ghash},
    };
    static const function empty = {"nothing", nothing};
    enum { COUNT = sizeof functions / sizeof *functions };
    static size_t most[COUNT];
    size_t thread = used(&empty);
    for (uint32_t widths = DEQUMLO_WIDTHS_PRESENT; widths <= DEQUMLO_WIDTHS_WIDE; widths++) {
        s = sealed_under(key_of(1), widths, 8, 2, 100, 1);
        for (size_t i = 0; i < COUNT; i++) {
            size_t whole = used(&functions[i]), own = whole > thread ? whole - thread : 0;
            if (own > most[i]) most[i] = own;
        }
        unsealed(&s);
    }
    printf("stack, in bytes:");
    for (size_t i = 0; i < COUNT; i++) printf(" %s %zu%s", functions[i].name, most[i], i + 1 < COUNT ? "," : "\n");
    for (size_t i = 0; i < COUNT; i++) MUST(most[i] <= (strncmp(functions[i].name, "check_", 6) == 0 ? MOST_OF_A_CHECK : MOST));
    return 0;
}
