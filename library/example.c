/* An example of linking: a table of 8 words is committed, and its root printed.

       cc example.c $(pkg-config --cflags --libs dequmlo) */
#include <dequmlo.h>
#include <stdio.h>
#include <stdlib.h>
#include <string.h>

#if DEQUMLO_VERSION_MAJOR != 0
#error "this example is for version 0"
#endif

int main(void) {
    enum { N = 3, K = 1 };
    const char *base = "example";
    dequmlo_seal_sizes sizes = dequmlo_sizes(DEQUMLO_WIDTHS_PRESENT, N, K);
    if (sizes.number != 0) return 1;

    /* A word is two halves, the low one first. */
    uint64_t *table = (uint64_t *)calloc(2 * sizes.table, sizeof *table);
    uint64_t *gammas = (uint64_t *)calloc(2 * sizes.gammas, sizeof *gammas);
    uint64_t *codeword = (uint64_t *)calloc(2 * sizes.codeword, sizeof *codeword);
    size_t coordinates[N]; /* the codeword's list, for folds one by one (dequmlo_fold) */
    uint8_t *tree = (uint8_t *)calloc(sizes.tree, 1);
    if (table == NULL || gammas == NULL || codeword == NULL || tree == NULL) return 1;
    for (size_t i = 0; i < sizes.table; i++) table[2 * i] = i;

    dequmlo_key none = {0, {0}}; /* with a key of 32 bytes nobody without it can make this root */
    uint32_t number = dequmlo_commit(none, DEQUMLO_WIDTHS_PRESENT, N, K, (const uint8_t *)base, strlen(base), table, 2 * sizes.table, gammas,
                                     2 * sizes.gammas, codeword, 2 * sizes.codeword, coordinates, N, tree, sizes.tree);
    if (number != 0) {
        fprintf(stderr, "refused: %u\n", (unsigned)number); /* docs/REFUSALS.md */
        return 1;
    }
    printf("dequmlo %s, root ", DEQUMLO_VERSION);
    for (size_t i = sizes.tree - 32; i < sizes.tree; i++) printf("%02x", tree[i]);
    printf("\n");
    free(table);
    free(gammas);
    free(codeword);
    free(tree);
    return 0;
}
