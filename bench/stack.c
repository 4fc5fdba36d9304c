/* How much stack building a tree takes: each case runs on a thread whose stack was filled with a pattern, and what is overwritten counts,
   less what a thread that calls nothing overwrites. Prints a line a case; fails where it is 16 KiB or more. */
#include <pthread.h>
#include <stdint.h>
#include <stdio.h>
#include <stdlib.h>
#include <string.h>

uint32_t dequmlo_test_build(const uint8_t *domain, size_t domain_length, size_t count, size_t width, const uint64_t *values, size_t values_length, uint8_t *tree, size_t tree_length);

enum { SIZE = 1 << 20, PATTERN = 0xA5, MOST = 1 << 14 };

typedef struct {
    const char *what;
    size_t count, width, domain_length;
    uint64_t *values;
    uint8_t *tree;
    uint32_t number;
} job;

static const uint8_t domain[255];

static size_t tree_length(const job *j) {
    return 32 * (2 * (j->count / j->width) - 1);
}

static void *build(void *argument) {
    job *j = argument;
    if (j) j->number = dequmlo_test_build(domain, j->domain_length, j->count, j->width, j->values, 2 * j->count, j->tree, tree_length(j));
    return NULL;
}

static size_t used(job *j) {
    pthread_attr_t attributes;
    pthread_t thread;
    void *room;
    if (posix_memalign(&room, 4096, SIZE)) exit(2);
    memset(room, PATTERN, SIZE);
    if (pthread_attr_init(&attributes) || pthread_attr_setstack(&attributes, room, SIZE)) exit(2);
    if (pthread_create(&thread, &attributes, build, j) || pthread_join(thread, NULL)) exit(2);
    size_t untouched = 0;
    while (untouched < SIZE && ((uint8_t *)room)[untouched] == PATTERN) untouched++;
    free(room);
    return SIZE - untouched;
}

int main(void) {
    job jobs[] = {
        {.what = "by fours, width 8", .count = 1 << 16, .width = 8, .domain_length = 20},
        {.what = "by fours, width 32, longest domain", .count = 1 << 12, .width = 32, .domain_length = 255},
        {.what = "one by one, width 512, longest domain", .count = 1 << 14, .width = 512, .domain_length = 255},
        {.what = "a single group", .count = 1, .width = 1, .domain_length = 0},
    };
    size_t nothing = used(NULL);
    int failed = 0;
    for (size_t i = 0; i < sizeof jobs / sizeof *jobs; i++) {
        job *j = &jobs[i];
        j->values = calloc(2 * j->count, 8);
        j->tree = malloc(tree_length(j));
        if (!j->values || !j->tree) return 2;
        size_t bytes = used(j) - nothing;
        printf("stack of a tree, %s: %zu bytes\n", j->what, bytes);
        if (j->number != 0 || bytes >= MOST) failed = 1;
        free(j->values);
        free(j->tree);
    }
    if (failed) fputs("bench: FAILED: building a tree takes 16 KiB of stack or more, or was refused\n", stderr);
    return failed;
}
