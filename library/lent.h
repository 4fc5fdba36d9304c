/* Buffers as they are lent in the tests: one side at a page that nobody may touch, so that an access outside ends the run, and guard bytes
   on the other side, which must stay. (An address sanitizer sees only what it compiled; the page guards the archive's accesses too.) */
#ifndef LENT_H
#define LENT_H

#include "fixture.h"
#include <sys/mman.h>
#include <unistd.h>

enum { GUARD = 64, GUARD_BYTE = 0xa5 };

/* Which side of the buffer the page is on. */
typedef enum { PAGE_AFTER, PAGE_BEFORE } side;

typedef struct {
    uint8_t *mapped;
    size_t length;
    uint8_t *bytes; /* what is lent */
    size_t size;
    uint8_t *guard;
} lent;

static inline lent lend(const void *content, size_t size, side page_at) {
    size_t page = (size_t)sysconf(_SC_PAGESIZE);
    size_t inner = (size + GUARD + page - 1) / page * page;
    lent b;
    b.length = inner + page, b.size = size;
    b.mapped = (uint8_t *)mmap(NULL, b.length, PROT_READ | PROT_WRITE, MAP_PRIVATE | MAP_ANONYMOUS, -1, 0);
    MUST(b.mapped != MAP_FAILED);
    if (page_at == PAGE_AFTER) {
        b.bytes = b.mapped + inner - size;
        b.guard = b.bytes - GUARD;
        MUST(mprotect(b.mapped + inner, page, PROT_NONE) == 0);
    } else {
        b.bytes = b.mapped + page;
        b.guard = b.bytes + size;
        MUST(mprotect(b.mapped, page, PROT_NONE) == 0);
    }
    memset(b.guard, GUARD_BYTE, GUARD);
    if (size != 0) memcpy(b.bytes, content, size);
    return b;
}

static inline int guarded(const lent *b) {
    for (size_t i = 0; i < GUARD; i++)
        if (b->guard[i] != GUARD_BYTE) return 0;
    return 1;
}

static inline void take_back(lent *b) {
    MUST(guarded(b));
    MUST(munmap(b->mapped, b->length) == 0);
}

#endif
