/* Damaged query and tail records against their checks, and comparing; and folds with damaged lists of coordinates. A record that differs from the built
   one may not be accepted: that would be a collision of the hash. The run is bounded and the same for the same seed.

     fuzz [SEED [ROUNDS]] */
#include "lent.h"

static uint64_t state;
static size_t answers[37];

static size_t below(size_t n) { return (size_t)(drawn(&state) % n); }

/* One element more or less of the run at `at`, a count and its elements, with the count to match. The new size. */
static size_t resized(uint8_t *bytes, size_t size, size_t at, size_t element) {
    uint32_t count;
    memcpy(&count, bytes + at, 4);
    uint8_t *end = bytes + at + 4 + count * element;
    size_t after = size - (size_t)(end - bytes);
    if (count == 0 || below(2) == 0) {
        memmove(end + element, end, after);
        for (size_t i = 0; i < element; i++) end[i] = (uint8_t)drawn(&state);
        count++, size += element;
    } else {
        memmove(end - element, end, after);
        count--, size -= element;
    }
    memcpy(bytes + at, &count, 4);
    return size;
}

/* Past the run at `at`. */
static size_t past(const uint8_t *bytes, size_t at, size_t element) {
    uint32_t count;
    memcpy(&count, bytes + at, 4);
    return at + 4 + count * element;
}

/* A sound query record with a run of some level resized, or with its last level left out. */
static size_t reshaped_query(uint8_t *bytes, size_t size, size_t n) {
    static const size_t elements[4] = {16, 16, 32, 32};
    size_t level = below(n + 1), run = below(4), at = 4, last = 4;
    for (size_t l = 0; l < n; l++) {
        last = at;
        at += 48;
        for (size_t i = 0; i < 4; i++) {
            if (l == level && i == run) return resized(bytes, size, at, elements[i]);
            at = past(bytes, at, elements[i]);
        }
    }
    uint32_t fewer = (uint32_t)n - 1;
    memcpy(bytes, &fewer, 4);
    return last;
}

/* A sound tail record with a run of some group resized, or with its last group left out. */
static size_t reshaped_tail(uint8_t *bytes, size_t size) {
    uint32_t groups;
    memcpy(&groups, bytes, 4);
    size_t group = below(groups + 1), run = below(2), at = 4, last = 4;
    for (size_t g = 0; g < groups; g++) {
        last = at;
        if (g == group && run == 0) return resized(bytes, size, at, 16);
        at = past(bytes, at, 16);
        if (g == group) return resized(bytes, size, at, 32);
        at = past(bytes, at, 32);
    }
    groups--;
    memcpy(bytes, &groups, 4);
    return last;
}

/* Damages a copy of a record in one of several ways that know nothing of its form. The new size; at most `size` + 64. */
static size_t damage(uint8_t *bytes, size_t size) {
    switch (below(8)) {
    case 0: /* one bit */
        bytes[below(size)] ^= (uint8_t)(1u << below(8));
        return size;
    case 1: /* one byte */
        bytes[below(size)] = (uint8_t)drawn(&state);
        return size;
    case 2: /* cut */
        return below(size);
    case 3: { /* added to */
        size_t more = 1 + below(64);
        for (size_t i = 0; i < more; i++) bytes[size + i] = (uint8_t)drawn(&state);
        return size + more;
    }
    case 4: { /* a number of 4 bytes set to something large or small */
        static const uint32_t values[] = {0, 1, 2, 7, 8, 9, 0x7fffffff, 0x80000000u, 0xffffffffu, 0x10000000, 0x08000000};
        uint32_t value = values[below(sizeof values / sizeof *values)];
        size_t at = below(size - 3);
        memcpy(bytes + at, &value, 4);
        return size;
    }
    case 5: { /* two parts exchanged */
        size_t length = 1 + below(64 < size / 2 ? 64 : size / 2), a = below(size - length + 1), b = below(size - length + 1);
        uint8_t kept[64];
        memcpy(kept, bytes + a, length);
        memmove(bytes + a, bytes + b, length);
        memcpy(bytes + b, kept, length);
        return size;
    }
    case 6: { /* a part left out */
        size_t length = 1 + below(size < 64 ? size : 64), at = below(size - length + 1);
        memmove(bytes + at, bytes + at + length, size - at - length);
        return size - length;
    }
    default: /* nothing but chance */
        for (size_t i = 0; i < size; i++) bytes[i] = (uint8_t)drawn(&state);
        return size;
    }
}

static int same(const uint8_t *a, size_t m, const uint8_t *b, size_t n) { return m == n && (n == 0 || memcmp(a, b, n) == 0); }

/* Comparing the sound record with a shown one: 33 for the same, 32 for a refused one, and the message buffers stay. */
static void compared(const seal *s, const lent *shown, int is_same, side page_at) {
    enum { ROOM = DEQUMLO_MESSAGE_BUFFER };
    static const uint8_t before[ROOM] = {1, 2, 3};
    size_t n = s->n;
    lent first = lend(before, ROOM, page_at), second = lend(before, ROOM, page_at);
    dequmlo_compared c = dequmlo_compare(s->key, (const uint8_t *)s->base, strlen(s->base), s->widths, n, s->k, s->position, s->challenges, 2 * n, s->roots,
                                         32 * (n + 1), s->query, query_bytes(s->widths, n, s->k), shown->bytes, shown->size, first.bytes, ROOM,
                                         second.bytes, ROOM);
    MUST(c.number == (is_same ? 33u : 32u) && c.first == 0 && c.second == 0);
    MUST(memcmp(first.bytes, before, ROOM) == 0 && memcmp(second.bytes, before, ROOM) == 0);
    answers[c.number]++;
    take_back(&first);
    take_back(&second);
}

static void query(const seal *s, uint8_t *copy, side page_at) {
    size_t n = s->n, size = query_bytes(s->widths, n, s->k);
    memcpy(copy, s->query, size);
    size_t shown_size = below(4) == 0 ? reshaped_query(copy, size, n) : damage(copy, size);
    int is_same = same(copy, shown_size, s->query, size);
    lent shown = lend(copy, shown_size, page_at);
    dequmlo_checked c = dequmlo_check_query(s->key, (const uint8_t *)s->base, strlen(s->base), s->widths, n, s->k, s->position, s->challenges, 2 * n, s->roots,
                                            32 * (n + 1), shown.bytes, shown.size);
    MUST((c.number == 0) == is_same);
    MUST(c.number == 0 || (c.number >= 14 && c.number <= 26 && c.number != 20)); /* 20 is retired */
    MUST(c.number >= 16 ? c.level < n : c.level == 0);
    MUST(same(shown.bytes, shown.size, copy, shown_size));
    answers[c.number]++;
    compared(s, &shown, is_same, page_at);
    take_back(&shown);
}

static void tail(const seal *s, uint8_t *copy, side page_at) {
    size_t size = tail_bytes(s->widths, s->k);
    memcpy(copy, s->tail, size);
    size_t shown_size = below(4) == 0 ? reshaped_tail(copy, size) : damage(copy, size);
    lent shown = lend(copy, shown_size, page_at);
    uint32_t number = dequmlo_check_tail(s->key, (const uint8_t *)s->base, strlen(s->base), s->widths, s->n, s->k, s->roots + 32 * s->n, 32, s->claim,
                                         shown.bytes, shown.size);
    MUST((number == 0) == same(copy, shown_size, s->tail, size));
    MUST(number == 0 || number == 14 || (number >= 27 && number <= 31));
    answers[number]++;
    take_back(&shown);
}

/* ---- lists of coordinates */

enum { MOST_LISTED = 24 };

/* Some n numbers below the original n, rising. */
static void listed(size_t *list, size_t n, size_t original) {
    for (size_t x = 0, i = 0; i < n; x++)
        if (below(original - x) < n - i) list[i++] = x;
}

/* Damages a list of n numbers, or leaves it. The new count. */
static size_t damaged_list(size_t *list, size_t n, size_t original) {
    const size_t values[] = {0, 1, original - 1, original, original + 1, (size_t)-1, (size_t)1 << 63, (size_t)drawn(&state)};
    size_t value = values[below(sizeof values / sizeof *values)];
    switch (below(8)) {
    case 0: /* one number */
        if (n > 0) list[below(n)] = value;
        return n;
    case 1: { /* two exchanged, or none */
        if (n == 0) return n;
        size_t a = below(n), b = below(n), kept = list[a];
        list[a] = list[b], list[b] = kept;
        return n;
    }
    case 2: /* one twice */
        if (n > 1) list[1 + below(n - 1)] = list[below(n - 1)];
        return n;
    case 3: /* cut */
        return below(n + 1);
    case 4: /* added to */
        list[n] = value;
        return n + 1;
    case 5: /* nothing but chance */
        for (size_t i = 0; i < n; i++) list[i] = (size_t)drawn(&state);
        return n;
    default:
        return n;
    }
}

static int is_rising(const size_t *list, size_t count, size_t original) {
    for (size_t i = 0; i < count; i++)
        if (list[i] >= original || (i > 0 && list[i] <= list[i - 1])) return 0;
    return 1;
}

/* A refused fold leaves the list and the output as they were. A done one drops the variable's entry, and at variable 0 it is the next level. */
static void looked_at(uint32_t number, size_t n, size_t var, const lent *shown, const size_t *list, const lent *out, const uint64_t *before,
                      const uint64_t *next) {
    if (number != 0) {
        MUST(same(out->bytes, out->size, (const uint8_t *)before, out->size));
        MUST(same(shown->bytes, shown->size, (const uint8_t *)list, shown->size));
        return;
    }
    MUST(is_without((const size_t *)(const void *)shown->bytes, list, n, var));
    MUST(var != 0 || same(out->bytes, out->size, (const uint8_t *)next, out->size));
}

/* A level folded as a codeword in use by its challenge, at some variable or one past them. The answer is known, and so is every byte. */
static void fold(const seal *s, side page_at) {
    size_t list[MOST_LISTED], level = below(s->n + 1), n = s->n - level, original = n + below(21 - n), var = below(n + 1);
    listed(list, n, original);
    size_t count = damaged_list(list, n, original), words = level_words(n, s->k, 0);
    uint32_t expected = count != n || !is_rising(list, count, original) ? 36 : var == n ? 6 : 0;
    const uint64_t *codeword = s->levels + 2 * (levels_words(s->n, s->k) - levels_words(n, s->k)), *challenge = s->challenges + 2 * (level % s->n);
    lent shown = lend(list, count * sizeof *list, page_at), from = lend(codeword, 16 * words, page_at), out = lend(s->levels, words / 2 * 16, page_at);
    dequmlo_word r = {challenge[0], challenge[1]};
    dequmlo_folded f = dequmlo_fold(n, s->k, original, var, r, (size_t *)(void *)shown.bytes, count, (const uint64_t *)(const void *)from.bytes, 2 * words,
                                    (uint64_t *)(void *)out.bytes, out.size / 8);
    MUST(f.number == expected && f.n == (expected == 0 ? n - 1 : 0));
    MUST(same(from.bytes, from.size, (const uint8_t *)codeword, from.size));
    looked_at(f.number, n, var, &shown, list, &out, s->levels, codeword + 2 * words);
    answers[f.number]++;
    take_back(&shown), take_back(&from), take_back(&out);
}

static dequmlo_checked checked(const seal *s) {
    size_t n = s->n;
    dequmlo_checked c = dequmlo_check_query(s->key, (const uint8_t *)s->base, strlen(s->base), s->widths, n, s->k, s->position, s->challenges, 2 * n, s->roots,
                                            32 * (n + 1), s->query, query_bytes(s->widths, n, s->k));
    answers[c.number]++;
    return c;
}

/* A sound record under another challenge, another root, another key or another claim: the answer is known to the level. */
static void elsewhere(seal *s) {
    size_t n = s->n;
    MUST(checked(s).number == 0);
    for (size_t l = 0; l < n; l++) {
        uint64_t *half = &s->challenges[2 * l + below(2)], kept = *half;
        *half ^= (uint64_t)1 << below(64);
        dequmlo_checked c = checked(s);
        MUST(c.number == 26 && c.level == l);
        *half = kept;
    }
    for (size_t l = 0; l <= n; l++) {
        uint8_t *byte = &s->roots[32 * l + below(32)];
        *byte ^= 1;
        dequmlo_checked c = checked(s);
        MUST(l == 0 ? c.number == 18 && c.level == 0 : c.number == 24 && c.level == l - 1);
        *byte ^= 1;
    }
    dequmlo_key kept = s->key;
    s->key.keyed = 1, s->key.bytes[below(32)] ^= (uint8_t)(1u << below(8));
    dequmlo_checked under_another = checked(s);
    MUST(under_another.number == 18 && under_another.level == 0);
    s->key = kept;
    dequmlo_word claim = {s->claim.lo ^ 1, s->claim.hi};
    uint32_t number = dequmlo_check_tail(s->key, (const uint8_t *)s->base, strlen(s->base), s->widths, n, s->k, s->roots + 32 * n, 32, claim, s->tail,
                                         tail_bytes(s->widths, s->k));
    MUST(number == 31);
    answers[number]++;
}

int main(int count, char **words) {
    uint64_t seed = count > 1 ? strtoull(words[1], NULL, 10) : 1;
    size_t rounds = count > 2 ? strtoull(words[2], NULL, 10) : 1500;
    static const struct {
        uint32_t keyed, widths;
        size_t n, k, position;
    } shapes[] = {{0, 0, 1, 0, 1}, {0, 0, 1, 4, 31}, {0, 0, 2, 1, 5},  {0, 0, 3, 3, 40}, {0, 0, 5, 2, 77}, {0, 0, 8, 2, 1000},
                  {0, 1, 1, 4, 31}, {0, 1, 3, 3, 40}, {0, 1, 5, 2, 77}, {1, 0, 5, 2, 77}, {1, 1, 3, 3, 40}};
    for (size_t i = 0; i < sizeof shapes / sizeof *shapes; i++) {
        size_t n = shapes[i].n, k = shapes[i].k;
        seal s = sealed_under(shapes[i].keyed ? key_of(seed) : no_key(), shapes[i].widths, n, k, shapes[i].position, seed + i);
        state = seed * 1000 + i;
        elsewhere(&s);
        uint8_t *copy = (uint8_t *)room(query_bytes(s.widths, n, k) + tail_bytes(s.widths, k) + 64);
        for (size_t round = 0; round < rounds; round++) {
            query(&s, copy, round % 2 ? PAGE_AFTER : PAGE_BEFORE);
            tail(&s, copy, round % 2 ? PAGE_AFTER : PAGE_BEFORE);
            fold(&s, round % 2 ? PAGE_AFTER : PAGE_BEFORE);
        }
        free(copy);
        unsealed(&s);
    }
    printf("fuzz: seed %llu;", (unsigned long long)seed);
    for (size_t number = 0; number < sizeof answers / sizeof *answers; number++)
        if (answers[number] != 0) printf(" %zu: %zu", number, answers[number]);
    printf("\n");
    return 0;
}
