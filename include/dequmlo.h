/* The deposit seal's library: libdequmlo.a, made by `library/archive` from proved code (docs/LINKING.md).

   Answers. A function answers 0 when the work is done and the number of the first question whose answer is no when it is refused
   (docs/REFUSALS.md lists them). A refused call changes no lent byte, and every other field of its answer is 0, but for the level of a
   refused query record.

   Memory. Nothing is allocated and nothing is kept: the caller owns every buffer and lends it for the length of the call. A lent buffer
   is a pointer and a count of elements; the pointer must be valid for that count and aligned, and may not be null even where the count
   is 0. Buffers lent to one call must not overlap, except that two that are only read may. No call takes more than 96 KiB of stack.
   Functions share no state: any number of threads may call them, each with buffers of its own.

   Words. A word is an element of GF(2^128): bit i is the coefficient of x^i, reduced by x^128 + x^7 + x^2 + x + 1. A table of words is
   lent as uint64_t halves, the low half first, so its count is twice its words. Digests are 32 bytes each. A block is a word in the order of
   NIST SP 800-38D (GCM): 16 bytes, of which the leftmost bit of the first is the coefficient of x^0.

   Sizes. n is from 0 to 20 and k from 0 to 4; for records and comparing n is from 1. A length that is not the one named at a function is
   refused with 5; that of the list which `dequmlo_fold` takes, with 36.

   Widths. A level's tree has one leaf for each group of consecutive words. How many words a group has depends on the level's length and on the
   set of widths, of which there are two: `DEQUMLO_WIDTHS_PRESENT` and `DEQUMLO_WIDTHS_WIDE`. A seal has one set throughout: it is committed, folded,
   shown, checked and compared under the same. Every function whose answer depends on it takes it as `widths`, right before n. A number that
   is neither is refused with 4 before every other question.

   Keys. A tree's digests are made in BLAKE3's hash mode, or under a key of 32 bytes in its keyed mode: then nobody without the key can make its root or
   check anything against it. A seal has one key throughout, or none: it is committed, folded, checked and compared under the same. Every function that
   makes or checks digests of a tree takes it by value, as `key`, its first parameter; records are built without it. A key is never refused: under another
   one, or none, a sound query record is refused with 18 at level 0 and a tail record with 30, as those that do not lead to the root. Gammas, codewords,
   levels and the words that a record shows are the same under every key. */
#ifndef DEQUMLO_H
#define DEQUMLO_H

#include <stddef.h>
#include <stdint.h>

/* The version of this header, which is that of the archive beside it. */
#define DEQUMLO_VERSION_MAJOR 0
#define DEQUMLO_VERSION_MINOR 10
#define DEQUMLO_VERSION_PATCH 0
#define DEQUMLO_VERSION "0.10.0"

/* The sets of widths. The present one has groups of 8 words in levels of 16 words or more, the wide one groups of 32 in levels of 64 or more. Shorter
   levels have groups of 2 words under either, and a level of one word has one. Seals that were made before version 0.6.0 have the present set. */
#define DEQUMLO_WIDTHS_PRESENT 0
#define DEQUMLO_WIDTHS_WIDE 1

/* How many bytes each of the two messages of `dequmlo_compare` is given, under either set. The longest has 818. */
#define DEQUMLO_MESSAGE_BUFFER 1024

#ifdef __cplusplus
extern "C" {
#endif

typedef struct {
    uint64_t lo;
    uint64_t hi;
} dequmlo_word;

/* What a set of widths, n and k fix; all 0 where the number is not 0. In words: the table, the gammas, the codeword, all levels end to end, the room for a fold
   that `dequmlo_fold_levels` takes, and the last level. In bytes: level 0's tree, all levels' trees end to end, the roots of all levels, the last
   level's tree, a query record and a tail record. */
typedef struct {
    uint32_t number;
    size_t table;
    size_t gammas;
    size_t codeword;
    size_t tree;
    size_t levels;
    size_t trees;
    size_t half;
    size_t roots;
    size_t last_level;
    size_t last_tree;
    size_t query;
    size_t tail;
} dequmlo_seal_sizes;

/* A key of trees, by value. `keyed` is 0 for none, and then the bytes count for nothing; every other number says that the 32 bytes are the key. */
typedef struct {
    uint32_t keyed;
    uint8_t bytes[32];
} dequmlo_key;

/* A digest; zeros where the number is not 0. */
typedef struct {
    uint32_t number;
    uint8_t bytes[32];
} dequmlo_digested;

/* A length; 0 where the number is not 0. */
typedef struct {
    uint32_t number;
    size_t length;
} dequmlo_domain_length;

/* The n of a folded codeword; 0 where the number is not 0. */
typedef struct {
    uint32_t number;
    size_t n;
} dequmlo_folded;

/* The answer to a query record, and the level for 16 to 26. */
typedef struct {
    uint32_t number;
    uint32_t level;
} dequmlo_checked;

/* The lengths of two messages; 0 and 0 where the number is not 0. */
typedef struct {
    uint32_t number;
    size_t first;
    size_t second;
} dequmlo_compared;

/* A word; 0 where the number is not 0. */
typedef struct {
    uint32_t number;
    dequmlo_word word;
} dequmlo_answered;

/* A block by value: its 16 bytes in their order. The halves are the same bytes, and are there so that a block is aligned as it travels. */
typedef union {
    uint8_t bytes[16];
    uint64_t halves[2];
} dequmlo_block;

/* A block; zeros where the number is not 0. */
typedef struct {
    uint32_t number;
    dequmlo_block block;
} dequmlo_hashed;

/* The 128 row coefficients, which travel by value. */
typedef struct {
    dequmlo_word words[128];
} dequmlo_coefficients;

/* k, how many queries, and the base domain: the first `length` bytes of `domain`, zeros after them. */
typedef struct {
    size_t k;
    size_t queries;
    uint8_t domain[24];
    size_t length;
} dequmlo_parameters;

/* ---- sizes */

/* The sizes of a seal's buffers. Refuses: 4 where the number is no set of widths, n is not from 1 to 20 or k is above 4. */
dequmlo_seal_sizes dequmlo_sizes(uint32_t widths, size_t n, size_t k);

/* ---- hash */

/* The BLAKE3 digest of the input. Refuses: 13 for more than 2^24 bytes. */
dequmlo_digested dequmlo_digest(const uint8_t *input, size_t input_length);

/* The BLAKE3 digest of the input in keyed mode. Refuses: 5 (the key is not 32 bytes), 13 (more than 2^24 bytes of input). */
dequmlo_digested dequmlo_keyed_digest(const uint8_t *key, size_t key_length, const uint8_t *input, size_t input_length);

/* The key of 32 bytes that BLAKE3's key derivation mode gives for a context and key material. The context is a text of the program's own that says what
   the key is for; the material is the secret. Refuses: 13 (more than 2^24 bytes of the context, then of the material). */
dequmlo_digested dequmlo_derive_key(const uint8_t *context, size_t context_length, const uint8_t *material, size_t material_length);

/* ---- committing and folding */

/* Commits a table of 2^n words under a base domain of at most 200 bytes: writes the k * n gammas (2 * k * n halves), the codeword of
   2^(n+k) words (level 0), the list of its n coordinates, which is 0 to n - 1, and level 0's tree, whose last digest is the root. The tree has
   2 * groups - 1 digests, where groups is 2^(n+k) / dequmlo_fold_tree_width(widths, 2^(n+k)). n = 0 passes.
   Refuses: 4 (widths, n, k), 5 (a length; that of the list is n), 7 (the base domain). */
uint32_t dequmlo_commit(dequmlo_key key, uint32_t widths, size_t n, size_t k, const uint8_t *base, size_t base_length,
                        const uint64_t *table, size_t table_length, uint64_t *gammas, size_t gammas_length, uint64_t *codeword,
                        size_t codeword_length, size_t *coordinates, size_t coordinates_length, uint8_t *tree, size_t tree_length);

/* Folds a codeword in use at a variable by r into a buffer of half its words: a + r * (a + b) for each pair of places that differ in bit
   `var`. Answers the new n, which is n - 1. Level l + 1 of a seal is level l folded at variable 0 by challenge l.
   - n, k: those of the codeword, which has 2^(n+k) words. original: the n of the commitment.
   - coordinates: the original coordinates that are not folded away yet: n numbers below `original`, rising. `dequmlo_commit` writes the list of a
     committed codeword. The entry of `var` is dropped: those behind it move down by one and the last becomes 0, so that the new list is the first
     n - 1.
   Where n, k, `original`, the list and the codeword are kept, folding may go on from them another day. What the words are is proved: block eps is
   block eps of the encoding, under the coordinates that are left, of the table folded at the same variables, each challenge replaced by its sum
   with the coordinate of L(eps) that it folds away (docs/SPECIFICATION.md, 6.5).
   Refuses, in this order: 4 (n, k, original), 5 (the codeword or `out`), 36 (the list does not hold exactly n strictly rising numbers below
   `original`, its length included), 6 (var is not below n). */
dequmlo_folded dequmlo_fold(size_t n, size_t k, size_t original, size_t var, dequmlo_word r, size_t *coordinates, size_t coordinates_length,
                            const uint64_t *codeword, size_t codeword_length, uint64_t *out, size_t out_length);

/* All levels of a committed codeword by the checker's challenges, their trees and their roots: all that records are built from.
   - widths, n, k, base: those of the commitment; n is from 1.
   - challenges: n words; level l + 1 is level l folded at variable 0 by challenge l.
   - levels: 2^k * (2^(n+1) - 1) words. The codeword stands at the front, as level 0; levels 1 to n are written behind it, end to end.
   - half: 2^(n+k-1) words, room for a fold, left with zeros.
   - trees: the trees of levels 0 to n, end to end, each as `dequmlo_level_tree` builds it.
   - roots: n + 1 digests, the last of each tree, level 0's first.
   `dequmlo_sizes` has each size. The last level and its tree stand at the ends of `levels` and `trees`.
   Refuses: 4 (widths, n is not from 1 to 20, or k), 5 (a length), 7 (the base domain). */
uint32_t dequmlo_fold_levels(dequmlo_key key, uint32_t widths, size_t n, size_t k, const uint8_t *base, size_t base_length,
                             const uint64_t *challenges, size_t challenges_length, uint64_t *levels, size_t levels_length, uint64_t *half,
                             size_t half_length, uint8_t *trees, size_t trees_length, uint8_t *roots, size_t roots_length);

/* ---- trees */

/* The width of the groups of a level of this many values: under the present set 8 from 16 values on, under the wide one 32 from 64 on; else 2 from 2
   values on, else 1. 0 where the number is no set of widths. */
size_t dequmlo_fold_tree_width(uint32_t widths, size_t length);

/* The tree over `count` words in groups of `width`, under a domain: leaves first, then each level of parents, 2 * (count / width) - 1
   digests; the last is the root. `dequmlo_level_tree` builds the tree of a level of a seal.
   Refuses: 7 (a domain of more than 255 bytes), 8 (count), 9 (width), 10 (width does not divide count), 5 (a length). */
uint32_t dequmlo_tree(dequmlo_key key, const uint8_t *domain, size_t domain_length, size_t count, size_t width, const uint64_t *values,
                      size_t values_length, uint8_t *tree, size_t tree_length);

/* The path of the group that holds the value at a place, off a tree: log2(count / width) digests, the leaf's neighbour first.
   Refuses: 8, 9, 10 as above, 11 (the place is not below count), 5 (a length). */
uint32_t dequmlo_open(size_t count, size_t width, size_t place, const uint8_t *tree, size_t tree_length, uint8_t *path, size_t path_length);

/* The root that the `width` words of the group of a place and a path lead to.
   Refuses: 7, 8, 9, 10, 11 as above, 12 (the path is not log2(count / width) digests), 5 (the group is not `width` words). */
dequmlo_digested dequmlo_root_of_path(dequmlo_key key, const uint8_t *domain, size_t domain_length, size_t count, size_t width,
                                      size_t place, const uint64_t *values, size_t values_length, const uint8_t *path,
                                      size_t path_length);

/* How long the domain of a level is: the base domain, of at most 200 bytes, "/level/" and the level, from 0 to 20, in decimal.
   Refuses: 4 (the level is above 20), 7 (the base domain). */
dequmlo_domain_length dequmlo_level_domain_length(const uint8_t *base, size_t base_length, size_t level);

/* That domain, into a buffer of its length. Refuses: 4 (the level is above 20), 5 (`out` has another length), 7 (the base domain). */
uint32_t dequmlo_level_domain(const uint8_t *base, size_t base_length, size_t level, uint8_t *out, size_t out_length);

/* The tree of a level of a seal, at the level's width under the level's domain.
   - widths, n, k, base: those of the commitment; n is from 1. level: from 0 to n.
   - values: the level's 2^(n+k-level) words.
   - tree: 2 * groups - 1 digests, leaves first, where groups is the level's words divided by their `dequmlo_fold_tree_width`; the last is the root.
   Refuses: 4 (widths, n is not from 1 to 20, k, or level is above n), 5 (a length), 7 (the base domain). */
uint32_t dequmlo_level_tree(dequmlo_key key, uint32_t widths, size_t n, size_t k, size_t level, const uint8_t *base, size_t base_length,
                            const uint64_t *values, size_t values_length, uint8_t *tree, size_t tree_length);

/* ---- parts, for callers that divide the work over threads: each call writes a part of what another function writes whole, into a buffer of its
   own, and takes at most 96 KiB of stack. Consecutive parts, end to end, are the whole, however it is divided (docs/LINKING.md). */

/* The gammas of a base domain, by which the blocks are made: k * n words, gamma (j, i) at j * n + i. `dequmlo_commit` makes the same.
   Refuses: 4 (n, k), 5 (a length), 7 (a base domain of more than 200 bytes). */
uint32_t dequmlo_gammas(size_t n, size_t k, const uint8_t *base, size_t base_length, uint64_t *gammas, size_t gammas_length);

/* Block eps of the codeword of a table: words eps * 2^n to eps * 2^n + 2^n - 1 of the codeword that `dequmlo_commit` makes by these gammas.
   - table: 2^n words. gammas: k * n words. out: 2^n words.
   Refuses: 4 (n, k), 5 (a length), 11 (eps is not below 2^k). */
uint32_t dequmlo_codeword_block(size_t n, size_t k, size_t eps, const uint64_t *table, size_t table_length, const uint64_t *gammas,
                                size_t gammas_length, uint64_t *out, size_t out_length);

/* Half a block of the codeword of a table: words half * 2^(n-1) to half * 2^(n-1) + 2^(n-1) - 1 of the codeword, so that block eps has the halves
   2 * eps and 2 * eps + 1. The halves of block 0 are copies and cost nothing; each other one costs half a block and a fold.
   - table: 2^n words. gammas: k * n words. out: 2^(n-1) words.
   Refuses: 4 (n is not from 1 to 20, k), 5 (a length), 11 (half is not below 2^(k+1)). */
uint32_t dequmlo_codeword_half(size_t n, size_t k, size_t half, const uint64_t *table, size_t table_length, const uint64_t *gammas,
                               size_t gammas_length, uint64_t *out, size_t out_length);

/* Entries of a fold, from entry `first` on, as many as `out` has words: a part of what `dequmlo_fold` makes. It takes
   no list: whoever folds in parts drops the entry of `var` from it when all parts are made.
   - codeword: all 2^(n+k) words. out: any number of words.
   Refuses: 4 (n, k), 5 (a length), 6 (var is not below n), 11 (the entries do not end within the fold). */
uint32_t dequmlo_fold_part(size_t n, size_t k, size_t var, dequmlo_word r, size_t first, const uint64_t *codeword, size_t codeword_length,
                           uint64_t *out, size_t out_length);

/* Leaves of a tree, from group `first` on, as many as `out` has digests: a part of the first count / width digests that `dequmlo_tree` makes.
   - values: all `count` words. out: any number of digests.
   Refuses: 7, 8, 9, 10 as for a tree, 11 (the groups do not end within the tree's), 5 (a length). */
uint32_t dequmlo_tree_leaves(dequmlo_key key, const uint8_t *domain, size_t domain_length, size_t count, size_t width, size_t first,
                             const uint64_t *values, size_t values_length, uint8_t *out, size_t out_length);

/* The parents of digests of one level of a tree, two by two: a part of the level above. The parents of the leaves are level 0.
   - children: any even number of digests. out: half as many.
   Refuses: 5 (a length), 7 (a domain of more than 255 bytes). */
uint32_t dequmlo_tree_parents(dequmlo_key key, const uint8_t *domain, size_t domain_length, size_t level, const uint8_t *children,
                              size_t children_length, uint8_t *out, size_t out_length);

/* Entries of level `level` + 1, from entry `first` on, as many as `out` has words: level `level` folded at variable 0 by its challenge.
   - n, k: those of the commitment; n is from 1. level: below n.
   - values: all 2^(n+k-level) words of level `level`. out: any number of words.
   Refuses: 4 (n is not from 1 to 20, k, or level is not below n), 5 (a length), 11 (the entries do not end within the next level). */
uint32_t dequmlo_next_part(size_t n, size_t k, size_t level, dequmlo_word r, size_t first, const uint64_t *values, size_t values_length,
                           uint64_t *out, size_t out_length);

/* Leaves of a level's tree, from group `first` on, as many as `out` has digests, at the level's width under the level's domain: a part of the
   leaves that `dequmlo_level_tree` makes.
   - widths, n, k, base: those of the commitment; n is from 1. level: from 0 to n. values: all words of the level. out: any number of digests.
   Refuses: 4 (widths, n is not from 1 to 20, k, or level is above n), 5 (a length), 7 (the base domain), 11 (the groups do not end within the
   level's). */
uint32_t dequmlo_level_leaves(dequmlo_key key, uint32_t widths, size_t n, size_t k, size_t level, const uint8_t *base, size_t base_length,
                              size_t first, const uint64_t *values, size_t values_length, uint8_t *out, size_t out_length);

/* The parents of digests of one height of a level's tree, two by two; those of the leaves are at height 0. They are the same under either set.
   - children: any even number of digests. out: half as many.
   Refuses: 4 (n is not from 1 to 20, k, or level is above n), 5 (a length), 7 (the base domain). */
uint32_t dequmlo_level_parents(dequmlo_key key, size_t n, size_t k, size_t level, const uint8_t *base, size_t base_length, size_t height,
                               const uint8_t *children, size_t children_length, uint8_t *out, size_t out_length);

/* ---- records. Challenges are n words, roots are n + 1 digests, level 0's first. */

/* Builds the query record at a position from all levels and their trees, each end to end, level 0 first: 2^k * (2^(n+1) - 1) words, and
   2 * groups - 1 digests a level. `dequmlo_sizes` has the record's size.
   Refuses: 4 (widths, n, k), 5 (a length), 11 (the position is not below 2^(n+k)). */
uint32_t dequmlo_build_query(uint8_t *out, size_t out_length, const uint64_t *levels, size_t levels_length, const uint8_t *trees,
                             size_t trees_length, uint32_t widths, size_t n, size_t k, size_t position);

/* Checks a query record: 0 is accepted. The record may have any bytes and any length.
   Refuses: 4 (widths, n, k), 5 (challenges or roots), 7 (a base domain of more than 200 bytes), 11 (the position), 14 (it does not read whole),
   15 (it has not n levels), and 16 to 26 with the level; 20 is retired (docs/REFUSALS.md). */
dequmlo_checked dequmlo_check_query(dequmlo_key key, const uint8_t *base, size_t base_length, uint32_t widths, size_t n, size_t k,
                                    size_t position, const uint64_t *challenges, size_t challenges_length, const uint8_t *roots,
                                    size_t roots_length, const uint8_t *record, size_t record_length);

/* Builds the tail record from the last level, 2^k words, and its tree. The record's size is fixed by k: 28, 44, 148, 420 bytes for k from 0 to 3, and
   for k = 4 under the present set 340 bytes, under the wide one 1,092. Refuses: 4 (widths, n, k), 5 (a length). */
uint32_t dequmlo_build_tail(uint8_t *out, size_t out_length, const uint64_t *level, size_t level_length, const uint8_t *tree,
                            size_t tree_length, uint32_t widths, size_t n, size_t k);

/* Checks a tail record under the last level's root against the terminal claim: 0 is accepted. The record may have any bytes and any
   length. Refuses: 4 (widths, n, k), 5 (the root is not 32 bytes), 7 (the base domain), 14 (it does not read whole), 27 (group count), 28 (a
   group's width), 29 (a path's length), 30 (the root), 31 (the first value is not the claim). */
uint32_t dequmlo_check_tail(dequmlo_key key, const uint8_t *base, size_t base_length, uint32_t widths, size_t n, size_t k,
                            const uint8_t *root, size_t root_length, dequmlo_word claim, const uint8_t *record, size_t record_length);

/* Compares two records that are both accepted for one position: 33 where they are the same bytes; else 0, and two messages that differ
   and have one digest under the key, each in a buffer of `DEQUMLO_MESSAGE_BUFFER` bytes with zeros after it, and their lengths.
   Refuses: 4 (widths, n, k), 5 (challenges, roots or a message buffer), 7 (the base domain), 11 (the position), 32 (a record is not accepted),
   33 (they are the same). */
dequmlo_compared dequmlo_compare(dequmlo_key key, const uint8_t *base, size_t base_length, uint32_t widths, size_t n, size_t k,
                                 size_t position, const uint64_t *challenges, size_t challenges_length, const uint8_t *roots,
                                 size_t roots_length, const uint8_t *first, size_t first_length, const uint8_t *second,
                                 size_t second_length, uint8_t *first_message, size_t first_message_length, uint8_t *second_message,
                                 size_t second_message_length);

/* ---- ring switching. Two identities tie these functions together; both are proved (docs/SPECIFICATION.md, 3.5). For the partials s of 2^n
   words over the equality table of a point z: the sum over b of s_b times row coefficient b of a row point of 7 coordinates is the multilinear
   extension of the words' 128 * 2^n bits at the row point followed by z; and the fold of s under any row coefficients rb is the sum over v of
   word v times entry v of the indicator's table for z and rb. */

/* The partial evaluations s_0 to s_127 over 2^n words and a table of 2^n entries: s_b is the sum of the entries of the words whose bit b
   is set. `out` takes 128 words. Refuses: 4 (n), 5 (a length). */
uint32_t dequmlo_partial_evals(size_t n, const uint64_t *packed, size_t packed_length, const uint64_t *eq, size_t eq_length, uint64_t *out,
                               size_t out_length);

/* The sum over i of rb[i] times the word whose bit j is bit i of s_j. Refuses: 5 (s is not 128 words). */
dequmlo_answered dequmlo_fold_partials(const uint64_t *s, size_t s_length, dequmlo_coefficients rb);

/* The indicator's table of 2^n words for an equality point z of n words under row coefficients. Refuses: 4 (n), 5 (a length). */
uint32_t dequmlo_materialize(size_t n, const uint64_t *z, size_t z_length, dequmlo_coefficients rb, uint64_t *out, size_t out_length);

/* The multilinear extension of that table at a point of n words; no table is filled. Refuses: 4 (n), 5 (a length). */
dequmlo_answered dequmlo_eval_at(size_t n, const uint64_t *z, size_t z_length, dequmlo_coefficients rb, const uint64_t *point,
                                 size_t point_length);

/* ---- blocks of NIST SP 800-38D (GCM), for words that are kept or hashed in that order */

/* The word of a block: coefficient i of the word is bit i of the block, counted from the left. Refuses nothing. */
dequmlo_word dequmlo_import_block(dequmlo_block block);

/* The block of a word: `dequmlo_import_block` gives the word back. Refuses nothing. */
dequmlo_block dequmlo_export_block(dequmlo_word word);

/* The words of a run of blocks.
   - blocks: 16 bytes each, any number of them, none included. out: as many words.
   Refuses: 5 (not whole blocks, or another number of words). */
uint32_t dequmlo_import_blocks(const uint8_t *blocks, size_t blocks_length, uint64_t *out, size_t out_length);

/* The blocks of a run of words.
   - words: any number, none included. out: 16 bytes for each.
   Refuses: 5 (half a word, or another number of bytes). */
uint32_t dequmlo_export_blocks(const uint64_t *words, size_t words_length, uint8_t *out, size_t out_length);

/* GHASH of a run of blocks by a hash key: from zero on, the next block is added and the sum is multiplied by the key, block after block. Of
   no block it is zeros. Products look up tables by data, so its time may show something of the key and the blocks.
   - blocks: 16 bytes each, any number of them, none included. Nothing is filled up, and no lengths are put behind them: what GCM hashes ends
     with a block of lengths, which the caller writes.
   Refuses: 5 (not whole blocks). */
dequmlo_hashed dequmlo_ghash(dequmlo_block key, const uint8_t *blocks, size_t blocks_length);

/* ---- parameters of the profiles, and of seals that name none. These refuse nothing. */

dequmlo_parameters dequmlo_default_parameters(void); /* k 2, 40 queries, "magnetar/pcs/default": for a seal that is written with no profile named */
dequmlo_parameters dequmlo_fastchunk(void);          /* k 1, 40 queries, "magnetar/pcs/fastchunk" */
dequmlo_parameters dequmlo_balanced(void);           /* k 2, 40 queries, "magnetar/pcs/balanced" */
dequmlo_parameters dequmlo_compactwrap(void);        /* k 3, 20 queries, "magnetar/pcs/compactwrap" */
dequmlo_parameters dequmlo_deepwrap(void);           /* k 4, 14 queries, "magnetar/pcs/deepwrap" */
dequmlo_parameters dequmlo_firstdefault(void);       /* k 1, 40 queries, "magnetar/pcs/default": the default before version 0.4.0 */

/* Under which parameters a seal is checked that names no profile, nor k and a base domain: `dequmlo_firstdefault`'s where it was made before
   version 0.4.0, which `older` says (0 is no, every other number is yes), else `dequmlo_default_parameters`'. A seal that names a profile is
   checked under that profile's, however old it is. */
dequmlo_parameters dequmlo_unnamed_parameters(uint32_t older);

#ifdef __cplusplus
}
#endif

#endif
