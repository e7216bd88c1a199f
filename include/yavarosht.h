/* Yavarosht: a proved collector for finite p-groups, as a C library.
 *
 * A presentation has a prime p and generators x_1 .. x_n, with x_i^p = w_i and x_j x_i = x_i x_j w_ij for i < j. It is an array of
 * 16-bit numbers that stays yours: p, n, the contents, the bodies. Nothing is copied out of it or kept, and there is no handle: every
 * call is given the array again and judges it afresh.
 *
 *     contents   n(n + 1)/2 entries of two numbers, start and length, both counted in pairs, the start from the first body; in the
 *                order w_1 .. w_n, then for i = 1 .. n and within it j = i + 1 .. n the word w_ij. Each start is the sum of all
 *                earlier lengths.
 *     bodies     pairs generator, exponent; generators strictly increasing, in w_i above i and in w_ij above j; exponents 1 to p - 1
 *
 * A vector is n bytes, (a_1, .., a_n) for x_1^a_1 .. x_n^a_n, each entry from 0 to p - 1; all 0 is the identity. A word is pairs of
 * 16-bit numbers, generator 1 to n, exponent 1 to 65,535, at most 4,096 pairs; it may be empty.
 *
 * budget     how many replacements a call may make.
 * work       scratch space of yours, whatever stands in it. Its room is worklen / 3 slots, rounded down; 3 * 8192 numbers are ample for
 *            most groups. A call that needs more says YAV_ROOM and can be made again with more.
 *
 * What every call that returns one of the numbers below does (for yav_check see there):
 *
 *     YAV_DONE                 the result is in its place; every number of work is 0
 *     YAV_BUDGET, YAV_ROOM     every vector is as before; every number of work is 0; *count is the count before the refused step
 *     any other                every vector and work are as before; *count (or *depth, *start) is 0
 *
 * The numbers are tested in their order, the first that applies is returned; the left vector is judged before the right one.
 * What a call stores (*count, *depth, *start, *overlap, and left and right of yav_check) is always stored, refused or not.
 *
 * What C owes, since no proof can ask it of a C caller: each pointer with a length points to that many elements, aligned for their
 * type, that stay alive and are not changed by others during the call; each pointer to a single uint32_t or yav_overlap points to one,
 * and left and right of yav_check to YAV_RANK_MOST bytes each. What a call writes (a pointer that is not const) overlaps nothing else
 * that is passed in that call. In particular a product needs two separate vectors, also for a square. A null pointer with length 0 is
 * an empty array; a null pointer is nowhere else allowed. Calls keep no state and allocate nothing, so threads may call at the same
 * time on separate buffers. */
#ifndef YAVAROSHT_H
#define YAVAROSHT_H

#include <stddef.h>
#include <stdint.h>

#ifdef __cplusplus
extern "C" {
#endif

/* The numbers given back. */
enum {
    YAV_DONE = 0,     /* accepted */
    YAV_SHORT = 1,    /* the presentation has fewer than 2 numbers */
    YAV_PRIME = 2,    /* p isn't a prime from 2 to 251 */
    YAV_RANK = 3,     /* n isn't 1 to 40 */
    YAV_CONTENTS = 4, /* the contents don't fit into the presentation, or a start is wrong */
    YAV_LENGTH = 5,   /* the presentation is longer or shorter than its contents say */
    YAV_BODY = 6,     /* a generator too low for its relation, above n or not increasing; an exponent 0 or at least p */
    YAV_VECTOR = 7,   /* a vector's length is not n, or an entry is at least p */
    YAV_WORD = 8,     /* a word has odd length, over 4,096 pairs, generator 0 or above n, or exponent 0 */
    YAV_BUDGET = 9,   /* the next step would bring the count above the budget */
    YAV_ROOM = 10     /* the workspace is too small */
};

/* What yav_check returns besides YAV_SHORT to YAV_BODY, YAV_BUDGET and YAV_ROOM. */
enum {
    YAV_PASS = 0,    /* every overlap agrees: the presentation is consistent */
    YAV_DIFFERS = 11 /* an overlap's two sides collect to different vectors: it is not */
};

/* Limits, for arrays of a fixed size. */
enum {
    YAV_RANK_MOST = 40,      /* the largest n, so the longest vector */
    YAV_NUMBERS_MOST = 22962 /* the numbers of the largest presentation */
};

/* Judges a presentation of len numbers. Returns YAV_DONE, or YAV_SHORT to YAV_BODY. Nothing is changed. */
uint8_t yav_judge(const uint16_t *numbers, size_t len);

/* Finds the word of a relation: w_i where i = j, w_ij where i < j. Returns what yav_judge returns.
 * *start    the index in numbers at which the word begins
 * *count    how many numbers it has, two for each pair: the word is numbers[*start] .. numbers[*start + *count - 1]. An empty word has
 *           count 0.
 * For a presentation that isn't accepted, and for a pair that names no relation (i < 1, i > j, j > n), both are 0. */
uint8_t yav_fetch(const uint16_t *numbers, size_t len, uint16_t i, uint16_t j, uint32_t *start, uint32_t *count);

/* Multiplies the element of a vector by a word from the right. wlen is the word's length in numbers, two for each pair.
 * Returns any of the numbers.
 * vector    after YAV_DONE the vector of the product; otherwise as before
 * word      only read
 * work      all 0 after YAV_DONE, YAV_BUDGET and YAV_ROOM; otherwise as before
 * *count    the replacements made: all of them after YAV_DONE, those before the refused step after YAV_BUDGET and YAV_ROOM; otherwise 0 */
uint8_t yav_collect(const uint16_t *numbers, size_t len, uint8_t *vector, size_t vlen, const uint16_t *word, size_t wlen,
                    uint32_t budget, uint16_t *work, size_t worklen, uint32_t *count);

/* Multiplies two elements. Returns any of the numbers but YAV_WORD.
 * left      after YAV_DONE the vector of left times right; otherwise as before
 * right     only read
 * work, *count    as for yav_collect */
uint8_t yav_product(const uint16_t *numbers, size_t len, uint8_t *left, size_t llen, const uint8_t *right, size_t rlen, uint32_t budget,
                    uint16_t *work, size_t worklen, uint32_t *count);

/* Inverts an element. Returns any of the numbers but YAV_WORD.
 * vector    after YAV_DONE the vector of the inverse; otherwise as before
 * work, *count    as for yav_collect; budget and count run over the whole call */
uint8_t yav_inverse(const uint16_t *numbers, size_t len, uint8_t *vector, size_t vlen, uint32_t budget, uint16_t *work, size_t worklen,
                    uint32_t *count);

/* The depth of an element: the number of its vector's first entry that isn't 0; n for the identity.
 * Returns YAV_DONE to YAV_VECTOR. The vector is only read.
 * *depth    1 to n after YAV_DONE; otherwise 0 */
uint8_t yav_depth(const uint16_t *numbers, size_t len, const uint8_t *vector, size_t vlen, uint32_t *depth);

/* An overlap of relations: two ways to collect one word. family is 1 to 4, and i, j, k are the generators that it has, 0 for the others:
 *     1    i < j < k    x_j x_k w_jk x_i            against    x_k x_i x_j w_ij
 *     2    i < j        w_j x_i                     against    x_j^(p-1) x_i x_j w_ij
 *     3    i < j        x_i x_j w_ij x_i^(p-1)      against    x_j w_i
 *     4    i            w_i x_i                     against    x_i w_i
 * No overlap is all 0. */
typedef struct {
    uint16_t family, i, j, k;
} yav_overlap;

/* Checks that a presentation is consistent: that words which its relations make equal collect to the same vector, so that products are
 * associative. Both sides of every overlap are collected from the identity, each with the whole budget and the whole of work afresh:
 * family 1 first, within a family i slowest, then j, then k, each rising. The first overlap whose sides differ, or of which a side is
 * refused, ends the check.
 * Returns YAV_PASS, YAV_DIFFERS, or the number of the refusal: YAV_SHORT to YAV_BODY, YAV_BUDGET or YAV_ROOM.
 * *overlap       after YAV_DIFFERS, YAV_BUDGET and YAV_ROOM the overlap that ended the check; otherwise all 0
 * left, right    YAV_RANK_MOST bytes each, whatever n is: after YAV_DIFFERS the vectors of the overlap's two sides in the first n bytes,
 *                and 0 past them; otherwise all 0
 * work           all 0 after YAV_PASS, YAV_DIFFERS, YAV_BUDGET and YAV_ROOM; otherwise as before */
uint8_t yav_check(const uint16_t *numbers, size_t len, uint32_t budget, uint16_t *work, size_t worklen, yav_overlap *overlap,
                  uint8_t left[YAV_RANK_MOST], uint8_t right[YAV_RANK_MOST]);

#ifdef __cplusplus
}
#endif

#endif
