/* A plain C collector of the same rules as the proved one: same numbers given back, same count, same room.
 *
 * It is here to be held against the library: for time (what would a good C programmer's collector take?) and for answers (vector,
 * count and number agree on every call that the benchmark makes). It is not proved; it is short, and it was written from the rules
 * alone.
 *
 * Every call: `numbers` is the presentation as it is lent (p, n, contents, bodies). A refusal but BUDGET and ROOM answers count 0 and
 * touches nothing. After DONE, BUDGET and ROOM each number of the workspace is 0, and after BUDGET and ROOM the vectors are as at
 * entry and the count is the one before the refused placing. The workspace's room is worklen / 3 slots. */
#ifndef PLAIN_H
#define PLAIN_H

#include <stddef.h>
#include <stdint.h>

enum { PLAIN_RANK_MAX = 40 };

enum plain_number {
    PLAIN_DONE = 0,
    PLAIN_SHORT = 1,
    PLAIN_PRIME = 2,
    PLAIN_RANK = 3,
    PLAIN_CONTENTS = 4,
    PLAIN_LENGTH = 5,
    PLAIN_BODY = 6,
    PLAIN_VECTOR = 7,
    PLAIN_WORD = 8,
    PLAIN_BUDGET = 9,
    PLAIN_ROOM = 10
};

enum plain_outcome { PLAIN_PASS = 0, PLAIN_DIFFERS = 1, PLAIN_REFUSED = 2 };

/* What the consistency check says. Family and generators are 0 for PASS and for refusals 1 to 6, and a generator that the family does
 * not use is 0. The vectors are 0 unless the outcome is DIFFERS. `replacements` is the work done over all sides, for the benchmark. */
typedef struct {
    uint8_t outcome;
    uint8_t number;
    uint8_t family;
    uint8_t i, j, k;
    uint8_t left[PLAIN_RANK_MAX], right[PLAIN_RANK_MAX];
    uint64_t replacements;
} plain_verdict;

uint8_t plain_judge(const uint16_t *numbers, size_t len);

/* The word of (i, i) or of (i, j), i < j: where it starts in `numbers` and how many numbers it has. 0, 0 for any other pair, and where
 * the presentation is refused, whose number is given back. */
uint8_t plain_fetch(const uint16_t *numbers, size_t len, uint16_t i, uint16_t j, uint32_t *start, uint32_t *count);

uint8_t plain_collect(const uint16_t *numbers, size_t len, uint8_t *vector, size_t vlen, const uint16_t *word, size_t wlen,
                      uint32_t budget, uint16_t *work, size_t worklen, uint32_t *count);
uint8_t plain_product(const uint16_t *numbers, size_t len, uint8_t *left, size_t llen, const uint8_t *right, size_t rlen,
                      uint32_t budget, uint16_t *work, size_t worklen, uint32_t *count);
uint8_t plain_inverse(const uint16_t *numbers, size_t len, uint8_t *vector, size_t vlen, uint32_t budget, uint16_t *work,
                      size_t worklen, uint32_t *count);
uint8_t plain_depth(const uint16_t *numbers, size_t len, const uint8_t *vector, size_t vlen, uint32_t *depth);
plain_verdict plain_check(const uint16_t *numbers, size_t len, uint32_t budget, uint16_t *work, size_t worklen);

#endif
