/* One face for both collectors, so that the benchmark calls them in the same way: through a pointer, with the same parameters. */
#ifndef FACE_H
#define FACE_H

#include <stddef.h>
#include <stdint.h>

enum { OUTCOME_PASS = 0, OUTCOME_DIFFERS = 1, OUTCOME_REFUSED = 2 };

/* Family and generators are 0 where they do not apply, the vectors 0 unless the outcome is DIFFERS. */
typedef struct {
    uint8_t outcome, number, family, i, j, k;
    uint8_t left[40], right[40];
} face_verdict;

typedef struct {
    const char *name;
    uint8_t (*judge)(const uint16_t *numbers, size_t len);
    uint8_t (*fetch)(const uint16_t *numbers, size_t len, uint16_t i, uint16_t j, uint32_t *start, uint32_t *count);
    uint8_t (*collect)(const uint16_t *numbers, size_t len, uint8_t *vector, size_t vlen, const uint16_t *word, size_t wlen,
                       uint32_t budget, uint16_t *work, size_t worklen, uint32_t *count);
    uint8_t (*product)(const uint16_t *numbers, size_t len, uint8_t *left, size_t llen, const uint8_t *right, size_t rlen,
                       uint32_t budget, uint16_t *work, size_t worklen, uint32_t *count);
    uint8_t (*inverse)(const uint16_t *numbers, size_t len, uint8_t *vector, size_t vlen, uint32_t budget, uint16_t *work,
                       size_t worklen, uint32_t *count);
    uint8_t (*depth)(const uint16_t *numbers, size_t len, const uint8_t *vector, size_t vlen, uint32_t *depth);
    void (*check)(const uint16_t *numbers, size_t len, uint32_t budget, uint16_t *work, size_t worklen, face_verdict *verdict);
} face;

extern const face ours; /* the proved library: ours.c */

#endif
