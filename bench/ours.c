/* The proved library behind the benchmark's face. All that the benchmark knows of the library's C face stands here. */
#include "face.h"

#include "yavarosht.h"

/* The verdict's two vectors are lent to the library as they are found, so that one that it did not store would show. */
static void check(const uint16_t *numbers, size_t len, uint32_t budget, uint16_t *work, size_t worklen, face_verdict *verdict)
{
    yav_overlap overlap;
    uint8_t number = yav_check(numbers, len, budget, work, worklen, &overlap, verdict->left, verdict->right);
    verdict->outcome = number == YAV_PASS ? OUTCOME_PASS : number == YAV_DIFFERS ? OUTCOME_DIFFERS : OUTCOME_REFUSED;
    verdict->number = verdict->outcome == OUTCOME_REFUSED ? number : 0;
    verdict->family = (uint8_t)overlap.family;
    verdict->i = (uint8_t)overlap.i;
    verdict->j = (uint8_t)overlap.j;
    verdict->k = (uint8_t)overlap.k;
}

const face ours = {"yavarosht", yav_judge, yav_fetch, yav_collect, yav_product, yav_inverse, yav_depth, check};
