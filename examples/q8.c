/* Checks the quaternion group of order 8, multiplies two of its elements and prints them: examples/run-c builds and runs this. */
#include <stdio.h>

#include "yavarosht.h"

/* p = 2, n = 3; x_1^2 = x_2^2 = x_3 and x_2 x_1 = x_1 x_2 x_3. x_1 is i, x_2 is j and x_3 is -1. */
static const uint16_t q8[] = {
    2, 3,                         /* p, n */
    0, 1, 1, 1, 2, 0,             /* start and length of w_1, w_2, w_3 */
    2, 1, 3, 0, 3, 0,             /* of w_12, w_13, w_23 */
    3, 1, 3, 1, 3, 1              /* the bodies of w_1, w_2 and w_12: x_3 each */
};
enum { N = 3, LEN = sizeof q8 / sizeof *q8, ROOM = 64 };

/* x_1^2 = x_2 and x_2 x_1 = x_1 x_2 x_3 alone: x_1 would not commute with its own square, so the relations are not consistent. */
static const uint16_t broken[] = {
    2, 3,
    0, 1, 1, 0, 1, 0,
    1, 1, 2, 0, 2, 0,
    2, 1, 3, 1                    /* w_1 is x_2, and w_12 is x_3 */
};
enum { BROKEN_LEN = sizeof broken / sizeof *broken };

static void print(const char *name, const uint8_t *v)
{
    printf("%s(%d,%d,%d)", name, v[0], v[1], v[2]);
}

/* Checks a presentation and prints the verdict. */
static uint8_t check(const char *name, const uint16_t *numbers, size_t len)
{
    uint16_t work[3 * ROOM];
    uint8_t left[YAV_RANK_MOST], right[YAV_RANK_MOST];
    yav_overlap overlap;
    uint8_t number = yav_check(numbers, len, 1000, work, 3 * ROOM, &overlap, left, right);

    printf("check of %s: ", name);
    if (number == YAV_PASS)
        printf("pass\n");
    else if (number == YAV_DIFFERS) {
        printf("differs in family %d at %d %d %d", overlap.family, overlap.i, overlap.j, overlap.k);
        print(": ", left);
        print(" against ", right);
        printf("\n");
    } else
        printf("refused with number %d\n", number);
    return number;
}

int main(void)
{
    uint8_t left[N] = {0, 1, 0}, inverse[N] = {0, 1, 0};
    const uint8_t right[N] = {1, 0, 0};
    const uint16_t word[] = {2, 1, 1, 1};
    uint8_t vector[N] = {0, 0, 0};
    uint16_t work[3 * ROOM];
    uint32_t count, depth, start, length;
    uint8_t number = yav_judge(q8, LEN);

    printf("judge: %d\n", number);
    uint8_t verdict = check("Q8", q8, LEN);
    uint8_t broken_verdict = check("an inconsistent one", broken, BROKEN_LEN);
    number = yav_fetch(q8, LEN, 1, 2, &start, &length);
    printf("w_12 has %u numbers from %u on:", (unsigned)length, (unsigned)start);
    for (uint32_t m = start; m < start + length; m++)
        printf(" %d", q8[m]);
    printf("\n");

    print("", left);
    print(" * ", right);
    number |= yav_product(q8, LEN, left, N, right, N, 1000, work, 3 * ROOM, &count);
    print(" = ", left);
    printf("  %u replacements\n", (unsigned)count);

    number |= yav_collect(q8, LEN, vector, N, word, 4, 1000, work, 3 * ROOM, &count);
    print("x_2 x_1 = ", vector);
    printf("  %u replacements\n", (unsigned)count);

    print("the inverse of ", inverse);
    number |= yav_inverse(q8, LEN, inverse, N, 1000, work, 3 * ROOM, &count);
    print(" is ", inverse);
    printf("  %u replacements\n", (unsigned)count);

    number |= yav_depth(q8, LEN, left, N, &depth);
    print("depth of ", left);
    printf(": %u\n", (unsigned)depth);

    /* A refusal leaves the vector as it was. */
    uint8_t kept[N] = {0, 1, 0};
    uint8_t refused = yav_product(q8, LEN, kept, N, right, N, 0, work, 3 * ROOM, &count);
    print("with budget 0: ", kept);
    printf("  number %d\n", refused);
    return number == YAV_DONE && verdict == YAV_PASS && broken_verdict == YAV_DIFFERS && refused == YAV_BUDGET ? 0 : 1;
}
