/* The plain C collector: see plain.h. */
#include "plain.h"

#include <string.h>

enum { WORD_PAIRS_MAX = 4096, PRIME_MAX = 251 };

/* --- the presentation ---------------------------------------------------------------------------------------------------------- */

/* Accepted numbers, taken apart once a call. */
typedef struct {
    unsigned p, n;
    const uint16_t *contents; /* start, length of each relation */
    const uint16_t *bodies;   /* generator, exponent */
} view;

static int is_prime(unsigned p)
{
    if (p < 2 || p > PRIME_MAX)
        return 0;
    for (unsigned d = 2; d * d <= p; d++)
        if (p % d == 0)
            return 0;
    return 1;
}

static size_t relations(size_t n)
{
    return n * (n + 1) / 2;
}

/* The contents entries of row i (the words w_ij) are consecutive in j: the entry of (i, j) is row(n, i) + j. Signed, since n = 1 gives
 * -1: there the row is empty, and the pointer to it, p and n before the contents, is never read through. */
static ptrdiff_t row(unsigned n, unsigned i)
{
    return (ptrdiff_t)(i * n) - (ptrdiff_t)(i * (i - 1) / 2 + i + 1);
}

static ptrdiff_t entry(unsigned n, unsigned i, unsigned j)
{
    return i == j ? (ptrdiff_t)i - 1 : row(n, i) + (ptrdiff_t)j;
}

/* A relation's word: generators above `floor`, at most n, increasing; exponents 1 to p - 1. */
static int body_fits(const uint16_t *pairs, size_t length, unsigned floor, unsigned n, unsigned p)
{
    for (size_t m = 0; m < length; m++) {
        unsigned g = pairs[2 * m], e = pairs[2 * m + 1];
        if (g <= floor || g > n || e == 0 || e >= p)
            return 0;
        floor = g;
    }
    return 1;
}

static uint8_t judge(const uint16_t *numbers, size_t len, view *out)
{
    if (len < 2)
        return PLAIN_SHORT;
    unsigned p = numbers[0], n = numbers[1];
    if (!is_prime(p))
        return PLAIN_PRIME;
    if (n < 1 || n > PLAIN_RANK_MAX)
        return PLAIN_RANK;
    size_t r = relations(n);
    if (len < 2 + 2 * r)
        return PLAIN_CONTENTS;
    const uint16_t *contents = numbers + 2;
    size_t total = 0; /* wider than the numbers: the lengths may sum above 65,535 */
    for (size_t m = 0; m < r; m++) {
        if (contents[2 * m] != total)
            return PLAIN_CONTENTS;
        total += contents[2 * m + 1];
    }
    if (len != 2 + 2 * r + 2 * total)
        return PLAIN_LENGTH;
    const uint16_t *body = contents + 2 * r;
    const uint16_t *at = contents;
    for (unsigned i = 1; i <= n; i++, at += 2) {
        if (!body_fits(body, at[1], i, n, p))
            return PLAIN_BODY;
        body += 2 * (size_t)at[1];
    }
    for (unsigned i = 1; i <= n; i++)
        for (unsigned j = i + 1; j <= n; j++, at += 2) {
            if (!body_fits(body, at[1], j, n, p))
                return PLAIN_BODY;
            body += 2 * (size_t)at[1];
        }
    out->p = p;
    out->n = n;
    out->contents = contents;
    out->bodies = contents + 2 * r;
    return PLAIN_DONE;
}

uint8_t plain_judge(const uint16_t *numbers, size_t len)
{
    view g;
    return judge(numbers, len, &g);
}

uint8_t plain_fetch(const uint16_t *numbers, size_t len, uint16_t i, uint16_t j, uint32_t *start, uint32_t *count)
{
    view g;
    uint8_t number = judge(numbers, len, &g);
    *start = 0;
    *count = 0;
    if (number != PLAIN_DONE || i < 1 || i > j || j > g.n)
        return number;
    const uint16_t *at = g.contents + 2 * entry(g.n, i, j);
    if (at[1] != 0) {
        *start = (uint32_t)(2 + 2 * relations(g.n) + 2 * (size_t)at[0]);
        *count = 2 * (uint32_t)at[1];
    }
    return number;
}

static int vector_fits(const view *g, const uint8_t *vector, size_t vlen)
{
    if (vlen != g->n)
        return 0;
    for (size_t m = 0; m < vlen; m++)
        if (vector[m] >= g->p)
            return 0;
    return 1;
}

static int word_fits(const view *g, const uint16_t *word, size_t wlen)
{
    if (wlen % 2 != 0 || wlen / 2 > WORD_PAIRS_MAX)
        return 0;
    for (size_t m = 0; m < wlen; m += 2)
        if (word[m] < 1 || word[m] > g->n || word[m + 1] == 0)
            return 0;
    return 1;
}

/* --- slots and placing --------------------------------------------------------------------------------------------------------- */

/* A slot is three numbers. A power: generator, 0, exponent. A string: its next pair's place, pairs left (at least 1), and whether it
 * is read from the input word (1) or from the bodies (0). */
typedef struct {
    uint16_t *slots;
    size_t room, depth;
    uint32_t budget, count;
    const uint16_t *word;
} stack;

static void put(stack *s, unsigned first, unsigned left, unsigned third)
{
    uint16_t *top = s->slots + 3 * s->depth++;
    top[0] = (uint16_t)first;
    top[1] = (uint16_t)left;
    top[2] = (uint16_t)third;
}

/* A starting slot, refused where there is no room. */
static int start_power(stack *s, unsigned i, unsigned e)
{
    if (s->depth == s->room)
        return 0;
    put(s, i, 0, e);
    return 1;
}

/* Places until no slot is left. v has all entries from 1 to n, v[0] unused. One pass a placing: it sums the cost and puts the slots,
 * and past the room it only sums, since BUDGET is judged before ROOM. A refusal ends the call, so nothing has to be undone. */
static uint8_t run(const view *g, uint8_t *restrict v, stack *s)
{
    const unsigned p = g->p, n = g->n;
    const uint16_t *contents = g->contents, *bodies = g->bodies;
    const size_t room = s->room;
    uint16_t *const slots = s->slots;
    size_t depth = s->depth;
    uint32_t count = s->count;
    uint8_t number = PLAIN_DONE;

    while (depth > 0) {
        int full = 0;
        unsigned i;
        uint16_t *top = slots + 3 * (depth - 1);
        if (top[1] == 0) {
            i = top[0];
            if (top[2] > 1)
                top[2]--;
            else
                depth--;
        } else {
            const uint16_t *pair = (top[2] ? s->word : bodies) + 2 * (size_t)top[0];
            i = pair[0];
            unsigned a = pair[1];
            if (top[1] > 1) {
                top[0]++;
                top[1]--;
            } else {
                depth--;
            }
            if (a > 1) {
                if (depth < room) {
                    top = slots + 3 * depth++;
                    top[0] = (uint16_t)i;
                    top[1] = 0;
                    top[2] = (uint16_t)(a - 1);
                } else {
                    full = 1;
                }
            }
        }

        uint32_t cost = 0;
        const uint16_t *words = contents + 2 * row(n, i);
        for (unsigned j = n; j > i; j--) {
            unsigned b = v[j];
            if (b == 0)
                continue;
            cost += b;
            v[j] = 0;
            unsigned start = words[2 * j], length = words[2 * j + 1];
            size_t wanted = length == 0 ? 1 : 2 * (size_t)b;
            if (full || wanted > room - depth) {
                full = 1;
                continue;
            }
            top = slots + 3 * depth;
            depth += wanted;
            if (length == 0) {
                top[0] = (uint16_t)j;
                top[1] = 0;
                top[2] = (uint16_t)b;
                continue;
            }
            for (; b > 0; b--, top += 6) {
                top[0] = (uint16_t)start;
                top[1] = (uint16_t)length;
                top[2] = 0;
                top[3] = (uint16_t)j;
                top[4] = 0;
                top[5] = 1;
            }
        }

        unsigned sum = v[i] + 1u;
        cost += sum == p;
        if (cost > s->budget - count) {
            number = PLAIN_BUDGET;
            break;
        }
        if (full) {
            number = PLAIN_ROOM;
            break;
        }
        count += cost;
        if (sum < p) {
            v[i] = (uint8_t)sum;
        } else {
            v[i] = 0;
            const uint16_t *at = contents + 2 * (size_t)(i - 1);
            const uint16_t *pair = bodies + 2 * (size_t)at[0];
            for (unsigned left = at[1]; left > 0; left--, pair += 2)
                v[pair[0]] = (uint8_t)pair[1];
        }
    }
    s->depth = depth;
    s->count = count;
    return number;
}

static stack stack_over(uint16_t *work, size_t worklen, uint32_t budget, const uint16_t *word)
{
    stack s = {work, worklen / 3, 0, budget, 0, word};
    return s;
}

static void clear(uint16_t *work, size_t worklen)
{
    if (worklen != 0)
        memset(work, 0, worklen * sizeof *work);
}

/* --- the calls ----------------------------------------------------------------------------------------------------------------- */

/* The entries stand at 1 to n of a local array while a call works, so that a refusal leaves the caller's vector as it is. */
static void copy_in(uint8_t *v, const uint8_t *vector, size_t n)
{
    memcpy(v + 1, vector, n);
}

static uint8_t finish(uint8_t number, const uint8_t *v, uint8_t *vector, size_t n, const stack *s, size_t worklen, uint32_t *count)
{
    if (number == PLAIN_DONE)
        memcpy(vector, v + 1, n);
    clear(s->slots, worklen);
    *count = s->count;
    return number;
}

uint8_t plain_collect(const uint16_t *numbers, size_t len, uint8_t *vector, size_t vlen, const uint16_t *word, size_t wlen,
                      uint32_t budget, uint16_t *work, size_t worklen, uint32_t *count)
{
    view g;
    uint8_t v[PLAIN_RANK_MAX + 1];
    *count = 0;
    uint8_t number = judge(numbers, len, &g);
    if (number != PLAIN_DONE)
        return number;
    if (!vector_fits(&g, vector, vlen))
        return PLAIN_VECTOR;
    if (!word_fits(&g, word, wlen))
        return PLAIN_WORD;
    stack s = stack_over(work, worklen, budget, word);
    copy_in(v, vector, vlen);
    if (wlen != 0) {
        if (s.room == 0)
            return finish(PLAIN_ROOM, v, vector, vlen, &s, worklen, count);
        put(&s, 0, (unsigned)(wlen / 2), 1);
    }
    return finish(run(&g, v, &s), v, vector, vlen, &s, worklen, count);
}

uint8_t plain_product(const uint16_t *numbers, size_t len, uint8_t *left, size_t llen, const uint8_t *right, size_t rlen,
                      uint32_t budget, uint16_t *work, size_t worklen, uint32_t *count)
{
    view g;
    uint8_t v[PLAIN_RANK_MAX + 1];
    *count = 0;
    uint8_t number = judge(numbers, len, &g);
    if (number != PLAIN_DONE)
        return number;
    if (!vector_fits(&g, left, llen) || !vector_fits(&g, right, rlen))
        return PLAIN_VECTOR;
    stack s = stack_over(work, worklen, budget, NULL);
    copy_in(v, left, llen);
    for (size_t m = rlen; m > 0; m--)
        if (right[m - 1] != 0 && !start_power(&s, (unsigned)m, right[m - 1]))
            return finish(PLAIN_ROOM, v, left, llen, &s, worklen, count);
    return finish(run(&g, v, &s), v, left, llen, &s, worklen, count);
}

uint8_t plain_inverse(const uint16_t *numbers, size_t len, uint8_t *vector, size_t vlen, uint32_t budget, uint16_t *work,
                      size_t worklen, uint32_t *count)
{
    view g;
    uint8_t v[PLAIN_RANK_MAX + 1], result[PLAIN_RANK_MAX + 1] = {0};
    *count = 0;
    uint8_t number = judge(numbers, len, &g);
    if (number != PLAIN_DONE)
        return number;
    if (!vector_fits(&g, vector, vlen))
        return PLAIN_VECTOR;
    stack s = stack_over(work, worklen, budget, NULL);
    copy_in(v, vector, vlen);
    for (unsigned i = 1; i <= g.n && number == PLAIN_DONE; i++) {
        if (v[i] == 0)
            continue;
        unsigned e = g.p - v[i];
        result[i] = (uint8_t)e;
        number = start_power(&s, i, e) ? run(&g, v, &s) : PLAIN_ROOM;
    }
    return finish(number, result, vector, vlen, &s, worklen, count);
}

uint8_t plain_depth(const uint16_t *numbers, size_t len, const uint8_t *vector, size_t vlen, uint32_t *depth)
{
    view g;
    *depth = 0;
    uint8_t number = judge(numbers, len, &g);
    if (number != PLAIN_DONE)
        return number;
    if (!vector_fits(&g, vector, vlen))
        return PLAIN_VECTOR;
    size_t m = 0;
    while (m < vlen && vector[m] == 0)
        m++;
    *depth = (uint32_t)(m < vlen ? m + 1 : vlen);
    return PLAIN_DONE;
}

/* --- the consistency check ----------------------------------------------------------------------------------------------------- */

/* A part of a side: a power (g, e), or with e = 0 the word of (g, h). */
typedef struct {
    unsigned g, e, h;
} part;

/* Collects one side, of at most four parts, from the identity with the whole budget and room. */
static uint8_t side(const view *g, const part *parts, size_t many, uint8_t *v, uint32_t budget, uint16_t *work, size_t worklen,
                    uint64_t *replacements)
{
    stack s = stack_over(work, worklen, budget, NULL);
    memset(v, 0, PLAIN_RANK_MAX + 1);
    for (size_t m = many; m > 0; m--) {
        const part *x = parts + m - 1;
        const uint16_t *at = x->e ? NULL : g->contents + 2 * entry(g->n, x->g, x->h);
        if (at && at[1] == 0)
            continue;
        if (s.depth == s.room)
            return PLAIN_ROOM;
        if (at)
            put(&s, at[0], at[1], 0);
        else
            put(&s, x->g, 0, x->e);
    }
    uint8_t number = run(g, v, &s);
    *replacements += s.count;
    return number;
}

/* Judges one overlap. Nonzero if it settles the verdict. */
static int settles(const view *g, unsigned family, unsigned i, unsigned j, unsigned k, const part *left, size_t lefts,
                   const part *right, size_t rights, uint32_t budget, uint16_t *work, size_t worklen, plain_verdict *verdict)
{
    uint8_t a[PLAIN_RANK_MAX + 1], b[PLAIN_RANK_MAX + 1];
    uint8_t number = side(g, left, lefts, a, budget, work, worklen, &verdict->replacements);
    if (number == PLAIN_DONE)
        number = side(g, right, rights, b, budget, work, worklen, &verdict->replacements);
    if (number == PLAIN_DONE && memcmp(a + 1, b + 1, g->n) == 0)
        return 0;
    verdict->family = (uint8_t)family;
    verdict->i = (uint8_t)i;
    verdict->j = (uint8_t)j;
    verdict->k = (uint8_t)k;
    verdict->number = number;
    verdict->outcome = number == PLAIN_DONE ? PLAIN_DIFFERS : PLAIN_REFUSED;
    if (number == PLAIN_DONE) {
        memcpy(verdict->left, a + 1, g->n);
        memcpy(verdict->right, b + 1, g->n);
    }
    return 1;
}

#define SETTLES(family, i, j, k, left, right)                                                                                      \
    settles(g, family, i, j, k, left, sizeof(left) / sizeof *(left), right, sizeof(right) / sizeof *(right), budget, work, worklen, \
            verdict)

static void overlaps(const view *g, uint32_t budget, uint16_t *work, size_t worklen, plain_verdict *verdict)
{
    const unsigned n = g->n, p = g->p;
    for (unsigned i = 1; i <= n; i++)
        for (unsigned j = i + 1; j <= n; j++)
            for (unsigned k = j + 1; k <= n; k++) {
                part left[] = {{j, 1, 0}, {k, 1, 0}, {j, 0, k}, {i, 1, 0}};
                part right[] = {{k, 1, 0}, {i, 1, 0}, {j, 1, 0}, {i, 0, j}};
                if (SETTLES(1, i, j, k, left, right))
                    return;
            }
    for (unsigned i = 1; i <= n; i++)
        for (unsigned j = i + 1; j <= n; j++) {
            part left[] = {{j, 0, j}, {i, 1, 0}};
            part right[] = {{j, p - 1, 0}, {i, 1, 0}, {j, 1, 0}, {i, 0, j}};
            if (SETTLES(2, i, j, 0, left, right))
                return;
        }
    for (unsigned i = 1; i <= n; i++)
        for (unsigned j = i + 1; j <= n; j++) {
            part left[] = {{i, 1, 0}, {j, 1, 0}, {i, 0, j}, {i, p - 1, 0}};
            part right[] = {{j, 1, 0}, {i, 0, i}};
            if (SETTLES(3, i, j, 0, left, right))
                return;
        }
    for (unsigned i = 1; i <= n; i++) {
        part left[] = {{i, 0, i}, {i, 1, 0}};
        part right[] = {{i, 1, 0}, {i, 0, i}};
        if (SETTLES(4, i, 0, 0, left, right))
            return;
    }
}

plain_verdict plain_check(const uint16_t *numbers, size_t len, uint32_t budget, uint16_t *work, size_t worklen)
{
    plain_verdict verdict;
    view g;
    memset(&verdict, 0, sizeof verdict);
    verdict.number = judge(numbers, len, &g);
    if (verdict.number != PLAIN_DONE) {
        verdict.outcome = PLAIN_REFUSED;
        return verdict;
    }
    overlaps(&g, budget, work, worklen, &verdict);
    clear(work, worklen);
    return verdict;
}
