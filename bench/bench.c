/* Times the proved library beside the plain C collector of the same rules, in one process, and holds every answer of one against the
 * other.
 *
 *     bench [--quick] [--gap TIMES] GROUP.pcp..     compare, time, print the table
 *     bench --cases FILE GROUP.pcp..                write the same products and inverses for GAP (gap.g reads them), and stop
 *
 * For each group there are CASES vectors, words and pairs of vectors, made from the group's name alone, so that each run and GAP see
 * the same ones. They are thinned until the plain collector ends within CASE_BUDGET replacements. Before anything is timed, both
 * collectors make each call at many budgets and rooms, on workspaces full of dirt, and number, vector, count and workspace are
 * compared; so are both on presentations, vectors and words that break a rule. Exit status 1 at the first difference, with the case.
 *
 * Built with -DALONE it times the plain collector by itself (both columns are the plain one). */
#define _POSIX_C_SOURCE 200809L

#include <inttypes.h>
#include <stdio.h>
#include <stdlib.h>
#include <string.h>
#include <time.h>

#include "face.h"
#include "plain.h"

enum {
    CASES = 8,
    PAIRS = 12,
    NUMBERS_MAX = 22962,
    ROOM_MAX = 8192,
    WORK_MAX = 3 * ROOM_MAX,
    CASE_BUDGET = 100000,
    CHECK_BUDGET = 1000000,
    SPREAD_WORK = 400000, /* replacements to spend on one spread of budgets and rooms */
    GROUPS_MAX = 200
};

/* --- the plain collector behind the face ---------------------------------------------------------------------------------------- */

static uint64_t check_replacements; /* of the plain collector's last check: the check itself answers no count */

static void plain_check_face(const uint16_t *numbers, size_t len, uint32_t budget, uint16_t *work, size_t worklen, face_verdict *out)
{
    plain_verdict v = plain_check(numbers, len, budget, work, worklen);
    out->outcome = v.outcome;
    out->number = v.number;
    out->family = v.family;
    out->i = v.i;
    out->j = v.j;
    out->k = v.k;
    memcpy(out->left, v.left, sizeof out->left);
    memcpy(out->right, v.right, sizeof out->right);
    check_replacements = v.replacements;
}

static const face plain = {"plain C",     plain_judge,   plain_fetch, plain_collect,
                           plain_product, plain_inverse, plain_depth, plain_check_face};

#ifdef ALONE
#define OURS plain
#else
#define OURS ours
#endif

/* --- groups and cases ------------------------------------------------------------------------------------------------------------ */

typedef struct {
    uint8_t u[40], v[40];
    uint16_t word[2 * PAIRS];
    size_t wlen;
    uint32_t count[3]; /* of collect, product, inverse */
    size_t room[3];    /* a room that suffices: the least power of two from 64 up */
} bench_case;

typedef struct {
    char name[64];
    uint16_t numbers[NUMBERS_MAX];
    size_t len;
    unsigned p, n;
    bench_case cases[CASES];
} group;

static uint16_t work_a[WORK_MAX], work_b[WORK_MAX];
static uint64_t compared;

static uint64_t state;

/* xorshift64*: the same cases on every machine */
static uint32_t any(uint32_t below)
{
    state ^= state >> 12;
    state ^= state << 25;
    state ^= state >> 27;
    return (uint32_t)((state * 2685821657736338717u) >> 33) % below;
}

static void seed(const char *name)
{
    state = 88172645463325252u;
    for (; *name; name++)
        state = (state ^ (uint8_t)*name) * 1099511628211u;
}

static void die(const char *name, const char *what)
{
    fprintf(stderr, "bench: %s: %s\n", name, what);
    exit(2);
}

static void read_group(const char *path, group *g)
{
    const char *base = strrchr(path, '/');
    base = base ? base + 1 : path;
    snprintf(g->name, sizeof g->name, "%s", base);
    char *dot = strrchr(g->name, '.');
    if (dot)
        *dot = 0;
    FILE *file = fopen(path, "rb");
    if (!file)
        die(path, "cannot be read");
    static uint8_t bytes[2 * NUMBERS_MAX + 2];
    size_t size = fread(bytes, 1, sizeof bytes, file);
    fclose(file);
    if (size % 2 != 0 || size > 2 * NUMBERS_MAX)
        die(path, "is no presentation");
    g->len = size / 2;
    for (size_t m = 0; m < g->len; m++)
        g->numbers[m] = (uint16_t)(bytes[2 * m] | bytes[2 * m + 1] << 8);
    if (plain_judge(g->numbers, g->len) != PLAIN_DONE)
        die(path, "is refused");
    g->p = g->numbers[0];
    g->n = g->numbers[1];
}

enum { COLLECT, PRODUCT, INVERSE, JUDGE, CHECK, OPERATIONS };
static const char *const operations[] = {"collect", "product", "inverse", "judge", "check"};

/* One call of collect, product or inverse on a case; the vector is the case's u, copied into `out`. */
static uint8_t call(const face *f, const group *g, const bench_case *c, int op, uint32_t budget, uint16_t *work, size_t worklen,
                    uint8_t *out, uint32_t *count)
{
    memcpy(out, c->u, g->n);
    switch (op) {
    case COLLECT:
        return f->collect(g->numbers, g->len, out, g->n, c->word, c->wlen, budget, work, worklen, count);
    case PRODUCT:
        return f->product(g->numbers, g->len, out, g->n, c->v, g->n, budget, work, worklen, count);
    default:
        return f->inverse(g->numbers, g->len, out, g->n, budget, work, worklen, count);
    }
}

/* A random case with about `percent` of its entries not 0, exponents up to `top`. */
static void random_case(const group *g, bench_case *c, unsigned percent, unsigned top)
{
    memset(c, 0, sizeof *c);
    for (unsigned m = 0; m < g->n; m++) {
        if (any(100) < percent)
            c->u[m] = (uint8_t)(1 + any(top));
        if (any(100) < percent)
            c->v[m] = (uint8_t)(1 + any(top));
    }
    c->u[any(g->n)] = (uint8_t)(1 + any(top));
    c->v[any(g->n)] = (uint8_t)(1 + any(top));
    size_t pairs = 1 + PAIRS * (size_t)percent / 101;
    for (size_t m = 0; m < pairs; m++) {
        c->word[2 * m] = (uint16_t)(1 + any(g->n));
        c->word[2 * m + 1] = (uint16_t)(1 + any(top + 1));
    }
    c->wlen = 2 * pairs;
}

/* Thinner and thinner until all three calls end within the budget: at p = 251 a full product may not end in years. */
static void make_case(const group *g, bench_case *c)
{
    unsigned percent = 100, top = g->p - 1;
    for (;;) {
        random_case(g, c, percent, top);
        int ok = 1;
        for (int op = COLLECT; op <= INVERSE && ok; op++) {
            uint8_t out[40];
            size_t room = 64;
            uint8_t number;
            while ((number = call(&plain, g, c, op, CASE_BUDGET, work_a, 3 * room, out, &c->count[op])) == PLAIN_ROOM && room < ROOM_MAX)
                room *= 2;
            c->room[op] = room;
            ok = number == PLAIN_DONE;
        }
        if (ok)
            return;
        percent = percent > 10 ? percent * 4 / 5 : percent;
        if (percent < 40 && top > 1)
            top = top * 9 / 10 ? top * 9 / 10 : 1;
    }
}

static void make_cases(group *g)
{
    seed(g->name);
    for (int m = 0; m < CASES; m++)
        make_case(g, &g->cases[m]);
}

/* --- comparing --------------------------------------------------------------------------------------------------------------------- */

static void differ(const group *g, const char *what, uint32_t budget, size_t worklen, unsigned a, unsigned b)
{
    printf("DIFFERENCE in %s: %s, budget %" PRIu32 ", workspace %zu: plain C %u, %s %u\n", g->name, what, budget, worklen, a, OURS.name, b);
    exit(1);
}

static void dirty(uint16_t *work, size_t worklen)
{
    for (size_t m = 0; m < worklen; m++)
        work[m] = (uint16_t)(0x5A5A + m);
}

static void same_workspaces(const group *g, const char *what, uint32_t budget, size_t worklen, uint8_t number)
{
    int zero = number == PLAIN_DONE || number == PLAIN_BUDGET || number == PLAIN_ROOM;
    for (size_t m = 0; m < worklen; m++) {
        uint16_t wanted = zero ? 0 : (uint16_t)(0x5A5A + m);
        if (work_a[m] != wanted || work_b[m] != wanted)
            differ(g, what, budget, worklen, work_a[m], work_b[m]);
    }
}

static void compare_call(const group *g, const bench_case *c, int op, uint32_t budget, size_t worklen)
{
    uint8_t a[40], b[40];
    uint32_t count_a = 77, count_b = 77;
    dirty(work_a, worklen);
    dirty(work_b, worklen);
    uint8_t number_a = call(&plain, g, c, op, budget, work_a, worklen, a, &count_a);
    uint8_t number_b = call(&OURS, g, c, op, budget, work_b, worklen, b, &count_b);
    if (number_a != number_b)
        differ(g, operations[op], budget, worklen, number_a, number_b);
    if (count_a != count_b)
        differ(g, operations[op], budget, worklen, count_a, count_b);
    for (unsigned m = 0; m < g->n; m++)
        if (a[m] != b[m])
            differ(g, operations[op], budget, worklen, a[m], b[m]);
    same_workspaces(g, operations[op], budget, worklen, number_a);
    compared++;
}

static void compare_check(const group *g, uint32_t budget, size_t worklen)
{
    face_verdict a, b;
    memset(&a, 0x55, sizeof a);
    memset(&b, 0xaa, sizeof b);
    dirty(work_a, worklen);
    dirty(work_b, worklen);
    plain.check(g->numbers, g->len, budget, work_a, worklen, &a);
    OURS.check(g->numbers, g->len, budget, work_b, worklen, &b);
    if (a.outcome != b.outcome || a.number != b.number)
        differ(g, "check", budget, worklen, a.outcome * 100u + a.number, b.outcome * 100u + b.number);
    if (a.family != b.family || a.i != b.i || a.j != b.j || a.k != b.k)
        differ(g, "check's overlap", budget, worklen, a.family, b.family);
    if (memcmp(a.left, b.left, sizeof a.left) != 0 || memcmp(a.right, b.right, sizeof a.right) != 0)
        differ(g, "check's vectors", budget, worklen, a.left[0], b.left[0]);
    same_workspaces(g, "check", budget, worklen, a.number);
    compared++;
}

static void compare_depth(const group *g, const uint8_t *vector, size_t vlen)
{
    uint32_t a = 77, b = 77;
    uint8_t number_a = plain.depth(g->numbers, g->len, vector, vlen, &a);
    uint8_t number_b = OURS.depth(g->numbers, g->len, vector, vlen, &b);
    if (number_a != number_b || a != b)
        differ(g, "depth", 0, 0, number_a * 100u + a, number_b * 100u + b);
    compared++;
}

static void compare_fetch(const group *g, uint16_t i, uint16_t j)
{
    uint32_t start_a = 7, start_b = 7, count_a = 7, count_b = 7;
    uint8_t number_a = plain.fetch(g->numbers, g->len, i, j, &start_a, &count_a);
    uint8_t number_b = OURS.fetch(g->numbers, g->len, i, j, &start_b, &count_b);
    if (number_a != number_b || count_a != count_b || (count_a != 0 && start_a != start_b))
        differ(g, "fetch", i, j, count_a, count_b);
    compared++;
}

static void compare_judge(const group *g)
{
    uint8_t a = plain.judge(g->numbers, g->len), b = OURS.judge(g->numbers, g->len);
    if (a != b)
        differ(g, "judge", 0, g->len, a, b);
    compared++;
}

static void spread_of_case(const group *g, const bench_case *c, int op)
{
    static const size_t rooms[] = {0, 1, 2, 3, 4, 5, 6, 8, 11, 16, 23, 33, 64, 128, 500};
    const size_t many = sizeof rooms / sizeof *rooms;
    uint32_t count = c->count[op];
    uint32_t budgets[] = {count, UINT32_MAX, count + 1, count ? count - 1 : 0, 0, 1, 2, 3, 5, 9, 17, 40, count / 2, count / 3, any(count + 1)};
    uint64_t left = SPREAD_WORK;
    for (size_t m = 0; m < sizeof budgets / sizeof *budgets; m++) {
        uint32_t cost = budgets[m] < count ? budgets[m] : count;
        compare_call(g, c, op, budgets[m], 3 * c->room[op] + any(3));
        for (size_t r = 0; r < many; r++) {
            if (left < cost)
                break;
            left -= cost;
            compare_call(g, c, op, budgets[m], 3 * rooms[r] + any(3));
        }
    }
}

/* Numbers, vectors and words that break a rule, or are changed and break none: the same answer from both. */
static void compare_faults(const group *g)
{
    static group h;
    for (int m = 0; m < 300; m++) {
        h = *g;
        switch (any(4)) {
        case 0:
            h.len = any((uint32_t)g->len + 1);
            break;
        case 1:
            h.numbers[any((uint32_t)h.len)] = (uint16_t)any(any(2) ? 65536 : 300);
            break;
        case 2:
            h.numbers[any((uint32_t)h.len)] = (uint16_t)any(g->p + 2);
            break;
        default:
            if (h.len < NUMBERS_MAX)
                h.numbers[h.len++] = (uint16_t)any(4);
        }
        compare_judge(&h);
        compare_fetch(&h, (uint16_t)any(g->n + 2), (uint16_t)any(g->n + 2));
        compare_check(&h, any(3000), 3 * any(40) + any(3));
        for (int op = COLLECT; op <= INVERSE; op++)
            compare_call(&h, &g->cases[m % CASES], op, any(3000), 3 * any(200) + any(3));
        compare_depth(&h, g->cases[m % CASES].u, g->n);
    }
    for (int m = 0; m < 200; m++) {
        bench_case c = g->cases[m % CASES];
        switch (any(4)) {
        case 0:
            c.u[any(g->n)] = (uint8_t)any(256);
            break;
        case 1:
            c.v[any(g->n)] = (uint8_t)any(256);
            break;
        case 2:
            c.word[any((uint32_t)c.wlen)] = (uint16_t)any(g->n + 2);
            break;
        default:
            c.wlen -= any((uint32_t)c.wlen + 1);
        }
        for (int op = COLLECT; op <= INVERSE; op++)
            compare_call(g, &c, op, any(3000), 3 * any(200) + any(3));
        compare_depth(g, c.u, any(8) ? g->n : any(41));
    }
}

static void compare_all(const group *g)
{
    static const uint32_t budgets[] = {0, 1, 2, 5, 20, 1000, CHECK_BUDGET};
    static const size_t rooms[] = {0, 1, 2, 3, 4, 5, 8, 16, ROOM_MAX};
    compare_judge(g);
    for (unsigned i = 0; i <= g->n + 1; i++)
        for (unsigned j = 0; j <= g->n + 1; j++)
            compare_fetch(g, (uint16_t)i, (uint16_t)j);
    for (int m = 0; m < CASES; m++) {
        for (int op = COLLECT; op <= INVERSE; op++)
            spread_of_case(g, &g->cases[m], op);
        compare_depth(g, g->cases[m].u, g->n);
    }
    for (size_t b = 0; b < sizeof budgets / sizeof *budgets; b++)
        for (size_t r = 0; r < sizeof rooms / sizeof *rooms; r++)
            compare_check(g, budgets[b], 3 * rooms[r]);
    compare_faults(g);
}

/* Four presentations with p = 2, each inconsistent in one family of overlaps alone: a check that drops the family would pass it. Each
 * relation (i, j) has the word x_g. */
static void compare_inconsistent(void)
{
    static const struct {
        const char *name;
        unsigned n, i[2], j[2], g[2];
    } small[] = {{"family 1", 5, {1, 3}, {2, 4}, {3, 5}},
                 {"family 2", 4, {2, 1}, {2, 3}, {3, 4}},
                 {"family 3", 4, {1, 2}, {1, 3}, {3, 4}},
                 {"family 4", 3, {1, 1}, {1, 2}, {2, 3}}};
    static group g;
    for (size_t m = 0; m < sizeof small / sizeof *small; m++) {
        unsigned n = small[m].n, bodies = 0;
        memset(&g, 0, sizeof g);
        snprintf(g.name, sizeof g.name, "%s", small[m].name);
        g.numbers[0] = (uint16_t)(g.p = 2);
        g.numbers[1] = (uint16_t)(g.n = n);
        g.len = 2;
        for (unsigned i = 1; i <= n; i++)
            for (unsigned t = 0; t < 2; t++)
                if (small[m].i[t] == i && small[m].j[t] == i)
                    g.numbers[2 + 2 * (i - 1) + 1] = 1;
        size_t at = 2 + 2 * (size_t)n;
        for (unsigned i = 1; i <= n; i++)
            for (unsigned j = i + 1; j <= n; j++, at += 2)
                for (unsigned t = 0; t < 2; t++)
                    if (small[m].i[t] == i && small[m].j[t] == j)
                        g.numbers[at + 1] = 1;
        for (size_t k = 2; k < at; k += 2) {
            g.numbers[k] = (uint16_t)bodies;
            bodies += g.numbers[k + 1];
        }
        for (unsigned t = 0; t < 2; t++) { /* both lists above stand in the order of the contents */
            g.numbers[at++] = (uint16_t)small[m].g[t];
            g.numbers[at++] = 1;
        }
        g.len = at;
        face_verdict v;
        plain.check(g.numbers, g.len, CHECK_BUDGET, work_a, WORK_MAX, &v);
        if (v.outcome != OUTCOME_DIFFERS || v.family != m + 1)
            die(g.name, "the plain collector's check does not find it");
        make_cases(&g);
        compare_all(&g);
    }
}

/* --- timing ------------------------------------------------------------------------------------------------------------------------ */

/* Of this process alone: what else the machine does is not measured. */
static double seconds(void)
{
    struct timespec t;
    clock_gettime(CLOCK_PROCESS_CPUTIME_ID, &t);
    return (double)t.tv_sec + 1e-9 * (double)t.tv_nsec;
}

static volatile unsigned sink; /* keeps the calls */

/* All cases once; for judge and check one call. */
static void turn(const face *f, const group *g, int op)
{
    uint8_t out[40];
    uint32_t count;
    face_verdict v;
    switch (op) {
    case JUDGE:
        sink += f->judge(g->numbers, g->len);
        return;
    case CHECK:
        f->check(g->numbers, g->len, CHECK_BUDGET, work_a, WORK_MAX, &v);
        sink += v.outcome;
        return;
    default:
        for (int m = 0; m < CASES; m++) {
            const bench_case *c = &g->cases[m];
            sink += call(f, g, c, op, CASE_BUDGET, work_a, 3 * c->room[op], out, &count);
        }
    }
}

/* Nanoseconds a turn, the best of several rounds in which the two collectors take turns, so that both meet the same machine. */
static void measure(const group *g, int op, double round, int rounds, double *best_plain, double *best_ours)
{
    const face *faces[2] = {&plain, &OURS};
    double *best[2] = {best_plain, best_ours};
    long reps[2];
    for (int s = 0; s < 2; s++) {
        reps[s] = 1;
        for (;;) {
            double from = seconds();
            for (long m = 0; m < reps[s]; m++)
                turn(faces[s], g, op);
            double took = seconds() - from;
            if (took >= round / 2 || reps[s] > 100000000)
                break;
            reps[s] = took < round / 50 ? reps[s] * 10 : (long)((double)reps[s] * round / took) + 1;
        }
        *best[s] = 1e30;
    }
    for (int r = 0; r < rounds; r++)
        for (int s = 0; s < 2; s++) {
            double from = seconds();
            for (long m = 0; m < reps[s]; m++)
                turn(faces[s], g, op);
            double each = (seconds() - from) / (double)reps[s] * 1e9;
            if (each < *best[s])
                *best[s] = each;
        }
}

/* GAP's time of an operation on a group in ns a call, 0 where there is none. A line of the file: group, operation, ns. */
static double gap_time(const char *path, const char *name, const char *operation)
{
    char a[64], b[64];
    double ns, found = 0;
    FILE *file = path ? fopen(path, "r") : NULL;
    if (!file)
        return 0;
    while (fscanf(file, "%63s %63s %lf", a, b, &ns) == 3)
        if (strcmp(a, name) == 0 && strcmp(b, operation) == 0)
            found = ns;
    fclose(file);
    return found;
}

static double worst[OPERATIONS];
static char worst_name[OPERATIONS][64];

static void time_group(const group *g, double round, int rounds, const char *gap)
{
    for (int op = 0; op < OPERATIONS; op++) {
        double a, b, replacements = 0, calls = op <= INVERSE ? CASES : 1;
        measure(g, op, round, rounds, &a, &b);
        if (op <= INVERSE)
            for (int m = 0; m < CASES; m++)
                replacements += g->cases[m].count[op];
        if (op == CHECK) {
            face_verdict v;
            plain.check(g->numbers, g->len, CHECK_BUDGET, work_a, WORK_MAX, &v);
            replacements = (double)check_replacements;
        }
        printf("%-16s %3u %2u  %-8s %12.0f %12.0f ", g->name, g->p, g->n, operations[op], a / calls, b / calls);
        if (op == JUDGE)
            printf("%9s %9s %9s ", "-", "-", "-");
        else
            printf("%9.0f %9.1f %9.1f ", replacements / calls, replacements / a * 1e3, replacements / b * 1e3);
        printf("%6.2f", b / a);
        double ns = gap_time(gap, g->name, operations[op]);
        if (ns > 0)
            printf(" %12.0f", ns);
        printf("\n");
        fflush(stdout);
        if (b / a > worst[op]) {
            worst[op] = b / a;
            memcpy(worst_name[op], g->name, sizeof worst_name[op]);
        }
    }
}

/* --- cases for GAP ------------------------------------------------------------------------------------------------------------------ */

static void print_list(FILE *file, const uint8_t *v, size_t n)
{
    fprintf(file, "[");
    for (size_t m = 0; m < n; m++)
        fprintf(file, m ? ",%u" : "%u", v[m]);
    fprintf(file, "]");
}

static void write_cases(FILE *file, const group *g)
{
    fprintf(file, "Add( BenchGroups, rec( name := \"%s\", numbers := [", g->name);
    for (size_t m = 0; m < g->len; m++)
        fprintf(file, m % 20 ? ",%u" : m ? ",\n%u" : "%u", g->numbers[m]);
    fprintf(file, "], cases := [\n");
    for (int m = 0; m < CASES; m++) {
        const bench_case *c = &g->cases[m];
        uint8_t product[40], inverse[40];
        uint32_t count;
        call(&plain, g, c, PRODUCT, CASE_BUDGET, work_a, 3 * c->room[PRODUCT], product, &count);
        call(&plain, g, c, INVERSE, CASE_BUDGET, work_a, 3 * c->room[INVERSE], inverse, &count);
        fprintf(file, "[");
        print_list(file, c->u, g->n);
        fprintf(file, ",\n");
        print_list(file, c->v, g->n);
        fprintf(file, ",\n");
        print_list(file, product, g->n);
        fprintf(file, ",\n");
        print_list(file, inverse, g->n);
        fprintf(file, m + 1 < CASES ? "],\n" : "]\n");
    }
    fprintf(file, "] ) );\n");
}

int main(int argc, char **argv)
{
    static group groups[GROUPS_MAX];
    const char *gap = NULL, *cases = NULL;
    double round = 0.003;
    int rounds = 21, many = 0;
    for (int m = 1; m < argc; m++) {
        if (strcmp(argv[m], "--quick") == 0) {
            round = 0.001;
            rounds = 5;
        } else if (strcmp(argv[m], "--gap") == 0 && m + 1 < argc) {
            gap = argv[++m];
        } else if (strcmp(argv[m], "--cases") == 0 && m + 1 < argc) {
            cases = argv[++m];
        } else if (many < GROUPS_MAX) {
            read_group(argv[m], &groups[many]);
            make_cases(&groups[many++]);
        }
    }
    if (many == 0)
        die("usage", "bench [--quick] [--gap TIMES | --cases FILE] GROUP.pcp..");
    if (cases) {
        FILE *file = fopen(cases, "w");
        if (!file)
            die(cases, "cannot be written");
        fprintf(file, "BenchGroups := [];;\n");
        for (int m = 0; m < many; m++)
            write_cases(file, &groups[m]);
        return fclose(file) != 0;
    }
    compare_inconsistent();
    for (int m = 0; m < many; m++)
        compare_all(&groups[m]);
    printf("%" PRIu64 " calls on %d groups compared: numbers, vectors, counts and workspaces agree\n\n", compared, many);
    printf("%-16s %3s %2s  %-8s %12s %12s %9s %9s %9s %6s %12s\n", "", "", "", "", "ns a call", "ns a call", "replace-", "million/s",
           "million/s", "", gap ? "ns a call" : "");
    printf("%-16s %3s %2s  %-8s %12s %12s %9s %9s %9s %6s %12s\n", "group", "p", "n", "call", plain.name, OURS.name, "ments", plain.name,
           OURS.name, "ratio", gap ? "GAP" : "");
    for (int m = 0; m < many; m++)
        time_group(&groups[m], round, rounds, gap);
    printf("\nlargest ratios:");
    for (int op = 0; op < OPERATIONS; op++)
        printf("%s %s %.2f (%s)", op ? "," : "", operations[op], worst[op], worst_name[op]);
    printf("\n");
    return 0;
}
