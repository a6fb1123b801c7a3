// Times the basis call inside one process: the plain C program and, if built with -DENGINE, the engine.
//
//   bench jobs            reads jobs (p n s, type, series; numbers separated by spaces) and prints the words
//   bench largest ROUNDS  the largest job, types all 0 and types spread: microseconds a call, median of the rounds
//   bench sweep ROUNDS    n = 2, 4, 8 and s up to 255: the same, with the products formed and their bound
//   bench once TYPES      one call of each way on the largest job, types zero or spread
//   bench sets ROUNDS     sixteen sets of n = 2 and s = 31: sixteen single calls of the engine against one call on all sets
#define _POSIX_C_SOURCE 200809L
#include "plain.h"

#include <inttypes.h>
#include <stdio.h>
#include <stdlib.h>
#include <string.h>
#include <time.h>

#ifdef ENGINE
#include "relations.h"
#endif

#define LARGEST 2147483647u

typedef uint32_t basis_call(uint32_t p, uint32_t n, uint32_t s,
                            const uint32_t *type, size_t type_len,
                            const uint32_t *series, size_t series_len,
                            uint32_t *basis, size_t basis_len,
                            uint32_t *answer, size_t answer_len);

static const struct {
    const char *name;
    basis_call *call;
} ways[] = {
    {"plain", plain_basis},
#ifdef ENGINE
    {"engine", relations_basis},
#endif
};
#define WAYS (sizeof ways / sizeof *ways)

static uint32_t type[8], series[2040], basis[WAYS][16384], answer[WAYS][2];

static uint32_t call(size_t way, uint32_t p, uint32_t n, uint32_t s)
{
    return ways[way].call(p, n, s, type, n, series, n * s, basis[way], n * n * (s + 1), answer[way], 2);
}

// A random job of some sets (the generator of docs/REFERENCE.md); spread types run over 0..255.
static void draw(uint32_t p, uint32_t n, uint32_t s, uint32_t sets, int spread, uint64_t seed)
{
    uint64_t x = (seed + 1) * 2330089441u % 140737488355213u;
    for (uint32_t i = 0; i < n; i++)
        type[i] = spread && n > 1 ? i * 255 / (n - 1) : 0;
    for (uint32_t t = 0; t < sets * n * s; t++) {
        x = x * 48271 % 140737488355213u;
        series[t] = (uint32_t)(x % p);
    }
}

// Processor time of this process, so that other work on the machine counts less.
static double microseconds(void)
{
    struct timespec t;
    clock_gettime(CLOCK_PROCESS_CPUTIME_ID, &t);
    return 1e6 * (double)t.tv_sec + 1e-3 * (double)t.tv_nsec;
}

static int by_size(const void *a, const void *b)
{
    double x = *(const double *)a, y = *(const double *)b;
    return (x > y) - (x < y);
}

// Ends the program where a call was refused.
static void demand(const char *name, uint32_t status)
{
    if (status == 0)
        return;
    fprintf(stderr, "%s: refused %" PRIu32 "\n", name, status);
    exit(1);
}

static double median_of(double *times, int rounds)
{
    qsort(times, (size_t)rounds, sizeof(double), by_size);
    return times[rounds / 2];
}

// Median time of a call over the rounds, the ways in turn; every round's job is another one.
static void measure(uint32_t p, uint32_t n, uint32_t s, int spread, int rounds, double *median)
{
    double *times[WAYS];
    for (size_t way = 0; way < WAYS; way++)
        times[way] = malloc((size_t)rounds * sizeof(double));
    for (int round = 0; round < rounds; round++) {
        draw(p, n, s, 1, spread, (uint64_t)round);
        for (size_t way = 0; way < WAYS; way++) {
            double start = microseconds();
            uint32_t status = call(way, p, n, s);
            times[way][round] = microseconds() - start;
            demand(ways[way].name, status);
            if (memcmp(basis[way], basis[0], n * n * (s + 1) * 4) != 0 || memcmp(answer[way], answer[0], 8) != 0) {
                fprintf(stderr, "%s and %s differ at n = %" PRIu32 ", s = %" PRIu32 "\n", ways[way].name, ways[0].name, n, s);
                exit(1);
            }
        }
    }
    for (size_t way = 0; way < WAYS; way++) {
        median[way] = median_of(times[way], rounds);
        free(times[way]);
    }
}

static uint64_t bound(uint64_t n, uint64_t s)
{
    return s == 0 ? 0 : (3 * n - 2) * (s * (s - 1) / 2 + n * s) + (n - 1) * s;
}

// One line: what, microseconds of each way, the ratio, the products of the first round's job, their bound, and how many a sum took.
static void line(uint32_t n, uint32_t s, int spread, int rounds)
{
    double median[WAYS];
    measure(LARGEST, n, s, spread, rounds, median);
    draw(LARGEST, n, s, 1, spread, 0);
    plain_products = plain_summed = 0;
    call(0, LARGEST, n, s);
    printf("%" PRIu32 " %" PRIu32 " %s", n, s, spread ? "spread" : "zero");
    for (size_t way = 0; way < WAYS; way++)
        printf(" %s %.1f", ways[way].name, median[way]);
    if (WAYS > 1)
        printf(" ratio %.3f", median[WAYS - 1] / median[0]);
#ifdef COUNT_PRODUCTS
    printf(" products %" PRIu64 " bound %" PRIu64 " summed %" PRIu64, plain_products, bound(n, s), plain_summed);
#else
    (void)bound;
#endif
    printf("\n");
}

#ifdef ENGINE
enum { SETS = 16, N = 2, S = 31, SIZE = N * N * (S + 1) };

// The bases of all sets, and three words a set.
struct found {
    uint32_t bases[SETS * SIZE], answers[SETS * 3];
};

static void by_single_calls(struct found *f)
{
    for (uint32_t j = 0; j < SETS; j++) {
        uint32_t *words = f->answers + 3 * j;
        words[0] = relations_basis(LARGEST, N, S, type, N, series + j * N * S, N * S, f->bases + j * SIZE, SIZE, words + 1, 2);
        demand("single", words[0]);
    }
}

static void by_one_call(struct found *f)
{
    demand("together", relations_bases(LARGEST, N, S, SETS, type, N, series, SETS * N * S, f->bases, SETS * SIZE, f->answers, SETS * 3));
}

// One line: the number of sets, n and s, microseconds for all sets in single calls and in one, the ratio. Every round's sets are others.
static void sets(int rounds)
{
    static struct found alone, all;
    double *single = malloc((size_t)rounds * sizeof(double)), *together = malloc((size_t)rounds * sizeof(double));
    for (int round = 0; round < rounds; round++) {
        draw(LARGEST, N, S, SETS, 0, (uint64_t)round);
        double start = microseconds();
        by_single_calls(&alone);
        double middle = microseconds();
        by_one_call(&all);
        together[round] = microseconds() - middle;
        single[round] = middle - start;
        if (memcmp(&alone, &all, sizeof all) != 0) {
            fprintf(stderr, "single calls and one call differ in round %d\n", round);
            exit(1);
        }
    }
    double a = median_of(single, rounds), b = median_of(together, rounds);
    printf("%d %d %d single %.1f together %.1f ratio %.3f\n", SETS, N, S, a, b, b / a);
    free(single);
    free(together);
}
#endif

static int jobs(void)
{
    uint32_t p, n, s;
    while (scanf("%" SCNu32 "%" SCNu32 "%" SCNu32, &p, &n, &s) == 3) {
        for (uint32_t i = 0; i < n; i++)
            if (scanf("%" SCNu32, &type[i]) != 1)
                return 1;
        for (uint32_t t = 0; t < n * s; t++)
            if (scanf("%" SCNu32, &series[t]) != 1)
                return 1;
        for (size_t way = 0; way < WAYS; way++) {
            plain_products = 0;
            uint32_t status = call(way, p, n, s);
            if (plain_products > bound(n, s))
                return 1;
            printf("%" PRIu32 " %" PRIu32 " %" PRIu32, status, answer[way][0], answer[way][1]);
            for (uint32_t t = 0; t < n * n * (s + 1); t++)
                printf(" %" PRIu32, basis[way][t]);
            printf("\n");
        }
    }
    return 0;
}

int main(int argc, char **argv)
{
    if (argc == 2 && strcmp(argv[1], "jobs") == 0)
        return jobs();
    if (argc == 3 && strcmp(argv[1], "once") == 0) {
        draw(LARGEST, 8, 255, 1, strcmp(argv[2], "spread") == 0, 0);
        for (size_t way = 0; way < WAYS; way++)
            demand(ways[way].name, call(way, LARGEST, 8, 255));
        return 0;
    }
    int rounds = argc == 3 ? atoi(argv[2]) : 0;
    if (rounds > 0 && strcmp(argv[1], "largest") == 0) {
        line(8, 255, 0, rounds);
        line(8, 255, 1, rounds);
        return 0;
    }
    if (rounds > 0 && strcmp(argv[1], "sweep") == 0) {
        for (uint32_t n = 2; n <= 8; n *= 2)
            for (uint32_t s = 15; s <= 255; s += 16)
                line(n, s, 0, rounds);
        return 0;
    }
#ifdef ENGINE
    if (rounds > 0 && strcmp(argv[1], "sets") == 0) {
        sets(rounds);
        return 0;
    }
#endif
    fprintf(stderr, "bench jobs | once TYPES | largest ROUNDS | sweep ROUNDS | sets ROUNDS (with the engine)\n");
    return 2;
}
