// Derksen's algorithm with the basis kept reduced at every order, in plain C: no blocks, no vector
// instructions, one 64-bit remainder for each product of coefficients.
#include "plain.h"

#include <string.h>

uint64_t plain_products, plain_summed;

#ifdef COUNT_PRODUCTS
#define FORMED(k) (plain_products += (uint64_t)(k))
#define SUMMED(k) (plain_summed += (uint64_t)(k))
#else
#define FORMED(k) ((void)0)
#define SUMMED(k) ((void)0)
#endif

static int is_prime(uint32_t p)
{
    if (p < 4)
        return p >= 2;
    if (p % 2 == 0)
        return 0;
    for (uint32_t d = 3; (uint64_t)d * d <= p; d += 2)
        if (p % d == 0)
            return 0;
    return 1;
}

// The inverse of a residue that is not zero, by Euclid's steps.
static uint32_t inverse(uint32_t p, uint32_t a)
{
    int64_t r = p, r1 = a, t = 0, t1 = 1;
    while (r1 != 0) {
        int64_t q = r / r1, next = r - q * r1, mark = t - q * t1;
        r = r1, r1 = next;
        t = t1, t1 = mark;
    }
    return (uint32_t)(t < 0 ? t + p : t);
}

// The coefficient of X^j in the sum of Q_k f_k, for one row Q. Entry k has degree at most degree[k].
static uint32_t coefficient(uint32_t p, uint32_t n, uint32_t s, const uint32_t *degree,
                            const uint32_t *row, const uint32_t *series, uint32_t j)
{
    uint64_t sum = 0;
    for (uint32_t k = 0; k < n; k++) {
        const uint32_t *entry = row + k * (s + 1), *f = series + k * s;
        uint32_t top = degree[k] < j ? degree[k] : j;
        for (uint32_t t = 0; t <= top; t++)
            sum = (sum + (uint64_t)entry[t] * f[j - t]) % p;
        FORMED(top + 1);
        SUMMED(top + 1);
    }
    return (uint32_t)sum;
}

// to += factor * from, entry by entry up to the pivot degrees.
static void add_multiple(uint32_t p, uint32_t n, uint32_t s, const uint32_t *degree,
                         uint32_t *restrict to, uint64_t factor, const uint32_t *restrict from)
{
    for (uint32_t k = 0; k < n; k++) {
        uint32_t *restrict x = to + k * (s + 1);
        const uint32_t *restrict y = from + k * (s + 1);
        for (uint32_t t = 0; t <= degree[k]; t++)
            x[t] = (uint32_t)((x[t] + factor * y[t]) % p);
        FORMED(degree[k] + 1);
    }
}

// Multiplies a row by X. The pivot degrees add up to less than s here, so there is room.
static void times_x(uint32_t n, uint32_t s, const uint32_t *degree, uint32_t *row)
{
    for (uint32_t k = 0; k < n; k++) {
        uint32_t *entry = row + k * (s + 1);
        memmove(entry + 1, entry, (degree[k] + 1) * sizeof *entry);
        entry[0] = 0;
    }
}

// From the reduced minimal basis of V_j to that of V_(j+1); answers whether they differ.
static int step(uint32_t p, uint32_t n, uint32_t s, const uint32_t *type, uint32_t *degree,
                uint32_t *basis, const uint32_t *series, uint32_t j)
{
    uint32_t c[8], width = n * (s + 1), i = n;
    for (uint32_t l = 0; l < n; l++) {
        c[l] = coefficient(p, n, s, degree, basis + l * width, series, j);
        if (c[l] != 0 && (i == n || (int32_t)(degree[l] - type[l]) < (int32_t)(degree[i] - type[i])))
            i = l;
    }
    if (i == n)
        return 0;
    uint32_t *pivot = basis + i * width;
    uint64_t scale = p - inverse(p, c[i]);
    for (uint32_t l = 0; l < n; l++)
        if (l != i && c[l] != 0) {
            FORMED(1);
            add_multiple(p, n, s, degree, basis + l * width, scale * c[l] % p, pivot);
        }
    times_x(n, s, degree, pivot);
    for (uint32_t k = 0; k < n; k++) {
        uint32_t a = pivot[k * (s + 1) + degree[k]];
        if (k != i && a != 0)
            add_multiple(p, n, s, degree, pivot, p - a, basis + k * width);
    }
    degree[i] += 1;
    return 1;
}

uint32_t plain_basis(uint32_t p, uint32_t n, uint32_t s,
                     const uint32_t *type, size_t type_len,
                     const uint32_t *series, size_t series_len,
                     uint32_t *basis, size_t basis_len,
                     uint32_t *answer, size_t answer_len)
{
    if (answer_len != 2)
        return 4;
    if (p > 2147483647 || !is_prime(p))
        return 1;
    if (n < 1 || n > 8)
        return 2;
    if (s > 255)
        return 3;
    if (type_len != n || series_len != n * s || basis_len != n * n * (s + 1))
        return 4;
    for (uint32_t i = 0; i < n; i++)
        if (type[i] > 255)
            return 5;
    for (uint32_t t = 0; t < n * s; t++)
        if (series[t] >= p)
            return 6;

    uint32_t degree[8] = {0}, count = 0, least = 0;
    memset(basis, 0, basis_len * sizeof *basis);
    for (uint32_t i = 0; i < n; i++)
        basis[(i * n + i) * (s + 1)] = 1;
    for (uint32_t j = 0; j < s; j++)
        count += (uint32_t)step(p, n, s, type, degree, basis, series, j);
    for (uint32_t i = 1; i < n; i++)
        if ((int32_t)(degree[i] - type[i]) < (int32_t)(degree[least] - type[least]))
            least = i;
    answer[0] = least + 1;
    answer[1] = count;
    return 0;
}
