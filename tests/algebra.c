#include "algebra.h"

#include <stdio.h>
#include <string.h>

enum { BLOCK = 512, PAYLOAD = 125 };

// ---- The field

static uint32_t power(uint32_t p, uint64_t a, uint32_t exponent)
{
    uint64_t result = 1 % p;
    for (; exponent != 0; exponent /= 2, a = a * a % p)
        if (exponent % 2 == 1)
            result = result * a % p;
    return (uint32_t)result;
}

int algebra_is_prime(uint32_t p)
{
    static uint32_t known[64]; // primes met before, so that long runs do not divide again
    if (p < 2)
        return 0;
    if (known[p % 64] == p)
        return 1;
    for (uint64_t d = 2; d * d <= p; d++)
        if (p % d == 0)
            return 0;
    known[p % 64] = p;
    return 1;
}

uint32_t algebra_modulus(uint32_t p)
{
    return p > LARGEST || !algebra_is_prime(p) ? 1 : 0;
}

static uint32_t operands(uint32_t p, uint32_t a, uint32_t b)
{
    return algebra_modulus(p) != 0 ? 1 : a >= p || b >= p ? 6 : 0;
}

uint32_t algebra_add(uint32_t p, uint32_t a, uint32_t b, uint32_t *sum)
{
    uint32_t status = operands(p, a, b);
    if (status == 0)
        *sum = (uint32_t)(((uint64_t)a + b) % p);
    return status;
}

uint32_t algebra_multiply(uint32_t p, uint32_t a, uint32_t b, uint32_t *product)
{
    uint32_t status = operands(p, a, b);
    if (status == 0)
        *product = (uint32_t)((uint64_t)a * b % p);
    return status;
}

uint32_t algebra_invert(uint32_t p, uint32_t a, uint32_t *inverse)
{
    uint32_t status = operands(p, a, 0);
    if (status == 0 && a == 0)
        return 256;
    if (status == 0)
        *inverse = power(p, a, p - 2);
    return status;
}

// The place of the first word that is not zero; len where there is none.
static uint32_t first_place(const uint32_t *vector, uint32_t len)
{
    uint32_t at = 0;
    while (at < len && vector[at] == 0)
        at++;
    return at;
}

// ---- The reduced minimal basis, by elimination
//
// V_s is the kernel of the map that sends X^k in entry i to the coefficients 0 to s - 1 of X^k f_i. Positions (i, k) are
// taken by rising k - d_i, then rising i. The first k at which the image depends on earlier ones is the pivot degree of row i,
// and the dependency on the independent positions is the reduced row.

static struct {
    uint32_t entry, exponent, column, scale;
    uint32_t steps[HIGHEST]; // its image is the sum of steps[l] times echelon image l, plus image / scale
    uint32_t image[HIGHEST]; // 1 at its column
} independent[HIGHEST];

// Reduces the image of one position by the echelon images; answers the first column left, s if none is.
static uint32_t reduce(uint32_t p, uint32_t s, uint32_t rank, uint32_t *image, uint32_t *steps)
{
    for (uint32_t l = 0; l < rank; l++) {
        uint64_t c = image[independent[l].column];
        steps[l] = (uint32_t)c;
        if (c != 0)
            for (uint32_t j = 0; j < s; j++)
                image[j] = (uint32_t)((image[j] + (p - c) * independent[l].image[j]) % p);
    }
    return first_place(image, s);
}

// The row that says how position (i, k) depends on the independent ones.
static void dependency(uint32_t p, uint32_t n, uint32_t s, uint32_t i, uint32_t k, uint32_t rank, uint32_t *steps, uint32_t *row)
{
    memset(row, 0, n * (s + 1) * sizeof *row);
    row[i * (s + 1) + k] = 1;
    for (uint32_t at = rank; at-- > 0;) {
        uint64_t c = (uint64_t)steps[at] * independent[at].scale % p;
        row[independent[at].entry * (s + 1) + independent[at].exponent] = (uint32_t)((p - c) % p);
        for (uint32_t l = 0; l < at; l++)
            steps[l] = (uint32_t)((steps[l] + (p - c) * independent[at].steps[l]) % p);
    }
}

static void rows(uint32_t p, uint32_t n, uint32_t s, const uint32_t *type, const uint32_t *series, uint32_t *basis, uint32_t *pivots)
{
    int found[WIDEST] = {0};
    uint32_t rank = 0;
    for (int shifted = -HIGHEST; shifted <= (int)s; shifted++)
        for (uint32_t i = 0; i < n; i++) {
            int k = shifted + (int)type[i];
            if (found[i] || k < 0)
                continue;
            uint32_t image[HIGHEST] = {0}, steps[HIGHEST];
            for (uint32_t j = (uint32_t)k; j < s; j++)
                image[j] = series[i * s + j - (uint32_t)k];
            uint32_t column = reduce(p, s, rank, image, steps);
            if (column == s) {
                found[i] = 1;
                pivots[i] = (uint32_t)k;
                dependency(p, n, s, i, (uint32_t)k, rank, steps, basis + i * n * (s + 1));
                continue;
            }
            uint32_t scale = power(p, image[column], p - 2);
            for (uint32_t j = 0; j < s; j++)
                independent[rank].image[j] = (uint32_t)((uint64_t)image[j] * scale % p);
            memcpy(independent[rank].steps, steps, rank * sizeof *steps);
            independent[rank].entry = i;
            independent[rank].exponent = (uint32_t)k;
            independent[rank].column = column;
            independent[rank].scale = scale;
            rank++;
        }
}

// The index of the row of least shifted degree, the lowest on a tie.
static uint32_t least_of(uint32_t n, const uint32_t *type, const uint32_t *pivots)
{
    uint32_t least = 0;
    for (uint32_t i = 1; i < n; i++)
        if ((int)pivots[i] - (int)type[i] < (int)pivots[least] - (int)type[least])
            least = i;
    return least;
}

static void solve(uint32_t p, uint32_t n, uint32_t s, const uint32_t *type, const uint32_t *series, uint32_t *basis, uint32_t *answer)
{
    uint32_t pivots[WIDEST];
    rows(p, n, s, type, series, basis, pivots);
    answer[0] = least_of(n, type, pivots) + 1;
    answer[1] = 0;
    for (uint32_t i = 0; i < n; i++)
        answer[1] += pivots[i];
}

// ---- The fraction, by elimination
//
// Column u has the coefficients k to N - 1 of X^u g, and behind them a 1 at place u of t. Columns 1, 2, .. are taken into an echelon form and
// cleared out of column 0. Once its coefficients are zero, what stands behind them is the t of least degree with t(0) = 1, that of the fraction
// in lowest terms.

static uint32_t echelon[HIGHEST][2 * HIGHEST], places[HIGHEST]; // vector l is 1 at places[l]

static void clear(uint32_t p, uint32_t width, uint32_t *vector, uint32_t l)
{
    uint64_t c = vector[places[l]];
    for (uint32_t j = 0; c != 0 && j < width; j++)
        vector[j] = (uint32_t)((vector[j] + (p - c) * echelon[l][j]) % p);
}

// Whether there is such a t; it is written to room + 1 words.
static int lowest_denominator(uint32_t p, uint32_t k, uint32_t room, const uint32_t *g, uint32_t *t)
{
    uint32_t rank = 0, width = 2 * room + 1, rest[2 * HIGHEST] = {0};
    memcpy(rest, g + k, room * sizeof *rest);
    rest[room] = 1;
    for (uint32_t u = 1; u <= room && first_place(rest, room) < room; u++) {
        uint32_t *column = echelon[rank];
        memset(column, 0, width * sizeof *column);
        for (uint32_t j = 0; j < room; j++)
            column[j] = k + j >= u ? g[k + j - u] : 0;
        column[room + u] = 1;
        for (uint32_t l = 0; l < rank; l++)
            clear(p, width, column, l);
        places[rank] = first_place(column, room);
        if (places[rank] == room)
            continue;
        uint32_t scale = power(p, column[places[rank]], p - 2);
        for (uint32_t j = 0; j < width; j++)
            column[j] = (uint32_t)((uint64_t)column[j] * scale % p);
        clear(p, width, rest, rank++);
    }
    if (first_place(rest, room) < room)
        return 0;
    memcpy(t, rest + room, (room + 1) * sizeof *t);
    return 1;
}

// ---- The calls, each with its refusals in its own order

static int any_above(const uint32_t *words, size_t len, uint32_t most)
{
    for (size_t t = 0; t < len; t++)
        if (words[t] > most)
            return 1;
    return 0;
}

uint32_t algebra_basis(uint32_t p, uint32_t n, uint32_t s, const uint32_t *type, size_t type_len,
                       const uint32_t *series, size_t series_len, uint32_t *basis, size_t basis_len, uint32_t *answer)
{
    if (algebra_modulus(p) != 0)
        return 1;
    if (n < 1 || n > WIDEST)
        return 2;
    if (s > HIGHEST)
        return 3;
    if (type_len != n || series_len != n * s || basis_len != n * n * (s + 1))
        return 4;
    if (any_above(type, type_len, 255))
        return 5;
    if (any_above(series, series_len, p - 1))
        return 6;
    solve(p, n, s, type, series, basis, answer);
    return 0;
}

uint32_t algebra_approximant(uint32_t p, uint32_t n, const uint32_t *type, size_t type_len,
                             const uint32_t *series, size_t series_len, uint32_t *basis, size_t basis_len, uint32_t *answer)
{
    if (algebra_modulus(p) != 0)
        return 1;
    if (n < 1 || n > WIDEST)
        return 2;
    if (type_len != n)
        return 4;
    if (any_above(type, type_len, 255))
        return 5;
    uint32_t s = n - 1;
    for (uint32_t i = 0; i < n; i++)
        s += type[i];
    if (s > HIGHEST)
        return 3;
    if (series_len != n * s || basis_len != n * n * (s + 1))
        return 4;
    if (any_above(series, series_len, p - 1))
        return 6;
    solve(p, n, s, type, series, basis, answer);
    return 0;
}

uint32_t algebra_bases(uint32_t p, uint32_t n, uint32_t s, uint32_t sets, const uint32_t *type, size_t type_len,
                       const uint32_t *series, size_t series_len, uint32_t *bases, size_t bases_len, uint32_t *answers, size_t answers_len)
{
    if (algebra_modulus(p) != 0)
        return 1;
    if (n < 1 || n > WIDEST)
        return 2;
    if (s > HIGHEST)
        return 3;
    if (sets > MOST_SETS)
        return 14;
    if (type_len != n || series_len != sets * n * s || bases_len != sets * n * n * (s + 1) || answers_len != 3 * sets)
        return 4;
    if (any_above(type, type_len, 255))
        return 5;
    for (uint32_t j = 0; j < sets; j++) {
        const uint32_t *set = series + j * n * s;
        uint32_t *answer = answers + 3 * j;
        memset(answer, 0, 3 * sizeof *answer);
        if (any_above(set, n * s, p - 1))
            answer[0] = 6;
        else
            solve(p, n, s, type, set, bases + j * n * n * (s + 1), answer + 1);
    }
    return 0;
}

uint32_t algebra_pair(uint32_t p, uint32_t k, const uint32_t *g, size_t g_len, uint32_t *r, size_t r_len, uint32_t *t, size_t t_len)
{
    if (algebra_modulus(p) != 0)
        return 1;
    if (g_len > HIGHEST)
        return 3;
    uint32_t order = (uint32_t)g_len;
    if (k < 1 || k > order)
        return 7;
    if (r_len != k || t_len != order - k + 1)
        return 4;
    if (any_above(g, g_len, p - 1))
        return 6;
    if (!lowest_denominator(p, k, order - k, g, t))
        return 13;
    for (uint32_t j = 0; j < k; j++) {
        uint64_t sum = 0;
        for (uint32_t u = 0; u <= j && u < t_len; u++)
            sum = (sum + (uint64_t)t[u] * g[j - u]) % p;
        r[j] = (uint32_t)sum;
    }
    return 0;
}

void algebra_row(uint32_t n, uint32_t s, uint32_t i, size_t basis_len, uint32_t *answer)
{
    answer[0] = answer[1] = 0;
    if (n < 1 || n > WIDEST || s > HIGHEST || i < 1 || i > n || basis_len != n * n * (s + 1))
        return;
    answer[0] = (i - 1) * n * (s + 1);
    answer[1] = n * (s + 1);
}

// ---- Job files

uint32_t algebra_word(const uint8_t *bytes)
{
    return bytes[0] | (uint32_t)bytes[1] << 8 | (uint32_t)bytes[2] << 16 | (uint32_t)bytes[3] << 24;
}

void algebra_put_word(uint8_t *bytes, uint32_t word)
{
    for (int at = 0; at < 4; at++)
        bytes[at] = (uint8_t)(word >> 8 * at);
}

static void checks(const uint8_t *block, uint32_t *a, uint32_t *b)
{
    *a = 1, *b = 0;
    for (int w = 0; w < 126; w++) {
        *a += algebra_word(block + 4 * w);
        *b += *a;
    }
}

void algebra_seal(uint8_t *block)
{
    uint32_t a, b;
    checks(block, &a, &b);
    algebra_put_word(block + 504, a);
    algebra_put_word(block + 508, b);
}

static uint32_t blocks_of(uint32_t n, uint32_t s)
{
    return (3 + n + n * s + PAYLOAD - 1) / PAYLOAD;
}

// Word t of the payloads joined.
static uint32_t payload(const uint8_t *file, uint32_t t)
{
    return algebra_word(file + t / PAYLOAD * BLOCK + 4 * (1 + t % PAYLOAD));
}

// The file's tests that come after its length's.
static uint32_t content(const uint8_t *file, uint32_t count)
{
    for (uint32_t b = 0; b < count; b++) {
        const uint8_t *block = file + b * BLOCK;
        uint32_t check_a, check_b;
        checks(block, &check_a, &check_b);
        if (algebra_word(block) != b)
            return 9;
        if (algebra_word(block + 504) != check_a || algebra_word(block + 508) != check_b)
            return 10;
    }
    uint32_t p = payload(file, 0), n = payload(file, 1), s = payload(file, 2);
    if (algebra_modulus(p) != 0)
        return 1;
    if (n < 1 || n > WIDEST)
        return 2;
    if (s > HIGHEST)
        return 3;
    if (count != blocks_of(n, s))
        return 11;
    for (uint32_t t = 3 + n + n * s; t < count * PAYLOAD; t++)
        if (payload(file, t) != 0)
            return 12;
    for (uint32_t t = 3; t < 3 + n; t++)
        if (payload(file, t) > 255)
            return 5;
    for (uint32_t t = 3 + n; t < 3 + n + n * s; t++)
        if (payload(file, t) >= p)
            return 6;
    return 0;
}

uint32_t algebra_read(const uint8_t *file, size_t file_len, uint32_t *type, size_t type_len, uint32_t *series, size_t series_len, uint32_t *answer)
{
    if (type_len != 8 || series_len != 2040)
        return 4;
    if (file_len == 0 || file_len % BLOCK != 0 || file_len > FILE_BYTES)
        return 8;
    uint32_t status = content(file, (uint32_t)(file_len / BLOCK));
    if (status != 0)
        return status;
    uint32_t n = payload(file, 1), s = payload(file, 2);
    for (uint32_t t = 0; t < 3; t++)
        answer[t] = payload(file, t);
    for (uint32_t t = 0; t < n; t++)
        type[t] = payload(file, 3 + t);
    for (uint32_t t = 0; t < n * s; t++)
        series[t] = payload(file, 3 + n + t);
    return 0;
}

uint32_t algebra_write(uint32_t p, uint32_t n, uint32_t s, const uint32_t *type, size_t type_len,
                       const uint32_t *series, size_t series_len, uint8_t *file, size_t file_len, uint32_t *answer)
{
    if (algebra_modulus(p) != 0)
        return 1;
    if (n < 1 || n > WIDEST)
        return 2;
    if (s > HIGHEST)
        return 3;
    if (type_len != n || series_len != n * s || file_len != FILE_BYTES)
        return 4;
    if (any_above(type, type_len, 255))
        return 5;
    if (any_above(series, series_len, p - 1))
        return 6;
    answer[0] = blocks_of(n, s);
    for (uint32_t t = 0; t < answer[0] * PAYLOAD; t++) {
        uint32_t word = t == 0 ? p : t == 1 ? n : t == 2 ? s
                      : t < 3 + n ? type[t - 3] : t < 3 + n + n * s ? series[t - 3 - n] : 0;
        algebra_put_word(file + t / PAYLOAD * BLOCK + 4 * (1 + t % PAYLOAD), word);
    }
    for (uint32_t b = 0; b < answer[0]; b++) {
        algebra_put_word(file + b * BLOCK, b);
        algebra_seal(file + b * BLOCK);
    }
    return 0;
}

// ---- The text

// The largest exponent of a coefficient that is not zero; 0 for the zero polynomial.
static uint32_t degree_of(const uint32_t *entry, uint32_t s)
{
    uint32_t degree = 0;
    for (uint32_t t = 0; t <= s; t++)
        if (entry[t] != 0)
            degree = t;
    return degree;
}

static size_t entry_text(char *text, const uint32_t *entry, uint32_t s)
{
    size_t len = (size_t)sprintf(text, " |");
    for (uint32_t t = 0; t <= degree_of(entry, s); t++)
        len += (size_t)sprintf(text + len, " %u", entry[t]);
    return len;
}

size_t algebra_text(uint32_t p, uint32_t n, uint32_t s, const uint32_t *type, const uint32_t *basis, uint32_t least, char *text)
{
    size_t len = (size_t)sprintf(text, "relations %u %u %u type", p, n, s);
    for (uint32_t i = 0; i < n; i++)
        len += (size_t)sprintf(text + len, " %u", type[i]);
    for (uint32_t i = 0; i < n; i++) {
        uint32_t pivot = degree_of(basis + (i * n + i) * (s + 1), s);
        len += (size_t)sprintf(text + len, "\nrow %u %u %lld", i + 1, pivot, (long long)pivot - (long long)type[i]);
        for (uint32_t k = 0; k < n; k++)
            len += entry_text(text + len, basis + (i * n + k) * (s + 1), s);
    }
    return len + (size_t)sprintf(text + len, "\nleast %u\n", least);
}

size_t algebra_refused(uint32_t number, char *text) { return (size_t)sprintf(text, "refused %u\n", number); }

size_t algebra_print(const uint8_t *file, size_t file_len, char *text)
{
    static uint32_t type[8], series[2040], basis[16384], job[3], found[2];
    uint32_t status = algebra_read(file, file_len, type, 8, series, 2040, job), n = job[1], s = job[2];
    if (status != 0)
        return algebra_refused(status, text);
    algebra_basis(job[0], n, s, type, n, series, n * s, basis, n * n * (s + 1), found);
    return algebra_text(job[0], n, s, type, basis, found[0], text);
}

// ---- The text job

// The word from *at on, after blanks and comments; its length is 0 at the end of the text. *line counts the ends of line passed.
static size_t next_word(const uint8_t *text, size_t len, size_t *at, size_t *line)
{
    size_t t = *at;
    for (; t < len && strchr(" \t\r\n#", text[t]) != NULL && text[t] != 0; t++) {
        if (text[t] == '#')
            while (t + 1 < len && text[t + 1] != '\n')
                t++;
        *line += text[t] == '\n';
    }
    *at = t;
    while (t < len && (text[t] == 0 || strchr(" \t\r\n#", text[t]) == NULL))
        t++;
    return t - *at;
}

static uint32_t number_of(const uint8_t *word, size_t len, uint32_t *number)
{
    uint64_t value = 0;
    for (size_t t = 0; t < len; t++)
        if (word[t] < '0' || word[t] > '9')
            return 257;
    for (size_t t = 0; t < len; t++) {
        value = 10 * value + (word[t] - (uint64_t)'0');
        if (value > 4294967295u)
            return 258;
    }
    *number = (uint32_t)value;
    return 0;
}

uint32_t algebra_parse(const uint8_t *text, size_t text_len, uint32_t *type, uint32_t *series, uint32_t *answer, size_t *line)
{
    static uint32_t numbers[3 + 8 + 2040];
    size_t at = 0, wanted = 3, count = 0;
    *line = 1;
    for (;;) {
        size_t len = next_word(text, text_len, &at, line);
        if (count == wanted && len == 0)
            break;
        if (count == wanted)
            return 260;
        if (len == 0)
            return 259;
        uint32_t *x = numbers + count, status = number_of(text + at, len, x);
        if (status != 0)
            return status;
        if (count == 0 && algebra_modulus(*x) != 0)
            return 1;
        if (count == 1 && (*x < 1 || *x > 8))
            return 2;
        if (count == 2 && *x > 255)
            return 3;
        if (count > 2 && count < 3 + numbers[1] && *x > 255)
            return 5;
        if (count > 2 && count >= 3 + numbers[1] && *x >= numbers[0])
            return 6;
        at += len;
        if (++count == 3)
            wanted = 3 + numbers[1] + (size_t)numbers[1] * numbers[2];
    }
    *line = 0;
    memcpy(answer, numbers, 12);
    memcpy(type, numbers + 3, 4 * numbers[1]);
    memcpy(series, numbers + 3 + numbers[1], 4 * (size_t)numbers[1] * numbers[2]);
    return 0;
}
