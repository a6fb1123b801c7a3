// A stand-in for the engine, to try the harness itself: tests/outside must pass over it, and must fail for each -DSLIP=1 to 58.
// It follows the engine's algorithm without its economy, and is no part of the product.
#include "relations.h"

#include <stdio.h>
#include <string.h>

#ifndef SLIP
#define SLIP 0
#endif

static int is_prime(uint32_t p)
{
    for (uint64_t d = 2; SLIP == 1 ? d * d < p : d * d <= p; d++)
        if (p % d == 0)
            return 0;
    return p >= 2;
}

static uint32_t times(uint32_t p, uint64_t a, uint64_t b) { return (uint32_t)(a * b % p); }

static uint32_t inverse(uint32_t p, uint32_t a)
{
    uint64_t result = 1, base = a;
    for (uint32_t e = p - 2; e != 0; e /= 2, base = base * base % p)
        if (e % 2 == 1)
            result = result * base % p;
    return (uint32_t)result;
}

uint32_t relations_modulus(uint32_t p) { return p > RELATIONS_LARGEST || !is_prime(p); }

static uint32_t two(uint32_t p, uint32_t a, uint32_t b)
{
    if (SLIP == 2 && (a >= p || b >= p))
        return 6;
    return relations_modulus(p) ? 1 : (SLIP == 3 ? a > p : a >= p) || b >= p ? 6 : 0;
}

uint32_t relations_add(uint32_t p, uint32_t a, uint32_t b, uint32_t *answer, size_t answer_len)
{
    uint32_t status = answer_len != 1 ? 4 : two(p, a, b);
    if (status == 0)
        answer[0] = (uint32_t)(((uint64_t)a + b) % p);
    return status;
}

uint32_t relations_multiply(uint32_t p, uint32_t a, uint32_t b, uint32_t *answer, size_t answer_len)
{
    uint32_t status = answer_len != 1 ? 4 : two(p, a, b);
    if (status == 0)
        answer[0] = times(p, a, b);
    return status;
}

uint32_t relations_invert(uint32_t p, uint32_t a, uint32_t *answer, size_t answer_len)
{
    uint32_t status = answer_len != 1 ? 4 : two(p, a, 0);
    if (status == 0 && a == 0 && SLIP != 4)
        return RELATIONS_NO_INVERSE;
    if (status == 0)
        answer[0] = inverse(p, a);
    return status;
}

static int earlier(const uint32_t *e, const uint32_t *type, uint32_t l, uint32_t i)
{
    if (SLIP == 5) // the first nonzero row
        return 0;
    if (SLIP == 6) // the shift dropped
        return e[l] < e[i];
    int a = (int)e[l] - (int)type[l], b = (int)e[i] - (int)type[i];
    return SLIP == 7 ? a <= b : a < b; // ties broken by the other index
}

static void add_row(uint32_t p, uint32_t width, uint32_t *to, uint64_t c, const uint32_t *from)
{
    for (uint32_t t = 0; t < width; t++)
        to[t] = (uint32_t)((to[t] + c * from[t]) % p);
}

// The sum, plus the coefficient of X^j in entry * f. 55: a remainder for five products only; 56: the upper half of a factor dropped;
// 57: what follows the first four products dropped; 58: the series read one place off.
static uint64_t plus_product(uint32_t p, uint64_t sum, const uint32_t *entry, const uint32_t *f, uint32_t j)
{
    for (uint32_t t = 0; t <= j && (SLIP != 57 || t < 4); t++) {
        sum += (uint64_t)(SLIP == 56 ? entry[t] % 65536 : entry[t]) * f[j - t + (SLIP == 58 && t > 0)];
        if (SLIP != 55 || t % 5 == 4)
            sum %= p;
    }
    return sum % p;
}

static int step(uint32_t p, uint32_t n, uint32_t s, const uint32_t *type, const uint32_t *series, uint32_t *basis, uint32_t *e, uint32_t j)
{
    uint32_t c[8], w = s + 1, width = n * w, i = n;
    for (uint32_t l = 0; l < n; l++) {
        uint64_t sum = 0;
        for (uint32_t k = 0; k < n; k++)
            sum = plus_product(p, sum, basis + l * width + k * w, series + k * s, j);
        c[l] = (uint32_t)sum;
        if (c[l] != 0 && (i == n || earlier(e, type, l, i)))
            i = l;
    }
    if (i == n)
        return 0;
    uint32_t *pivot = basis + i * width;
    uint32_t scale = SLIP == 8 ? 1 : inverse(p, c[i]); // unscaled
    for (uint32_t l = 0; l < n; l++)
        if (l != i)
            add_row(p, width, basis + l * width, (p - times(p, c[l], scale)) % p, pivot);
    for (uint32_t k = 0; k < n; k++) {
        memmove(pivot + k * w + 1, pivot + k * w, 4 * s);
        pivot[k * w] = 0;
    }
    e[i]++;
    for (uint32_t k = 0; k < n && SLIP != 9; k++) // 9: rows left unreduced
        if (k != i)
            add_row(p, width, pivot, p - pivot[k * w + e[k]], basis + k * width);
    return 1;
}

static void solve(uint32_t p, uint32_t n, uint32_t s, const uint32_t *type, const uint32_t *series, uint32_t *basis, uint32_t *answer)
{
    uint32_t e[8] = {0}, least = 0, count = 0;
    memset(basis, 0, 4 * n * n * (s + 1));
    for (uint32_t i = 0; i < n; i++)
        basis[(i * n + i) * (s + 1)] = 1;
    for (uint32_t j = 0; j < s && (SLIP != 10 || j < 1); j++) // 10: order 0 treated, the rest pretended
        count += (uint32_t)step(p, n, s, type, series, basis, e, j);
    for (uint32_t i = 1; i < n; i++) {
        int a = (int)e[i] - (int)type[i], b = (int)e[least] - (int)type[least];
        if (SLIP == 11 ? a <= b : a < b)
            least = i;
    }
    answer[0] = least + 1;
    answer[1] = SLIP == 12 ? s : count; // an invented count
}

static uint32_t above(const uint32_t *words, size_t len, uint32_t most, uint32_t number)
{
    for (size_t t = 0; t < len; t++)
        if (words[t] > most)
            return number;
    return 0;
}

uint32_t relations_basis(uint32_t p, uint32_t n, uint32_t s, const uint32_t *type, size_t type_len,
                         const uint32_t *series, size_t series_len, uint32_t *basis, size_t basis_len, uint32_t *answer, size_t answer_len)
{
    if (answer_len != 2)
        return 4;
    if (SLIP == 13 && (n < 1 || n > 8)) // the order swapped
        return 2;
    if (relations_modulus(p))
        return 1;
    if (n < 1 || n > 8)
        return 2;
    if (s > 255)
        return 3;
    if (type_len != n || series_len != n * s || basis_len != n * n * (s + 1))
        return 4;
    if (SLIP == 14) // written before a refusal
        basis[0] = 1;
    if (above(type, n, 255, 5))
        return 5;
    if (above(series, n * s - (SLIP == 15 && s > 0), p - 1, 6)) // the last coefficient not tested
        return 6;
    if (SLIP != 16) // nothing written
        solve(p, n, s, type, series, basis, answer);
    return 0;
}

uint32_t relations_approximant(uint32_t p, uint32_t n, const uint32_t *type, size_t type_len,
                               const uint32_t *series, size_t series_len, uint32_t *basis, size_t basis_len, uint32_t *answer, size_t answer_len)
{
    if (answer_len != 2)
        return 4;
    if (relations_modulus(p))
        return 1;
    if (n < 1 || n > 8)
        return 2;
    if (type_len != n)
        return 4;
    uint32_t s = n - 1, large = above(type, n, 255, 5);
    if (large)
        return 5;
    for (uint32_t i = 0; i < n; i++)
        s += type[i];
    if (s > (SLIP == 17 ? 256 : 255)) // an off-by-one in the order's test
        return 3;
    if (series_len != n * s || basis_len != n * n * (s + 1))
        return 4;
    if (above(series, n * s, p - 1, 6))
        return 6;
    solve(p, n, s, type, series, basis, answer);
    return 0;
}

// The tests of the whole call; 44: more than 16 sets refused after the lengths.
static uint32_t test_sets(uint32_t p, uint32_t n, uint32_t s, uint32_t sets, const uint32_t *type, size_t type_len,
                          size_t series_len, size_t bases_len, size_t answers_len)
{
    size_t words = 3 * (size_t)sets;
    if (SLIP == 51 && answers_len != words) // the answers' length tested first
        return 4;
    if (relations_modulus(p))
        return 1;
    if (n < 1 || n > 8)
        return 2;
    if (s > 255)
        return 3;
    if (sets > (SLIP == 45 ? 17 : 16) && SLIP != 44) // 45: seventeen sets accepted
        return 14;
    if (SLIP == 50 && sets == 0) // no sets refused
        return 14;
    if (type_len != n || series_len != (size_t)sets * n * s || bases_len != (size_t)sets * n * n * (s + 1))
        return 4;
    if (SLIP == 52 ? answers_len < words : answers_len != words) // longer answers accepted
        return 4;
    if (sets > 16 && SLIP == 44)
        return 14;
    return above(type, n, 255, 5);
}

uint32_t relations_bases(uint32_t p, uint32_t n, uint32_t s, uint32_t sets, const uint32_t *type, size_t type_len,
                         const uint32_t *series, size_t series_len, uint32_t *bases, size_t bases_len, uint32_t *answers, size_t answers_len)
{
    uint32_t status = test_sets(p, n, s, sets, type, type_len, series_len, bases_len, answers_len), words = n * s, size = n * n * (s + 1);
    if (status != 0 && SLIP == 47 && answers_len > 0) // a refused call's number among the answers
        answers[0] = status;
    if (status != 0 && SLIP == 53) // a refused call's bases cleared
        memset(bases, 0, 4 * bases_len);
    if (status != 0)
        return status;
    if (SLIP == 49 && above(series, sets * words, p - 1, 6)) // a set's coefficient refuses the call
        return 6;
    for (uint32_t j = 0; j < sets; j++) {
        const uint32_t *set = series + (SLIP == 46 && j == 1 ? 0 : j) * words; // the second set from the first one's series
        uint32_t *basis = bases + j * size, *answer = answers + 3 * (SLIP == 43 ? (j + 1) % sets : j); // an answer at the next set's place
        uint32_t tested = words + (SLIP == 54 && words > 0 && j + 1 < sets); // refused for the next set's first coefficient
        answer[0] = above(set, tested, p - 1, 6);
        if (answer[0] == 0) {
            solve(p, n, s, type, set, basis, answer + 1);
            continue;
        }
        if (SLIP != 48) // 48: two words of a refused set as they were
            answer[1] = answer[2] = 0;
        if (SLIP == 42) // a refused set's part cleared
            memset(basis, 0, 4 * size);
        if (SLIP == 41) // a refused set stops those after it
            break;
    }
    return 0;
}

// What makes t(0) = 1; 36: the leading coefficient made 1.
static uint32_t scale_of(uint32_t p, const uint32_t *t, uint32_t top)
{
    if (SLIP == 35 || t[0] == 0) // unscaled
        return 1;
    while (t[top] == 0)
        top--;
    return inverse(p, t[SLIP == 36 ? top : 0]);
}

uint32_t relations_pair(uint32_t p, uint32_t k, const uint32_t *g, size_t g_len, uint32_t *r, size_t r_len, uint32_t *t, size_t t_len)
{
    static uint32_t basis[1024], series[510], answer[2];
    if (relations_modulus(p))
        return 1;
    if (g_len > 255)
        return 3;
    uint32_t s = (uint32_t)g_len;
    if (k < 1 || k > s)
        return 7;
    if (r_len != k || t_len != s - k + 1)
        return 4;
    if (above(g, s, p - 1, 6) && SLIP != 37)
        return 6;
    memset(series, 0, sizeof series);
    series[0] = p - 1;
    memcpy(series + s, g, 4 * s);
    uint32_t type[2] = {k - 1, s - k};
    solve(p, 2, s, type, series, basis, answer);
    uint32_t *row = basis + (answer[0] - 1) * 2 * (s + 1), *first = row, *second = row + s + 1;
    if (SLIP == 38) // written before a refusal
        memcpy(r, first, 4 * k);
    if (second[0] == 0 && SLIP != 34) // 34: the row as it is
        return 13;
    if (SLIP == 39 && !above(first, k, 0, 1)) // zero refused
        return 13;
    if (SLIP == 37 && above(g, s, p - 1, 6)) // the order swapped
        return 6;
    uint32_t scale = scale_of(p, second, s - k);
    for (uint32_t u = 0; u < 2 * (s + 1); u++)
        row[u] = times(p, row[u], scale);
    if (SLIP == 40 && first[k - 1] == 0 && second[s - k] == 0) // a common factor, 1 + X
        for (uint32_t u = 2 * s + 1; u > 0; u--)
            row[u] = (row[u] + row[u - 1]) % p;
    memcpy(r, SLIP == 18 ? second : first, 4 * k); // r and t exchanged
    memcpy(t, SLIP == 18 ? first : second, 4 * (s - k + 1));
    return 0;
}

uint32_t relations_row(uint32_t n, uint32_t s, uint32_t i, const uint32_t *basis, size_t basis_len, uint32_t *answer, size_t answer_len)
{
    (void)basis;
    if (answer_len != 2)
        return 4;
    int fits = n >= 1 && n <= 8 && s <= 255 && i >= 1 && i <= n && basis_len == n * n * (s + 1);
    answer[0] = fits ? (SLIP == 19 ? i % n : i - 1) * n * (s + 1) : 0;
    answer[1] = fits ? n * (s + 1) : 0;
    return 0;
}

static uint32_t word(const uint8_t *b) { return b[0] | (uint32_t)b[1] << 8 | (uint32_t)b[2] << 16 | (uint32_t)b[3] << 24; }

static void put(uint8_t *b, uint32_t w)
{
    for (int t = 0; t < 4; t++)
        b[t] = (uint8_t)(w >> 8 * t);
}

static void checks(const uint8_t *block, uint32_t *a, uint32_t *b)
{
    *a = 1, *b = 0;
    for (int w = 0; w < (SLIP == 20 ? 125 : 126); w++) {
        if (SLIP == 21) // B added before A
            *b += *a;
        *a += word(block + 4 * w);
        if (SLIP != 21)
            *b += *a;
    }
}

static uint32_t at(const uint8_t *file, uint32_t t) { return word(file + t / 125 * 512 + 4 + t % 125 * 4); }

uint32_t relations_read(const uint8_t *file, size_t file_len, uint32_t *type, size_t type_len, uint32_t *series, size_t series_len, uint32_t *answer, size_t answer_len)
{
    if (answer_len != 3 || type_len != 8 || series_len != 2040)
        return 4;
    if (file_len == 0 || file_len % 512 != 0 || file_len > 8704)
        return 8;
    uint32_t count = (uint32_t)(file_len / 512);
    for (uint32_t b = 0; b < count; b++) {
        uint32_t check_a, check_b;
        checks(file + 512 * b, &check_a, &check_b);
        if (word(file + 512 * b) != b)
            return 9;
        if (word(file + 512 * b + 504) != check_a || word(file + 512 * b + 508) != check_b)
            return 10;
    }
    uint32_t p = at(file, 0), n = at(file, 1), s = at(file, 2);
    if (relations_modulus(p))
        return 1;
    if (n < 1 || n > 8)
        return 2;
    if (s > 255)
        return 3;
    uint32_t used = 3 + n + n * s;
    if (count != (SLIP == 22 ? used / 125 + 1 : (used + 124) / 125)) // the count off by one at a full block
        return 11;
    for (uint32_t t = used + (SLIP == 23); t < 125 * count; t++) // a spare word not tested
        if (at(file, t) != 0)
            return 12;
    for (uint32_t t = 3; t < 3 + n; t++)
        if (at(file, t) > 255)
            return 5;
    for (uint32_t t = 3 + n; t < used; t++)
        if (at(file, t) >= p)
            return 6;
    for (uint32_t t = 0; t < n + (SLIP == 24 && n < 8); t++) // a type word written past n
        type[t] = at(file, 3 + t);
    for (uint32_t t = 0; t < n * s; t++)
        series[t] = at(file, 3 + n + t);
    for (uint32_t t = 0; t < 3; t++)
        answer[t] = at(file, t);
    return 0;
}

uint32_t relations_write(uint32_t p, uint32_t n, uint32_t s, const uint32_t *type, size_t type_len,
                         const uint32_t *series, size_t series_len, uint8_t *file, size_t file_len, uint32_t *answer, size_t answer_len)
{
    if (answer_len != 1)
        return 4;
    if (relations_modulus(p))
        return 1;
    if (n < 1 || n > 8)
        return 2;
    if (s > 255)
        return 3;
    if (type_len != n || series_len != n * s || file_len != 8704)
        return 4;
    if (above(type, n, 255, 5))
        return 5;
    if (above(series, n * s, p - 1, 6))
        return 6;
    uint32_t count = (3 + n + n * s + 124) / 125;
    memset(file, 0, SLIP == 25 ? 8704 : 512 * count); // bytes past the file changed
    put(file + 4, p), put(file + 8, n), put(file + 12, s);
    for (uint32_t t = 3; t < 3 + n + n * s; t++)
        put(file + t / 125 * 512 + 4 + t % 125 * 4, t < 3 + n ? type[t - 3] : series[t - 3 - n]);
    for (uint32_t b = 0; b < count; b++) {
        uint32_t check_a, check_b;
        put(file + 512 * b, b);
        checks(file + 512 * b, &check_a, &check_b);
        put(file + 512 * b + 504, check_a), put(file + 512 * b + 508, check_b);
    }
    answer[0] = count;
    return 0;
}

// A text is made beside the lent buffer and copied to it whole.
static uint32_t give_text(const char *line, int len, uint8_t *text, uint32_t *answer)
{
    memcpy(text, line, (size_t)len + (SLIP == 27));
    answer[0] = (uint32_t)len;
    return 0;
}

uint32_t relations_text(uint32_t p, uint32_t n, uint32_t s, const uint32_t *type, size_t type_len, const uint32_t *basis, size_t basis_len,
                        uint32_t least, uint8_t *text, size_t text_len, uint32_t *answer, size_t answer_len)
{
    static char line[RELATIONS_TEXT + 1];
    if (answer_len != 1)
        return 4;
    if (n < 1 || n > 8)
        return 2;
    if (s > 255)
        return 3;
    if (type_len != n || basis_len != n * n * (s + 1) || text_len != RELATIONS_TEXT)
        return 4;
    int len = sprintf(line, "relations %u %u %u type", p, n, s);
    for (uint32_t i = 0; i < n; i++)
        len += sprintf(line + len, " %u", type[i]);
    for (uint32_t i = 0; i < n; i++) {
        uint32_t e = s;
        while (e > 0 && basis[(i * n + i) * (s + 1) + e] == 0)
            e--;
        len += sprintf(line + len, "\nrow %u %u %lld", i + 1, e, (long long)e - (SLIP == 26 ? 0 : (long long)type[i]));
        for (uint32_t k = 0; k < n; k++) {
            const uint32_t *entry = basis + (i * n + k) * (s + 1);
            uint32_t top = s;
            while (top > 0 && entry[top] == 0)
                top--;
            len += sprintf(line + len, " |");
            for (uint32_t t = 0; t <= top; t++)
                len += sprintf(line + len, " %u", entry[t]);
        }
    }
    len += sprintf(line + len, "\nleast %u\n", least);
    return give_text(line, len, text, answer);
}

uint32_t relations_refused(uint32_t number, uint8_t *text, size_t text_len, uint32_t *answer, size_t answer_len)
{
    char line[32];
    if (answer_len != 1 || (text_len != RELATIONS_TEXT && SLIP != 28))
        return 4;
    return give_text(line, sprintf(line, "refused %u\n", number), text, answer);
}

uint32_t relations_print(const uint8_t *file, size_t file_len, uint8_t *text, size_t text_len, uint32_t *answer, size_t answer_len)
{
    static uint32_t type[8], series[2040], basis[16384], job[3], found[2];
    if (answer_len != 1 || text_len != RELATIONS_TEXT)
        return 4;
    uint32_t status = relations_read(file, file_len, type, 8, series, 2040, job, 3), n = job[1], s = job[2];
    if (status != 0)
        return relations_refused(SLIP == 33 ? 1 : status, text, text_len, answer, 1);
    solve(job[0], n, s, type, series, basis, found);
    return relations_text(job[0], n, s, type, n, basis, n * n * (s + 1), found[0], text, text_len, answer, 1);
}

// ---- The text job: one pass with the next token kept

struct scan {
    const uint8_t *text;
    size_t len, at, line;
};

static int next_byte(struct scan *s) { return s->at < s->len ? s->text[s->at] : -1; }

static int is_blank(int b) { return b == ' ' || b == '\t' || b == '\r' || b == '\n'; }

static void skip(struct scan *s)
{
    int comment = 0;
    for (int b = next_byte(s); b >= 0 && (comment || is_blank(b) || b == '#'); b = next_byte(s)) {
        comment = b == '\n' ? 0 : comment || b == '#';
        if (b == '\n')
            s->line++;
        s->at++;
    }
}

// 0, or the status of a word that is not a number below the bound
static uint32_t take(struct scan *s, uint64_t bound, uint32_t outside, uint32_t *number)
{
    uint64_t value = 0;
    int wrong = 0, large = 0;
    skip(s);
    if (next_byte(s) < 0)
        return 259;
    for (int b = next_byte(s); b >= 0 && !is_blank(b) && (b != '#' || SLIP == 29); b = next_byte(s)) {
        wrong |= b < '0' || b > '9';
        value = 10 * value + (uint64_t)(b - '0');
        large |= value > 4294967295u;
        if (large)
            value = 0;
        s->at++;
    }
    if (SLIP == 30 ? large : wrong)
        return SLIP == 30 ? 258 : 257;
    if (SLIP == 30 ? wrong : large)
        return SLIP == 30 ? 257 : 258;
    *number = (uint32_t)value;
    return value >= bound ? outside : 0;
}

static uint32_t parse(struct scan *s, uint32_t *type, uint32_t *series, uint32_t *answer)
{
    static uint32_t entries[8], coefficients[2040], job[3];
    uint32_t status = take(s, 4294967296u, 0, &job[0]);
    if (status == 0 && relations_modulus(job[0]) != 0)
        status = 1;
    if (status == 0)
        status = take(s, 9, 2, &job[1]);
    if (status == 0 && job[1] == 0)
        status = 2;
    if (status == 0)
        status = take(s, 256, 3, &job[2]);
    for (uint32_t t = 0; status == 0 && t < job[1]; t++)
        status = take(s, 256, 5, &entries[t]);
    for (uint32_t t = 0; status == 0 && t < job[1] * job[2]; t++)
        status = take(s, job[0], 6, &coefficients[t]);
    if (status != 0)
        return status;
    skip(s);
    if (next_byte(s) >= 0 && SLIP != 31)
        return 260;
    memcpy(type, entries, 4 * job[1]);
    memcpy(series, coefficients, 4 * job[1] * job[2]);
    memcpy(answer, job, sizeof job);
    return 0;
}

uint32_t relations_parse(const uint8_t *text, size_t text_len, uint32_t type[RELATIONS_TYPE], uint32_t series[RELATIONS_SERIES],
                         uint32_t *answer, size_t answer_len)
{
    struct scan s = {text, text_len, 0, 1};
    return answer_len != 3 ? 4 : parse(&s, type, series, answer);
}

size_t relations_parse_line(const uint8_t *text, size_t text_len)
{
    static uint32_t type[8], series[2040], answer[3];
    struct scan s = {text, text_len, 0, SLIP == 32 ? 0 : 1};
    return parse(&s, type, series, answer) == 0 ? 0 : s.line;
}
