// Holds the engine, as a C program sees it (include/relations.h), to tests/algebra.c on drawn calls, sound and faulty, and
// tries the properties that each demand states. Every buffer is lent between guards and compared byte by byte afterwards.
//
//   outside short|long|first [SEED]
//
// `first` is `short` but stops at the first failed check. The last line has the counts; exit status 1 if a check failed.
#include "algebra.h"
#include "relations.h"

#include <inttypes.h>
#include <stdio.h>
#include <stdlib.h>
#include <string.h>

// ---- Drawing

static uint64_t state;

static uint64_t next(void) // splitmix64
{
    uint64_t z = (state += 0x9e3779b97f4a7c15u);
    z = (z ^ (z >> 30)) * 0xbf58476d1ce4e5b9u;
    z = (z ^ (z >> 27)) * 0x94d049bb133111ebu;
    return z ^ (z >> 31);
}

static uint32_t draw(uint32_t bound) { return (uint32_t)(next() % bound); }
static int one_in(uint32_t k) { return draw(k) == 0; }

#define PICK(list) ((list)[draw(sizeof(list) / sizeof *(list))])

static const uint32_t primes[] = {2, 3, 5, 7, 11, 31, 101, 257, 46337, 65537, 1000003, 2147483629, LARGEST, LARGEST, LARGEST};
static const uint32_t bad_moduli[] = {0, 1, 4, 9, 2147117569, 2147483645, 2147483648, 4294967291, 4294967295};
static const uint32_t large[] = {256, 257, 511, 65536, 2147483647, 2147483648, 4294967294, 4294967295};

// ---- Counting

static uint64_t checks_made, checks_failed;
static const char *group;
static int stop_at_first;

static void check(int holds, const char *what)
{
    checks_made++;
    if (holds)
        return;
    if (++checks_failed <= 20)
        printf("FAILED: %s: %s\n", group, what);
    if (stop_at_first)
        exit(1);
}

// How often each status was called for in the present group; finish() asks that every number of the call's order was.
static uint64_t seen[261];

static void status_is(uint32_t status, uint32_t wanted)
{
    check(status == wanted, "status");
    seen[wanted]++;
}

static void finish(const uint32_t *numbers, size_t len)
{
    printf("    status");
    for (size_t t = 0; t < len; t++) {
        printf(" %" PRIu32 " x %" PRIu64, numbers[t], seen[numbers[t]]);
        check(seen[numbers[t]] > 0, "each status of the call came");
    }
    printf("\n");
    memset(seen, 0, sizeof seen);
}

// ---- Lent buffers

enum { GUARD = 64, ROOM = 1416000 }; // the largest buffer: 17 bases of n = 9 and s = 256

struct lent {
    size_t bytes;
    _Alignas(8) uint8_t now[GUARD + ROOM + GUARD];
    _Alignas(8) uint8_t was[GUARD + ROOM + GUARD];
};

static struct lent type_, series_, basis_, answer_, r_, t_, file_, text_;

static uint8_t *bytes_of(struct lent *b) { return b->now + GUARD; }
static uint32_t *words_of(struct lent *b) { return (uint32_t *)(void *)(b->now + GUARD); }

// A buffer full of drawn bytes, with drawn guards.
static void lend(struct lent *b, size_t bytes)
{
    b->bytes = bytes;
    uint64_t word = next();
    for (size_t t = 0; t < GUARD + bytes + GUARD; t++)
        b->now[t] = (uint8_t)(word >> 8 * (t % 8));
    memcpy(b->was, b->now, GUARD + bytes + GUARD);
}

static void lend_words(struct lent *b, size_t words) { lend(b, 4 * words); }

// To be called once the buffer's input is in place.
static void fix(struct lent *b) { memcpy(b->was, b->now, GUARD + b->bytes + GUARD); }

static void kept(struct lent *b, const char *what)
{
    check(memcmp(b->now, b->was, GUARD + b->bytes + GUARD) == 0, what);
}

// The first `bytes` are as wanted, and everything else is as lent.
static void holds(struct lent *b, const void *wanted, size_t bytes, const char *what)
{
    memcpy(b->was + GUARD, wanted, bytes);
    kept(b, what);
}

// ---- Drawn jobs

static uint32_t draw_order(void)
{
    if (one_in(200))
        return 255 - draw(3);
    if (one_in(20))
        return draw(120);
    return draw(24);
}

static void draw_type(uint32_t n, uint32_t *type)
{
    uint32_t way = draw(6);
    for (uint32_t i = 0; i < n; i++)
        type[i] = way == 0 ? 0 : way == 1 ? 255 : way == 2 ? draw(256) : way == 3 ? 36 * i : way == 4 ? draw(3) : draw(12);
}

static void draw_series(uint32_t p, uint32_t n, uint32_t s, uint32_t *series)
{
    uint32_t way = draw(8), zeros = one_in(4) ? draw(s + 1) : 0;
    for (uint32_t i = 0; i < n; i++)
        for (uint32_t j = 0; j < s; j++) {
            uint32_t *f = series + i * s;
            f[j] = draw(p);
            if (way == 0 || (way == 1 && !one_in(4)) || j < zeros)
                f[j] = 0;
            else if (way == 2 && i > 0) // equal
                f[j] = series[j];
            else if (way == 3 && i > 0) // multiples
                f[j] = (uint32_t)((uint64_t)series[j] * (i + 1) % p);
            else if (way == 4 && i > 1) // dependent
                f[j] = (uint32_t)(((uint64_t)series[(i - 1) * s + j] + series[j]) % p);
            else if (way == 5 && i > 0) // moved
                f[j] = j > 0 ? series[(i - 1) * s + j - 1] : 0;
        }
}

// ---- The basis and the approximant

struct job {
    uint32_t p, n, s, sets; // sets: for the call on many of them
    size_t type_len, series_len, basis_len, answer_len;
};

static const uint32_t bad_lengths[] = {0, 1, 2, 3, 7, 8, 9, 63, 64, 65, 2040, 2041, 16384, 16385};

static size_t bad_length(size_t len)
{
    switch (draw(3)) {
    case 0: return len + 1;
    case 1: return len > 0 ? len - 1 : 1;
    default: return PICK(bad_lengths);
    }
}

// The length of an answer buffer: mostly as stated.
static size_t answer_length(size_t stated) { return one_in(30) ? bad_length(stated) : stated; }

// Spoils some of the scalars and lengths of a sound job.
static void spoil(struct job *job, int with_order)
{
    if (one_in(4))
        job->p = PICK(bad_moduli);
    if (one_in(4))
        job->n = one_in(2) ? 0 : one_in(2) ? 9 : PICK(large);
    if (with_order && one_in(4))
        job->s = PICK(large);
    if (one_in(5))
        job->type_len = bad_length(job->type_len);
    if (one_in(5))
        job->series_len = bad_length(job->series_len);
    if (one_in(5))
        job->basis_len = bad_length(job->basis_len);
    job->answer_len = answer_length(job->answer_len);
}

// Puts drawn words into a lent buffer; `sound` of them come from the sound job.
static void place(struct lent *b, size_t words, const uint32_t *sound, size_t sound_words)
{
    lend_words(b, words);
    memset(bytes_of(b), 0, 4 * words);
    memcpy(bytes_of(b), sound, 4 * (sound_words < words ? sound_words : words));
}

static uint32_t word_from(uint32_t least) { return one_in(2) ? least : one_in(2) ? 4294967295u : least + draw(1000); }

static void spoil_word(struct lent *b, uint32_t least)
{
    size_t words = b->bytes / 4;
    uint32_t word = word_from(least);
    size_t at = one_in(3) ? words - 1 : one_in(3) ? 0 : draw((uint32_t)words + 1); // the ends often
    if (at < words)
        words_of(b)[at] = word;
}

// Draws a type and its order; some are at the limit of 255 or just above it.
static void draw_order_of_type(struct job *job, uint32_t *type)
{
    int at_limit = one_in(100);
    uint32_t most = one_in(100) ? 256 / job->n : one_in(10) ? 16 : 5, limit = 254 + draw(4);
    if (at_limit)
        job->n = 2 + draw(3);
    job->s = job->n - 1;
    for (uint32_t i = 0; i < job->n; i++) {
        type[i] = draw(at_limit ? 60 : most);
        job->s += type[i];
    }
    if (at_limit) {
        type[0] += limit - job->s;
        job->s = limit;
    }
}

// Draws a job into type_, series_ and basis_; for the approximant s is the order of the type.
static struct job draw_job(int approximant)
{
    static uint32_t type[8], series[2040];
    struct job job = {.answer_len = 2};
    job.p = PICK(primes);
    job.n = 1 + draw(8);
    job.s = draw_order();
    draw_type(job.n, type);
    if (approximant)
        draw_order_of_type(&job, type);
    draw_series(job.p, job.n, job.s, series);
    job.type_len = job.n;
    job.series_len = job.n * job.s;
    job.basis_len = job.n * job.n * (job.s + 1);
    size_t sound_type = job.type_len, sound_series = job.series_len;
    int faulty = one_in(2);
    if (faulty)
        spoil(&job, !approximant);
    place(&type_, job.type_len, type, sound_type);
    place(&series_, job.series_len, series, sound_series);
    if (faulty && one_in(4))
        spoil_word(&type_, 256);
    if (faulty && approximant && one_in(6))
        spoil_word(&type_, 255);
    if (faulty && one_in(3))
        spoil_word(&series_, job.p);
    fix(&type_);
    fix(&series_);
    lend_words(&basis_, job.basis_len);
    lend_words(&answer_, job.answer_len);
    return job;
}

static void compare(uint32_t status, uint32_t wanted, const uint32_t *basis, const uint32_t *answer)
{
    status_is(status, wanted);
    kept(&type_, "type as lent");
    kept(&series_, "series as lent");
    if (wanted == 0) {
        holds(&basis_, basis, basis_.bytes, "basis");
        holds(&answer_, answer, 8, "least row and count");
    } else {
        kept(&basis_, "basis as lent");
        kept(&answer_, "answer as lent");
    }
}

static void try_basis(void)
{
    static uint32_t basis[16384], answer[2];
    struct job j = draw_job(0);
    uint32_t wanted = j.answer_len != 2 ? 4
        : algebra_basis(j.p, j.n, j.s, words_of(&type_), j.type_len, words_of(&series_), j.series_len, basis, j.basis_len, answer);
    uint32_t status = relations_basis(j.p, j.n, j.s, words_of(&type_), j.type_len, words_of(&series_), j.series_len,
                                      words_of(&basis_), j.basis_len, words_of(&answer_), j.answer_len);
    compare(status, wanted, basis, answer);
}

// Type (255, 0), f_1 = 1 - X - X^2 - .. and f_2 = f_1 / (1 - X): every coefficient of row 2 is -1, so that a sum takes products of p - 1 and p - 1.
static void try_largest_products(void)
{
    static uint32_t basis[1024], answer[2];
    static const uint32_t orders[] = {0, 1, 2, 3, 4, 5, 6, 7, 8, 9, 16, 17, 33, 100, 255};
    for (size_t at = 0; at < sizeof orders / sizeof *orders; at++) {
        uint32_t s = orders[at];
        lend_words(&type_, 2);
        lend_words(&series_, 2 * s);
        lend_words(&basis_, 4 * (s + 1));
        lend_words(&answer_, 2);
        uint32_t *type = words_of(&type_), *series = words_of(&series_);
        type[0] = 255, type[1] = 0;
        for (uint32_t t = 0; t < s; t++) {
            series[t] = t == 0 ? 1 : LARGEST - 1;
            series[s + t] = (LARGEST - t + 1) % LARGEST; // 1 - t
        }
        fix(&type_);
        fix(&series_);
        uint32_t wanted = algebra_basis(LARGEST, 2, s, type, 2, series, 2 * s, basis, 4 * (s + 1), answer);
        uint32_t status = relations_basis(LARGEST, 2, s, type, 2, series, 2 * s, words_of(&basis_), 4 * (s + 1), words_of(&answer_), 2);
        compare(status, wanted, basis, answer);
        for (uint32_t t = 0; t < s; t++)
            check(basis[2 * (s + 1) + t] == LARGEST - 1, "largest factors");
    }
}

static void try_approximant(void)
{
    static uint32_t basis[16384], answer[2];
    struct job j = draw_job(1);
    uint32_t wanted = j.answer_len != 2 ? 4
        : algebra_approximant(j.p, j.n, words_of(&type_), j.type_len, words_of(&series_), j.series_len, basis, j.basis_len, answer);
    uint32_t status = relations_approximant(j.p, j.n, words_of(&type_), j.type_len, words_of(&series_), j.series_len,
                                            words_of(&basis_), j.basis_len, words_of(&answer_), j.answer_len);
    compare(status, wanted, basis, answer);
}

// ---- Many sets of series in one call

static void state_lengths(struct job *job)
{
    job->type_len = job->n;
    job->series_len = (size_t)job->sets * job->n * job->s;
    job->basis_len = (size_t)job->sets * job->n * job->n * (job->s + 1);
    job->answer_len = 3 * (size_t)job->sets;
}

// Lends a type and sets of series that are drawn for the sound job, in the lengths of the other.
static void place_sets(const struct job *sound, const struct job *job)
{
    static uint32_t type[8], series[(MOST_SETS + 1) * 2040];
    draw_type(sound->n, type);
    for (uint32_t j = 0; j < sound->sets; j++)
        draw_series(sound->p, sound->n, sound->s, series + j * sound->n * sound->s);
    place(&type_, job->type_len, type, sound->n);
    place(&series_, job->series_len, series, sound->sets * sound->n * sound->s);
}

// A coefficient of set j is not below p; often it is the set's first or last.
static void spoil_set(const struct job *job, uint32_t j)
{
    uint32_t words = job->n * job->s, way = draw(3), word = word_from(job->p);
    if (words == 0)
        return;
    size_t at = j * words + (way == 0 ? 0 : way == 1 ? words - 1 : draw(words));
    if (at < series_.bytes / 4)
        words_of(&series_)[at] = word;
}

// Each set's words are those of the single call on its series; `lent` has the bases as they were lent.
static void compare_alone(const struct job *job, uint32_t *lent)
{
    uint32_t words = job->n * job->s, size = job->n * job->n * (job->s + 1);
    for (uint32_t j = 0; j < job->sets; j++) {
        uint32_t *said = words_of(&answer_) + 3 * j, *basis = lent + j * size, answer[2] = {0, 0};
        status_is(said[0], relations_basis(job->p, job->n, job->s, words_of(&type_), job->type_len, words_of(&series_) + j * words, words,
                                           basis, size, answer, 2));
        check(memcmp(said + 1, answer, sizeof answer) == 0, "a set's least row and count are those of the single call");
        check(memcmp(words_of(&basis_) + j * size, basis, 4 * size) == 0, "a set's basis is that of the single call");
    }
}

// Makes the call on type_ and series_; answers its status by plain linear algebra.
static uint32_t compare_bases(const struct job *j)
{
    static uint32_t bases[ROOM / 4], lent[ROOM / 4], answers[ROOM / 4];
    fix(&type_);
    fix(&series_);
    lend_words(&basis_, j->basis_len);
    lend_words(&answer_, j->answer_len);
    memcpy(bases, bytes_of(&basis_), basis_.bytes);
    memcpy(lent, bytes_of(&basis_), basis_.bytes);
    uint32_t wanted = algebra_bases(j->p, j->n, j->s, j->sets, words_of(&type_), j->type_len, words_of(&series_), j->series_len,
                                    bases, j->basis_len, answers, j->answer_len);
    uint32_t status = relations_bases(j->p, j->n, j->s, j->sets, words_of(&type_), j->type_len, words_of(&series_), j->series_len,
                                      words_of(&basis_), j->basis_len, words_of(&answer_), j->answer_len);
    status_is(status, wanted);
    kept(&type_, "type as lent");
    kept(&series_, "series as lent");
    holds(&basis_, bases, wanted == 0 ? basis_.bytes : 0, "bases, a refused set's as lent");
    holds(&answer_, answers, wanted == 0 ? answer_.bytes : 0, "answers");
    if (wanted == 0)
        compare_alone(j, lent);
    return wanted;
}

static void try_bases(void)
{
    static const uint32_t counts[] = {0, 1, 2, 3, 5, 8, 15, 16, 17}, rates[] = {0, 0, 1, 2, 6};
    uint32_t p = PICK(primes), n = 1 + draw(8), s = draw_order(), sets = PICK(counts);
    struct job sound = {.p = p, .n = n, .s = s, .sets = sets};
    state_lengths(&sound);
    struct job job = sound;
    int faulty = one_in(2);
    if (faulty)
        spoil(&job, 1);
    if (faulty && one_in(6))
        job.sets = PICK(large);
    place_sets(&sound, &job);
    uint32_t rate = PICK(rates); // one set in so many is refused
    for (uint32_t j = 0; j < sets && rate > 0; j++)
        if (one_in(rate))
            spoil_set(&sound, j);
    if (faulty && one_in(2))
        spoil_word(&type_, 256);
    compare_bases(&job);
}

// A call in which only the sets `from` to `to` - 1, counted from 0, have a bad coefficient.
static void ask_sets(uint32_t n, uint32_t s, uint32_t sets, uint32_t from, uint32_t to)
{
    struct job job = {.p = PICK(primes), .n = n, .s = s, .sets = sets};
    state_lengths(&job);
    place_sets(&job, &job);
    for (uint32_t j = from; j < to; j++)
        spoil_set(&job, j);
    compare_bases(&job);
}

// Every number of sets up to one too many: without words, with none refused, with all, and with each one alone.
static void try_each_set(void)
{
    for (uint32_t sets = 0; sets <= MOST_SETS + 1; sets++) {
        uint32_t n = 1 + draw(8), s = 1 + draw(8);
        ask_sets(n, 0, sets, 0, 0);
        ask_sets(n, s, sets, 0, 0);
        ask_sets(n, s, sets, 0, sets);
        for (uint32_t j = 0; j < sets; j++)
            ask_sets(n, s, sets, j, j + 1);
    }
}

static void try_largest_sets(void) { ask_sets(WIDEST, HIGHEST, MOST_SETS, 7, 8); }

static void one_off(size_t *len, int more) { *len += more || *len == 0 ? 1 : (size_t)-1; }

// What can be wrong in the order of the tests, and the status for each; a bad coefficient refuses its set only.
enum { MODULUS = 1, COUNT = 2, ORDER = 4, SETS = 8, TYPE = 16, SERIES = 32, BASES = 64, ANSWERS = 128, ENTRY = 256, COEFFICIENT = 512 };
static const uint32_t fault_statuses[] = {1, 2, 3, 14, 4, 4, 4, 4, 5, 0};

// The lengths are stated for the spoiled n, s and number of sets, so that each fault also comes alone.
static void ask_with_faults(uint32_t faults, int more)
{
    uint32_t p = PICK(primes), n = 1 + draw(3), s = 1 + draw(3), sets = 1 + draw(3), first = 0;
    struct job sound = {.p = p, .n = n, .s = s, .sets = sets}, job = sound;
    if (faults & MODULUS)
        job.p = PICK(bad_moduli);
    if (faults & COUNT)
        job.n = one_in(2) ? 0 : WIDEST + 1;
    if (faults & ORDER)
        job.s = HIGHEST + 1;
    if (faults & SETS)
        job.sets = MOST_SETS + 1;
    state_lengths(&job);
    if (faults & TYPE)
        one_off(&job.type_len, more);
    if (faults & SERIES)
        one_off(&job.series_len, more);
    if (faults & BASES)
        one_off(&job.basis_len, more);
    if (faults & ANSWERS)
        one_off(&job.answer_len, more);
    place_sets(&sound, &job);
    if (faults & ENTRY && job.type_len > 0)
        words_of(&type_)[draw((uint32_t)job.type_len)] = word_from(256);
    if (faults & COEFFICIENT)
        spoil_set(&sound, draw(sets));
    while (faults != 0 && (faults >> first & 1) == 0)
        first++;
    check(compare_bases(&job) == (faults == 0 ? 0 : fault_statuses[first]), "the first fault");
}

// Every choice of the faults, with lengths that are one too many and one too few.
static void try_faults(void)
{
    for (uint32_t faults = 0; faults < 2 * COEFFICIENT; faults++)
        for (int more = 0; more <= 1; more++)
            ask_with_faults(faults, more);
}

// ---- The pair

// The series of r / t to an order; t[0] is not zero.
static void expand(uint32_t p, const uint32_t *r, size_t r_len, const uint32_t *t, size_t t_len, uint32_t order, uint32_t *g)
{
    uint32_t inverse = 0;
    algebra_invert(p, t[0], &inverse);
    for (uint32_t j = 0; j < order; j++) {
        uint64_t sum = j < r_len ? r[j] : 0;
        for (uint32_t u = 1; u <= j && u < t_len; u++)
            sum = (sum + (uint64_t)(p - t[u]) * g[j - u]) % p;
        g[j] = (uint32_t)(sum * inverse % p);
    }
}

enum known { UNKNOWN, FRACTION, NO_FRACTION };

// Draws a series for the pair; answers what is known of it in advance. Most are fractions, some of degrees that leave room in the bounds: then r and t
// times other polynomials are fractions of the same series. Where X^m r and X^m t fit the bounds, a change at X^(N-m) leaves no fraction: those two
// still hold to order N, so every fraction would be r / t.
static enum known draw_quotient(uint32_t p, uint32_t k, uint32_t order, uint32_t *g)
{
    uint32_t way = draw(6), r_most = k, t_most = order - k + 1, r[256], t[256] = {1 + draw(p - 1)};
    uint32_t r_len = way == 1 ? r_most : 1 + draw(r_most), t_len = way == 1 ? t_most : 1 + draw(t_most);
    uint32_t spare = r_most - r_len < t_most - t_len ? r_most - r_len : t_most - t_len;
    if (way == 0) {
        draw_series(p, 1, order, g);
        return UNKNOWN;
    }
    for (uint32_t u = 0; u < r_len; u++)
        r[u] = one_in(4) ? 0 : draw(p);
    for (uint32_t u = 1; u < t_len; u++)
        t[u] = draw(p);
    expand(p, r, r_len, t, t_len, order, g);
    if (way < 4 || spare == 0)
        return FRACTION;
    uint32_t *changed = g + order - 1 - draw(spare);
    *changed = (uint32_t)(((uint64_t)*changed + 1 + draw(p - 1)) % p);
    return NO_FRACTION;
}

static void try_pair(void)
{
    static uint32_t g[2040], r[2040], t[2040];
    uint32_t p = PICK(primes), order = 1 + draw_order() % 255, k = 1 + draw(order);
    draw_quotient(p, k, order, g);
    size_t r_len = k, t_len = order - k + 1, g_len = order;
    int faulty = one_in(2);
    if (faulty) {
        if (one_in(4))
            p = PICK(bad_moduli);
        if (one_in(4))
            g_len = one_in(2) ? 256 + draw(100) : draw(3);
        if (one_in(4))
            k = one_in(2) ? 0 : one_in(2) ? order + 1 : PICK(large);
        if (one_in(4))
            r_len = bad_length(r_len);
        if (one_in(4))
            t_len = bad_length(t_len);
    }
    place(&series_, g_len, g, order);
    if (faulty && one_in(3))
        spoil_word(&series_, p);
    fix(&series_);
    lend_words(&r_, r_len);
    lend_words(&t_, t_len);
    uint32_t wanted = algebra_pair(p, k, words_of(&series_), g_len, r, r_len, t, t_len);
    uint32_t status = relations_pair(p, k, words_of(&series_), g_len, words_of(&r_), r_len, words_of(&t_), t_len);
    status_is(status, wanted);
    kept(&series_, "g as lent");
    holds(&r_, wanted == 0 ? r : words_of(&r_), wanted == 0 ? r_.bytes : 0, "r");
    holds(&t_, wanted == 0 ? t : words_of(&t_), wanted == 0 ? t_.bytes : 0, "t");
}

// ---- The row view and the field

static void try_row(void)
{
    uint32_t n = 1 + draw(8), s = draw(256), i = 1 + draw(n), wanted[2];
    size_t len = n * n * (s + 1);
    if (one_in(6))
        n = one_in(2) ? 0 : one_in(2) ? 9 : PICK(large);
    if (one_in(6))
        s = PICK(large);
    if (one_in(6))
        i = one_in(2) ? 0 : one_in(2) ? n + 1 : PICK(large);
    if (one_in(6))
        len = bad_length(len);
    size_t answer_len = answer_length(2);
    lend_words(&basis_, len);
    lend_words(&answer_, answer_len);
    algebra_row(n, s, i, len, wanted);
    status_is(relations_row(n, s, i, words_of(&basis_), len, words_of(&answer_), answer_len), answer_len == 2 ? 0 : 4);
    holds(&answer_, wanted, answer_len == 2 ? 8 : 0, "start and length");
    kept(&basis_, "basis as lent");
}

static uint32_t draw_operand(uint32_t p)
{
    return p == 0 || one_in(8) ? (uint32_t)next() : one_in(8) ? p : one_in(8) ? p - 1 : one_in(8) ? 0 : draw(p);
}

static void try_field(void)
{
    uint32_t p = one_in(4) ? PICK(bad_moduli) : PICK(primes);
    if (one_in(8))
        p = draw(4294967295u) >> (p % 32);
    uint32_t a = draw_operand(p), b = draw_operand(p), result = 0, operation = draw(3);
    size_t answer_len = answer_length(1);
    lend_words(&answer_, answer_len);
    uint32_t wanted = answer_len != 1 ? 4 : operation == 0 ? algebra_add(p, a, b, &result)
                    : operation == 1 ? algebra_multiply(p, a, b, &result) : algebra_invert(p, a, &result);
    uint32_t *answer = words_of(&answer_);
    uint32_t status = operation == 0 ? relations_add(p, a, b, answer, answer_len)
                    : operation == 1 ? relations_multiply(p, a, b, answer, answer_len) : relations_invert(p, a, answer, answer_len);
    status_is(status, wanted);
    holds(&answer_, &result, wanted == 0 ? 4 : 0, "residue");
    check(relations_modulus(p) == algebra_modulus(p), "modulus");
}

// ---- Job files

static void try_write(void)
{
    static uint8_t file[FILE_BYTES];
    struct job j = draw_job(0);
    uint32_t count = 0;
    size_t file_len = one_in(8) ? FILE_BYTES - 1 + 2 * draw(2) : FILE_BYTES;
    size_t answer_len = answer_length(1);
    lend(&file_, file_len);
    lend_words(&answer_, answer_len);
    uint32_t wanted = answer_len != 1 ? 4 : algebra_write(j.p, j.n, j.s, words_of(&type_), j.type_len, words_of(&series_), j.series_len, file, file_len, &count);
    uint32_t status = relations_write(j.p, j.n, j.s, words_of(&type_), j.type_len, words_of(&series_), j.series_len,
                                      bytes_of(&file_), file_len, words_of(&answer_), answer_len);
    status_is(status, wanted);
    kept(&type_, "type as lent");
    kept(&series_, "series as lent");
    holds(&file_, file, wanted == 0 ? 512 * count : 0, "file");
    holds(&answer_, &count, wanted == 0 ? 4 : 0, "count of blocks");
}

// Draws a sound job file into file_; answers its number of blocks.
static uint32_t draw_file(void)
{
    static uint32_t type[8], series[2040];
    uint32_t p = PICK(primes), n = 1 + draw(8), s = draw_order(), count = 0;
    if (one_in(8)) // jobs that just fill their last block, or need one word more
        do
            n = 1 + draw(8), s = draw(256);
        while ((3 + n + n * s) % 125 > 1);
    draw_type(n, type);
    draw_series(p, n, s, series);
    lend(&file_, FILE_BYTES + 1024);
    memset(bytes_of(&file_), 0, file_.bytes);
    algebra_write(p, n, s, type, n, series, n * s, bytes_of(&file_), FILE_BYTES, &count);
    return count;
}

static void seal_all(uint32_t count)
{
    for (uint32_t b = 0; b < count; b++)
        algebra_seal(bytes_of(&file_) + 512 * b);
}

// One change to the file; some are followed by new checks, so that the later tests are reached.
static void mutate(uint32_t *count, size_t *len)
{
    uint8_t *bytes = bytes_of(&file_);
    uint32_t way = draw(9), b = draw(*count), at = draw(512 * *count), word = (uint32_t)next(), coin = draw(2), few = draw(3);
    uint32_t size = coin ? PICK(large) : draw(300);
    switch (way) {
    case 0: bytes[at] ^= (uint8_t)(1u << draw(8)); break;
    case 1: bytes[at] = (uint8_t)word; break;
    case 2: algebra_put_word(bytes + at / 4 * 4, word); break;
    case 3: algebra_put_word(bytes + 4 * (1 + few), size); break;
    case 4: algebra_put_word(bytes + 4 * (4 + at % 8), 250 + draw(12)); break;
    case 5: *len = coin ? draw(9300) : 512 * draw(19); return;
    case 6: // whole blocks more or fewer, well numbered
        *count = 1 + draw(17);
        *len = 512 * *count;
        for (uint32_t i = 0; i < *count; i++)
            algebra_put_word(bytes + 512 * i, i);
        break;
    case 7: algebra_put_word(bytes + 512 * b, coin ? b + 1 : word); break;
    default: algebra_put_word(bytes + 512 * (*count - 1) + 4 * (125 - few), coin); break;
    }
    if (way > 1 && !one_in(5))
        seal_all(*count);
}

static void compare_read(size_t file_len, size_t type_len, size_t series_len)
{
    static uint32_t type[8], series[2040], answer[3];
    fix(&file_);
    lend_words(&type_, type_len);
    lend_words(&series_, series_len);
    size_t answer_len = answer_length(3);
    lend_words(&answer_, answer_len);
    uint32_t wanted = answer_len != 3 ? 4 : algebra_read(bytes_of(&file_), file_len, type, type_len, series, series_len, answer);
    uint32_t status = relations_read(bytes_of(&file_), file_len, words_of(&type_), type_len, words_of(&series_), series_len, words_of(&answer_), answer_len);
    status_is(status, wanted);
    kept(&file_, "file as lent");
    holds(&type_, type, wanted == 0 ? 4 * answer[1] : 0, "type");
    holds(&series_, series, wanted == 0 ? 4 * answer[1] * answer[2] : 0, "series");
    holds(&answer_, answer, wanted == 0 ? 12 : 0, "p, n and s");
}

static void try_read(void)
{
    uint32_t count = draw_file();
    size_t len = 512 * count;
    for (uint32_t changes = draw(4); changes > 0; changes--)
        mutate(&count, &len);
    size_t type_len = one_in(30) ? bad_length(8) : 8;
    size_t series_len = one_in(30) ? bad_length(2040) : 2040;
    compare_read(len, type_len, series_len);
}

// Every byte position of a block, in every block of a file of 17 blocks, changed alone.
static void try_each_byte(void)
{
    static uint32_t type[8], series[2040];
    static uint8_t whole[FILE_BYTES];
    uint32_t count;
    draw_series(LARGEST, 8, 255, series);
    algebra_write(LARGEST, 8, 255, type, 8, series, 2040, whole, FILE_BYTES, &count);
    for (size_t at = 0; at < FILE_BYTES; at += 1 + at % 3) {
        lend(&file_, FILE_BYTES);
        memcpy(bytes_of(&file_), whole, FILE_BYTES);
        bytes_of(&file_)[at] ^= (uint8_t)(1u << draw(8));
        compare_read(FILE_BYTES, 8, 2040);
    }
}

static size_t text_length(void) { return one_in(12) ? bad_length(RELATIONS_TEXT) : RELATIONS_TEXT; }

static void compare_text(uint32_t status, uint32_t wanted, const char *text, uint32_t len)
{
    status_is(status, wanted);
    holds(&answer_, &len, wanted == 0 ? 4 : 0, "length of the text");
    holds(&text_, text, wanted == 0 ? len : 0, "text");
}

// Any words as a basis: drawn sizes, small and large words, entries of all degrees.
static void try_text(void)
{
    static char text[RELATIONS_TEXT + 1];
    uint32_t p = PICK(primes), n = 1 + draw(8), s = one_in(50) ? 255 : draw(20), least = one_in(8) ? PICK(large) : 1 + draw(n), way = draw(4);
    size_t type_len = n, basis_len = n * n * (s + 1), text_len = text_length(), answer_len = answer_length(1);
    if (one_in(12))
        n = one_in(2) ? 0 : one_in(2) ? 9 : PICK(large);
    if (one_in(12))
        s = PICK(large);
    if (one_in(12))
        type_len = bad_length(type_len);
    if (one_in(12))
        basis_len = bad_length(basis_len);
    lend_words(&type_, type_len);
    lend_words(&basis_, basis_len);
    for (size_t t = 0; t < type_len; t++)
        words_of(&type_)[t] = one_in(20) ? PICK(large) : draw(256);
    for (size_t t = 0; t < basis_len; t++)
        words_of(&basis_)[t] = way == 0 || one_in(3) ? 0 : way == 1 ? draw(10) : way == 2 ? PICK(large) : (uint32_t)next() >> draw(32);
    fix(&type_);
    fix(&basis_);
    lend(&text_, text_len);
    lend_words(&answer_, answer_len);
    uint32_t wanted = answer_len != 1 ? 4 : n < 1 || n > 8 ? 2 : s > 255 ? 3
        : type_len != n || basis_len != n * n * (s + 1) || text_len != RELATIONS_TEXT ? 4 : 0;
    uint32_t len = wanted == 0 ? (uint32_t)algebra_text(p, n, s, words_of(&type_), words_of(&basis_), least, text) : 0;
    uint32_t status = relations_text(p, n, s, words_of(&type_), type_len, words_of(&basis_), basis_len, least,
                                     bytes_of(&text_), text_len, words_of(&answer_), answer_len);
    compare_text(status, wanted, text, len);
    kept(&type_, "type as lent");
    kept(&basis_, "basis as lent");
}

static void try_refused(void)
{
    static char text[32];
    uint32_t number = one_in(2) ? 1 + draw(14) : one_in(2) ? PICK(large) : (uint32_t)next() >> draw(32);
    size_t text_len = text_length(), answer_len = answer_length(1);
    lend(&text_, text_len);
    lend_words(&answer_, answer_len);
    uint32_t len = (uint32_t)algebra_refused(number, text);
    uint32_t status = relations_refused(number, bytes_of(&text_), text_len, words_of(&answer_), answer_len);
    compare_text(status, answer_len != 1 || text_len != RELATIONS_TEXT ? 4 : 0, text, len);
}

static void try_print(void)
{
    static char text[RELATIONS_TEXT + 1];
    uint32_t count = draw_file();
    size_t len = 512 * count, text_len = text_length(), answer_len = answer_length(1);
    for (uint32_t changes = draw(3); changes > 0; changes--)
        mutate(&count, &len);
    fix(&file_);
    lend(&text_, text_len);
    lend_words(&answer_, answer_len);
    uint32_t bytes = (uint32_t)algebra_print(bytes_of(&file_), len, text);
    uint32_t status = relations_print(bytes_of(&file_), len, bytes_of(&text_), text_len, words_of(&answer_), answer_len);
    compare_text(status, answer_len != 1 || text_len != RELATIONS_TEXT ? 4 : 0, text, bytes);
    kept(&file_, "file as lent");
}

// ---- The text job

static size_t put(size_t at, const char *piece)
{
    size_t len = strlen(piece);
    memcpy(bytes_of(&text_) + at, piece, len);
    return at + len;
}

// Blanks, ends of line and comments, at least one of them.
static size_t put_space(size_t at)
{
    static const char *const spaces[] = {" ", "  ", "\t", "\n", "\r\n", " \n\n", "#\n", "# a 7 comment\n", " # 1\n #\n"};
    return put(at, one_in(3) ? PICK(spaces) : " ");
}

static size_t put_numeral(size_t at, uint32_t number)
{
    char piece[24];
    snprintf(piece, sizeof piece, one_in(30) ? "%012" PRIu32 : "%" PRIu32, number);
    return put(at, piece);
}

// Draws a sound text job into text_; answers its length.
static size_t draw_text(void)
{
    static uint32_t type[8], series[2040];
    uint32_t p = PICK(primes), n = 1 + draw(8), s = one_in(100) ? 255 : draw(6);
    draw_type(n, type);
    draw_series(p, n, s, series);
    size_t at = one_in(3) ? put_space(0) : 0;
    at = put_numeral(put_space(put_numeral(put_space(put_numeral(at, p)), n)), s);
    for (uint32_t i = 0; i < n; i++)
        at = put_numeral(put_space(at), type[i]);
    for (uint32_t t = 0; t < n * s; t++)
        at = put_numeral(put_space(at), series[t]);
    return one_in(2) ? put_space(at) : one_in(8) ? put(at, "#") : at;
}

// One change to the text: a byte, a piece put in or taken out, or another end.
static size_t mutate_text(size_t len)
{
    static const char *const pieces[] = {"0", "9", " ", "\n", "#", "-", "x", "1 ", " 256 ", " 4294967295 ", " 4294967296 ", "99999999999999999999", "\xff", "%"};
    uint8_t *text = bytes_of(&text_);
    size_t at = draw((uint32_t)len + 1), size;
    const char *piece = PICK(pieces);
    switch (draw(5)) {
    case 0: return at;
    case 1:
        if (at < len)
            text[at] = (uint8_t)next();
        return len;
    case 2:
        if (at < len)
            text[at] ^= (uint8_t)(1u << draw(8));
        return len;
    case 3: // some bytes taken out
        size = draw(8);
        size = size < len - at ? size : len - at;
        memmove(text + at, text + at + size, len - at - size);
        return len - size;
    default:
        size = strlen(piece);
        memmove(text + at + size, text + at, len - at);
        memcpy(text + at, piece, size);
        return len + size;
    }
}

static void try_parse(void)
{
    static uint32_t type[8], series[2040], answer[3];
    size_t line = 0, answer_len = answer_length(3);
    lend(&text_, 60000);
    size_t len = draw_text();
    for (uint32_t changes = draw(4); changes > 0; changes--)
        len = mutate_text(len);
    fix(&text_);
    lend_words(&type_, 8);
    lend_words(&series_, 2040);
    lend_words(&answer_, answer_len);
    uint32_t found = algebra_parse(bytes_of(&text_), len, type, series, answer, &line), wanted = answer_len != 3 ? 4 : found;
    status_is(relations_parse(bytes_of(&text_), len, words_of(&type_), words_of(&series_), words_of(&answer_), answer_len), wanted);
    check(relations_parse_line(bytes_of(&text_), len) == line, "line");
    kept(&text_, "text as lent");
    holds(&type_, type, wanted == 0 ? 4 * answer[1] : 0, "type");
    holds(&series_, series, wanted == 0 ? 4 * answer[1] * answer[2] : 0, "series");
    holds(&answer_, answer, wanted == 0 ? 12 : 0, "p, n and s");
}

// ---- Properties, from the engine's own answers alone

struct solved {
    uint32_t p, n, s, type[8], series[2040], basis[16384], answer[2], pivots[8];
};

static void run(struct solved *j)
{
    check(relations_basis(j->p, j->n, j->s, j->type, j->n, j->series, j->n * j->s, j->basis, j->n * j->n * (j->s + 1), j->answer, 2) == 0, "admitted");
    for (uint32_t i = 0; i < j->n; i++) {
        j->pivots[i] = j->s + 1; // none
        for (uint32_t t = 0; t <= j->s; t++)
            if (j->basis[(i * j->n + i) * (j->s + 1) + t] != 0)
                j->pivots[i] = t;
    }
}

static void draw_solved(struct solved *j)
{
    j->p = PICK(primes);
    j->n = 1 + draw(8);
    j->s = draw_order();
    draw_type(j->n, j->type);
    draw_series(j->p, j->n, j->s, j->series);
    run(j);
}

// Is a vector of n entries of s + 1 coefficients a relation to order s?
static int is_relation(const struct solved *j, const uint32_t *vector)
{
    for (uint32_t at = 0; at < j->s; at++) {
        uint64_t sum = 0;
        for (uint32_t k = 0; k < j->n; k++)
            for (uint32_t t = 0; t <= at; t++)
                sum = (sum + (uint64_t)vector[k * (j->s + 1) + t] * j->series[k * j->s + at - t]) % j->p;
        if (sum != 0)
            return 0;
    }
    return 1;
}

// Demand 2: relations of their types, reduced, pivot degrees that add up to s - m (so nothing smaller exists), count and least row.
static void try_shape(void)
{
    static struct solved j;
    draw_solved(&j);
    uint32_t w = j.s + 1, sum = 0, zeros = j.s, least = 0;
    for (uint32_t t = 0; t < j.n * j.s; t++)
        if (j.series[t] != 0 && t % j.s < zeros)
            zeros = t % j.s;
    for (uint32_t i = 0; i < j.n; i++) {
        const uint32_t *row = j.basis + i * j.n * w;
        check(is_relation(&j, row), "row is a relation");
        check(j.pivots[i] <= j.s && row[i * w + j.pivots[i]] == 1, "pivot is monic");
        int shifted = (int)j.pivots[i] - (int)j.type[i], shape = 1;
        for (uint32_t k = 0; k < j.n; k++)
            for (uint32_t t = 0; t <= j.s; t++)
                if (k != i && row[k * w + t] != 0)
                    shape &= t < j.pivots[k] && ((int)t - (int)j.type[k] < shifted || ((int)t - (int)j.type[k] == shifted && k < i));
        check(shape, "row is reduced and has its type");
        sum += j.pivots[i];
        if (shifted < (int)j.pivots[least] - (int)j.type[least])
            least = i;
    }
    check(sum == j.s - zeros, "pivot degrees add up to s - m");
    check(j.answer[1] == j.s - zeros, "count is s - m");
    check(j.answer[0] == least + 1, "least row");
}

// Demand 3: a common factor with nonzero constant term changes no byte of the basis.
static void try_same_relations(void)
{
    static struct solved j, other;
    draw_solved(&j);
    other = j;
    uint32_t unit[256];
    for (uint32_t t = 0; t < j.s; t++)
        unit[t] = t == 0 ? 1 + draw(j.p - 1) : draw(j.p);
    for (uint32_t i = 0; i < j.n; i++)
        for (uint32_t at = 0; at < j.s; at++) {
            uint64_t sum = 0;
            for (uint32_t t = 0; t <= at; t++)
                sum = (sum + (uint64_t)unit[t] * j.series[i * j.s + at - t]) % j.p;
            other.series[i * j.s + at] = (uint32_t)sum;
        }
    run(&other);
    check(memcmp(j.basis, other.basis, j.n * j.n * (j.s + 1) * 4) == 0, "same relations, same bytes");
}

// Demand 3: after a change of one coefficient the bytes agree exactly when the relations do.
static void try_other_relations(void)
{
    static struct solved j, other;
    draw_solved(&j);
    if (j.s == 0)
        return;
    other = j;
    uint32_t at = draw(j.n * j.s);
    other.series[at] = (other.series[at] + 1) % j.p;
    run(&other);
    int all = j.answer[1] == other.answer[1];
    for (uint32_t i = 0; i < j.n; i++)
        all &= is_relation(&other, j.basis + i * j.n * (j.s + 1));
    check((memcmp(j.basis, other.basis, j.n * j.n * (j.s + 1) * 4) == 0) == all, "same bytes exactly for the same relations");
}

// Subtracts multiples of the rows from the vector, from the largest position down, until entry k is below the pivot degree of row k.
// The factors found are added to `factor`, n entries of s + 1 coefficients.
static void divide(const struct solved *j, uint32_t *vector, uint32_t *factor)
{
    uint32_t w = j->s + 1;
    for (int shifted = (int)j->s; shifted >= -HIGHEST; shifted--)
        for (uint32_t i = j->n; i-- > 0;) {
            int k = shifted + (int)j->type[i], e = (int)j->pivots[i];
            if (k > (int)j->s || k < e || vector[i * w + (uint32_t)k] == 0)
                continue;
            uint64_t c = vector[i * w + (uint32_t)k];
            factor[i * w + (uint32_t)(k - e)] = (uint32_t)c;
            for (uint32_t l = 0; l < j->n; l++)
                for (uint32_t t = 0; t + (uint32_t)(k - e) <= j->s; t++) {
                    uint32_t *x = vector + l * w + t + (uint32_t)(k - e);
                    *x = (uint32_t)((*x + (j->p - c) * j->basis[(i * j->n + l) * w + t]) % j->p);
                }
        }
}

// Demand 3: a vector is a relation exactly when it is a combination of the rows, and the combination is unique.
static void try_combinations(void)
{
    static struct solved j;
    static uint32_t vector[2048], factor[2048], found[2048];
    draw_solved(&j);
    uint32_t w = j.s + 1, drawn = one_in(2);
    memset(vector, 0, sizeof vector);
    memset(factor, 0, sizeof factor);
    memset(found, 0, sizeof found);
    for (uint32_t i = 0; i < j.n; i++) // combinations whose degrees fit the room
        for (uint32_t t = 0; t < w && drawn; t++) {
            int top = (int)t + (int)j.pivots[i] - (int)j.type[i], fits = 1;
            for (uint32_t k = 0; k < j.n; k++)
                fits &= top + (int)j.type[k] <= (int)j.s;
            factor[i * w + t] = fits ? draw(j.p) : 0;
        }
    for (uint32_t i = 0; i < j.n; i++)
        for (uint32_t t = 0; t < w; t++)
            for (uint32_t k = 0; k < j.n && factor[i * w + t] != 0; k++)
                for (uint32_t u = 0; u + t < w; u++)
                    vector[k * w + u + t] = (uint32_t)((vector[k * w + u + t] + (uint64_t)factor[i * w + t] * j.basis[(i * j.n + k) * w + u]) % j.p);
    if (!drawn)
        for (uint32_t t = 0; t < j.n * w; t++)
            vector[t] = one_in(3) && t % w + 8 > w ? draw(j.p) : 0;
    int relation = is_relation(&j, vector), zero = 1, fits = 1;
    static uint32_t rest[2048];
    memcpy(rest, vector, sizeof rest);
    for (uint32_t k = 0; k < j.n; k++) // only vectors whose division stays in the room are decided here
        for (uint32_t i = 0; i < j.n; i++)
            fits &= drawn || j.type[i] == j.type[k];
    if (!fits)
        return;
    divide(&j, rest, found);
    for (uint32_t t = 0; t < j.n * w; t++)
        zero &= rest[t] == 0;
    check(relation == zero, "relation exactly when a combination");
    if (drawn)
        check(memcmp(factor, found, sizeof factor) == 0, "the combination is the one drawn");
}

// Demand 2: the least row of an approximant has entries of degree at most the type's.
static void try_degrees(void)
{
    static uint32_t basis[16384], answer[2];
    struct job j = draw_job(1);
    uint32_t status = relations_approximant(j.p, j.n, words_of(&type_), j.type_len, words_of(&series_), j.series_len, basis,
                                            j.basis_len <= 16384 ? j.basis_len : 0, answer, 2);
    if (status != 0)
        return;
    const uint32_t *row = basis + (answer[0] - 1) * j.n * (j.s + 1);
    int small = 1;
    for (uint32_t k = 0; k < j.n; k++)
        for (uint32_t t = words_of(&type_)[k] + 1; t <= j.s; t++)
            small &= row[k * (j.s + 1) + t] == 0;
    check(small, "approximant's degrees are at most the type's");
}

// The degree of a polynomial of up to 256 words; -1 for zero.
static int degree(const uint32_t *words)
{
    int at = 255;
    while (at >= 0 && words[at] == 0)
        at--;
    return at;
}

// Whether only constants divide both polynomials, by Euclid.
static int are_coprime(uint32_t p, const uint32_t *r, uint32_t r_len, const uint32_t *t, uint32_t t_len)
{
    uint32_t a[256] = {0}, b[256] = {0}, *x = a, *y = b, inverse = 0;
    for (uint32_t u = 0; u < t_len; u++)
        a[u] = t[u] % p;
    for (uint32_t u = 0; u < r_len; u++)
        b[u] = r[u] % p;
    for (int e = degree(y); e >= 0; e = degree(y)) {
        algebra_invert(p, y[e], &inverse);
        for (int top = degree(x); top >= e; top--) {
            uint64_t c = (uint64_t)x[top] * inverse % p;
            for (int u = 0; u <= e; u++)
                x[top - e + u] = (uint32_t)((x[top - e + u] + (p - c) * y[u]) % p);
        }
        uint32_t *rest = x;
        x = y;
        y = rest;
    }
    return degree(x) == 0;
}

// A pair is refused only where there is no fraction; otherwise r = t g to order N, t(0) = 1 and r and t have no common factor.
static void try_fraction(void)
{
    static uint32_t g[255], r[255], t[256];
    uint32_t p = PICK(primes), order = 1 + draw_order() % 255, k = 1 + draw(order);
    enum known known = draw_quotient(p, k, order, g);
    uint32_t status = relations_pair(p, k, g, order, r, k, t, order - k + 1);
    check(known == NO_FRACTION ? status == 13 : status == 0 || (known == UNKNOWN && status == 13), "refused where there is no fraction");
    if (status != 0)
        return;
    int equal = 1;
    for (uint32_t at = 0; at < order; at++) {
        uint64_t sum = 0;
        for (uint32_t u = 0; u <= at && u <= order - k; u++)
            sum = (sum + (uint64_t)t[u] * g[at - u]) % p;
        equal &= sum == (at < k ? r[at] : 0);
    }
    check(equal, "r = t g to order N");
    check(t[0] == 1, "t(0) = 1");
    check(are_coprime(p, r, k, t, order - k + 1), "no common factor");
}

// What is written is read back, and a file that is read writes back to the same bytes.
static void try_round_trip(void)
{
    static uint32_t type[8], series[2040], job[3], count[1];
    static uint8_t again[FILE_BYTES];
    uint32_t blocks = draw_file();
    check(relations_read(bytes_of(&file_), 512 * blocks, type, 8, series, 2040, job, 3) == 0, "read");
    check(relations_write(job[0], job[1], job[2], type, job[1], series, job[1] * job[2], again, FILE_BYTES, count, 1) == 0, "written");
    check(count[0] == blocks && memcmp(again, bytes_of(&file_), 512 * blocks) == 0, "same bytes");
}

static void repeat(const char *name, void (*test)(void), uint32_t times)
{
    uint64_t before = checks_made;
    group = name;
    for (uint32_t t = 0; t < times; t++)
        test();
    printf("%-30s %10" PRIu64 " checks\n", name, checks_made - before);
    fflush(stdout);
}

#define NUMBERS(...) ((const uint32_t[]){__VA_ARGS__}), sizeof((const uint32_t[]){__VA_ARGS__}) / sizeof(uint32_t)

int main(int argc, char **argv)
{
    int is_long = argc >= 2 && strcmp(argv[1], "long") == 0;
    stop_at_first = argc >= 2 && strcmp(argv[1], "first") == 0;
    if (argc < 2 || argc > 3 || (!is_long && !stop_at_first && strcmp(argv[1], "short") != 0)) {
        fprintf(stderr, "outside short|long|first [SEED]\n");
        return 2;
    }
    state = argc == 3 ? strtoull(argv[2], NULL, 10) : 1;
    uint32_t scale = is_long ? 100 : 1;
    repeat("field calls", try_field, 2000 * scale);
    finish(NUMBERS(0, 1, 4, 6, 256));
    repeat("basis", try_basis, 2000 * scale);
    finish(NUMBERS(0, 1, 2, 3, 4, 5, 6));
    repeat("basis, the largest products", try_largest_products, 1);
    finish(NUMBERS(0));
    repeat("approximant", try_approximant, 2000 * scale);
    finish(NUMBERS(0, 1, 2, 3, 4, 5, 6));
    repeat("bases of many sets", try_bases, 500 * scale);
    finish(NUMBERS(0, 1, 2, 3, 4, 5, 6, 14));
    repeat("bases, each set refused", try_each_set, is_long ? 20 : 1);
    finish(NUMBERS(0, 6, 14));
    repeat("bases, all choices of faults", try_faults, is_long ? 20 : 1);
    finish(NUMBERS(0, 1, 2, 3, 4, 5, 6, 14));
    repeat("pair", try_pair, 2000 * scale);
    finish(NUMBERS(0, 1, 3, 4, 6, 7, 13));
    repeat("row view", try_row, 2000 * scale);
    finish(NUMBERS(0, 4));
    repeat("writer", try_write, 1000 * scale);
    finish(NUMBERS(0, 1, 2, 3, 4, 5, 6));
    repeat("reader, mutated files", try_read, 10000 * scale);
    finish(NUMBERS(0, 1, 2, 3, 4, 5, 6, 8, 9, 10, 11, 12));
    repeat("reader, each byte", try_each_byte, is_long ? 20 : 1);
    finish(NUMBERS(9, 10));
    repeat("text of a basis", try_text, 500 * scale);
    finish(NUMBERS(0, 2, 3, 4));
    repeat("text of a refusal", try_refused, 200 * scale);
    finish(NUMBERS(0, 4));
    repeat("text of a job file", try_print, 500 * scale);
    finish(NUMBERS(0, 4));
    repeat("parser, mutated texts", try_parse, 10000 * scale);
    finish(NUMBERS(0, 1, 2, 3, 4, 5, 6, 257, 258, 259, 260));
    repeat("demand 2: shape of the basis", try_shape, 500 * scale);
    repeat("demand 2: degrees", try_degrees, 500 * scale);
    repeat("fractions", try_fraction, 500 * scale);
    repeat("demand 3: same relations", try_same_relations, 300 * scale);
    repeat("demand 3: other relations", try_other_relations, 300 * scale);
    repeat("demand 3: combinations", try_combinations, 300 * scale);
    repeat("files there and back", try_round_trip, 500 * scale);
    repeat("bases, the largest call", try_largest_sets, 1);
    printf("%" PRIu64 " passed, %" PRIu64 " failed\n", checks_made - checks_failed, checks_failed);
    return checks_failed != 0;
}
