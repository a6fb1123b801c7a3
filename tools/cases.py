"""The requests that the program `calls` is run on, section by section, with their answers (docs/REFERENCE.md).

tools/expected.py writes them to crates/calls/stdin and crates/calls/stdout.
"""
import functools
import itertools

import calls
import reference
from calls import CALLS, Request, Silent, Wrong, compact, draw, drawn, joined, repeated, start, step, written
from reference import LARGEST, TEXT, checks

TOP = 4294967295  # the largest number of 32 bits


def remark(text):
    return Silent(f'# {text}')


# ---- Jobs from a few numbers: p, n, s, type rule, zeros, series rule, seed ---------------------
# The state advances once for each type entry, then once for each coefficient, under every rule.

def type_entry(rule, i, x):
    return [0, 255, 36 * i, 255 - 36 * i, x % 256, x % 3, i, x % 24, 31, 127][rule]


def coefficient(rule, p, zeros, s, j, x, before):
    """Coefficient j of the series that follows the words `before`, at place len(before) - j."""
    at = len(before)
    if j < zeros or rule == 0:
        return 0
    if rule == 2:  # three in four are zero
        return x // 4 % p if x % 4 == 0 else 0
    if rule == 3 and at >= s:  # equal to the series before
        return before[at - s]
    if rule == 4 and at >= s:  # twice the series before
        return 2 * before[at - s] % p
    if rule == 5 and at >= 2 * s:  # the sum of the two series before
        return (before[at - s] + before[at - 2 * s]) % p
    if rule == 6 and at // s % 2 == 0:  # series 1, 3, 5, 7 are zero
        return 0
    if rule == 7 and at >= s:  # X times the series before
        return before[at - s - 1] if j > 0 else 0
    if rule == 8:  # nothing but ones
        return 1
    return x % p


def job(p, n, s, type_rule, zeros, series_rule, seed):
    """The job's type and series, as lists."""
    x = start(seed)
    type_ = []
    for i in range(n):
        x = step(x)
        type_.append(type_entry(type_rule, i, x))
    series = []
    for _ in range(n):
        for j in range(s):
            x = step(x)
            series.append(coefficient(series_rule, p, zeros, s, j, x, series))
    return type_, series


# The same rules in short words. What is drawn has seeds of its own: the type that of the job, series i 100 times that, and i more.

def type_word(n, rule, seed):
    if rule in (4, 5, 7):
        return drawn(seed, {4: 256, 5: 3, 7: 24}[rule], n)
    entries = [type_entry(rule, i, 0) for i in range(n)]
    return written(entries) if rule in (2, 3, 6) else repeated(entries[0], n)


def series_parts(p, s, zeros, rule, seed, i):
    """Series i, from 0: its zeros, and what is drawn."""
    if rule == 6 and i % 2 == 0:
        return [repeated(0, s)]
    if rule == 7:  # X times the series before: one zero more, and the start of the same numbers
        zeros = min(zeros + i, s)
    own = 100 * seed + (0 if rule in (3, 7) else i)
    return [repeated(0, zeros), drawn(own, p, s - zeros)]


def series_word(p, n, s, zeros, rule, seed):
    if rule in (2, 4, 5):  # no piece says these
        return written(job(p, n, s, 0, zeros, rule, seed)[1])
    if rule in (0, 8):
        assert zeros == 0 or rule == 0
        return repeated(rule // 8, n * s)
    if rule == 1 and zeros == 0:
        return drawn(100 * seed, p, n * s)
    return joined(part for i in range(n) for part in series_parts(p, s, zeros, rule, seed, i))


# ---- The field -----------------------------------------------------------------------------------

FIELD_CALLS = [  # what a group is, and its calls
    ('the moduli of document 01, and the largest number there is', [
        ('make', 2), ('make', 2147483647), ('make', 0), ('make', 1), ('make', 4), ('make', 2147117569), ('make', 2147483648), ('make', TOP)]),
    ('the modulus before either operand, and each operand', [
        ('add', 4, 9, 9), ('add', 7, 7, 0), ('add', 7, 0, 7), ('add', 7, TOP, TOP),
        ('multiply', 1, 9, 9), ('multiply', 7, 7, 0), ('multiply', 7, 0, 7), ('multiply', 2147483648, 0, 0)]),
    ('results, at the largest modulus too', [
        ('add', 7, 6, 6), ('add', 2, 1, 1), ('add', LARGEST, 2147483646, 2147483646), ('multiply', 7, 3, 5),
        ('multiply', LARGEST, 65536, 65536), ('multiply', LARGEST, 2147483646, 2147483646), ('multiply', LARGEST, 2147483645, 3)]),
    ('inverses; zero has none, and comes after both tests', [
        ('invert', 7, 3), ('invert', 7, 0), ('invert', 9, 0), ('invert', 7, 7), ('invert', 2, 1),
        ('invert', LARGEST, 2), ('invert', LARGEST, 3), ('invert', LARGEST, 2147483646)]),
]


def field_section():
    for about, rows in FIELD_CALLS:
        yield remark(about)
        for name, *numbers in rows:
            yield Request(name, *numbers)


# ---- Bases, approximants and pairs ---------------------------------------------------------------

BASIS_JOBS = [  # what a group is, and its jobs
    ('one series', [
        (2, 1, 0, 0, 0, 1, 1), (LARGEST, 1, 0, 1, 0, 1, 2), (2, 1, 1, 0, 0, 8, 3), (LARGEST, 1, 1, 0, 0, 1, 4),
        (7, 1, 255, 0, 0, 1, 5), (LARGEST, 1, 255, 1, 200, 1, 6), (2, 1, 255, 4, 0, 0, 7), (LARGEST, 1, 255, 0, 255, 1, 8)]),
    ('eight series to order 0 and 1', [
        (2, 8, 0, 0, 0, 1, 9), (LARGEST, 8, 0, 3, 0, 1, 10), (2, 8, 1, 0, 0, 8, 11), (2, 8, 1, 2, 0, 1, 12),
        (LARGEST, 8, 1, 0, 0, 1, 13), (LARGEST, 8, 1, 1, 0, 1, 14), (LARGEST, 8, 1, 2, 0, 1, 15),
        (LARGEST, 8, 1, 3, 0, 1, 16), (LARGEST, 8, 1, 3, 1, 1, 17)]),
    ('two and three series, small, with ties', [
        (2, 2, 2, 0, 0, 1, 18), (2, 2, 5, 5, 0, 1, 19), (3, 2, 4, 6, 1, 1, 20), (3, 3, 6, 5, 0, 2, 21), (5, 3, 7, 5, 2, 1, 22),
        (7, 2, 6, 0, 0, 3, 23), (7, 3, 6, 0, 0, 4, 24), (7, 3, 6, 5, 0, 5, 25), (7, 3, 6, 0, 0, 7, 26), (7, 2, 4, 0, 0, 0, 27),
        (2, 3, 9, 6, 0, 6, 28), (2, 3, 9, 5, 0, 3, 29), (3, 2, 9, 0, 0, 8, 30)]),
    ('middle sizes', [
        (101, 4, 40, 5, 0, 1, 31), (101, 5, 33, 2, 3, 2, 32), (65521, 6, 60, 4, 0, 1, 33), (65537, 7, 50, 3, 0, 5, 34),
        (2147483629, 3, 100, 2, 0, 1, 35), (2147483629, 4, 77, 0, 11, 4, 36), (LARGEST, 2, 255, 0, 0, 1, 37),
        (LARGEST, 2, 255, 2, 0, 1, 38), (LARGEST, 2, 254, 3, 0, 2, 39), (2, 2, 255, 4, 0, 1, 40), (2, 4, 128, 5, 0, 2, 41),
        (3, 5, 127, 6, 5, 1, 42), (46337, 3, 129, 4, 0, 7, 43), (5, 7, 64, 0, 0, 6, 44)]),
    ('eight series to order 255', [
        (LARGEST, 8, 255, 0, 0, 1, 45), (LARGEST, 8, 255, 1, 0, 1, 46), (LARGEST, 8, 255, 2, 0, 1, 47),
        (LARGEST, 8, 255, 3, 0, 1, 48), (LARGEST, 8, 255, 4, 100, 1, 49), (LARGEST, 8, 255, 5, 0, 2, 50),
        (LARGEST, 8, 255, 0, 0, 0, 51), (LARGEST, 8, 255, 0, 0, 3, 52), (LARGEST, 8, 255, 3, 0, 4, 53),
        (LARGEST, 8, 255, 4, 0, 5, 54), (LARGEST, 8, 255, 2, 0, 6, 55), (LARGEST, 8, 255, 0, 0, 7, 56),
        (2, 8, 255, 0, 0, 1, 57), (2, 8, 255, 4, 0, 2, 58), (3, 8, 255, 3, 0, 5, 59), (65537, 8, 255, 5, 254, 1, 60)]),
    ('over primes, sizes and rules', [
        ([2, 3, 5, 7, 11, 257, 65537, 1000003, 2147483629, LARGEST][t % 10], 1 + t * 5 % 8, t * 37 % 96,
         [0, 2, 3, 4, 5, 6][t % 6], [0, 0, 0, 1, 4][t % 5], [1, 1, 2, 5, 6, 7, 4][t % 7], 100 + t)
        for t in range(30)]),
]

APPROXIMANT_JOBS = [  # the third number is the order of the type
    (7, 1, 0, 0, 0, 1, 1), (2, 8, 7, 0, 0, 1, 2), (LARGEST, 1, 255, 1, 0, 1, 3), (LARGEST, 2, 255, 9, 0, 1, 4),
    (2, 2, 255, 9, 0, 1, 5), (LARGEST, 8, 255, 8, 0, 1, 6), (2, 8, 255, 8, 3, 1, 7), (3, 8, 35, 6, 0, 1, 8),
    (LARGEST, 7, 223, 8, 0, 5, 9), (LARGEST, 6, 20, 6, 0, 3, 10), (5, 4, 9, 6, 0, 0, 11), (101, 3, 110, 2, 0, 7, 12),
]

SETS = [  # what a group is; p, n, s, type rule, how many sets, which of them are refused, seed
    ('no set, one, two, sixteen; seventeen are too many', [
        (7, 2, 3, 5, 0, [], 1), (7, 2, 3, 5, 1, [], 2), (7, 2, 3, 5, 2, [], 3), (LARGEST, 2, 7, 5, 16, [], 4), (7, 2, 3, 5, 17, [], 5), (LARGEST, 8, 14, 3, 17, [0, 16], 6)]),
    ('refused: one set alone; of two the first, the second, both', [
        (7, 1, 4, 0, 1, [0], 7), (7, 2, 3, 5, 2, [0], 8), (7, 2, 3, 5, 2, [1], 9), (7, 2, 3, 5, 2, [0, 1], 10)]),
    ('of five at the front, in the middle, at the end, at both ends, between them, all', [
        (101, 2, 4, 6, 5, refused, 11) for refused in ([0], [2], [4], [0, 4], [1, 2, 3], [0, 1, 2, 3, 4])]),
    ('of sixteen the first, the last, every other, all but one, all', [
        (257, 2, 2, 5, 16, refused, 12) for refused in ([0], [15], range(1, 16, 2), [j for j in range(16) if j != 9], range(16))]),
    ('one to eight series', [(LARGEST, n, 12 - n, 5, 3, [n % 3], 12 + n) for n in range(1, 9)]),
    ('order 0: a set has no coefficient, so none is refused', [
        (7, 1, 0, 0, 0, [], 21), (7, 1, 0, 0, 1, [], 22), (2, 2, 0, 5, 16, [], 23), (LARGEST, 8, 0, 3, 2, [], 24), (7, 1, 0, 0, 17, [], 25)]),
    ('16384 words of bases', [
        (LARGEST, 8, 15, 5, 16, [3, 8], 26), (65537, 4, 63, 4, 16, [0], 27), (LARGEST, 2, 255, 0, 16, [j for j in range(16) if j not in (5, 12)], 28), (2, 8, 255, 4, 1, [], 29),
        (LARGEST, 8, 255, 0, 1, [0], 30)]),
]

SAME_SETS = [(2, 3, 3, 5, 1), (5, 2, 1, 0, 2), (7, 2, 5, 6, 3), (101, 4, 6, 5, 4), (LARGEST, 3, 9, 5, 5)]  # p, n, s, type rule, seed

PAIR_JOBS = [  # what a group is; p, k, N, zeros, series rule, seed
    ('drawn series', [
        (7, 1, 1, 0, 8, 1), (2, 1, 255, 0, 1, 2), (2, 255, 255, 0, 1, 3), (LARGEST, 128, 255, 0, 1, 4),
        (LARGEST, 1, 255, 0, 1, 5), (LARGEST, 255, 255, 0, 1, 6), (LARGEST, 100, 255, 60, 1, 7),
        (LARGEST, 100, 200, 150, 1, 8), (3, 5, 12, 0, 1, 9), (3, 5, 12, 12, 0, 10), (101, 20, 40, 0, 2, 11),
        (5, 2, 9, 0, 8, 12), (65537, 30, 77, 1, 2, 13), (2, 3, 7, 2, 1, 14)]),
    ('the zero series', [(2, 1, 1, 0, 0, 15), (7, 3, 5, 0, 0, 16), (LARGEST, 1, 255, 0, 0, 17), (LARGEST, 255, 255, 0, 0, 18)]),
    ('k - 1 zeros; k zeros and N - 1 zeros, after which there is no fraction', [
        (7, 3, 9, 2, 1, 19), (LARGEST, 128, 255, 127, 1, 20), (7, 3, 9, 3, 1, 22), (LARGEST, 128, 255, 128, 1, 23), (7, 3, 9, 8, 1, 25),
        (LARGEST, 254, 255, 254, 1, 24)]),
]

FRACTIONS = [  # what a group is; p, k, N, degrees that r, t and a common factor have at most, seed
    ('r and t may fill their bounds', [
        (2, 1, 1, 0, 0, 0, 1), (LARGEST, 1, 1, 0, 0, 0, 2), (2, 7, 15, 6, 8, 0, 3), (3, 4, 9, 3, 5, 0, 4), (101, 20, 40, 19, 20, 0, 5), (2, 30, 61, 29, 31, 0, 6),
        (LARGEST, 1, 40, 0, 39, 0, 7), (LARGEST, 40, 40, 39, 0, 0, 8), (LARGEST, 128, 255, 127, 127, 0, 9), (65537, 200, 255, 199, 55, 0, 10)]),
    ('the bounds leave room, so r and t times other polynomials fit too', [
        (2, 8, 20, 3, 4, 0, 11), (2, 20, 40, 9, 9, 0, 12), (2, 100, 255, 20, 30, 0, 13), (3, 10, 30, 2, 5, 0, 14), (7, 5, 12, 0, 2, 0, 15), (7, 6, 12, 4, 0, 0, 16), (101, 30, 63, 10, 3, 0, 17),
        (65537, 40, 100, 7, 30, 0, 18), (2147483629, 60, 120, 20, 59, 0, 19), (LARGEST, 16, 32, 3, 4, 0, 20), (LARGEST, 128, 255, 0, 1, 0, 21), (LARGEST, 100, 255, 60, 60, 0, 22),
        (LARGEST, 30, 255, 29, 1, 0, 23)]),
    ('r and t are drawn with a common factor', [
        (2, 8, 16, 4, 4, 3, 24), (3, 6, 12, 2, 3, 3, 25), (7, 2, 9, 0, 3, 1, 26), (7, 10, 21, 4, 6, 5, 27), (101, 30, 60, 9, 10, 20, 28), (LARGEST, 16, 32, 7, 8, 8, 29),
        (LARGEST, 128, 255, 63, 63, 64, 30)]),
]

NEAR_FRACTIONS = [  # p, k, N, degrees that r and t have at most, how far before the end of the series of r / t one coefficient is changed, seed
    (2, 8, 20, 3, 4, 1, 11), (2, 8, 20, 3, 4, 4, 11), (2, 100, 255, 20, 30, 79, 13), (3, 10, 30, 2, 5, 7, 14), (7, 5, 12, 0, 2, 1, 15), (7, 6, 12, 4, 0, 1, 16),
    (101, 30, 63, 10, 3, 19, 17), (2147483629, 60, 120, 20, 59, 1, 19), (LARGEST, 16, 32, 3, 4, 12, 20), (LARGEST, 128, 255, 0, 1, 126, 21), (LARGEST, 100, 255, 60, 60, 1, 22),
]


def is_long(*lengths):
    """Whether the answer has the sums of buffers of these lengths in place of their numbers."""
    return sum(lengths) > 64


def lent_words(count):
    return repeated(77, count)


def lent_text(count=TEXT):
    return repeated(170, count)


def basis_request(p, n, s, type_, series, count, sums=False):
    return Request('basis', p, n, s, type_, series, lent_words(count), sums=sums)


def approximant_request(p, n, type_, series, count, sums=False):
    return Request('approximant', p, n, type_, series, lent_words(count), sums=sums)


def bases_request(p, n, s, sets, type_, series, bases, answers):
    return Request('bases', p, n, s, sets, type_, series, bases, answers, sums=len(bases.values) > 256)


def pair_request(p, k, g, r_len, t_len):
    return Request('pair', p, k, g, lent_words(r_len), lent_words(t_len), sums=is_long(r_len, t_len))


def largest_products(s):
    """f_1 = 1 - X - X^2 - .. and f_2 = f_1 / (1 - X) with type (255, 0): every coefficient of row 2's first entry is -1, as those of f_1 are."""
    f = [1] + [LARGEST - 1] * (s - 1)
    series = joined([compact(f), written([sum(f[:t + 1]) % LARGEST for t in range(s)])])
    return basis_request(LARGEST, 2, s, written([255, 0]), series, 4 * (s + 1), sums=is_long(4 * (s + 1)))


def basis_section():
    for about, rows in BASIS_JOBS:
        yield remark(about)
        for p, n, s, type_rule, zeros, rule, seed in rows:
            yield basis_request(p, n, s, type_word(n, type_rule, seed), series_word(p, n, s, zeros, rule, seed), n * n * (s + 1))
    yield remark('the largest products that a sum can take: four of them fit 64 bits, five do not')
    for s in 4, 5, 6, 9, 255:
        yield largest_products(s)


def approximant_section():
    for p, n, s, type_rule, zeros, rule, seed in APPROXIMANT_JOBS:
        type_ = type_word(n, type_rule, seed)
        assert reference.order_of(type_.values) == s
        yield approximant_request(p, n, type_, series_word(p, n, s, zeros, rule, seed), n * n * (s + 1))


def set_word(p, n, s, refused, number, seed):
    """The series of a set begin with 0, 1 or 2 zeros, so that answers differ. Of a refused one the first coefficient is p, or the last the largest number."""
    own = 100 * seed + number
    if not refused:
        return series_word(p, n, s, min(number % 3, s), 1, own)
    rest = drawn(own, p, n * s - 1)
    return joined([written([p]), rest] if number % 2 == 0 else [rest, written([TOP])])


def drawn_sets(p, n, s, type_rule, sets, refused, seed):
    """The words of the bases are lent drawn: one that moved to another place shows."""
    series = joined(set_word(p, n, s, j in refused, j, seed) for j in range(sets))
    size = sets * n * n * (s + 1)
    return bases_request(p, n, s, sets, type_word(n, type_rule, seed), series, drawn(seed, 1000, size), lent_words(3 * sets))


def times(p, factor, s, series):
    """Each series times the factor, to order s."""
    return reference.end_to_end(reference.product(p, factor, f, s) for f in reference.parts(series, s, len(series) // s))


def same_sets(p, n, s, type_rule, seed):
    """A set; the same again; times a constant; times a series whose constant term is not zero; times X; zeros. The first four have one basis, the fifth another."""
    type_, series = job(p, n, s, type_rule, 0, 1, seed)
    sets = [series, series] + [times(p, factor, s, series) for factor in (
        with_constant(p, 0, 100 * seed), with_constant(p, s - 1, 100 * seed + 1), [0, 1], [0])]
    size = n * n * (s + 1)
    bases, answers = [0] * (6 * size), [0] * 18
    reference.bases(p, n, s, 6, type_, reference.end_to_end(sets), bases, answers)
    found = [tuple(part) for part in reference.parts(bases, size, 6)]
    assert len(set(found[:4])) == 1 and found[4] != found[0]
    return bases_request(p, n, s, 6, written(type_), joined(map(written, sets)), lent_words(6 * size), lent_words(18))


def sets_section():
    yield remark("C1's series, a set that is refused, and zeros; then each alone")
    each = [series for series, _, _ in reference.WORKED_SETS]
    yield bases_request(7, 2, 3, 3, written([0, 2]), written(reference.end_to_end(each)), lent_words(48), lent_words(9))
    for series in each:
        yield basis_request(7, 2, 3, written([0, 2]), written(series), 16)
    for about, rows in SETS:
        yield remark(about)
        for row in rows:
            yield drawn_sets(*row)
    yield remark('sixteen sets of zeros')
    yield bases_request(7, 2, 3, 16, written([0, 2]), repeated(0, 96), lent_words(256), lent_words(48))
    yield remark('a set; the same again; times a constant; times a series that begins with a constant; times X; zeros')
    for row in SAME_SETS:
        yield same_sets(*row)


def pair_section():
    for about, rows in PAIR_JOBS:
        yield remark(about)
        for p, k, order, zeros, rule, seed in rows:
            yield pair_request(p, k, series_word(p, 1, order, zeros, rule, seed), k, order - k + 1)


def with_constant(p, degree, seed):
    """A polynomial whose constant term is not zero."""
    return [1 + draw(seed, p - 1, 1)[0]] + list(draw(seed + 1, p, degree))


def drawn_fraction(p, r_degree, t_degree, seed):
    """r, and t with a constant term that is not zero."""
    return list(draw(100 * seed, p, r_degree + 1)), with_constant(p, t_degree, 100 * seed + 1)


def expanded(p, r, t, order):
    """The series r / t to that order."""
    inverse = reference.inverse(p, t[0])
    g = []
    for j in range(order):
        known = sum(t[u] * g[j - u] for u in range(1, min(j, len(t) - 1) + 1))
        g.append(((r[j] if j < len(r) else 0) - known) * inverse % p)
    return g


def fraction_section():
    for about, rows in FRACTIONS:
        yield remark(about)
        for p, k, order, r_degree, t_degree, c_degree, seed in rows:
            assert r_degree + c_degree < k and t_degree + c_degree <= order - k
            r, t = drawn_fraction(p, r_degree, t_degree, seed)
            c = with_constant(p, c_degree, 100 * seed + 3)
            g = expanded(p, *(reference.product(p, c, part, len(part) + c_degree) for part in (r, t)), order)
            found_r, found_t = [0] * k, [0] * (order - k + 1)
            reference.pair(p, k, g, found_r, found_t)
            assert reference.product(p, found_r, t, 2 * order) == reference.product(p, r, found_t, 2 * order)
            assert reference.degree(found_r) <= r_degree and reference.degree(found_t) <= t_degree
            yield pair_request(p, k, written(g), k, order - k + 1)
    yield remark('no fraction: one coefficient of such a series changed, so near the end that a power of X times r and t stays within the bounds')
    for p, k, order, r_degree, t_degree, before_end, seed in NEAR_FRACTIONS:
        assert before_end <= min(k - 1 - r_degree, order - k - t_degree)
        g = expanded(p, *drawn_fraction(p, r_degree, t_degree, seed), order)
        g[order - before_end] = (g[order - before_end] + 1) % p
        assert reference.lowest_denominator(p, k, g) is None
        yield pair_request(p, k, written(g), k, order - k + 1)


# ---- Refusals, alone and in pairs ------------------------------------------------------------

def faults(good, tests):
    """The good call, each faulty variant of it, and two faults at once for each two tests."""
    rows = [good]
    for variants in tests:
        rows += [dict(good, **fault) for fault in variants]
    for a in range(len(tests)):
        for b in range(a + 1, len(tests)):
            rows += [dict(good, **tests[b][0], **{k: v for k, v in tests[a][0].items() if k not in tests[b][0]})]
    unique = []
    for row in rows:
        if tuple(row.values()) not in unique:
            unique.append(tuple(row.values()))
    return unique


MODULI = [dict(p=p) for p in (4, 0, 1, 2147117569, 2147483648, TOP)]
COUNTS = [dict(n=0), dict(n=9), dict(n=TOP)]
TYPE_LENGTHS = [dict(type_len=1), dict(type_len=3), dict(type_len=0)]
BASIS_LENGTHS = [dict(basis_len=15), dict(basis_len=17), dict(basis_len=0)]
LENGTHS = [dict(series_len=5), dict(series_len=7), dict(series_len=0)] + BASIS_LENGTHS

# One word of the type and one of the series are set; other type words are the base, other coefficients zero.
BASIS_CALLS = faults(
    dict(p=7, n=2, s=3, type_len=2, series_len=6, basis_len=16, at=0, type_word=0, place=1, series_word=6),
    [MODULI,
     COUNTS,
     [dict(s=256), dict(s=TOP), dict(n=1, s=256, type_len=1, series_len=256, basis_len=257)],
     TYPE_LENGTHS + LENGTHS,
     [dict(at=1, type_word=256), dict(at=0, type_word=256), dict(at=1, type_word=TOP)],
     [dict(place=5, series_word=7), dict(place=0, series_word=7), dict(place=3, series_word=TOP)]]) + [
    (2, 2, 3, 2, 6, 16, 1, 255, 5, 1), (LARGEST, 2, 3, 2, 6, 16, 0, 255, 0, 2147483646),
    (2, 8, 255, 8, 2040, 16384, 7, 255, 2039, 1), (7, 1, 0, 1, 0, 1, 0, 255, 0, 0), (7, 1, 0, 1, 1, 1, 0, 0, 0, 0)]

APPROXIMANT_CALLS = faults(
    dict(p=7, n=2, base=1, type_len=2, series_len=6, basis_len=16, at=0, type_word=1, place=1, series_word=6),
    [MODULI,
     COUNTS,
     TYPE_LENGTHS,
     [dict(at=1, type_word=256), dict(at=0, type_word=256), dict(at=1, type_word=TOP)],
     [dict(base=255, series_len=6), dict(base=127, at=1, type_word=128, series_len=512, basis_len=1028)],
     LENGTHS,
     [dict(place=5, series_word=7), dict(place=0, series_word=7), dict(place=3, series_word=TOP)]]) + [
    (7, 2, 127, 2, 510, 1024, 0, 127, 0, 6), (7, 2, 127, 2, 510, 1024, 0, 128, 0, 6), (7, 2, 127, 2, 510, 1024, 1, 128, 0, 6),
    (7, 8, 31, 8, 2040, 16384, 0, 31, 0, 6), (7, 8, 31, 8, 2040, 16384, 0, 32, 0, 6), (7, 1, 255, 1, 255, 256, 0, 255, 0, 6)]

BASES_CALLS = faults(
    dict(p=7, n=2, s=3, sets=2, type_len=2, series_len=12, bases_len=32, answers_len=6, at=0, type_word=0, place=1, series_word=6),
    [MODULI[:2],
     [dict(n=0), dict(n=0, type_len=0, series_len=0, bases_len=0), dict(n=9, type_len=9, series_len=54, bases_len=648)],
     [dict(s=256), dict(s=256, type_len=1), dict(n=1, s=256, type_len=1, series_len=512, bases_len=514)],
     [dict(sets=17, series_len=102, bases_len=272, answers_len=51), dict(sets=17), dict(sets=17, type_len=1), dict(sets=TOP)],
     [dict(answers_len=5), dict(answers_len=7), dict(type_len=1), dict(type_len=3), dict(series_len=11), dict(series_len=13), dict(bases_len=31), dict(bases_len=33),
      dict(sets=1), dict(sets=3), dict(sets=0), dict(type_len=1, type_word=256), dict(series_len=11, type_word=256), dict(bases_len=31, type_word=256)],
     [dict(at=1, type_word=256), dict(at=0, type_word=256), dict(at=1, type_word=TOP)],
     [dict(place=11, series_word=7), dict(place=0, series_word=7), dict(place=5, series_word=7), dict(place=6, series_word=TOP)]]) + [  # then no set: the tests of the whole call are made all the same
    (7, 2, 3, 0, 2, 0, 0, 0, 0, 0, 0, 0), (4, 2, 3, 0, 2, 0, 0, 0, 0, 0, 0, 0), (7, 9, 3, 0, 9, 0, 0, 0, 0, 0, 0, 0), (7, 2, 256, 0, 2, 0, 0, 0, 0, 0, 0, 0),
    (7, 2, 3, 0, 0, 0, 0, 0, 0, 0, 0, 0), (7, 2, 3, 0, 2, 6, 0, 0, 0, 0, 0, 0), (7, 2, 3, 0, 2, 0, 16, 0, 0, 0, 0, 0), (7, 2, 3, 0, 2, 0, 0, 3, 0, 0, 0, 0),
    (7, 2, 3, 0, 2, 0, 0, 0, 1, 256, 0, 0)]

PAIR_CALLS = faults(
    dict(p=7, k=2, terms=4, r_len=2, t_len=3, place=1, g_word=6),
    [MODULI,
     [dict(terms=256), dict(terms=257)],
     [dict(k=0), dict(k=5), dict(k=257), dict(k=TOP), dict(terms=0), dict(k=0, terms=0, r_len=0, t_len=1), dict(k=1, terms=0, r_len=1, t_len=0)],
     [dict(r_len=1), dict(r_len=3), dict(r_len=0), dict(t_len=2), dict(t_len=4), dict(t_len=0)],
     [dict(place=3, g_word=7), dict(place=0, g_word=7), dict(place=2, g_word=TOP)],
     [dict(place=2), dict(place=3)]]) + [
    (7, 256, 256, 256, 1, 0, 6), (7, 255, 255, 255, 1, 0, 6), (2, 1, 1, 1, 1, 0, 1), (LARGEST, 1, 2, 1, 2, 1, 2147483646),
    (7, 2, 4, 2, 3, 2, 8), (7, 2, 4, 2, 3, 3, 13)]  # not below p, and its residue leaves no fraction

ROW_VIEWS = [  # what a group is; n, s, row number, length of the basis
    ('rows', [(2, 3, 1, 16), (2, 3, 2, 16), (1, 0, 1, 1), (8, 0, 8, 64)] + [(8, 255, i, 16384) for i in range(1, 9)]),
    ('no row: its number, the length, n or s', [
        (2, 3, 0, 16), (2, 3, 3, 16), (2, 3, TOP, 16), (2, 3, 1, 15), (2, 3, 1, 17), (2, 3, 1, 0), (0, 3, 1, 0), (0, 3, 0, 0),
        (9, 0, 1, 81), (9, 3, 9, 324), (1, 256, 1, 257), (TOP, 3, 1, 16), (2, TOP, 1, 0), (8, 255, 9, 16384), (8, 255, 8, 16383)]),
]


def with_word(words, at, word):
    if at < len(words):
        words[at] = word
    return words


def full_but_one(filling, count, at, word):
    """So many words, all the same but the one at its place, if that is inside."""
    return compact(with_word([filling] * count, at, word))


def basis_calls_section():
    for p, n, s, type_len, series_len, basis_len, at, entry, place, term in BASIS_CALLS:
        yield basis_request(p, n, s, full_but_one(0, type_len, at, entry), full_but_one(0, series_len, place, term), basis_len, is_long(basis_len))


def approximant_calls_section():
    for p, n, base, type_len, series_len, basis_len, at, entry, place, term in APPROXIMANT_CALLS:
        yield approximant_request(p, n, full_but_one(base, type_len, at, entry), full_but_one(0, series_len, place, term), basis_len, is_long(basis_len))


def bases_calls_section():
    for p, n, s, sets, type_len, series_len, bases_len, answers_len, at, entry, place, term in BASES_CALLS:
        yield bases_request(p, n, s, sets, full_but_one(0, type_len, at, entry), full_but_one(0, series_len, place, term),
                            lent_words(bases_len), lent_words(answers_len))


def pair_calls_section():
    for p, k, terms, r_len, t_len, place, term in PAIR_CALLS:
        yield pair_request(p, k, full_but_one(0, terms, place, term), r_len, t_len)


def row_section():
    for about, rows in ROW_VIEWS:
        yield remark(about)
        for n, s, i, count in rows:
            yield Request('row', n, s, i, drawn(i % 1000, 1000, count), sums=count > 64)


# ---- Document 01's worked numbers ----------------------------------------------------------------

def worked_section():
    for name, p, s, d, series, *_ in reference.WORKED:
        yield remark(name)
        n = len(d)
        yield basis_request(p, n, s, written(d), written(series), n * n * (s + 1))
    yield remark('C7 as an approximant')
    yield approximant_request(7, 1, written([0]), written([]), 1)
    for name, g, _ in reference.WORKED_PAIRS:
        yield remark(name)
        yield pair_request(7, 1, written(g), 1, len(g))
    yield remark('C10')
    yield Request('invert', 7, 3)


# ---- Job files -----------------------------------------------------------------------------------

C1_JOB = '''# C1
7 2 3        # p, n, s
0 2          # the type
6 0 0        # f_1
1 1 2        # f_2
'''
C1 = reference.text_job(C1_JOB.encode())
C1_FILE = reference.layout(*C1)


def drawn_part(number):
    """Where the coefficients of the largest file's block lie in its 512 bytes: their first byte, and how many bytes."""
    first = 12 if number == 0 else 1
    end = 52 if number == 16 else 126
    return 4 * first, 4 * (end - first)


# The largest job has 17 blocks. Its coefficients are drawn as bytes below 128, block by block with the block's number as the seed: every
# word of four of them is below the modulus.
LARGEST_JOB = (LARGEST, 8, 255, [255, 0, 1, 2, 3, 4, 5, 254], reference.words_of(
    [byte for number in range(17) for byte in draw(number, 128, drawn_part(number)[1])]))
LARGEST_FILE = reference.layout(*LARGEST_JOB)


def block_word(number, block):
    """A block of a file, or its first bytes: what was drawn for the block of this number is one piece, as far as it still stands."""
    first, count = drawn_part(number)
    alike = itertools.takewhile(lambda bytes_: bytes_[0] == bytes_[1], zip(block[first:], draw(number, 128, count)))
    kept = len(list(alike))
    if kept < 8:  # the numbers themselves are as short
        return compact(block)
    return joined([compact(block[:first]), drawn(number, 128, kept), compact(block[first + kept:])])


def file_word(data):
    """A file, or its first bytes."""
    return joined(block_word(at // 512, data[at:at + 512]) for at in range(0, len(data), 512))


def read_request(data, type_len=8, series_len=2040, sums=True):
    return Request('read', file_word(data), repeated(9, type_len), repeated(9, series_len), sums=sums)


def write_request(p, n, s, type_, series, count=8704, sums=True):
    return Request('write', p, n, s, written(type_), written(series), repeated(170, count), sums=sums)


WRITES = [  # p, n, s, type, series, bytes lent: from the first test of the writer's order to the last, and none
    (4, 9, 256, [256, 2, 0], [6, 0, 0, 1, 1, 7], 8703),
    (7, 0, 256, [256, 2, 0], [6, 0, 0, 1, 1, 7], 8703),
    (7, 9, 256, [256, 2, 0], [6, 0, 0, 1, 1, 7], 8703),
    (7, 2, 256, [256, 2, 0], [6, 0, 0, 1, 1, 7], 8703),
    (7, 2, 3, [256, 2, 0], [6, 0, 0, 1, 1, 7], 8704),
    (7, 2, 3, [256, 2], [6, 0, 0, 1, 7], 8704),
    (7, 2, 3, [256, 2], [6, 0, 0, 1, 1, 7], 8703),
    (7, 2, 3, [256, 2], [6, 0, 0, 1, 1, 7], 8705),
    (7, 2, 3, [256, 2], [6, 0, 0, 1, 1, 7], 8704),
    (7, 2, 3, [0, 2], [6, 0, 0, 1, 1, 7], 8704),
    (11, 2, 3, [0, 2], [6, 0, 0, 1, 1, 7], 8704),
]

# A change of a file: which word, its new value, and whether the checks of its block are made anew.
SEALED, UNSEALED = True, False


def in_each_block(at, word, sealed):
    return [(at + 128 * b, word, sealed) for b in range(17)]


DAMAGES = [  # what a group is, the changes made before, and the one change behind each case
    ('the number of each block', [], in_each_block(0, TOP, UNSEALED)),
    ('check A of each block', [], in_each_block(126, TOP, UNSEALED)),
    ('check B of each block', [], in_each_block(127, TOP, UNSEALED)),
    ('payload word 60 of each block', [], in_each_block(60, TOP, UNSEALED)),
    ('a coefficient of each block is not below p, the checks anew', [], in_each_block(20, LARGEST, SEALED)),
    ('p', [], [(1, p, SEALED) for p in (0, 1, 4, 2147117569, 2147483648)]),
    ('n, the last one to a count of series with fewer blocks', [], [(2, n, SEALED) for n in (0, 9, 7)]),
    ('s, the last two to orders with fewer blocks, and with as many', [], [(3, s, SEALED) for s in (256, TOP, 239, 254)]),
    ('each spare word', [], [(at, 1, SEALED) for at in range(2100, 2174)]),
    ('each type entry', [], [(at, 256, SEALED) for at in range(4, 12)]),
    ('the last coefficient', [], [(2099, LARGEST, SEALED)]),
    ('p, and beside it the number of block 2, check A of block 1, n', [(1, 4, SEALED)], [(256, 0, UNSEALED), (254, 0, UNSEALED), (2, 9, SEALED)]),
    ('a type entry, and beside it s with fewer blocks, a spare word, a coefficient', [(4, 256, SEALED)],
     [(3, 200, SEALED), (2173, 1, SEALED), (20, LARGEST, SEALED)]),
    ('the number of block 1, and beside it check A of block 0, check A of block 1', [(128, 7, UNSEALED)], [(126, 0, UNSEALED), (254, 0, UNSEALED)]),
]

CUT = [  # what a group is, and how many bytes of the file and of 512 zeros after it are read
    ('0 to 17 blocks', range(0, 9216, 512)),
    ('0 to 17 blocks and one byte', range(1, 9216, 512)),
    ('0 to 17 blocks and 511 bytes', range(511, 9216, 512)),
    ('18 blocks', [9216]),
]

LENT = [(8704, 7, 2040), (8704, 9, 2040), (8704, 8, 2039), (8704, 8, 2041), (1, 8, 0), (8704, 8, 2040)]  # bytes read, words lent


def damaged(file, changes):
    words = reference.words_of(file)
    for at, word, sealed in changes:
        words[at] = word
        if sealed:
            first = at - at % 128
            words[first + 126:first + 128] = checks(words[first:first + 126])
    return reference.bytes_of(words)


def block_states(number):
    """A block with that number and the payload 7 2 3: as written; word 3 made 4; the checks made anew, and then word 0 one more."""
    block = reference.block(number, [7, 2, 3] + [0] * 122)
    return [damaged(block, changes) for changes in (
        [], [(3, 4, UNSEALED)], [(3, 4, SEALED), (0, number + 1, UNSEALED)])]


def block_section():
    yield remark('document 01: all words zero; word 1 equal to 7; word 0 equal to 4294967295')
    for at, word in ((0, 0), (1, 7), (0, TOP)):
        yield Request('block_checks', compact(reference.bytes_of(with_word([0] * 128, at, word))))
    yield remark('the words of the checks themselves do not count')
    yield Request('block_checks', compact([0] * 504 + [255] * 8))
    yield remark('block 5 with the payload 7 2 3: as written; word 3 made 4; the checks made anew and word 0 made 6')
    for block in block_states(5):
        yield Request('block_checks', compact(block))
    yield remark('the same in block 0, read as a file: sound; a check is wrong; the number is wrong')
    for block in block_states(0):
        yield read_request(block)
    yield remark('the number made right only after the checks: they are wrong')
    yield read_request(damaged(reference.block(5, [7, 2, 3] + [0] * 122), [(0, 0, UNSEALED)]))


def write_section():
    yield remark('C1 written; C1 read back')
    yield write_request(*C1, sums=False)
    yield read_request(C1_FILE, sums=False)
    yield remark('every test of the order holds; each line one less; none')
    for row in WRITES:
        yield write_request(*row)
    yield remark('the largest job, in 17 blocks')
    yield write_request(*LARGEST_JOB, sums=False)


def damage_section():
    yield remark('the largest file as it was written')
    yield read_request(LARGEST_FILE)
    for about, before, changes in DAMAGES:
        yield remark(about)
        for change in changes:
            yield read_request(damaged(LARGEST_FILE, before + [change]))


def cut_section():
    for about, counts in CUT:
        yield remark(about)
        for count in counts:
            yield read_request((LARGEST_FILE + bytes(512))[:count])
    yield remark('7 and 9 words for the type, 2039 and 2041 for the series; none for the series, and one byte of a file; the right lengths')
    for count, type_len, series_len in LENT:
        yield read_request(LARGEST_FILE[:count], type_len, series_len)


# ---- The text job ----------------------------------------------------------------------------------

C1_NUMBERS = ['7', '2', '3', '0', '2', '6', '0', '0', '1', '1', '2']
C1_LINE = ' '.join(C1_NUMBERS)


def one_a_line(numbers):
    return '\n'.join(numbers)


def with_each(word):
    """C1, a number a line, with each number in turn replaced by the word."""
    return [one_a_line(C1_NUMBERS[:at] + [word] + C1_NUMBERS[at + 1:]) for at in range(len(C1_NUMBERS))]


TEXT_JOBS = [  # what a group is, and its texts
    ('C1 on one line, with a new line and without', [C1_LINE + '\n', C1_LINE]),
    ('tabs, carriage returns, empty lines; leading zeros', [
        '\t7 2\t3\r\n\r\n0 2 \r\n6 0 0\r\n\n\t1 1 2\r\n', '007 02 3 0 2 6 0000000000000000000000 0 1 1 00000000004\n']),
    ('comments after a word, on lines of their own, with numbers in them, at the end', [
        '#\n#7 2\n7#p\n2 3 ## n s\n0 2 # 5 5 5\n6 0 0 1 1#1\n2#', C1_LINE + '\n# 9\n\n#']),
    ('order 0; one series; eight series', ['7 1 0 255', '2 1 1 0 1', '3 8 1 0 1 2 3 4 5 6 255 0 1 2 0 1 2 0 1']),
    ('nothing: the empty text, blanks, new lines, a comment', ['', ' \t\r', '\n\n\n', '# 7 2 3', '#\n']),
    ('the text ends after 1 to 10 numbers, a number a line', [one_a_line(C1_NUMBERS[:k]) for k in range(1, 11)]),
    ('it ends on the line after the last number; in a comment; after empty lines', [
        '7 2 3\n0 2\n6 0 0\n1 1\n', '7 2 3 0 2\n6 0 0 1 1 # 2', '7 2 3\n\n\n']),
    ('each number in turn is a word that is none', with_each('x')),
    ('each is too large', with_each('4294967296')),
    ('each is the largest number of 32 bits', with_each(str(TOP))),
    ('words that are no numbers', [
        '-7', '+7', '7.', '7,2', '0x7', '7x', 'x7', '/', ':', '7/', '7:', '\x00', '7\x0b2', '7\x0c2', '7\x1f2', '7\x852', '7\xa02', '\xb7', '\xff', '4294967296x', '"7"']),
    ('too large, also where 32 or 64 bits would wrap to 7, and after zeros', [
        '4294967303', '42949672967', '18446744073709551616', '18446744073709551623', '184467440737095516167', '99999999999999999999999999999999999999', '00000000004294967296']),
    ('values outside: p, n, s, the first and last type entry, the first and last coefficient', [
        '0', '1', '4', '2147117569', '2147483648', '7\n0', '7\n9', '7 2\n256', '7 2 3\n256 2', '7 2 3\n0\n256', '7 2 3 0 2\n7 0 0', '7 2 3 0 2\n6 0 0\n1 1 7', '2 1 1 0\n2']),
    ('more than the job has: a number, a word that is none, one that is too large, after order 0', [
        C1_LINE + ' 0', C1_LINE + '\n\n0\n', C1_LINE + ' x', C1_LINE + '\n4294967296', '7 1 0 0 0', '7 1 0 0#\n#\n 0']),
    ('two things are wrong: the first counts', [
        '4 9', '7\n9\n256', '7 2 256\n256', '7 2 3 256\nx', '7 2 3 0 2 7\nx', '7 2 3 0 x\n4294967296', '7 2 3 0 4294967296\nx', '7 2 3\n256', '7 1 1 0 7 7']),
]


def text_word(text):
    return compact(text.encode('latin-1'))


def parse_requests(text, sums=True):
    return [Request('parse', text_word(text), repeated(9, 8), repeated(9, 2040), sums=sums), Request('parse_line', text_word(text))]


def largest_text():
    """Every word that is lent is written, the first and the last coefficient as large as they may be."""
    return f'{LARGEST} 8 255 255 0 1 2 3 4 5 254 {LARGEST - 1} ' + '1 ' * 2038 + f'{LARGEST - 1}\n'


def text_job_section():
    yield remark('C1 with comments; what is written is in the answer')
    yield from parse_requests(C1_JOB, sums=False)
    yield remark('the largest job')
    yield parse_requests(largest_text())[0]
    for about, texts in TEXT_JOBS:
        yield remark(about)
        for text in texts:
            yield remark(ascii(text))
            yield from parse_requests(text)


# ---- The text calls ----------------------------------------------------------------------------------

TEXTS = [  # words that are no basis: what they are; p, n, s, least row; type and basis
    ('nothing but zeros, and types above the degrees', 9, 2, 3, 0, repeated(300, 2), repeated(0, 16)),
    ('zeros above, between and below', 7, 2, 2, 1, written([0, 2]), written([0, 0, 5, 0, 4, 0, 3, 0, 0, 2, 0, 1])),
    ('one word', 2, 1, 0, 1, written([255]), written([10])),
    ('order 0', 2, 8, 0, 8, drawn(1, 256, 8), drawn(2, 2, 64)),
    ('the largest zero basis', 2, 8, 255, 8, repeated(0, 8), repeated(0, 16384)),
    ('numbers of one to five digits', 65537, 8, 255, 3, drawn(3, 256, 8), drawn(4, 65537, 16384)),
    ('the longest text: every number is the largest', TOP, 8, 255, TOP, repeated(TOP, 8), repeated(TOP, 16384)),
]

TEXT_LENGTHS = [dict(text_len=TEXT - 1), dict(text_len=TEXT + 1), dict(text_len=0), dict(text_len=7)]

TEXT_CALLS = faults(
    dict(n=2, s=3, type_len=2, basis_len=16, text_len=TEXT),
    [COUNTS, [dict(s=256), dict(s=TOP), dict(n=1, s=256, type_len=1, basis_len=257)], TYPE_LENGTHS + BASIS_LENGTHS + TEXT_LENGTHS])

# One word of C1's file changed, for each refusal of the reader but that of the length.
C1_DAMAGES = [(0, 1, SEALED), (126, 0, UNSEALED), (127, 0, UNSEALED), (1, 6, SEALED), (2, 9, SEALED), (3, 256, SEALED), (3, 255, SEALED),
              (125, 1, SEALED), (4, 256, SEALED), (11, 7, SEALED)]


def text_request(p, n, s, least, type_, words, count=TEXT):
    return Request('text', p, n, s, least, type_, words, lent_text(count), sums=is_long(count))


def basis_text_section():
    for name, p, s, d, _, rows, _, _, least, _ in reference.WORKED:
        yield remark(f"{name}'s basis")
        yield text_request(p, len(d), s, least, written(d), written(reference.flat(len(d), s, rows)))
    for about, *arguments in TEXTS:
        yield remark(about)
        yield text_request(*arguments)
    yield remark('a good call; n, s and each length, alone and two at a time')
    for n, s, type_len, basis_len, text_len in TEXT_CALLS:
        yield text_request(7, n, s, 2, repeated(0, type_len), repeated(1, basis_len), text_len)


def refusal_text_section():
    yield remark('refusals, and numbers that are none')
    for number in (1, 8, 12, 13, 14, 0, 256, TOP):
        yield Request('refused', number, lent_text(), sums=True)
    yield remark('the length of the text')
    for lengths in TEXT_LENGTHS:
        count = lengths['text_len']
        yield Request('refused', 8, lent_text(count), sums=is_long(count))


def print_section():
    for name, p, s, d, series, *_ in reference.WORKED:
        yield remark(f"{name}'s file")
        yield Request('print', file_word(reference.layout(p, len(d), s, d, series)), lent_text(), sums=True)
    yield remark('the largest file')
    yield Request('print', file_word(LARGEST_FILE), lent_text(), sums=True)
    yield remark("no file; C1's file a byte too short, 18 times, and with one word changed, for each refusal of the reader")
    for file in [b'', C1_FILE[:511], C1_FILE * 18] + [damaged(C1_FILE, [change]) for change in C1_DAMAGES]:
        yield Request('print', file_word(file), lent_text(), sums=True)
    yield remark('the length of the text, for a sound file and for none')
    for file in C1_FILE, b'':
        for lengths in TEXT_LENGTHS:
            count = lengths['text_len']
            yield Request('print', file_word(file), lent_text(count), sums=is_long(count))


# ---- Lines that are no requests ----------------------------------------------------------------------

NO_LISTS = ['x', '-1', '+1', '1.', '0x1', '1x', 'x1', '/', ':', '1/', '1:', '1;2', '\xb2', ',', ',1', '1,', '1,,2', '*', '*2', '1*', '1**2', '1*2*3',
            '%', '1%', '%2', '1%2', '%2*3', '1%*3', '1%2*', '1%2%3*4', '1*2%3', '1*x', '1*2,x', 'x%2*3', '1%x*3', '1%2*x', '1%0', '1%0*x', '4294967296x', '4294967296x*2', 'checks', 'make']

TOO_LARGE_LISTS = ['4294967296', '18446744073709551623', '99999999999999999999999999999999999999', '00000000004294967296', '4294967296*2', '2*4294967296',
                   '4294967296%2*3', '1%4294967296*3', '1%2*4294967296', '1,4294967296', '1*2,4294967296*2', '4294967296*x', '4294967296%x*2', '1%0*4294967296']

MODULO_ZERO_LISTS = ['1%0*2', '1%000*2', '1%0*0', '0%0*0', '1,2%0*3', '1%0*200001', '1%0*4294967295']

NO_ROOM_LISTS = ['1*200001', '1*4294967295', '1%2*200001', '1%2*4294967295', '1*200000,1', '1*200000,1*1', '1*100000,1%2*100001']


def good_words(name):
    """Words that the call takes, each list of one or two numbers, or of the length that it must have."""
    count, kinds, _ = CALLS[name]
    return ['7'] * count + [f'0*{calls.FIXED_LENGTHS.get(kind, 2)}' for kind in kinds]


def with_words(name, words):
    return ' '.join([name] + words)


def name_lines():
    yield remark('no name, and names that no call has')
    for line in ['checks', 'checks # make 7', ' \tchecks\r', 'nothing', 'nothing 7', 'checks nothing 7', 'checks checks make 7', 'Make 7', 'mak 7', 'makes 7', 'make, 7',
                 '7', '7 make', ',', 'make7', 'block checks 0*512', 'nothing x', 'nothing 1 2 3 4 5 6 7 8 9']:
        yield Wrong(line, calls.NO_CALL)


def list_lines():
    for about, words, lists in [('words that are no lists of numbers', calls.NO_LIST, NO_LISTS),
                                ('numbers that do not fit 32 bits, in each place of a piece', calls.TOO_LARGE, TOO_LARGE_LISTS),
                                ('drawn modulo 0', calls.MODULO_ZERO, MODULO_ZERO_LISTS),
                                ('more than 200000 numbers', calls.NO_ROOM, NO_ROOM_LISTS)]:
        yield remark(about)
        for word in lists:
            yield Wrong(f'make {word}', words)
        yield remark('the same in the last word, and where sums are asked for')
        yield Wrong(f'basis 7 2 3 0,2 6,0,0,1,1,2 {lists[0]}', words)
        yield Wrong(f'checks basis 7 2 3 0,2 {lists[0]} 77*16', words)
    yield remark('all words count for the room')
    yield Wrong('basis 7 2 3 0*100000 0*99996 0 0*1', calls.NO_ROOM)
    yield Wrong('basis 7 2 3 0*100000 0*99997 0*1', calls.NO_ROOM)


def word_lines():
    yield remark('nine words, whatever the ninth is; eight are read first')
    for words in '1 2 3 4 5 6 7 8 9', '1 2 3 4 5 6 7 8 9 10', '1 2 3 4 5 6 7 8 x', '1*200000 1*0 1*0 1*0 1*0 1*0 1*0 1*0 1':
        yield Wrong(f'make {words}', calls.TOO_MANY_WORDS)
    yield Wrong('make 1 2 3 4 5 6 7 x 9', calls.NO_LIST)
    yield Wrong('make 1 2 3 4 5 6 7 8', calls.OTHER_ARGUMENTS)
    yield remark('two words are wrong: the first counts')
    first = [(calls.NO_LIST, 'x'), (calls.TOO_LARGE, '4294967296'), (calls.MODULO_ZERO, '1%0*2'), (calls.NO_ROOM, '1*200001')]
    for (words, one), (_, other) in itertools.permutations(first, 2):
        yield Wrong(f'make {one} {other}', words)
    yield remark('two pieces of a word: the first counts')
    for (words, one), (_, other) in itertools.permutations(first, 2):
        yield Wrong(f'make {one},{other}', words)


def argument_lines():
    yield remark('each call with no words, with one word less, and with one more, which may be a ninth')
    for name in CALLS:
        words = good_words(name)
        for some in [[], words[:-1], words + ['0']] if len(words) > 1 else [[], words + ['0']]:
            yield Wrong(with_words(name, some), calls.OTHER_ARGUMENTS if len(some) <= calls.WORDS else calls.TOO_MANY_WORDS)
    yield remark('each number of each call as a list of two, and of none')
    for name in CALLS:
        words = good_words(name)
        for at, other in itertools.product(range(CALLS[name][0]), ['7,7', '7*0']):
            yield Wrong(with_words(name, words[:at] + [other] + words[at + 1:]), calls.OTHER_ARGUMENTS)
    yield remark('before the bytes')
    yield Wrong('read 256 9*8', calls.OTHER_ARGUMENTS)
    yield Wrong('refused 7,7 256', calls.OTHER_ARGUMENTS)


def byte_lines():
    yield remark('each slice of bytes of each call')
    for name, (count, kinds, _) in CALLS.items():
        words = good_words(name)
        for at, kind in enumerate(kinds, count):
            if kind in calls.BYTES:
                for other in '256', '0,255,256,0', '4294967295*512':
                    yield Wrong(with_words(name, words[:at] + [other] + words[at + 1:]), calls.NO_BYTE)
    yield remark('before the lengths')
    yield Wrong('block_checks 256*511', calls.NO_BYTE)
    yield Wrong('parse 256 9*7 9*2039', calls.NO_BYTE)
    yield remark('slices for which there is no buffer: bytes, and words that are written')
    for line in ['read 0*9218 9*8 9*2040', 'read 0 9*16386 9*2040', 'read 0 9*8 9*16386', 'refused 8 9*180811', 'print 0*9218 9', 'print 0 9*180811', 'basis 7 2 3 0 0 9*16386',
                 'approximant 7 2 0 0 9*16386', 'bases 7 2 3 1 0 0 9*16386 9', 'bases 7 2 3 1 0 0 9 9*16386', 'pair 7 1 0 9*16386 9', 'pair 7 1 0 9 9*16386', 'write 7 2 3 0 0 9*9218',
                 'text 7 2 3 1 0 0 9*180811', 'parse 9*32769 9*8 9*2040', 'parse_line 9*32769', 'block_checks 0*9218']:
        yield Wrong(line, calls.NO_ROOM)
    yield Request('pair', 7, 1, written([1]), repeated(9, 16385), repeated(9, 16385), sums=True)
    yield Request('bases', 7, 2, 3, 1, repeated(0, 2), repeated(0, 6), repeated(9, 16385), repeated(9, 16385), sums=True)
    yield Request('refused', 8, repeated(9, 180810), sums=True)
    yield Request('read', repeated(0, 9217), repeated(9, 8), repeated(9, 2040), sums=True)
    yield Request('parse_line', repeated(35, 32768))
    yield remark('slice by slice, the bytes before the room')
    yield Wrong('print 0*9218 256', calls.NO_ROOM)
    yield Wrong('print 256*9218 256', calls.NO_BYTE)
    yield Wrong('parse 55 9*7 9*2040', calls.OTHER_LENGTH)
    yield remark('lengths that a call takes no other of')
    for line in ['block_checks 0*511', 'block_checks 0*513', 'block_checks 0*0', 'parse 55 9*7 9*2040', 'parse 55 9*9 9*2040', 'parse 55 9*0 9*2040', 'parse 55 9*8 9*2039',
                 'parse 55 9*8 9*2041', 'parse 55 9*8 9*0', 'parse 55 9*7 9*2041', 'checks parse 55 9*2040 9*8']:
        yield Wrong(line, calls.OTHER_LENGTH)


def good_lines():
    yield remark('what a request may look like')
    for line in ['make 7 # a comment', 'make 7# a comment', '\tmake \t 7\r', '   make   0000000000000000000000007', 'make 7*1', 'make 3*0,7', 'make 7,1%2*0', 'make 3*0,7*1,1%2*0']:
        yield Request('make', 7, line=line)
    yield Request('make', TOP, line='make 04294967295')
    yield remark('lists in the answer, as they were lent to a call that is refused')
    for r, t in [(joined([written([6, 0, 0]), repeated(1, 3), drawn(45, 7, 10)]), drawn(45, 101, 12)), (drawn(0, TOP, 8), drawn(TOP, TOP, 8)),
                 (drawn(1, 1, 5), drawn(0, 2, 20)), (repeated(TOP, 2), written([1, TOP, 0]))]:
        yield Request('pair', 0, 0, repeated(0, 0), r, t)
    yield Request('refused', 8, joined([drawn(45, 256, 12), repeated(255, 2)]))
    yield remark('sums of a call without a buffer')
    yield Request('make', 7, sums=True)
    yield Request('add', 7, 3, 5, sums=True)
    yield Request('multiply', 7, 3, 5, sums=True)
    yield Request('invert', 7, 0, sums=True)
    yield Request('block_checks', repeated(0, 512), sums=True)
    yield Request('parse_line', text_word('7 9'), sums=True)
    yield remark('buffers of length 0; 200000 numbers in all')
    for sums in False, True:
        yield Request('pair', 7, 1, written([1]), repeated(9, 0), repeated(9, 0), sums=sums)
    yield Request('row', 2, 3, 1, repeated(0, 199997))
    yield remark('lines without a word')
    for line in '', ' ', ' \t\r', '#', '  # make x', '##':
        yield Silent(line)
    yield remark('they count as lines')
    yield Wrong('nothing', calls.NO_CALL)
    yield Request('make', 7)


def lines_section():
    for lines in name_lines, list_lines, word_lines, argument_lines, byte_lines, good_lines:
        yield from lines()


# ---- All of them -------------------------------------------------------------------------------------

SECTIONS = [
    ('The field: make, add, multiply, invert', field_section),
    ('The checks of a block', block_section),
    ("Document 01's worked numbers, C1 to C10", worked_section),
    ('Bases of jobs of every size', basis_section),
    ('Approximants', approximant_section),
    ('Bases of many sets', sets_section),
    ('Pairs', pair_section),
    ('Pairs of series that are fractions, and of series close to them', fraction_section),
    ('The basis call: a good one, each refusal, and two faults at once for each two tests', basis_calls_section),
    ('The approximant call in the same way', approximant_calls_section),
    ('The call for many sets in the same way, with two sets and with none', bases_calls_section),
    ('The pair call in the same way', pair_calls_section),
    ('Where the rows of a basis lie', row_section),
    ('Job files written', write_section),
    ('The largest job file after one change or two', damage_section),
    ('The largest job file cut short or too long, and other lengths of what is lent', cut_section),
    ('The text job: what it says, or what is wrong and on which line', text_job_section),
    ('The text of a basis', basis_text_section),
    ('The text of a refusal', refusal_text_section),
    ('The text that is printed for a job file', print_section),
    ('Lines that are no requests, and lines that just are', lines_section),
]


@functools.lru_cache(None)
def all_lines():
    """Every line of the input, by its section."""
    sections = [[remark('Requests to the program `calls`, written by tools/expected.py. docs/REFERENCE.md says what they are.')]]
    for title, lines in SECTIONS:
        sections.append([Silent(''), remark(f'---- {title}')] + list(lines()))
    return sections


def stdin_lines():
    for lines in all_lines():
        yield from (line.line for line in lines)


def stdout_lines():
    for number, line in enumerate(itertools.chain(*all_lines()), 1):
        said = line.answer(number)
        if said is not None:
            yield said
