#!/usr/bin/env python3
"""Reference for the relation engine: every answer by plain linear algebra over GF(p).

The calls have the engine's arguments, buffers (lists that are written in place) and
refusals, and share no method with it. docs/REFERENCE.md says how and why.

  tools/reference.py relations < JOBFILE    the text of the job's basis
  tools/reference.py job < TEXT > JOBFILE   p n s, type, coefficients; '#' starts a comment
  tools/reference.py --selftest             all worked numbers, and the definitions by brute force
"""
import functools
import itertools
import re
import sys

LARGEST = 2147483647
TEXT = 180809  # bytes that the text calls are lent


class Refused(Exception):
    """A numbered refusal. It is raised before any buffer is written."""

    def __init__(self, number):
        super().__init__(number)
        self.number = number


def refuse(number, test):
    if test:
        raise Refused(number)


def outcome(call, *arguments):
    """The call's answer, or 'refused N'."""
    try:
        return call(*arguments)
    except Refused as refusal:
        return f'refused {refusal.number}'


# ---- The field -------------------------------------------------------------------------

@functools.lru_cache(None)
def is_prime(p):
    """No divisor d with 1 < d and d * d <= p."""
    return p >= 2 and all(p % d for d in itertools.takewhile(
        lambda d: d * d <= p, itertools.chain([2], itertools.count(3, 2))))


def test_modulus(p):
    refuse(1, p < 2 or p > LARGEST or not is_prime(p))


def test_coefficients(p, words):
    refuse(6, any(a >= p for a in words))


def field(p):
    test_modulus(p)
    return p


def add(p, a, b):
    test_modulus(p)
    test_coefficients(p, [a, b])
    return (a + b) % p


def mul(p, a, b):
    test_modulus(p)
    test_coefficients(p, [a, b])
    return a * b % p


def inverse(p, a):
    """The residue whose product with a is 1; None for zero."""
    test_modulus(p)
    test_coefficients(p, [a])
    return pow(a, p - 2, p) if a else None


# ---- The reduced minimal basis -----------------------------------------------------------

def reduced_rows(p, n, s, d, f):
    """The rows of the reduced minimal basis of V_s and their pivot degrees.

    V_s is the kernel of the linear map that sends X^k e_i to the coefficients 0 to s - 1 of
    X^k f_i. Go through the positions (i, k) by rising shifted degree k - d_i and then rising i:
    a vector's leading position is the last of its positions in this order, its index is the
    vector's type. Some member of V_s leads at (i, k) exactly when the image of X^k e_i depends
    linearly on the images of earlier positions, and the first such k for i is the pivot degree
    of row i. Written on the earlier independent positions alone, in one way only, the
    dependency is monic at (i, k) and below the pivot degree in every column: the reduced row.
    """
    pivots = [None] * n
    rows = [None] * n
    independent = []  # (position, steps, scale, column, image): an echelon form of the images
    for i, k in sorted(itertools.product(range(n), range(s + 1)), key=lambda q: (q[1] - d[q[0]], q[0])):
        if pivots[i] is not None:
            continue
        image = ([0] * k + f[i])[:s]
        steps = []  # image = sum of steps[l] * (echelon row l) + what is left
        for _, _, _, column, other in independent:
            c = image[column]
            steps.append(c)
            if c:
                image = [(a - c * b) % p for a, b in zip(image, other)]
        column = next((j for j in range(s) if image[j]), None)
        if column is not None:
            scale = pow(image[column], p - 2, p)
            independent.append(((i, k), steps, scale, column, [a * scale % p for a in image]))
            continue
        pivots[i] = k
        rows[i] = [[0] * (s + 1) for _ in range(n)]
        rows[i][i][k] = 1
        for at in reversed(range(len(independent))):  # from echelon rows back to positions
            (j, t), made_by, scale, _, _ = independent[at]
            c = steps[at] * scale % p
            rows[i][j][t] = -c % p
            for l in range(at):
                steps[l] = (steps[l] - c * made_by[l]) % p
    return rows, pivots


def least_row(pivots, d):
    """The number, from 1, of the row of least shifted degree, the lowest on a tie."""
    return min(range(len(d)), key=lambda i: (pivots[i] - d[i], i)) + 1


def solve(p, n, s, d, series, out):
    rows, pivots = reduced_rows(p, n, s, d, [series[i * s:(i + 1) * s] for i in range(n)])
    out[:] = [a for row in rows for entry in row for a in entry]
    # V_(j+1) is V_j or has codimension 1 in it, so the codimension of V_s counts the orders.
    return least_row(pivots, d), sum(pivots)


# ---- The fraction ------------------------------------------------------------------------

def product(p, a, b, count):
    """The first coefficients, so many, of the product of two polynomials or series."""
    return [sum(a[u] * b[j - u] for u in range(j + 1) if u < len(a) and j - u < len(b)) % p for j in range(count)]


def lowest_denominator(p, k, g):
    """The t of least degree with t(0) = 1 for which the coefficients k to N - 1 of t * g are zero; None where there is none.

    Column u has these coefficients of X^u g, and behind them a 1 at place u of t. Columns 1, 2, .. are taken into an echelon form and cleared
    out of column 0, until its coefficients are zero: what stands behind them is then t. All fractions are multiples of the one in lowest terms, so
    it has the least degree, and no other with t(0) = 1 has that degree.
    """
    room = len(g) - k  # for the degree of t; as many coefficients must be zero
    columns = [([0] * u + list(g))[k:len(g)] + [int(u == v) for v in range(room + 1)] for u in range(room + 1)]
    echelon = []  # (a place, a vector that is 1 there)

    def cleared(vector, place, other):
        c = vector[place]
        return [(a - c * b) % p for a, b in zip(vector, other)] if c else vector

    rest = columns[0]
    for column in columns[1:]:
        if not any(rest[:room]):
            break
        for place, other in echelon:
            column = cleared(column, place, other)
        place = next((j for j in range(room) if column[j]), None)
        if place is not None:
            scale = pow(column[place], p - 2, p)
            echelon.append((place, [a * scale % p for a in column]))
            rest = cleared(rest, *echelon[-1])
    return None if any(rest[:room]) else rest[room:]


# ---- The calls ---------------------------------------------------------------------------

def basis(p, n, s, type_, series, out):
    """Fills out; answers the least row's number and the count of orders that made V smaller."""
    test_modulus(p)
    refuse(2, not 1 <= n <= 8)
    refuse(3, s > 255)
    refuse(4, len(type_) != n or len(series) != n * s or len(out) != n * n * (s + 1))
    refuse(5, any(d > 255 for d in type_))
    test_coefficients(p, series)
    return solve(p, n, s, type_, series, out)


def parts(words, length, count):
    """The first parts, so many, of words in parts of that length."""
    return [words[j * length:(j + 1) * length] for j in range(count)]


def end_to_end(lists):
    return [word for words in lists for word in words]


def answer_set(p, n, s, type_, series, out):
    """One set's three words: 0, the least row's number and the count; or its refusal, and out is as lent."""
    try:
        return [0, *basis(p, n, s, type_, series, out)]
    except Refused as refusal:
        assert refusal.number == 6  # every other test is one of the whole call
        return [refusal.number, 0, 0]


def bases(p, n, s, sets, type_, series, out, answers):
    """Each set's basis in its part of out, as the basis call gives it, and three words for each set in answers."""
    test_modulus(p)
    refuse(2, not 1 <= n <= 8)
    refuse(3, s > 255)
    refuse(14, sets > 16)
    size = n * n * (s + 1)
    refuse(4, len(type_) != n or len(series) != sets * n * s or len(out) != sets * size or len(answers) != sets * 3)
    refuse(5, any(d > 255 for d in type_))
    filled = parts(out, size, sets)
    answers[:] = end_to_end(answer_set(p, n, s, type_, *of_set) for of_set in zip(parts(series, n * s, sets), filled))
    out[:] = end_to_end(filled)


def order_of(type_):
    return sum(d + 1 for d in type_) - 1


def approximant(p, n, type_, series, out):
    test_modulus(p)
    refuse(2, not 1 <= n <= 8)
    refuse(4, len(type_) != n)
    refuse(5, any(d > 255 for d in type_))
    s = order_of(type_)
    refuse(3, s > 255)
    refuse(4, len(series) != n * s or len(out) != n * n * (s + 1))
    test_coefficients(p, series)
    return solve(p, n, s, type_, series, out)


def pair(p, k, g, r, t):
    """The fraction r / t = g to order N in lowest terms with t(0) = 1: r in k words, t in N - k + 1."""
    order = len(g)
    test_modulus(p)
    refuse(3, order > 255)
    refuse(7, not 1 <= k <= order)
    refuse(4, len(r) != k or len(t) != order - k + 1)
    test_coefficients(p, g)
    found = lowest_denominator(p, k, g)
    refuse(13, found is None)
    r[:] = product(p, found, g, k)
    t[:] = found


def row_view(n, s, i, length):
    """Start and length of row i's part of a basis buffer of that length; length 0 on a misfit."""
    if not 1 <= n <= 8 or s > 255 or not 1 <= i <= n or length != n * n * (s + 1):
        return 0, 0
    return (i - 1) * n * (s + 1), n * (s + 1)


# ---- Job files ---------------------------------------------------------------------------

def checks(words):
    a, b = 1, 0
    for w in words:
        a = (a + w) % 2 ** 32
        b = (b + a) % 2 ** 32
    return a, b


def bytes_of(words):
    return b''.join(w.to_bytes(4, 'little') for w in words)


def words_of(data):
    return [int.from_bytes(data[at:at + 4], 'little') for at in range(0, len(data), 4)]


def block(number, payload):
    words = [number] + payload
    return bytes_of(words + list(checks(words)))


def block_checks(data):
    """The checks that belong to the 512 bytes of a block."""
    return checks(words_of(data)[:126])


def blocks_of(n, s):
    return -(-(3 + n + n * s) // 125)


def layout(p, n, s, type_, series):
    """The job file: the payload words in just enough blocks, spare words zero."""
    count = blocks_of(n, s)
    words = [p, n, s] + list(type_) + list(series)
    words += [0] * (125 * count - len(words))
    return b''.join(block(b, words[125 * b:125 * b + 125]) for b in range(count))


def write_job(p, n, s, type_, series, out):
    """Writes the file to the start of out (8704 bytes); answers how many blocks."""
    test_modulus(p)
    refuse(2, not 1 <= n <= 8)
    refuse(3, s > 255)
    refuse(4, len(type_) != n or len(series) != n * s or len(out) != 8704)
    refuse(5, any(d > 255 for d in type_))
    test_coefficients(p, series)
    data = layout(p, n, s, type_, series)
    out[:len(data)] = data
    return blocks_of(n, s)


def read_job(data, type_, series):
    """Writes the first n words of type_ and n * s of series; answers p, n and s."""
    refuse(4, len(type_) != 8 or len(series) != 2040)
    refuse(8, len(data) == 0 or len(data) % 512 != 0 or len(data) > 8704)
    payload = []
    for b in range(len(data) // 512):
        words = words_of(data[512 * b:512 * b + 512])
        refuse(9, words[0] != b)
        refuse(10, tuple(words[126:]) != checks(words[:126]))
        payload += words[1:126]
    p, n, s = payload[:3]
    test_modulus(p)
    refuse(2, not 1 <= n <= 8)
    refuse(3, s > 255)
    refuse(11, len(data) // 512 != blocks_of(n, s))
    used = 3 + n + n * s
    refuse(12, any(payload[used:]))
    refuse(5, any(d > 255 for d in payload[3:3 + n]))
    test_coefficients(p, payload[3 + n:used])
    type_[:n] = payload[3:3 + n]
    series[:n * s] = payload[3 + n:used]
    return p, n, s


# ---- The text ------------------------------------------------------------------------------

def degree(words):
    """The place of the last word that is not zero; 0 where there is none."""
    return max((t for t, a in enumerate(words) if a), default=0)


def entry_text(words):
    """Coefficients, low first, without high zeros; '0' for the zero polynomial."""
    return ' '.join(map(str, words[:degree(words) + 1]))


def basis_text(p, n, s, type_, words, least):
    """What the words of a basis say, whatever they are."""
    lines = [f'relations {p} {n} {s} type {" ".join(map(str, type_))}']
    entries = [words[at:at + s + 1] for at in range(0, len(words), s + 1)]
    for i in range(n):
        row = entries[i * n:(i + 1) * n]
        pivot = degree(row[i])
        lines.append(f'row {i + 1} {pivot} {pivot - type_[i]} | {" | ".join(map(entry_text, row))}')
    lines.append(f'least {least}')
    return ''.join(line + '\n' for line in lines)


def refusal_text(number):
    return f'refused {number}\n'


def relations(data):
    """What the program prints for a job file."""
    type_, series = [0] * 8, [0] * 2040
    try:
        p, n, s = read_job(data, type_, series)
    except Refused as refusal:
        return refusal_text(refusal.number)
    words = [0] * (n * n * (s + 1))
    least, _ = basis(p, n, s, type_[:n], series[:n * s], words)
    return basis_text(p, n, s, type_[:n], words, least)


def put_text(text, out):
    """Writes the text to the start of out; answers its length."""
    out[:len(text)] = text.encode()
    return len(text)


def write_basis(p, n, s, type_, words, least, out):
    refuse(2, not 1 <= n <= 8)
    refuse(3, s > 255)
    refuse(4, len(type_) != n or len(words) != n * n * (s + 1) or len(out) != TEXT)
    return put_text(basis_text(p, n, s, type_, words, least), out)


def write_refusal(number, out):
    refuse(4, len(out) != TEXT)
    return put_text(refusal_text(number), out)


def print_job(data, out):
    refuse(4, len(out) != TEXT)
    return put_text(relations(data), out)


# ---- The text job ----------------------------------------------------------------------------

NOT_NUMBER, TOO_LARGE, ENDS_EARLY, TOO_MANY = 257, 258, 259, 260


class Slip(Refused):
    """What is wrong with a text job: its number, and its line."""

    def __init__(self, number, line):
        super().__init__(number)
        self.line = line


def lines_of(text):
    return bytes(text).decode('latin-1').split('\n')


def words_in(line):
    """What stands between blanks, before the comment. Python's own split knows more blanks."""
    return re.findall('[^ \t\r]+', line.partition('#')[0])


def is_number(word):
    return re.fullmatch('[0-9]+', word) is not None


def value_of(digits):
    """The number, and 2^32 for every larger one: Python reads no number of thousands of digits."""
    return min(int(digits.lstrip('0')[:11] or '0'), 2 ** 32)


def size_of_job(numbers):
    """How many numbers the job that begins with these has; no job has fewer than 4."""
    return 3 + numbers[1] * (1 + numbers[2]) if len(numbers) >= 3 else 4


def test_value(numbers, value):
    """Document 01's refusal of the value that follows these numbers of a job."""
    at = len(numbers)
    if at == 0:
        test_modulus(value)
    elif at == 1:
        refuse(2, not 1 <= value <= 8)
    elif at == 2:
        refuse(3, value > 255)
    elif at < 3 + numbers[1]:
        refuse(5, value > 255)
    else:
        test_coefficients(numbers[0], [value])


def next_number(numbers, word):
    """The word as the number that follows these."""
    refuse(TOO_MANY, len(numbers) == size_of_job(numbers))
    refuse(NOT_NUMBER, not is_number(word))
    value = value_of(word)
    refuse(TOO_LARGE, value >= 2 ** 32)
    test_value(numbers, value)
    return value


def text_numbers(text):
    """All numbers of a text job. Raises the slip of the first word that is wrong."""
    numbers = []
    lines = lines_of(text)
    for at, line in enumerate(lines):
        for word in words_in(line):
            try:
                numbers.append(next_number(numbers, word))
            except Refused as refusal:
                raise Slip(refusal.number, at + 1)
    if len(numbers) < size_of_job(numbers):
        raise Slip(ENDS_EARLY, len(lines))
    return numbers


def parse(text, type_, series):
    """Writes the first n words of type_ and n * s of series; answers p, n and s."""
    assert (len(type_), len(series)) == (8, 2040)  # the call takes no other lengths
    p, n, s, *rest = text_numbers(text)
    type_[:n] = rest[:n]
    series[:n * s] = rest[n:]
    return p, n, s


def parse_line(text):
    """The line of what is wrong with a text job; 0 where nothing is."""
    try:
        text_numbers(text)
    except Slip as slip:
        return slip.line
    return 0


def text_job(text):
    """p, n, s, type and series of a text job."""
    p, n, s, *rest = text_numbers(text)
    return p, n, s, rest[:n], rest[n:]


# ---- Self test -------------------------------------------------------------------------------

def flat(n, s, rows):
    """A basis buffer from rows written as in document 01: '6 1, 6 2' is one row of two entries."""
    words = []
    for row in rows:
        for entry in row.split(','):
            coefficients = [int(a) for a in entry.split()]
            words += coefficients + [0] * (s + 1 - len(coefficients))
    assert len(words) == n * n * (s + 1)
    return words


WORKED = [  # name, p, s, type, series, rows, pivot degrees, shifted degrees, least row, count
    ('C1', 7, 3, [0, 2], [6, 0, 0, 1, 1, 2], ['6 1, 6 2', '6, 6 1 1'], [1, 2], [1, 0], 2, 3),
    ('C2', 7, 1, [0, 0], [1, 1], ['0 1, 0', '6, 1'], [1, 0], [1, 0], 2, 1),
    ('C3', 7, 1, [0, 1], [1, 1], ['1, 6', '0, 0 1'], [0, 1], [0, 0], 1, 1),
    ('C4', 2, 1, [0, 0, 0], [1, 1, 1], ['0 1, 0, 0', '1, 1, 0', '1, 0, 1'], [1, 0, 0], [1, 0, 0], 2, 1),
    ('C5', 7, 2, [0], [0, 5], ['0 1'], [1], [1], 1, 1),
    ('C6', 7, 2, [0, 0], [0, 0, 0, 0], ['1, 0', '0, 1'], [0, 0], [0, 0], 1, 0),
    ('C7', 7, 0, [0], [], ['1'], [0], [0], 1, 0),
]

WORKED_PAIRS = [  # p = 7, k = 1: name, g; what the call says, and what r and t then are, which are lent full of 9
    ('C8', [1, 1, 2], (None, [1], [1, 6, 6])),
    ('C9', [0, 1], ('refused 13', [9], [9, 9])),
]

WORKED_SETS = [  # C1's p, s and type: series, rows, answer; the second set is refused
    ([6, 0, 0, 1, 1, 2], ['6 1, 6 2', '6, 6 1 1'], [0, 2, 3]),
    ([0, 0, 0, 0, 0, 7], None, [6, 0, 0]),
    ([0, 0, 0, 0, 0, 0], ['1, 0', '0, 1'], [0, 2, 0]),
]

SETS_ORDER = [  # p, n, s, sets; the lengths of type, series, bases and answers; the type's entries; the refusal, None where there is none
    (4, 0, 256, 17, 1, 11, 31, 5, 256, 1), (7, 0, 256, 17, 1, 11, 31, 5, 256, 2), (7, 9, 256, 17, 1, 11, 31, 5, 256, 2), (7, 2, 256, 17, 1, 11, 31, 5, 256, 3),
    (7, 2, 3, 17, 1, 11, 31, 5, 256, 14), (7, 2, 3, 17, 2, 102, 272, 51, 0, 14), (7, 2, 3, 2, 1, 12, 32, 6, 256, 4), (7, 2, 3, 2, 2, 11, 32, 6, 256, 4),
    (7, 2, 3, 2, 2, 12, 31, 6, 256, 4), (7, 2, 3, 2, 2, 12, 32, 5, 256, 4), (7, 2, 3, 2, 2, 12, 32, 6, 256, 5), (7, 2, 3, 0, 2, 0, 0, 0, 256, 5),
    (7, 2, 3, 0, 2, 0, 0, 3, 0, 4), (7, 2, 3, 0, 2, 0, 0, 0, 0, None), (7, 2, 3, 2, 2, 12, 32, 6, 255, None), (7, 2, 3, 16, 2, 96, 256, 48, 0, None),
]

C1_TEXT = '''relations 7 2 3 type 0 2
row 1 1 1 | 6 1 | 6 2
row 2 2 0 | 6 | 6 1 1
least 2
'''


def test_worked(check):
    for name, p, s, d, series, rows, pivots, shifted, least, count in WORKED:
        n = len(d)
        out = [9] * (n * n * (s + 1))
        check(name + ' answer', basis(p, n, s, d, series, out), (least, count))
        check(name + ' rows', out, flat(n, s, rows))
        found = reduced_rows(p, n, s, d, [series[i * s:(i + 1) * s] for i in range(n)])[1]
        check(name + ' pivot degrees', found, pivots)
        check(name + ' shifted degrees', [e - b for e, b in zip(found, d)], shifted)
    out = [9]
    check('C7 approximant', (order_of([0]), approximant(7, 1, [0], [], out), out), (0, (1, 0), [1]))
    for name, g, wanted in WORKED_PAIRS:
        r, t = [9], [9] * len(g)
        check(name, (outcome(pair, 7, 1, g, r, t), r, t), wanted)
    r, t = [9, 9], [9, 9, 9]
    check('pair of the zero series', (outcome(pair, 7, 2, [0, 0, 0, 0], r, t), r, t), (None, [0, 0], [1, 0, 0]))
    check('C10', inverse(7, 3), 5)
    check('order of (127, 127)', order_of([127, 127]), 255)
    check('order of (128, 127)', order_of([128, 127]), 256)
    zeros = [0] * 510
    check('(127, 127) admitted', outcome(approximant, 2, 2, [127, 127], zeros, [0] * 1024), (1, 0))
    check('(128, 127) refused', outcome(approximant, 2, 2, [128, 127], zeros, [0] * 1024), 'refused 3')
    for p in (2, 2147483647):
        check(f'modulus {p}', outcome(field, p), p)
    for p in (0, 1, 4, 2147117569, 2147483648):
        check(f'modulus {p}', outcome(field, p), 'refused 1')
    check('inverse of zero', inverse(7, 0), None)
    check('pair of no terms', outcome(pair, 7, 0, [], [], []), 'refused 7')
    check('pair, a coefficient before the fraction', outcome(pair, 7, 1, [0, 8], [9], [9, 9]), 'refused 6')
    check('checks of zeros', checks([0] * 126), (1, 126))
    check('checks, word 1 is 7', checks([0, 7] + [0] * 124), (8, 1001))
    check('checks, word 0 is 4294967295', checks([4294967295] + [0] * 125), (0, 0))
    check('text of C1', relations(layout(7, 2, 3, [0, 2], [6, 0, 0, 1, 1, 2])), C1_TEXT)
    check('largest file', len(layout(2, 8, 255, [0] * 8, [0] * 2040)), 17 * 512)


def test_sets(check):
    """Worked sets; and no coefficient is a residue, so that each refusal of the whole call comes before 6, and a call without one refuses every set."""
    out, answers = [9] * 48, [9] * 9
    check('sets', outcome(bases, 7, 2, 3, 3, [0, 2], end_to_end(series for series, _, _ in WORKED_SETS), out, answers), None)
    check('bases of sets', parts(out, 16, 3), [flat(2, 3, rows) if rows else [9] * 16 for _, rows, _ in WORKED_SETS])
    check('answers of sets', parts(answers, 3, 3), [words for _, _, words in WORKED_SETS])
    out, answers = [9] * 3, [9] * 9
    check('C7 three times', (outcome(bases, 7, 1, 0, 3, [0], [], out, answers), out, answers), (None, [1] * 3, [0, 1, 0] * 3))
    for p, n, s, sets, type_len, series_len, out_len, answers_len, entry, number in SETS_ORDER:
        out, answers = [9] * out_len, [9] * answers_len
        said = outcome(bases, p, n, s, sets, [entry] * type_len, [8] * series_len, out, answers)
        check(f'order of sets, {number}', (said, out), (f'refused {number}' if number else None, [9] * out_len))
        check(f'order of sets, {number}, answers', answers, [9] * answers_len if number else [6, 0, 0] * sets)


def test_set_by_set(check):
    """With every choice of refused sets: the basis call on each set alone gives its part and its words. No two words of the bases are lent alike."""
    for sets, n, s in [(0, 2, 3), (1, 2, 3), (4, 2, 3), (4, 3, 2), (3, 1, 4), (3, 8, 1)]:
        d, size = list(range(n)), n * n * (s + 1)
        for refused in itertools.product([False, True], repeat=sets):
            name = f'{sets} sets {n} {s} {refused}'
            each = [[(3 * i * i + 5 * j + i * j) % 7 for i in range(n * s)] for j in range(sets)]
            for j in itertools.compress(range(sets), refused):
                each[j][j % (n * s)] = 7 + j
            out, answers = list(range(100, 100 + sets * size)), [9] * (3 * sets)
            alone = parts(out, size, sets)
            check(name, outcome(bases, 7, n, s, sets, d, end_to_end(each), out, answers), None)
            said = [outcome(basis, 7, n, s, d, series, part) for series, part in zip(each, alone)]
            check(name + ' refused', [one == 'refused 6' for one in said], list(refused))
            check(name + ' bases', out, end_to_end(alone))
            check(name + ' answers', parts(answers, 3, sets), [[6, 0, 0] if one == 'refused 6' else [0, *one] for one in said])


def leading(vector, d):
    """Shifted degree and type of a nonzero vector, in document 01's words."""
    degrees = {i: max(t for t, a in enumerate(entry) if a) - d[i]
               for i, entry in enumerate(vector) if any(entry)}
    shifted = max(degrees.values())
    return shifted, max(i for i in degrees if degrees[i] == shifted)


def is_relation(p, s, f, vector):
    """Coefficients 0 to s - 1 of the sum of P_i f_i are zero modulo p."""
    return all(sum(vector[i][t] * f[i][j - t] for i in range(len(f)) for t in range(j + 1)) % p == 0
               for j in range(s))


def test_texts(check):
    """The text calls on a buffer that is lent full of 170."""
    def called(call, *arguments, lent=TEXT):
        """The text that the call put at the start of the buffer, or its refusal; past the text nothing may change."""
        out = [170] * lent
        said = outcome(call, *arguments, out)
        length = 0 if isinstance(said, str) else said
        assert set(out[length:]) <= {170}
        return bytes(out[:length]).decode() or said

    rows = flat(2, 3, ['6 1, 6 2', '6, 6 1 1'])
    check('text of C1 written', called(write_basis, 7, 2, 3, [0, 2], rows, 2), C1_TEXT)
    check('C1 printed', called(print_job, layout(7, 2, 3, [0, 2], [6, 0, 0, 1, 1, 2])), C1_TEXT)
    check('empty file printed', called(print_job, b''), 'refused 8\n')
    check('text of a refusal', called(write_refusal, 12), 'refused 12\n')
    check('words that are no basis', called(write_basis, 9, 1, 1, [300], [0, 0], 7), 'relations 9 1 1 type 300\nrow 1 0 -300 | 0\nleast 7\n')
    top = 4294967295
    longest = called(write_basis, top, 8, 255, [top] * 8, [top] * 16384, top)
    check('longest text', longest.count(str(top)), 1 + 8 + 8 * 8 * 256 + 1)  # the shifted degrees are smaller
    for n, s, types, words, lent, number in [(0, 256, 1, 1, 1, 2), (9, 256, 1, 1, 1, 2), (1, 256, 1, 257, 1, 3), (1, 0, 2, 1, TEXT, 4),
                                             (1, 0, 1, 2, TEXT, 4), (1, 0, 1, 1, TEXT - 1, 4), (1, 0, 1, 1, TEXT + 1, 4)]:
        check('text refused', called(write_basis, 7, n, s, [0] * types, [1] * words, 1, lent=lent), f'refused {number}')
    check('text of a refusal refused', called(write_refusal, 8, lent=TEXT - 1), 'refused 4')
    check('print refused', called(print_job, b'', lent=TEXT + 1), 'refused 4')


SLIPS = [  # a text, the number of what is wrong, the line
    ('', ENDS_EARLY, 1), ('7 2\n3\n', ENDS_EARLY, 3), ('7 2 3 # 0 2\n0 2 6', ENDS_EARLY, 2), ('7 1 0 0 x', TOO_MANY, 1), ('7 1 0\n0\n0', TOO_MANY, 3),
    ('x', NOT_NUMBER, 1), ('7\n\n-2', NOT_NUMBER, 3), ('7 2\x0b3', NOT_NUMBER, 1), ('4294967296x', NOT_NUMBER, 1), ('7 4294967296', TOO_LARGE, 1),
    ('7 1 0 ' + '9' * 5000, TOO_LARGE, 1), ('4294967295', 1, 1), ('\n4', 1, 2), ('7\n9', 2, 2), ('7 0', 2, 1), ('7 1\r\n\t256', 3, 2), ('7 1 2 256', 5, 1),
    ('7 1 2 255\n6\n7', 6, 3), ('7 1 0 ' + '0' * 5000 + '#', 0, 0),
]


def test_text_jobs(check):
    type_, series = [5] * 8, [5] * 2040
    c1 = b'# C1\n7 2 3# p, n, s\n\t0 2\r\n6 0 0\n1 1 02'
    check('text job', (parse(c1, type_, series), type_[:3], series[:7]), ((7, 2, 3), [0, 2, 5], [6, 0, 0, 1, 1, 2, 5]))
    check('line of a text job', parse_line(c1), 0)
    for text, number, line in SLIPS:
        said = outcome(parse, text.encode(), [5] * 8, [5] * 2040)
        check(f'slip of {text[:40]!r}', (said, parse_line(text.encode())), (f'refused {number}' if number else (7, 1, 0), line))


def test_brute_force(check):
    """Definitions over every vector of small degree: the rows are relations of the right type,
    reduced, no smaller member of their type exists, and the count is found order by order."""
    state = 1

    def draw(bound):
        nonlocal state
        state = state * 48271 % LARGEST
        return state % bound

    for p, n, s in [(2, 1, 3), (2, 2, 3), (2, 3, 2), (2, 3, 3), (3, 1, 3), (3, 2, 2), (3, 2, 3), (5, 2, 2)]:
        for _ in range(12):
            d = [draw(4) for _ in range(n)]
            f = [[draw(p) * (draw(3) > 0) for _ in range(s)] for _ in range(n)]
            rows, pivots = reduced_rows(p, n, s, d, f)
            # All vectors whose entries have degree at most s: no pivot degree is larger.
            vectors = [[v[i * (s + 1):(i + 1) * (s + 1)] for i in range(n)]
                       for v in itertools.product(range(p), repeat=n * (s + 1))]
            members = [[v for v in vectors if any(map(any, v)) and is_relation(p, j, f, v)]
                       for j in range(s + 1)]
            least = [min(leading(v, d)[0] for v in members[s] if leading(v, d)[1] == i) for i in range(n)]
            good = all(is_relation(p, s, f, row) and leading(row, d) == (least[i], i)
                       and row[i][pivots[i]] == 1 and pivots[i] == least[i] + d[i]
                       and not any(any(row[k][pivots[k]:]) for k in range(n) if k != i)
                       for i, row in enumerate(rows))
            check(f'brute force rows {p} {n} {s} {d} {f}', good, True)
            shrunk = sum(len(members[j + 1]) != len(members[j]) for j in range(s))
            m = next((j for j in range(s) if any(g[j] for g in f)), s)
            check(f'brute force count {p} {n} {s} {d} {f}', (sum(pivots), sum(pivots)), (shrunk, s - m))


def polynomials(p, bound, words):
    """All polynomials of degree below the bound, in so many words."""
    return [a + (0,) * (words - bound) for a in itertools.product(range(p), repeat=bound)]


def monic_divisors(p, words):
    """For each polynomial of so many words its monic divisors that are no constants, by multiplying out."""
    divisors = {a: set() for a in polynomials(p, words, words)}
    for e in range(1, words):
        for low, other in itertools.product(polynomials(p, e, e), polynomials(p, words - e, words - e)):
            divisors[tuple(product(p, low + (1,), other, words))].add(low)
    return divisors


def multiples(p, k, order, r, t):
    """All (q r, q t) with q(0) not zero that stay within the bounds of the pair."""
    pairs = [[tuple(product(p, q, part, 2 * order)) for part in (r, t)] for q in polynomials(p, order, order) if q[0]]
    return {(a[:order], b[:order]) for a, b in pairs if not any(a[k:]) and not any(b[order - k + 1:])}


def test_brute_force_pairs(check):
    """Every g and k of small orders, over every r and t within the bounds: there is a fraction exactly where the pair call is not refused,
    the one that it gives is the only one with t(0) = 1 and without common factors, and all fractions are its multiples."""
    for p, order in [(2, 1), (2, 2), (2, 3), (2, 4), (2, 5), (3, 1), (3, 2), (3, 3), (3, 4)]:
        divisors = monic_divisors(p, order)
        for k, g in itertools.product(range(1, order + 1), polynomials(p, order, order)):
            name = f'brute force pair {p} {k} {g}'
            fractions = {(r, t) for t in polynomials(p, order - k + 1, order) for r in polynomials(p, k, order)
                         if t[0] and list(r) == product(p, t, g, order)}
            r, t = [9] * k, [9] * (order - k + 1)
            refused = outcome(pair, p, k, g, r, t) == 'refused 13'
            check(name, refused, not fractions)
            if not refused:
                found = tuple(r + [0] * (order - k)), tuple(t + [0] * (k - 1))
                check(name + ' lowest', [f for f in fractions if f[1][0] == 1 and not divisors[f[0]] & divisors[f[1]]], [found])
                check(name + ' multiples', fractions, multiples(p, k, order, *found))


def test_files(check):
    type_, series = [5] * 8, [5] * 2040
    data = layout(7, 2, 3, [0, 2], [6, 0, 0, 1, 1, 2])
    check('reader', read_job(data, type_, series), (7, 2, 3))
    check('reader type', type_, [0, 2] + [5] * 6)
    check('reader series', series, [6, 0, 0, 1, 1, 2] + [5] * 2034)
    out = [5] * 8704
    check('writer', (write_job(7, 2, 3, [0, 2], [6, 0, 0, 1, 1, 2], out), bytes(out[:512]) == data, set(out[512:])),
          (1, True, {5}))


def selftest():
    passed = failed = 0

    def check(name, got, wanted):
        nonlocal passed, failed
        if got == wanted:
            passed += 1
        else:
            failed += 1
            print(f'{name}: {got}, wanted {wanted}')

    test_worked(check)
    test_sets(check)
    test_set_by_set(check)
    test_files(check)
    test_texts(check)
    test_text_jobs(check)
    test_brute_force(check)
    test_brute_force_pairs(check)
    print(f'{passed} passed, {failed} failed')
    return failed != 0


def main(arguments):
    if arguments == ['--selftest']:
        return selftest()
    if arguments == ['relations']:
        sys.stdout.write(relations(sys.stdin.buffer.read()))
        return 0
    if arguments == ['job']:
        try:
            job = text_job(sys.stdin.buffer.read())
        except Slip as slip:
            print(f'line {slip.line}: refused {slip.number}', file=sys.stderr)
            return 1
        sys.stdout.buffer.write(layout(*job))
        return 0
    print(__doc__, file=sys.stderr)
    return 2


if __name__ == '__main__':
    sys.exit(main(sys.argv[1:]))
