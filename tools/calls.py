"""Requests to the program `calls` and its answers (docs/REFERENCE.md): how a list of numbers is written as one word, what the
answer to a request is, by tools/reference.py, and how a line is read back.

The reader shares nothing with what writes the words: every request is read back before its answer counts.
"""
import collections
import functools
import itertools
import re

import reference
from reference import Refused, checks, is_number, refuse, value_of, words_in


def spaced(numbers):
    return ' '.join(map(str, numbers))


# ---- Numbers that look random ---------------------------------------------------------------

PRIME47 = 140737488355213  # 2^47 - 115: every product below fits 63 bits


def start(seed):
    return (seed + 1) * 2330089441 % PRIME47


def step(x):
    return x * 48271 % PRIME47


@functools.lru_cache(None)
def draw(seed, modulus, count):
    x = start(seed)
    numbers = []
    for _ in range(count):
        x = step(x)
        numbers.append(x % modulus)
    return tuple(numbers)


# ---- Lists of numbers, each with the word that says it ----------------------------------------

Numbers = collections.namedtuple('Numbers', 'word values')


def written(values):
    return Numbers(','.join(map(str, values)), list(values)) if len(values) else repeated(0, 0)


def repeated(value, count):
    return Numbers(f'{value}*{count}', [value] * count)


def drawn(seed, modulus, count):
    return Numbers(f'{seed}%{modulus}*{count}', list(draw(seed, modulus, count)))


def joined(parts):
    parts = [part for part in parts if part.values]
    if not parts:
        return repeated(0, 0)
    return Numbers(','.join(part.word for part in parts), [value for part in parts for value in part.values])


def compact(values):
    """Written out, but for a number that stands three times or more."""
    runs = [(value, len(list(run))) for value, run in itertools.groupby(values)]
    return joined(repeated(value, count) if count > 2 else written([value] * count) for value, count in runs)


# ---- The calls ---------------------------------------------------------------------------------

def invert(p, a):
    inverse = reference.inverse(p, a)
    refuse(256, inverse is None)  # the status of zero, which has no inverse and no refusal's number
    return inverse


def row(n, s, i, words):
    return reference.row_view(n, s, i, len(words))


def text(p, n, s, least, type_, words, out):
    return reference.write_basis(p, n, s, type_, words, least, out)


# w is a slice of words; f, t, j and b are the bytes of a file, a text, a text job and a block; d and s are a text job's type and series.
CALLS = {  # how many numbers; the kinds of the slices, a capital where the call may write; the reference's call
    'make': (1, '', reference.field),
    'add': (3, '', reference.add),
    'multiply': (3, '', reference.mul),
    'invert': (2, '', invert),
    'basis': (3, 'wwW', reference.basis),
    'approximant': (2, 'wwW', reference.approximant),
    'bases': (4, 'wwWW', reference.bases),
    'pair': (2, 'wWW', reference.pair),
    'row': (3, 'w', row),
    'block_checks': (0, 'b', reference.block_checks),
    'read': (0, 'fWW', reference.read_job),
    'write': (3, 'wwF', reference.write_job),
    'text': (4, 'wwT', text),
    'refused': (1, 'T', reference.write_refusal),
    'print': (0, 'fT', reference.print_job),
    'parse': (0, 'jDS', reference.parse),
    'parse_line': (0, 'j', reference.parse_line),
}

SEEN = {'row': lambda said, lent: lent[0][said[1]:said[1] + said[2]]}  # a part of what was lent that the call gives back

BYTES = 'FTfjtb'
FIXED_LENGTHS = dict(b=512, D=8, S=2040)  # of slices that are lent in one length only


def result_numbers(result):
    if result is None:
        return []
    return list(result) if isinstance(result, tuple) else [result]


def buffer_text(buffer, sums):
    if sums:
        return ' | checks {} {} length {}'.format(*checks(buffer), len(buffer))
    return ' |' + ''.join(f' {number}' for number in buffer)


def answer(name, numbers, slices, sums):
    """The line that answers a request; `sums` asks for the sums of the buffers in place of their numbers."""
    _, kinds, call = CALLS[name]
    lent = [list(values) for values in slices]
    try:
        said = [0] + result_numbers(call(*numbers, *lent))
    except Refused as refusal:
        assert lent == [list(values) for values in slices]
        said = [refusal.number]
    shown = [buffer for kind, buffer in zip(kinds, lent) if kind.isupper()]
    if name in SEEN:
        shown.append(SEEN[name](said, lent))
    return spaced(said) + ''.join(buffer_text(buffer, sums) for buffer in shown)


# ---- A line read back --------------------------------------------------------------------------

LINE_BYTES = 524287
NUMBERS_IN_ALL = 200000
WORDS = 8
ROOM = dict(f=9217, F=9217, b=9217, j=32768, T=180810, W=16385)  # for one slice

TOO_LONG = 'the line is too long'
NO_CALL = 'there is no call of this name'
NO_LIST = 'a word is no list of numbers'
TOO_LARGE = 'a number does not fit 32 bits'
MODULO_ZERO = 'numbers are drawn modulo a number above 0'
NO_ROOM = 'there are more numbers than the program has room for'
TOO_MANY_WORDS = 'there are more words than a call takes'
OTHER_ARGUMENTS = 'the call takes other numbers and slices'
NO_BYTE = 'a byte is at most 255'
OTHER_LENGTH = 'a slice has another length'


class NoRequest(Exception):
    """What is wrong with a line, in words."""


def wrong(words, test):
    if test:
        raise NoRequest(words)


def read_number(word):
    wrong(NO_LIST, not is_number(word))
    wrong(TOO_LARGE, value_of(word) >= 2 ** 32)
    return value_of(word)


def read_piece(piece, room):
    """`7`, `9*2040` or `45%101*12`."""
    value, modulus, count = re.fullmatch(r'([^%*]*)(?:%([^*]*))?(?:\*(.*))?', piece).groups()
    value = read_number(value)
    if modulus is not None:
        modulus = read_number(modulus)
        count = count or ''  # what is drawn is counted
    count = 1 if count is None else read_number(count)
    wrong(MODULO_ZERO, modulus == 0)
    wrong(NO_ROOM, count > room)
    return [value] * count if modulus is None else list(draw(value, modulus, count))


def read_list(word, room):
    values = []
    for piece in word.split(','):
        values += read_piece(piece, room - len(values))
    return values


def read_lists(words):
    lists = []
    for at, word in enumerate(words):
        wrong(TOO_MANY_WORDS, at == WORDS)
        lists.append(read_list(word, NUMBERS_IN_ALL - sum(map(len, lists))))
    return lists


def read_request(line):
    """Name, numbers, slices and whether sums are asked for; None for a line without a word."""
    wrong(TOO_LONG, len(line) > LINE_BYTES)
    words = words_in(line)
    if not words:
        return None
    sums = words[0] == 'checks'
    name = words[sums] if len(words) > sums else ''
    wrong(NO_CALL, name not in CALLS)
    lists = read_lists(words[sums + 1:])
    count, kinds, _ = CALLS[name]
    wrong(OTHER_ARGUMENTS, len(lists) != count + len(kinds) or any(len(values) != 1 for values in lists[:count]))
    slices = lists[count:]
    for kind, values in zip(kinds, slices):
        wrong(NO_BYTE, kind in BYTES and max(values, default=0) > 255)
        wrong(NO_ROOM, len(values) > ROOM.get(kind, NUMBERS_IN_ALL))
        wrong(OTHER_LENGTH, len(values) != FIXED_LENGTHS.get(kind, len(values)))
    return name, [values[0] for values in lists[:count]], slices, sums


# ---- The lines of the input, each with its answer ------------------------------------------------

class Silent:
    """A line without a word: an empty one, or a comment."""

    def __init__(self, line):
        self.line = line

    def answer(self, _):
        assert read_request(self.line) is None


class Request:
    """A call with its numbers and slices; `line` is given where it is not the plain one."""

    def __init__(self, name, *arguments, sums=False, line=None):
        words = [written([a]) if isinstance(a, int) else a for a in arguments]
        count = CALLS[name][0]
        self.call = name, [word.values[0] for word in words[:count]], [word.values for word in words[count:]], sums
        self.line = line or ' '.join(['checks'] * sums + [name] + [word.word for word in words])

    def answer(self, _):
        assert read_request(self.line) == self.call, self.line[:200]
        return answer(*self.call)


class Wrong:
    """A line that is no request, and what is said of it."""

    def __init__(self, line, words):
        self.line = line
        self.words = words

    def answer(self, number):
        try:
            read_request(self.line)
        except NoRequest as found:
            assert str(found) == self.words, (self.line[:200], str(found))
            return f'line {number}: {self.words}'
        assert False, self.line[:200]
