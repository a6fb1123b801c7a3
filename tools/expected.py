#!/usr/bin/env python3
"""The inputs and expected outputs of the programs, worked out by tools/reference.py (see docs/REFERENCE.md).

  tools/expected.py PART       prints the one file of the table FILES that has PART in its path
  tools/expected.py --write    writes all of them
"""
import functools
import os
import sys

import cases
import reference
from cases import C1, C1_JOB, job
from reference import LARGEST

TOP = os.path.dirname(os.path.dirname(os.path.abspath(__file__)))


# ---- Jobs as plain texts -----------------------------------------------------------------------

def example_file():
    with open(os.path.join(TOP, 'examples/catalan.txt'), 'rb') as text:
        return reference.layout(*reference.text_job(text.read()))


# ---- Job files kept as data --------------------------------------------------------------------

DRAWN = [(101, 3, 12, 5, 0, 1, 1), (2, 8, 30, 3, 0, 2, 2), (LARGEST, 2, 60, 6, 2, 1, 3), (LARGEST, 4, 0, 1, 0, 1, 4), (5, 1, 122, 0, 100, 1, 5)]

# One payload word of C1's file replaced: the file's name, the word's place, the word.
REPLACED = [('modulus', 0, 6), ('series', 1, 9), ('order', 2, 256), ('count', 2, 255), ('spare', 124, 1), ('type', 3, 256), ('coefficient', 5, 7)]


@functools.lru_cache(None)
def job_files():
    """The files that the program `texts` reads, by name and in its order: sound ones, then one for each of the reader's refusals."""
    files = {}
    for name, p, s, d, series, *_ in reference.WORKED:
        files[name.lower()] = reference.layout(p, len(d), s, d, series)
    for at, (p, n, s, *rules) in enumerate(DRAWN):
        files[f'drawn{at + 1}'] = reference.layout(p, n, s, *job(p, n, s, *rules))
    c1 = files['c1']
    payload = reference.words_of(c1)[1:126]
    files['empty'] = b''
    files['short'] = c1[:511]
    files['long'] = c1 * 18
    files['number'] = reference.block(1, payload)
    files['check'] = c1[:-1] + b'\1'
    for name, at, word in REPLACED:
        files[name] = reference.block(0, payload[:at] + [word] + payload[at + 1:])
    return {f'{name}.job': file for name, file in files.items()}


def texts_lines():
    for name, file in job_files().items():
        yield name
        yield from reference.relations(file).splitlines()


# ---- The files ---------------------------------------------------------------------------------

FILES = {  # the path, and the function that gives the file's bytes or its lines
    'crates/calls/stdin': cases.stdin_lines,
    'crates/calls/stdout': cases.stdout_lines,
    'crates/texts/args': job_files,
    'crates/texts/stdout': texts_lines,
    **{f'crates/texts/data/{name}': lambda name=name: job_files()[name] for name in job_files()},
    'crates/relations/stdin': lambda: reference.layout(*C1),
    'crates/relations/stdout': lambda: reference.relations(reference.layout(*C1)).splitlines(),
    'crates/job/stdin': C1_JOB.splitlines,
    'crates/job/stdout': lambda: reference.layout(*C1),
    'examples/catalan.job': example_file,
}


def contents(path):
    made = FILES[path]()
    return made if isinstance(made, bytes) else ''.join(line + '\n' for line in made).encode()


def write(path):
    place = os.path.join(TOP, path)
    os.makedirs(os.path.dirname(place), exist_ok=True)
    with open(place, 'wb') as out:
        out.write(contents(path))


def main(arguments):
    if arguments == ['--write']:
        for path in FILES:
            write(path)
        return 0
    paths = [path for path in FILES if arguments and arguments[0] in path]
    if len(arguments) != 1 or len(paths) != 1:
        print(__doc__, *(paths or FILES), sep='\n', file=sys.stderr)
        return 2
    sys.stdout.buffer.write(contents(paths[0]))
    return 0


if __name__ == '__main__':
    sys.exit(main(sys.argv[1:]))
