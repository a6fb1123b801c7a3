#!/usr/bin/env python3
"""Counts the division instructions that one call on the largest job executes: divisions.py PROGRAM

objdump says which instructions of the program divide; valgrind counts how often each runs between the entry of a call and its return."""
import os
import re
import subprocess
import sys

CALLS = {'plain': 'plain_basis', 'engine': 'relations_basis'}


def dividing(program):
    """The addresses of the instructions that divide."""
    text = subprocess.run(['objdump', '-d', '--no-show-raw-insn', program], capture_output=True, text=True, check=True).stdout
    return {int(found[1], 16) for found in re.finditer(r'^ *([0-9a-f]+):\s+i?div[lq]? ', text, re.MULTILINE)}


def executed(program, types, call):
    """How often each address of the program ran inside the call."""
    out = program + '.callgrind'
    subprocess.run(['valgrind', '--quiet', '--tool=callgrind', '--dump-instr=yes', f'--toggle-collect={call}',
                    f'--callgrind-out-file={out}', program, 'once', types], check=True)
    objects, counts, here, at, inclusive = {}, {}, None, 0, False
    for line in open(out):
        if line.startswith(('ob=', 'cob=')):
            number, name = re.search(r'\((\d+)\) ?(.*)', line).groups()
            name = objects.setdefault(number, name)
            here = name if line.startswith('ob=') else here
        elif line.startswith('calls='):  # the next line has the cost of what is called, which is counted at its own lines
            inclusive = True
        elif re.match(r'[0-9+*-]', line):
            place, _, count = line.split()
            at = at if place == '*' else at + int(place, 0) if place[0] in '+-' else int(place, 0)
            if not inclusive and here and os.path.basename(here) == os.path.basename(program):
                counts[at] = counts.get(at, 0) + int(count)
            inclusive = False
    return counts


def main(program):
    places = dividing(program)
    for types in 'zero', 'spread':
        found = []
        for way, call in CALLS.items():
            counts = executed(program, types, call)
            assert counts, f'{call} did not run'
            found.append(f'{way} {sum(count for at, count in counts.items() if at in places)}')
        print('8 255', types, *found)


main(*sys.argv[1:])
