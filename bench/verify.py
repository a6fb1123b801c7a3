#!/usr/bin/env python3
"""Holds a benchmark program (`bench jobs`) to tools/reference.py on drawn jobs: verify.py PROGRAM.. COUNT"""
import os
import subprocess
import sys

sys.path.insert(0, os.path.join(os.path.dirname(os.path.abspath(__file__)), '..', 'tools'))
import calls
import expected
import reference

PRIMES = [2, 3, 5, 7, 11, 101, 257, 46337, 65537, 1000003, 2147483629, reference.LARGEST]


def drawn(count):
    """Mostly small jobs, and some to order 255."""
    x = calls.start(0)
    for at in range(count):
        numbers = []
        for _ in range(6):
            x = calls.step(x)
            numbers.append(x // 65536)
        p, n = PRIMES[numbers[0] % len(PRIMES)], 1 + numbers[1] % 8
        s = numbers[2] % (256 if at % 16 == 0 else 40)
        zeros = numbers[3] % 5 if numbers[3] % 3 == 0 else 0
        yield p, n, s, *expected.job(p, n, s, numbers[4] % 7, zeros, numbers[5] % 9, at)


def main(command, count):
    jobs = list(drawn(count))
    text = ''.join(f'{p} {n} {s} {" ".join(map(str, d + f))}\n' for p, n, s, d, f in jobs)
    lines = subprocess.run(command + ['jobs'], input=text, capture_output=True, text=True, check=True).stdout.splitlines()
    ways = len(lines) // count
    assert len(lines) == ways * count and ways > 0
    bad = 0
    for at, (p, n, s, d, f) in enumerate(jobs):
        out = [0] * (n * n * (s + 1))
        answer = reference.basis(p, n, s, d, f, out)
        wanted = ' '.join(map(str, [0, *answer, *out]))
        for line in lines[at * ways:(at + 1) * ways]:
            if line != wanted:
                bad += 1
                print(f'differs: {p} {n} {s} type {d} series {f}')
    print(f'{ways * count - bad} agree, {bad} differ')
    return bad != 0


if __name__ == '__main__':
    sys.exit(main(sys.argv[1:-1], int(sys.argv[-1])))
