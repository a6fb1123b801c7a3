"""SageMath's minimal_approximant_basis: sage -python bench/by_sage.py agree COUNT, or .. sweep ROUNDS

`agree` holds its normal form to tools/reference.py on the drawn jobs of verify.py; `sweep` times it on random jobs of the sizes of `bench sweep`.
"""
import sys
import time

import verify
from sage.all import GF, PolynomialRing, matrix


def parts(words, count, size):
    return [words[at * size:(at + 1) * size] for at in range(count)]


def column(p, n, s, words):
    """The series of a job as a column of polynomials."""
    ring = PolynomialRing(GF(p), 'X')
    return matrix(ring, n, 1, [ring(part) for part in parts(words, n, s)])


def basis(series, s, d):
    return series.minimal_approximant_basis(s, shifts=[-entry for entry in d], normal_form=True)


def agree(count):
    jobs = [job for job in verify.drawn(count) if job[2] > 0]  # SageMath takes no order 0
    bad = 0
    for p, n, s, d, words in jobs:
        out = [0] * (n * n * (s + 1))
        verify.reference.basis(p, n, s, d, words, out)
        rows = basis(column(p, n, s, words), s, d)
        got = [int(rows[i, k][t]) for i in range(n) for k in range(n) for t in range(s + 1)]
        bad += got != out
    print(f'{len(jobs) - bad} agree, {bad} differ')
    return bad


def sweep(rounds):
    largest = verify.reference.LARGEST
    for n in (2, 4, 8):
        for s in range(15, 256, 16):
            times = []
            for seed in range(rounds):
                series = column(largest, n, s, verify.expected.job(largest, n, s, 0, 0, 1, seed)[1])
                start = time.perf_counter()
                basis(series, s, [0] * n)
                times.append(1e6 * (time.perf_counter() - start))
            print(f'{n} {s} zero sage {sorted(times)[len(times) // 2]:.1f}')


if __name__ == '__main__':
    sys.exit({'agree': agree, 'sweep': sweep}[sys.argv[1]](int(sys.argv[2])))
