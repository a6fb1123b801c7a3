#!/usr/bin/env python3
"""Draws time over s as SVG, time on a logarithmic scale: plot.py SWEEP.. with lines `n s types WAY MICROSECONDS [WAY MICROSECONDS ..]`."""
import sys
from math import log

WIDTH, HEIGHT, LEFT, BOTTOM, TOP = 720, 440, 70, 50, 30
COLOURS = {2: '#1b7837', 4: '#2166ac', 8: '#b2182b'}
DASHES = {'plain': '6 4', 'engine': '', 'sage': '2 3'}


def read(names):
    """(way, n) to a list of (s, microseconds)."""
    lines = {}
    for name in names:
        for line in open(name):
            words = line.split()
            for way, time in zip(words[3::2], words[4::2]):
                if way in DASHES:
                    lines.setdefault((way, int(words[0])), []).append((int(words[1]), float(time)))
    return lines


def ticks(low, top):
    """1, 2 and 5 times the powers of ten, from the last one below the lowest time to the first above the highest."""
    steps = [digit * 10 ** power for power in range(9) for digit in (1, 2, 5)]
    return [step for at, step in enumerate(steps) if steps[min(at + 1, 26)] > low and (at == 0 or steps[at - 1] < top)]


def apart(places, gap):
    """Places from the top down, moved down where they are closer than the gap."""
    moved = []
    for place in places:
        moved.append(max([place] + [before + gap for before in moved[-1:]]))
    return moved


def main(names):
    lines = read(names)
    times = [time for points in lines.values() for _, time in points]
    marks = ticks(min(times), max(times))

    def x(s):
        return LEFT + s * (WIDTH - LEFT - 110) / 255

    def y(time):
        return HEIGHT - BOTTOM - log(time / marks[0]) * (HEIGHT - BOTTOM - TOP) / log(marks[-1] / marks[0])

    print(f'<svg xmlns="http://www.w3.org/2000/svg" viewBox="0 0 {WIDTH} {HEIGHT}" font-family="sans-serif" font-size="12">')
    print(f'<rect width="{WIDTH}" height="{HEIGHT}" fill="white"/>')
    for s in range(0, 256, 51):
        print(f'<text x="{x(s):.0f}" y="{HEIGHT - BOTTOM + 18}" text-anchor="middle">{s}</text>')
    for time in marks:
        print(f'<line x1="{x(0):.0f}" x2="{x(255):.0f}" y1="{y(time):.1f}" y2="{y(time):.1f}" stroke="#ddd"/>')
        print(f'<text x="{LEFT - 6}" y="{y(time) + 4:.1f}" text-anchor="end">{time}</text>')
    print(f'<text x="{x(128):.0f}" y="{HEIGHT - 10}" text-anchor="middle">order s</text>')
    print(f'<text x="{LEFT}" y="{TOP - 12}" text-anchor="middle">microseconds</text>')
    ends = sorted((y(max(points)[1]), way, n) for (way, n), points in lines.items())
    for (_, way, n), label in zip(ends, apart([place + 4 for place, _, _ in ends], 13)):
        points = sorted(lines[way, n])
        path = ' '.join(f'{x(s):.1f},{y(time):.1f}' for s, time in points)
        colour = COLOURS.get(n, 'black')
        print(f'<polyline points="{path}" fill="none" stroke="{colour}" stroke-dasharray="{DASHES[way]}"/>')
        print(f'<text x="{x(points[-1][0]) + 6:.0f}" y="{label:.1f}" fill="{colour}">{way}, n = {n}</text>')
    print('</svg>')


if __name__ == '__main__':
    main(sys.argv[1:])
