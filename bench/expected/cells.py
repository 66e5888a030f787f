#!/usr/bin/env python3
"""How many bands and cells a square 5,000,000 units wide has without octagons at stated places, from the definition.

Each row of the square is taken from the top, with its maximal runs. A row joins the band above it where it has as many
runs, each end moves by -1, 0 or 1, and, from the band's third row on, by the band's moves; else it begins a new band. A
cell is one run through one band.

The argument is the number of octagons, 40 or 1000. With 40 these are the numbers that the cells of the crate scan_rows are
tried against.
"""

import sys

SIDE = 5_000_000


def octagons(count):
    if count == 40:
        for i in range(40):
            column, row = i % 8, i // 8
            r = 350_000 + 13_001 * i
            yield 300_000 + 600_000 * column + 37_000 * row, 400_000 + 950_000 * row, r, r + r // 2
    else:
        for i in range(count):
            column, row = i % 40, i // 40
            r = 50_000 + 131 * (i % 97)
            yield 61_000 + 123_000 * column + 1_700 * row, 100_000 + 195_000 * row + 370 * column, r, r + r // 2


def changes(octs):
    """The rows at which an octagon begins or has just ended, with the octagons that are open from there on."""
    rows = sorted({0, SIDE} | {y for _, cy, r, _ in octs for y in (cy - r, cy + r + 1) if 0 < y < SIDE})
    for top, end in zip(rows, rows[1:]):
        yield top, end, [o for o in octs if o[1] - o[2] <= top <= o[1] + o[2]]


def runs_at(octs, y):
    """The maximal runs of the square's row at y, each as its two ends, in one flat list."""
    held = []
    for cx, cy, r, c in octs:
        dy = y - cy if y >= cy else cy - y
        reach = r if c - dy > r else c - dy
        held.append((cx - reach, cx + reach))
    held.sort()
    ends, done = [], -1
    for low, high in held:
        if low > done + 1 and done + 1 < SIDE:
            ends += (done + 1, min(low, SIDE) - 1)
        if high > done:
            done = high
    if done + 1 < SIDE:
        ends += (done + 1, SIDE - 1)
    return ends


def main():
    octs = list(octagons(int(sys.argv[1])))
    bands, cells, above, moves = 0, 0, None, None
    for top, end, near in changes(octs):
        for y in range(top, end):
            ends = runs_at(near, y)
            if not ends:
                above = None
                continue
            if above is not None and len(above) == len(ends):
                step = [b - a for a, b in zip(above, ends)]
                if step == moves or (moves is None and max(step) <= 1 and min(step) >= -1):
                    moves, above = step, ends
                    continue
            bands += 1
            cells += len(ends) // 2
            above, moves = ends, None
    print(bands, cells)


if __name__ == "__main__":
    main()
