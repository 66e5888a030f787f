#!/usr/bin/env python3
"""How many grid points of a square 5,000,000 units wide are left without 40 octagons at stated places, row by row.

The count of the crate scan_rows is tried against this number, and which points it has against the lines below it.
"""

SIDE = 5_000_000


def octagons():
    for i in range(40):
        column, row = i % 8, i // 8
        x = 300_000 + 600_000 * column + 37_000 * row
        y = 400_000 + 950_000 * row
        r = 350_000 + 13_001 * i
        yield x, y, r, r + r // 2


def run_at(octagon, y):
    """The least and the greatest x of the octagon at y, or None."""
    cx, cy, r, c = octagon
    dy = abs(y - cy)
    reach = min(r, c - dy)
    if dy > r or reach < 0:
        return None
    return cx - reach, cx + reach


def left_at(octs, y):
    """How many points of the square's row at y are in none of the octagons."""
    left, done = 0, -1
    for low, high in sorted(run for run in (run_at(o, y) for o in octs) if run):
        if low > done + 1:
            left += min(low, SIDE) - (done + 1) if done + 1 < SIDE else 0
        done = max(done, high)
    return left + max(0, SIDE - (done + 1))


def has(octs, x, y):
    return 0 <= x < SIDE and 0 <= y < SIDE and not any(
        run and run[0] <= x <= run[1] for run in (run_at(o, y) for o in octs)
    )


def main():
    octs = list(octagons())
    print(sum(left_at(octs, y) for y in range(SIDE)))
    for x, y in ((0, 0), (0, 174_999), (0, 175_000), (4_941_007, 400_000), (4_941_008, 400_000), (5_000_000, 0)):
        print(x, y, has(octs, x, y))


if __name__ == "__main__":
    main()
