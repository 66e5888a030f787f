#!/usr/bin/env python3
"""The table of cores in crates/geometry_table/stdin: pairs of cores with the least whole reach at which they touch.

The expected numbers come from here alone, in exact fractions, and by another way than the crate's: the least distance of
two convex sets is that of the origin from the hull of all differences of their corners. Run it to print the table, a pair and its least reach on each line.
"""
from fractions import Fraction
from math import isqrt
import random

# A box is x0 y0 x1 y1, and a segment the same of its ends, in halves. A round is x y a b, in units of the grid (4 halves
# each): the octagon with the corners (+-a, +-b) and (+-b, +-a) round the place x y.
BOX, SEGMENT, ROUND = "box", "segment", "round"


def up2(a):
    """The least m with m * m >= 2 * a * a."""
    root = isqrt(2 * a * a)
    return root if root * root == 2 * a * a else root + 1


def corners(kind, n):
    if kind == SEGMENT:
        return [(n[0], n[1]), (n[2], n[3])]
    if kind == BOX:
        return [(n[0], n[1]), (n[2], n[1]), (n[2], n[3]), (n[0], n[3])]
    x, y, a, b = n
    places = [(b, a), (a, b), (a, -b), (b, -a), (-b, -a), (-a, -b), (-a, b), (-b, a)]
    return [(4 * (x + dx), 4 * (y + dy)) for dx, dy in places]


def hull(points):
    """Andrew's chain; collinear points are dropped."""
    points = sorted(set(points))
    if len(points) < 3:
        return points

    def half(seq):
        out = []
        for p in seq:
            while len(out) > 1 and turn(out[-2], out[-1], p) <= 0:
                out.pop()
            out.append(p)
        return out

    low, high = half(points), half(reversed(points))
    return low[:-1] + high[:-1]


def turn(a, b, c):
    return (b[0] - a[0]) * (c[1] - a[1]) - (b[1] - a[1]) * (c[0] - a[0])


def to_edge(a, b):
    """The squared distance of the origin from the segment a b."""
    dx, dy = b[0] - a[0], b[1] - a[1]
    long = dx * dx + dy * dy
    at = Fraction(0) if long == 0 else Fraction(-(a[0] * dx + a[1] * dy), long)
    at = min(max(at, Fraction(0)), Fraction(1))
    x, y = a[0] + at * dx, a[1] + at * dy
    return x * x + y * y


def dist_sq(first, second):
    ring = hull([(p[0] - q[0], p[1] - q[1]) for p in corners(*first) for q in corners(*second)])
    edges = list(zip(ring, ring[1:] + ring[:1]))
    if len(ring) > 2 and all(turn(a, b, (0, 0)) >= 0 for a, b in edges):
        return Fraction(0)
    return min(to_edge(a, b) for a, b in edges)


def least_reach(first, second):
    """The least whole r with r * r >= the squared distance."""
    d = dist_sq(first, second)
    r = isqrt(d.numerator // d.denominator)
    while r * r < d:
        r += 1
    return r


def point(x, y):
    return (BOX, (x, y, x, y))


def box(x0, y0, x1, y1):
    return (BOX, (x0, y0, x1, y1))


def segment(x0, y0, x1, y1):
    return (SEGMENT, (x0, y0, x1, y1))


def octagon(x, y, a):
    """That which stands for the disc of a units."""
    return (ROUND, (x, y, a, up2(a) - a))


M = 1_200_000_000
MM = 2_000_000

CASES = [
    # the track (0, 0)-(2, 1) mm and two vias that are 1 nm apart
    (segment(0, 0, 2 * MM, MM), point(4_600_000, 2_800_000)),
    (segment(0, 0, 2 * MM, MM), point(4_600_002, 2_800_000)),
    (segment(0, 0, 2 * MM, MM), point(4_599_999, 2_800_000)),
    # points
    (point(0, 0), point(0, 0)),
    (point(0, 0), point(3, 4)),
    (point(0, 0), point(1, 1)),
    (point(-7, 24), point(0, 0)),
    (point(5, 12), point(-5, -12)),
    (point(-M, 0), point(-M + 400_000_000, 0)),
    (point(M, M), point(M - 240_000_000, M - 320_000_000)),
    # a point and a line: before its start, at it, beside, at its end, past it
    (point(-3, -4), segment(0, 0, 10, 0)),
    (point(0, 5), segment(0, 0, 10, 0)),
    (point(4, 5), segment(0, 0, 10, 0)),
    (point(4, 0), segment(0, 0, 10, 0)),
    (point(10, -5), segment(0, 0, 10, 0)),
    (point(13, 4), segment(0, 0, 10, 0)),
    (point(0, 1), segment(0, 0, 3, 3)),
    (point(1, 1), segment(0, 0, 3, 3)),
    (point(0, 10), segment(-4, -3, 4, 3)),
    (point(1, 0), segment(0, 0, 1_000_000, 1)),
    (point(500_000, 1), segment(0, 0, 1_000_000, 1)),
    (point(6, 8), segment(0, 0, 0, 0)),
    # two lines: crossing, at an end, parallel, collinear, one in the other, none of length
    (segment(0, 0, 10, 10), segment(0, 10, 10, 0)),
    (segment(0, 0, 10, 10), segment(0, 3, 3, 0)),
    (segment(0, 0, 10, 3), segment(5, -5, 6, 9)),
    (segment(0, 0, 10, 0), segment(10, 0, 20, 7)),
    (segment(0, 0, 10, 0), segment(4, 0, 4, 9)),
    (segment(0, 0, 10, 0), segment(4, 1, 4, 9)),
    (segment(0, 0, 10, 0), segment(0, 3, 10, 3)),
    (segment(0, 0, 10, 0), segment(13, 4, 20, 4)),
    (segment(0, 0, 4, 3), segment(8, 6, 12, 9)),
    (segment(0, 0, 8, 6), segment(4, 3, 12, 9)),
    (segment(0, 0, 12, 9), segment(4, 3, 8, 6)),
    (segment(0, 0, 12, 9), segment(12, 9, 0, 0)),
    (segment(0, 0, 4, 3), segment(3, -4, 7, -1)),
    (segment(0, 0, 0, 0), segment(3, 4, 3, 4)),
    (segment(2, 2, 2, 2), segment(0, 0, 4, 4)),
    (segment(0, 0, 1, 1000), segment(2, 0, 1, 1000)),
    (segment(0, 0, 1, 1000), segment(3, 0, 2, 1001)),
    (segment(0, 0, 100, 1), segment(0, 1, 100, 3)),
    (segment(0, 0, 100, 100), segment(0, 100, 49, 51)),
    (segment(0, 0, 100, 100), segment(0, 100, 50, 50)),
    (segment(0, 0, 100, 100), segment(0, 100, 40, 58)),
    (segment(-M, -M, M, M), segment(-M, M, M, -M)),
    (segment(-M, -M, M, M), segment(-M, -M + 1, M, M)),
    (segment(-M, -M, M, M - 1), segment(-M, -M + 3, M, M)),
    (segment(-M, 0, M, 1), segment(M, 2, M - 1, M)),
    # a point and a box: deep inside, on its edge, at a corner, beside, off a corner
    (point(500_000, 500_001), box(0, 0, 1_000_000, 1_000_000)),
    (point(0, 7), box(0, 0, 10, 10)),
    (point(10, 10), box(0, 0, 10, 10)),
    (point(17, 3), box(0, 0, 10, 10)),
    (point(13, 14), box(0, 0, 10, 10)),
    (point(-3, -4), box(0, 0, 10, 10)),
    (point(15, -12), box(0, 0, 10, 10)),
    (point(-1, 11), box(0, 0, 10, 10)),
    (point(11, 11), box(0, 0, 10, 10)),
    # two boxes: overlapping, nested, touching by a side or a corner, apart
    (box(0, 0, 10, 10), box(5, 5, 15, 15)),
    (box(0, 0, 100, 100), box(40, 40, 60, 60)),
    (box(0, 0, 10, 10), box(10, 0, 20, 10)),
    (box(0, 0, 10, 10), box(10, 10, 20, 20)),
    (box(0, 0, 10, 10), box(11, 0, 20, 10)),
    (box(0, 0, 10, 10), box(13, 14, 20, 20)),
    (box(0, 0, 10, 10), box(-9, -22, -5, -12)),
    (box(0, 0, 10, 0), box(5, 3, 5, 9)),
    (box(-10, 4, 10, 6), box(-1, -20, 1, 20)),
    (box(-M, -M, -1, M), box(1, -M, M, M)),
    # a box and a line: through it, in it, with an end in it, along a side, past a corner
    (box(0, 0, 10, 10), segment(-5, 5, 15, 6)),
    (box(0, 0, 10, 10), segment(2, 3, 7, 4)),
    (box(0, 0, 10, 10), segment(5, 5, 50, 60)),
    (box(0, 0, 10, 10), segment(50, 60, 5, 5)),
    (box(0, 0, 10, 10), segment(10, -5, 10, 5)),
    (box(0, 0, 10, 10), segment(-4, 4, 4, -4)),
    (box(0, 0, 10, 10), segment(-5, 4, 4, -5)),
    (box(0, 0, 10, 10), segment(-10, 5, 5, -10)),
    (box(0, 0, 10, 10), segment(10, 21, 21, 10)),
    (box(0, 0, 10, 10), segment(13, 14, 30, 14)),
    (box(0, 0, 10, 10), segment(12, -50, 12, 50)),
    (box(0, 0, 10, 10), segment(-20, -1, 30, -1)),
    (box(0, 0, 1, 1_000_000), segment(2, -1_000_000, 3, 2_000_000)),
    (box(5, 5, 5, 5), segment(0, 0, 10, 10)),
    # octagons: their slanted sides and corners, near and in one another
    (octagon(0, 0, 10), point(0, 0)),
    (octagon(0, 0, 10), point(40, 20)),
    (octagon(0, 0, 10), point(40, 21)),
    (octagon(0, 0, 10), point(30, 30)),
    (octagon(0, 0, 10), point(31, 30)),
    (octagon(0, 0, 10), point(33, 34)),
    (octagon(0, 0, 10), point(-45, 23)),
    (octagon(0, 0, 10), segment(60, 0, 0, 60)),
    (octagon(0, 0, 10), segment(61, 0, 0, 61)),
    (octagon(0, 0, 10), segment(100, -3, -3, 100)),
    (octagon(0, 0, 10), segment(41, -100, 44, 100)),
    (octagon(0, 0, 10), segment(-500, 3, 500, 7)),
    (octagon(0, 0, 10), segment(-1, 3, 5, 7)),
    (octagon(0, 0, 10), octagon(20, 0, 10)),
    (octagon(0, 0, 10), octagon(14, 15, 10)),
    (octagon(0, 0, 10), octagon(15, 15, 10)),
    (octagon(0, 0, 10), octagon(17, 18, 10)),
    (octagon(0, 0, 10), octagon(3, -5, 2)),
    (octagon(0, 0, 10), octagon(-31, 42, 7)),
    (octagon(0, 0, 10), box(41, -5, 60, 5)),
    (octagon(0, 0, 10), box(33, 33, 60, 60)),
    (octagon(0, 0, 10), box(-400, -400, 400, 400)),
    (octagon(0, 0, 10), box(-36, 36, -34, 90)),
    (octagon(200_000_000, 0, 90_000_000), octagon(-10_000_000, 0, 90_000_000)),
]


def drawn(rng):
    """A core within some 60 halves of 0."""
    n = [rng.randint(-60, 60) for _ in range(4)]
    kind = rng.randint(0, 2)
    if kind == 0:
        return box(min(n[0], n[2]), min(n[1], n[3]), max(n[0], n[2]), max(n[1], n[3]))
    if kind == 1:
        return segment(*n)
    return octagon(n[0] // 4, n[1] // 4, rng.randint(1, 8))


def rows():
    rng = random.Random(8)
    pairs = list(CASES)
    while len(pairs) < len(CASES) + 40:
        pair = (drawn(rng), drawn(rng))
        if dist_sq(*pair) > 0 or rng.randint(0, 4) == 0:
            pairs.append(pair)
    return [(first, second, least_reach(first, second)) for first, second in pairs]


def spelled(core):
    return " ".join([core[0], *(str(z) for z in core[1])])


if __name__ == "__main__":
    for first, second, least in rows():
        print(spelled(first), spelled(second), least)
