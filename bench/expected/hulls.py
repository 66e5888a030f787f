#!/usr/bin/env python3
"""Prints the table of hulls in crates/geometry_table: random segments with their hulls, worked out in exact
fractions and not by the program.

A row: the ends and the radius in halves of a nanometre, how many hulls, the number of one of them, and its bounds on x,
y, x + y and x - y in units, the lower one first."""

import random
from fractions import Fraction
from math import ceil, floor, isqrt


def pieces(start, end):
    width, height = abs(end[0] - start[0]), abs(end[1] - start[1])
    if width == 0 or height == 0 or width == height:
        return 1
    return min(64, max(1, ceil(Fraction(max(width, height), 400_000))))


def cell(place):
    units = [coordinate / 4 for coordinate in place]
    return [(x, y) for x in {floor(units[0]), ceil(units[0])} for y in {floor(units[1]), ceil(units[1])}]


def reach(radius):
    straight = ceil(Fraction(radius, 4))
    slanted = isqrt(2 * straight * straight)
    if slanted * slanted < 2 * straight * straight:
        slanted += 1
    return straight, slanted


def hull(start, end, radius, number, count):
    ends = [
        tuple(s + Fraction((e - s) * i, count) for s, e in zip(start, end))
        for i in (number, number + 1)
    ]
    points = [point for place in ends for point in cell(place)]
    straight, slanted = reach(radius)
    bounds = []
    for measure, grown in (
        (lambda p: p[0], straight),
        (lambda p: p[1], straight),
        (lambda p: p[0] + p[1], slanted),
        (lambda p: p[0] - p[1], slanted),
    ):
        values = [measure(point) for point in points]
        bounds += [min(values) - grown, max(values) + grown]
    return bounds


def main():
    random.seed(20240229)
    spans = [9, 40, 1_000, 399_999, 400_001, 3_000_000, 25_600_001, 70_000_000, 1_999_999_999]
    for turn in range(27):
        span = spans[turn % len(spans)]
        start = [random.randint(-span, span) for _ in range(2)]
        end = [random.randint(-span, span) for _ in range(2)]
        if turn % 12 == 5:
            end[1] = start[1]
        if turn % 12 == 8:
            end[0] = start[0]
        if turn % 12 == 11:
            end[1] = start[1] + (end[0] - start[0])
            if abs(end[1]) > span:
                end[1] = start[1] - (end[0] - start[0])
            if abs(end[1]) > span:
                end = [start[1], start[0]]
        radius = random.choice([0, 1, 2, 3, 250_001, 1_000_000, 199_999_999])
        count = pieces(start, end)
        number = [0, count // 2, count - 1][turn % 3]
        bounds = hull(start, end, radius, number, count)
        print(*start, *end, radius, count, number, *bounds)


main()
