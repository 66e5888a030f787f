#!/usr/bin/env python3
"""Tries the built program on the greatest boards that are read, and on boards that are one thing greater. It never fails the gate.

Build the program first, by `rt run` in crates/zonefill; then `python3 bench/checks/limits.py [PROGRAM]`.

A board of as many items, outlines or vertices as are read must be done, and one with one more refused where that one stands. Then boards with much of one
kind in one list: 1,000,000 names of layers, 199,999 pads of one footprint, and an outline that is a comb of 20,000 vertices. Printed are the processor
seconds of each, the best of three runs. The script ends with status 1 where a run complained otherwise.
"""
import itertools
import os
import sys

TOP = os.path.dirname(os.path.dirname(os.path.dirname(os.path.abspath(__file__))))
sys.path.insert(0, os.path.join(TOP, "bench"))
from boards import HEAD, PROGRAM, board, timed  # noqa: E402, it stands in bench/


def line_of_last(text):
    """The line of the last list but the board itself."""
    return text.rstrip(")\n").count("\n") + 1


def limits():
    """Boards that hold as much as is read, and one thing more, with what is complained of each."""
    area = '  (zone (keepout (copperpour not_allowed)) (layer "F.Cu") (polygon (pts (xy 0 0) (xy 1 0) (xy 1 1))))\n'
    steps = "".join(f"(xy {n / 500:.3f} {n / 500:.3f})(xy {(n + 1) / 500:.3f} {n / 500:.3f})" for n in range(9_999))
    zone = f'  (zone (layer "F.Cu") (polygon (pts {steps}(xy 19.998 19.998)(xy 0 19.998)%s)))\n)\n'
    for name, text, fits in [
        ("200,000 items", board(200_000), ""),
        ("200,001 items", board(200_001), None),
        ("2,000 outlines", HEAD + area * 2_000 + ")\n", ""),
        ("2,001 outlines", HEAD + area * 2_001 + ")\n", None),
        ("20,000 vertices", HEAD + zone % "", ""),
        ("20,001 vertices", HEAD + zone % "(xy 0 1)", None),
    ]:
        yield name, text, f"zonefill: line {line_of_last(text)}: TooMany\n" if fits is None else fits


def crowded():
    """Boards with much of one kind in one list, with what is complained of each."""
    names = "".join(f'(0 "L{n}" user)' for n in range(1_000_000))
    pad = '(pad "1" smd rect (at 0 0) (size 1 1) (layers "F.Cu"))\n'
    teeth = "".join(f"(xy {x / 50} 0)(xy {x / 50} 1)(xy {(x + 1) / 50} 1)(xy {(x + 1) / 50} 0)" for x in range(1, 9_998, 2))
    comb = f"(xy 0 -1)(xy 0 0){teeth}(xy 199.98 0)(xy 199.98 -1)"
    yield "1,000,000 names in layers", f"(kicad_pcb (version 20221018) (layers {names}))\n", ""
    yield "199,999 pads in one footprint", f'{HEAD}(footprint "P" {pad * 199_999}(at 0 0)))\n', ""
    yield "a comb of 20,000 vertices", f'{HEAD}(zone (layer "F.Cu") (polygon (pts {comb}))))\n', ""


def main():
    program = os.path.abspath(sys.argv[1]) if len(sys.argv) > 1 else PROGRAM
    if not os.path.exists(program):
        sys.exit(f"no {program}: run `rt run` in crates/zonefill first")
    bad = 0
    for name, text, wanted in itertools.chain(limits(), crowded()):
        seconds, _, _, _, complaint = timed(program, text)
        bad += complaint != wanted
        print(f"{name:29} {seconds:6.2f} s  {complaint.strip()}{'' if complaint == wanted else ', and not ' + wanted.strip()}")
    sys.exit(1 if bad else 0)


if __name__ == "__main__":
    main()
