#!/usr/bin/env python3
"""Times the built program on boards of many items, and prints speed, peak memory and how time grows. It never fails the gate.

Build the program first, by `rt run` in crates/zonefill; then `python3 bench/boards.py [PROGRAM]`.

Boards of 10,000, 100,000 and 200,000 items, some 210 bytes each: half are tracks, and the rest vias, pads in footprints with their texts and
lines, nets and edges. They have no zone, so they are read whole and written as they stand. Speed and exponent, from 10,000 to 100,000 items, are those of the time on the
processor, which a busy machine disturbs less than the time that passes. The greatest boards are tried by checks/limits.py.
"""
import math
import os
import random
import subprocess
import sys
import tempfile
import time

TOP = os.path.dirname(os.path.dirname(os.path.abspath(__file__)))
PROGRAM = os.path.join(TOP, "crates", "zonefill", "out", "zonefill")
HEAD = """(kicad_pcb (version 20221018) (generator pcbnew)
  (layers
    (0 "F.Cu" signal) (1 "In1.Cu" signal) (2 "In2.Cu" signal) (31 "B.Cu" signal)
    (37 "F.SilkS" user "F.Silkscreen") (44 "Edge.Cuts" user)
  )
  (net 0 "")
"""
LAYERS = ["F.Cu", "In1.Cu", "In2.Cu", "B.Cu"]
PADS = 8  # of a footprint


class Maker:
    """Makes items by rule: the same boards in each run."""

    def __init__(self, nets):
        self.random = random.Random(nets)
        self.nets = nets

    def place(self):
        return f"{self.random.randrange(-400_000_000, 400_000_000) / 1e6:.6f}".rstrip("0").rstrip(".")

    def stamp(self):
        digits = f"{self.random.getrandbits(128):032x}"
        return "-".join([digits[:8], digits[8:12], digits[12:16], digits[16:20], digits[20:]])

    def net(self):
        return self.random.randrange(self.nets)

    def track(self):
        layer = self.random.choice(LAYERS)
        return (
            f'  (segment (start {self.place()} {self.place()}) (end {self.place()} {self.place()}) (width 0.25) (layer "{layer}") '
            f"(net {self.net()}) (tstamp {self.stamp()}))\n"
        )

    def via(self):
        return (
            f'  (via (at {self.place()} {self.place()}) (size 0.8) (drill 0.4) (layers "F.Cu" "B.Cu") (net {self.net()}) '
            f"(tstamp {self.stamp()}))\n"
        )

    def edge(self):
        return (
            f"  (gr_line (start {self.place()} {self.place()}) (end {self.place()} {self.place()}) (stroke (width 0.1) (type default)) "
            f'(layer "Edge.Cuts") (tstamp {self.stamp()}))\n'
        )

    def pad(self, number):
        return (
            f'    (pad "{number}" smd roundrect (at {number % 4}.27 {number // 4 * 2.54:.2f} 90) (size 1.5 0.6) (layers "F.Cu" "F.Paste" "F.Mask") '
            f'(roundrect_rratio 0.25) (net {self.net()} "N") (pintype "passive") (tstamp {self.stamp()}))\n'
        )

    def footprint(self, pads):
        lines = "".join(
            f"    (fp_line (start {side} -2.5) (end {side} 2.5) (stroke (width 0.12) (type solid)) "
            f'(layer "F.SilkS") (tstamp {self.stamp()}))\n'
            for side in (-3, 3, -4, 4, -5, 5)
        )
        return (
            f'  (footprint "Package_SO:SOIC-8" (layer "F.Cu")\n    (tstamp {self.stamp()})\n    (at {self.place()} {self.place()} 90)\n'
            f'    (descr "SOIC, 8 pins, a small outline package, with what an editor writes of it") (tags "SOIC SO")\n'
            f'    (fp_text reference "U1" (at 0 -3.4 90) (layer "F.SilkS")\n      (effects (font (size 1 1) (thickness 0.15)))\n    )\n'
            f'    (fp_text value "LM358" (at 0 3.4 90) (layer "F.Fab")\n      (effects (font (size 1 1) (thickness 0.15)))\n    )\n'
            f'    (property "Sheetfile" "power_supply.kicad_sch") (property "Sheetname" "Power supply") (property "ki_description" "Two amplifiers")\n'
            + lines
            + "".join(self.pad(number) for number in range(pads))
            + "  )\n"
        )


def board(items):
    """A board of so many items, and the line of its last list."""
    nets = max(2, items // 50)
    maker = Maker(nets)
    parts = [f'  (net {number} "NET-{number:06}")\n' for number in range(1, nets)]
    left = items - nets
    pads, edges, vias = left // 4 // PADS * PADS, left // 50, left // 5
    parts += [maker.footprint(PADS) for _ in range(pads // PADS)]
    parts += [maker.edge() for _ in range(edges)]
    parts += [maker.via() for _ in range(vias)]
    parts += [maker.track() for _ in range(left - pads - edges - vias)]
    return HEAD + "".join(parts) + ")\n"


def timed(program, text):
    """Seconds on the processor, seconds that passed, peak MiB, exit status and complaint of a run, the fastest of three."""
    best = None
    with tempfile.TemporaryDirectory() as folder:
        source, complaints = os.path.join(folder, "in"), os.path.join(folder, "complaints")
        with open(source, "w") as file:
            file.write(text)
        for _ in range(3):
            with open(complaints, "wb") as said:
                start = time.monotonic()
                child = subprocess.Popen([program, "fill", source, os.path.join(folder, "out")], stderr=said)
                _, status, usage = os.wait4(child.pid, 0)
                passed = time.monotonic() - start
            with open(complaints) as said:
                row = (usage.ru_utime + usage.ru_stime, passed, usage.ru_maxrss / 1024, os.waitstatus_to_exitcode(status), said.read())
            best = row if best is None or row[0] < best[0] else best
    return best


def main():
    program = os.path.abspath(sys.argv[1]) if len(sys.argv) > 1 else PROGRAM
    if not os.path.exists(program):
        sys.exit(f"no {program}: run `rt run` in crates/zonefill first")
    rows = []
    for items in (10_000, 100_000, 200_000):
        text = board(items)
        seconds, passed, memory, status, complaint = timed(program, text)
        rows.append(seconds)
        size = len(text) / 1e6
        print(
            f"{items:7} items  {size:5.1f} MB  {seconds:6.2f} s ({passed:6.2f} s passed)  {size / seconds:6.1f} MB/s  {memory:6.0f} MiB  "
            f"status {status}  {complaint.strip()}"
        )
    print(f"time grows from 10,000 to 100,000 items as n^{math.log10(rows[1] / rows[0]):.2f}")


if __name__ == "__main__":
    main()
