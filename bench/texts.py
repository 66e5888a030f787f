#!/usr/bin/env python3
"""Times the built program on large texts, and prints speed and peak memory. It never fails the gate.

Build the program first, by `rt run` in crates/zonefill; then `python3 bench/texts.py`.

Three texts of 64 MiB: a board of one zone padded with spaces, which is filled and copied through; a list of empty lists; and a
list of words and strings. The last two are read and then refused. For comparison `cat` copies the same bytes.
"""
import os
import subprocess
import sys
import tempfile
import time

TOP = os.path.dirname(os.path.dirname(os.path.abspath(__file__)))
PROGRAM = os.path.join(TOP, "crates", "zonefill", "out", "zonefill")
MOST = 67_108_864

BOARD = b"""(kicad_pcb (version 20221018) (generator pcbnew)
  (layers (0 "F.Cu" signal) (31 "B.Cu" signal))
  (net 0 "")
  (net 1 "GND")
  (zone (net 1) (net_name "GND") (layer "F.Cu") (tstamp z1) (hatch edge 0.5)
    (connect_pads (clearance 0.2))
    (min_thickness 0.25)
    (fill yes (thermal_gap 0.5) (thermal_bridge_width 0.5) (island_removal_mode 1))
    (polygon (pts (xy 0 0) (xy 10 0) (xy 10 10) (xy 0 10)))
  )
)
"""


def lists():
    """A root with as many empty lists as fit."""
    front, end = b"(kicad_pcb ", b")\n"
    return front + b"()" * ((MOST - len(front) - len(end)) // 2) + end


def words():
    """A root with as many short lists of words and strings as fit."""
    item = b'(net_tie "a b" 12.5 x)\n'
    front, end = b"(kicad_pcb ", b")\n"
    return front + item * ((MOST - len(front) - len(end)) // len(item)) + end


def timed(command, stdout=None):
    """Seconds, peak MiB and exit status of a command, the best of three."""
    best = None
    for _ in range(3):
        start = time.monotonic()
        child = subprocess.Popen(command, stdout=stdout, stderr=subprocess.DEVNULL)
        _, status, usage = os.wait4(child.pid, 0)
        seconds = time.monotonic() - start
        row = (seconds, usage.ru_maxrss / 1024, os.waitstatus_to_exitcode(status))
        best = row if best is None or row[0] < best[0] else best
    return best


def main():
    if not os.path.exists(PROGRAM):
        sys.exit(f"no {PROGRAM}: run `rt run` in crates/zonefill first")
    with tempfile.TemporaryDirectory() as folder:
        source, target = os.path.join(folder, "in"), os.path.join(folder, "out")
        for name, text in [("padded board", BOARD + b" " * (MOST - len(BOARD))), ("empty lists", lists()), ("words and strings", words())]:
            with open(source, "wb") as file:
                file.write(text)
            seconds, memory, status = timed([PROGRAM, "fill", source, target])
            with open(os.path.join(folder, "copy"), "wb") as copy:
                plain, _, _ = timed(["cat", source], stdout=copy)
            size = len(text) / 1e6
            print(f"{name:18} {size:6.1f} MB  {seconds:6.2f} s  {size / seconds:7.1f} MB/s  {memory:7.0f} MiB  status {status}  {seconds / plain:6.1f} times cat")


if __name__ == "__main__":
    main()
