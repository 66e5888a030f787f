#!/usr/bin/env python3
"""Fills boards with the built program and with KiCad's own filler, one after the other in one run, and prints both processor times. It never fails the gate.

    python3 bench/peer.py BOARD ..              these boards
    python3 bench/peer.py --made SIZE ..        boards made by rule of these sizes (`expected/board_by_rule.py`, seed 1), behind those
    python3 bench/peer.py --times N ..          the best of so many runs, 3 where that isn't said
    python3 bench/peer.py --limit SECONDS ..    stops a run that takes longer, 300 where that isn't said
    python3 bench/peer.py --program PROGRAM ..  another program; else build it first, by `rt run` in crates/zonefill

It wants KiCad's Python module, as Debian's package `kicad` has it, for /usr/bin/python3. Ours is the whole of `fill`, with one worker: reading, filling,
drawing, the report, writing. KiCad's is the fill alone, of a board that is loaded already. Both are processor seconds of all threads.
"""
import argparse
import os
import subprocess
import sys
import tempfile

TOP = os.path.dirname(os.path.dirname(os.path.abspath(__file__)))
sys.path.insert(0, os.path.join(TOP, "bench"))
from folder import PROGRAM, made, timed  # noqa: E402, it stands in bench/

KICAD = """
import os, sys, pcbnew
board = pcbnew.LoadBoard(sys.argv[1])
before = os.times()
pcbnew.ZONE_FILLER(board).Fill(board.Zones())
now = os.times()
print("seconds", now.user + now.system - before.user - before.system)
"""


def kicad(board, limit):
    """Returns the processor seconds of KiCad's fill, or nothing where it fails or takes longer than the limit."""
    try:
        run = subprocess.run(["/usr/bin/python3", "-c", KICAD, board], capture_output=True, text=True, timeout=limit, check=False)
    except subprocess.TimeoutExpired:
        return None
    found = [line.split()[1] for line in run.stdout.split("\n") if line.startswith("seconds ")]
    return float(found[0]) if found else None


def ours(program, board, limit):
    """Returns the processor seconds of our whole fill, or nothing where it isn't done or takes longer than the limit."""
    with tempfile.TemporaryDirectory() as folder:
        seconds, _, _, status = timed([program, "fill", board, os.path.join(folder, "out"), "--threads=1"], limit)
    return seconds if status == 0 else None


def best(times, run):
    """Returns the least of several runs; nothing where the first has none."""
    found = [run()]
    while found[0] is not None and len(found) < times:
        found.append(run())
    return min((it for it in found if it is not None), default=None)


def spelled(seconds):
    """Spells seconds, or a dash where there are none."""
    return f"{seconds:9.2f}" if seconds is not None else f"{'-':>9}"


def main():
    parser = argparse.ArgumentParser(description=__doc__, formatter_class=argparse.RawDescriptionHelpFormatter)
    parser.add_argument("--times", type=int, default=3)
    parser.add_argument("--limit", type=float, default=300)
    parser.add_argument("--program", default=PROGRAM)
    parser.add_argument("--made", type=int, nargs="+", default=[])
    parser.add_argument("boards", nargs="*")
    given = parser.parse_args()
    if not os.path.exists(given.program):
        sys.exit(f"no {given.program}: run `rt run` in crates/zonefill first")
    print(f"{'board':30} {'zonefill':>9} {'KiCad':>9} {'ratio':>7}")
    with tempfile.TemporaryDirectory() as folder:
        for board in given.boards + [made(folder, size) for size in given.made]:
            here = best(given.times, lambda board=board: ours(given.program, board, given.limit))
            there = best(given.times, lambda board=board: kicad(board, given.limit))
            ratio = f"{here / there:7.2f}" if here is not None and there else f"{'-':>7}"
            print(f"{os.path.basename(board).removesuffix('.kicad_pcb'):30} {spelled(here)} {spelled(there)} {ratio}", flush=True)


if __name__ == "__main__":
    main()
