#!/usr/bin/env python3
"""Fills each board of a folder with the built program, and prints what that took. It never fails the gate.

    python3 bench/folder.py FOLDER                  fills each FOLDER/*.kicad_pcb, the smallest first
    python3 bench/folder.py --sums FILE FOLDER      asks for written boards, and reports, of these sums too: lines `name sha256 [sha256]`, or rows of a
                                                    table in Markdown that begin so, `| name | sha256 | sha256 |`, the board's sum and the report's. Where a
                                                    table there has a column whose title begins with KiCad, that is how many processor seconds KiCad's
                                                    own filler takes
    python3 bench/folder.py --threads N ..          fills with so many workers, 1 where that isn't said
    python3 bench/folder.py --made SIZE .. [--]     boards made by rule of these sizes (`expected/board_by_rule.py`, seed 1), behind those of the folder if one is named
    python3 bench/folder.py --limit SECONDS ..      kills a run that takes longer, 300 where that isn't said, and lists it so
    python3 bench/folder.py --program PROGRAM ..    another program; else build it first, by `rt run` in crates/zonefill

Each run must end with status 0, write the board and say the report of those sums, and write the same bytes again where it fills what it wrote, with one
worker; and `report` must say what `fill` said. The answer says `as due`, or what
was otherwise, and a board without a sum `no sum`. Items are pads, tracks, vias, zones and drawings on the edge. Seconds are those on the processor, of all threads, from
reading the board to writing it; then those that passed. Times is how often KiCad's seconds go into the former: KiCad's are of the fill alone. Memory is the
greatest at any time, in MiB, and never below what this script itself takes. The status is 1 where a board isn't answered as due.
"""
import argparse
import filecmp
import hashlib
import os
import re
import subprocess
import sys
import tempfile
import threading
import time

TOP = os.path.dirname(os.path.dirname(os.path.abspath(__file__)))
sys.path.insert(0, os.path.join(TOP, "bench", "expected"))
import board_by_rule  # noqa: E402, it stands in expected/

PROGRAM = os.path.join(TOP, "crates", "zonefill", "out", "zonefill")
GOOD = "as due", "no sum"
ITEM = re.compile(rb'\((?:pad|segment|via|zone)\s|\(layer "?Edge\.Cuts"?\)')


def sums_of(file):
    """Returns by name what a file says: the sums of written boards and of reports, and the seconds of KiCad's filler."""
    sums, seconds, titles = {}, {}, []
    with open(file, encoding="utf-8") as lines:
        for line in lines:
            cells = [it.strip() for it in line.strip().strip("|").split("|")] if line.startswith("|") else line.split()
            found = [it for it in cells[1:3] if re.fullmatch("[0-9a-f]{64}", it)]
            if found:
                sums[cells[0]] = found
            if not line.startswith("|"):
                titles = []
            elif not titles:
                titles = cells
            for title, cell in zip(titles, cells):
                if title.startswith("KiCad") and re.fullmatch(r"\d+\.?\d*", cell):
                    seconds[cells[0]] = float(cell)
    return sums, seconds


def timed(command, limit, said=os.devnull):
    """Seconds on the processor, seconds that passed, peak MiB and exit status of a run, with no status where it is killed at the limit."""
    start = time.monotonic()
    with open(said, "wb") as out:
        child = subprocess.Popen(command, stdout=out, stderr=subprocess.DEVNULL)
    killed = threading.Event()

    def kill():
        killed.set()
        child.kill()

    timer = threading.Timer(limit, kill)
    timer.start()
    _, status, usage = os.wait4(child.pid, 0)
    child.returncode = os.waitstatus_to_exitcode(status)
    timer.cancel()
    passed = time.monotonic() - start
    return usage.ru_utime + usage.ru_stime, passed, usage.ru_maxrss / 1024, None if killed.is_set() else child.returncode


def other_bytes(files, wanted):
    """Says which of the files has another sum than is wanted; nothing where they have those."""
    for file, due in zip(files, wanted):
        with open(file, "rb") as it:
            found = hashlib.sha256(it.read()).hexdigest()
        if found != due:
            return f"{os.path.basename(file)}: sum {found}"
    return None


def other_run(program, words, files, limit):
    """Says how a second run differs: it must end well, and make the second file as the first is. Nothing where it does."""
    first, second = files
    said = second if words[0] == "report" else os.devnull
    _, _, _, status = timed([program, *words], limit, said)
    if status != 0:
        return f"{words[0]} again: " + ("killed" if status is None else f"status {status}")
    return None if filecmp.cmp(first, second, shallow=False) else f"{words[0]} again: other bytes"


def answer(program, source, files, wanted, status, limit):
    """Says `as due`, or what isn't so of a run's status, and of the board and the report that it made."""
    if status is None:
        return f"killed after {limit:g} s"
    if status != 0:
        return f"status {status}"
    target, report, again = files
    return (
        other_bytes([target, report], wanted)
        or other_run(program, ["fill", target, again], [target, again], limit)
        or other_run(program, ["report", source], [report, again], limit)
        or ("as due" if wanted else "no sum")
    )


def fill(program, source, limit, wanted, threads):
    """Fills a board, and again what was written: items, processor seconds, seconds that passed, peak MiB, and the answer."""
    with tempfile.TemporaryDirectory() as folder, open(source, "rb") as file:
        items = sum(1 for _ in ITEM.finditer(file.read()))
        files = [os.path.join(folder, it) for it in ("out", "report", "again")]
        command = [program, "fill", source, files[0], f"--threads={threads}"]
        seconds, passed, memory, status = timed(command, limit, files[1])
        return items, seconds, passed, memory, answer(program, source, files, wanted, status, limit)


def listed(folder):
    """The boards of a folder, the smallest first; none where no folder is named."""
    names = os.listdir(folder) if folder else []
    return sorted((os.path.join(folder, it) for it in names if it.endswith(".kicad_pcb")), key=os.path.getsize)


def made(folder, size):
    """Writes the board by rule of that size, and returns where."""
    path = os.path.join(folder, f"size_{size}.kicad_pcb")
    with open(path, "w", encoding="utf-8") as file:
        file.write(board_by_rule.board(1, size))
    return path


def main():
    parser = argparse.ArgumentParser(description=__doc__, formatter_class=argparse.RawDescriptionHelpFormatter)
    parser.add_argument("--sums")
    parser.add_argument("--limit", type=float, default=300)
    parser.add_argument("--threads", type=int, default=1)
    parser.add_argument("--program", default=PROGRAM)
    parser.add_argument("--made", type=int, nargs="+", default=[])
    parser.add_argument("folder", nargs="?")
    given = parser.parse_args()
    program = os.path.abspath(given.program)
    if not os.path.exists(program):
        sys.exit(f"no {program}: run `rt run` in crates/zonefill first")
    sums, kicad = sums_of(given.sums) if given.sums else ({}, {})
    answers = []
    print(f"{'board':30}   items   seconds    passed      MiB     KiCad     times  answer")
    with tempfile.TemporaryDirectory() as folder:
        for source in listed(given.folder) + [made(folder, size) for size in given.made]:
            name = os.path.basename(source).removesuffix(".kicad_pcb")
            items, seconds, passed, memory, said = fill(program, source, given.limit, sums.get(name, []), given.threads)
            answers.append(said)
            other = f"{kicad[name]:9.2f}" if name in kicad else f"{'-':>9}"
            times = f"{seconds / kicad[name]:9.1f}" if kicad.get(name) and said in GOOD else f"{'-':>9}"
            print(f"{name:30} {items:7}  {seconds:8.2f}  {passed:8.2f}  {memory:7.0f} {other} {times}  {said}", flush=True)
    counts = [answers.count("as due"), answers.count("no sum"), sum("killed" in it for it in answers)]
    print(f"{len(answers)} boards: {counts[0]} as due, {counts[1]} without a sum, {counts[2]} killed, {len(answers) - sum(counts)} otherwise")
    sys.exit(0 if all(it in GOOD for it in answers) else 1)


if __name__ == "__main__":
    main()
