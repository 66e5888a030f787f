#!/usr/bin/env python3
"""Replaces every byte of small boards in turn, and asks the built program for a stated answer to each. It never fails the gate.

Build the program first, by `rt run` in crates/zonefill; then `python3 bench/checks/bytes.py [PROGRAM]`.

Each byte becomes 00, FF, an open and a closed parenthesis, a quote and a backslash. A run must end with status 0 or 1 and with a
complaint that is stated for it; where it is done, OUT is IN with rings put in at one place and a report is said, and else OUT is as it was and nothing is said. Printed is how often
each answer came. The script ends with status 1 where a run answered otherwise.
"""
import collections
import os
import re
import subprocess
import sys
import tempfile

TOP = os.path.dirname(os.path.dirname(os.path.dirname(os.path.abspath(__file__))))
PROGRAM = os.path.join(TOP, "crates", "zonefill", "out", "zonefill")
BASE = os.path.join(TOP, "crates", "zonefill", "data", "board.kicad_pcb")
NEW_BYTES = [0x00, 0xFF, ord("("), ord(")"), ord('"'), ord("\\")]
BEFORE = b"what stood here before\n"

# one item of each kind that is read, and a text on silk
KINDS = b"""(kicad_pcb (version 20221018)
  (layers (0 "F.Cu" signal) (31 "B.Cu" signal) (44 "Edge.Cuts" user))
  (net 0 "") (net 1 "G\\"N\\\\D")
  (footprint "P" (layer "F.Cu") (at 10 10 90) (clearance 0.2)
    (fp_text reference "P1" (at 0 -3) (layer "F.SilkS"))
    (pad "1" thru_hole roundrect (at 0 0 90) (size 2 1) (drill 1) (layers "*.Cu") (net 1 "GND") (roundrect_rratio 0.2))
    (pad "" np_thru_hole circle (at 2 0) (size 1 1) (drill oval 1 2) (layers "*.Mask")))
  (gr_rect (start 0 0) (end 20 20) (layer "Edge.Cuts"))
  (gr_arc (start 0 2) (mid 0.585786 0.585786) (end 2 0) (layer "Edge.Cuts"))
  (segment (start 1 1) (end 2 2.5) (width 0.25) (layer "F.Cu") (net 1) (tstamp t1))
  (via (at 5 5) (size 0.8) (drill 0.4) (layers "F.Cu" "B.Cu") (net 1) (tstamp v1))
  (zone (net 1) (layers "F&B.Cu") (tstamp z1) (priority 1) (connect_pads no (clearance 0.2))
    (fill yes (thermal_gap 0.5)) (polygon (pts (xy 0 0) (xy 9 0) (xy 9 9))))
  (zone (layer "F.Cu") (tstamp k1) (keepout (copperpour not_allowed)) (polygon (pts (xy 3 3) (xy 4 3) (xy 4 4)))))
"""

TEXT_KINDS = "Empty BadString Unclosed StrayClose NotList After TooDeep BadUtf8"
OFFENCES = (
    "NotBoard Version CurvedTrack CopperGraphic FootprintEdge FootprintZone EdgeCurve Teardrop HatchFill Smoothing IslandArea "
    "ManyOutlines PolygonArc PadType PadShape PadOffset MissingPart Number Angle BadSize Thin DoubleLayer UnknownLayer DoubleNet "
    "UnknownNet DoubleStamp Outline TooMany"
)
REPORT = re.compile(rb"(?:\A|\n)unjoined \d+\n\Z")
STATED = {
    0: [("done", re.compile(rb""))],
    1: [
        ("no text", re.compile(rb"zonefill: byte (\d+): (" + TEXT_KINDS.replace(" ", "|").encode() + rb")\n")),
        ("refused", re.compile(rb"zonefill: line (\d+): (" + OFFENCES.replace(" ", "|").encode() + rb")\n")),
    ],
}


def answer(status, complaint):
    """The name of a stated answer, with its kind; None where none is stated so."""
    for name, form in STATED.get(status, []):
        found = form.fullmatch(complaint)
        if found:
            kind = found.group(2).decode() if form.groups else ""
            return (name + " " + kind).strip()
    return None


def is_put_in(text, out):
    """Whether the output is the text with something put in at one place."""
    front = os.path.commonprefix([text, out])
    back = os.path.commonprefix([text[::-1], out[::-1]])
    return len(out) >= len(text) and len(front) + len(back) >= len(text)


def is_said(found, said):
    """Whether a run said what is stated of its answer: a report where it is done, and else nothing."""
    return bool(REPORT.search(said)) if found == "done" else not said


def run(program, source, target, text):
    """The answer to a text; None where it, or what became of OUT, isn't stated."""
    with open(source, "wb") as file:
        file.write(text)
    with open(target, "wb") as file:
        file.write(BEFORE)
    child = subprocess.run([program, "fill", source, target], capture_output=True, timeout=60)
    found = answer(child.returncode, child.stderr)
    with open(target, "rb") as file:
        out = file.read()
    with open(source, "rb") as file:
        kept = file.read() == text
    left = is_put_in(text, out) if found == "done" else out == BEFORE
    return found if left and kept and is_said(found, child.stdout) else None


def texts_near(text):
    """Every text with one byte replaced, where it was another before."""
    for at in range(len(text)):
        for byte in NEW_BYTES:
            if text[at] != byte:
                yield at, byte, text[:at] + bytes([byte]) + text[at + 1 :]


def main():
    program = os.path.abspath(sys.argv[1]) if len(sys.argv) > 1 else PROGRAM
    if not os.path.exists(program):
        sys.exit(f"no {program}: run `rt run` in crates/zonefill first")
    with open(BASE, "rb") as file:
        boards = [("a board of one zone", file.read(), "done"), ("a board of each kind of item", KINDS, "done")]
    bad = 0
    with tempfile.TemporaryDirectory() as folder:
        source, target = os.path.join(folder, "in"), os.path.join(folder, "out")
        for name, text, whole in boards:
            if run(program, source, target, text) != whole:
                sys.exit(f"{name} itself isn't answered: {whole}")
            counts = collections.Counter()
            for at, byte, other in texts_near(text):
                found = run(program, source, target, other)
                counts[found] += 1
                if found is None:
                    bad += 1
                    print(f"byte {at} as {byte:02x}: no stated answer, or OUT isn't as stated")
            print(f"{name}: {len(text)} bytes, {sum(counts.values())} runs")
            for found, count in counts.most_common():
                print(f"  {count:6} {found}")
    sys.exit(1 if bad else 0)


if __name__ == "__main__":
    main()
