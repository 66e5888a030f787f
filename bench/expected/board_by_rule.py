"""Boards made by rule, written apart from the program: docs/rules/generator.md in Python.

Prints the board of a seed and a size, as `python3 bench/expected/board_by_rule.py 7 3`. `crates/run_table/stdout` has its answers for seed 7 and size 3."""

import sys
from decimal import Decimal


def mm(nm):
    """A length in nanometres as the shortest number of millimetres."""
    text = f"{Decimal(nm) / 1000000:f}"
    return text.rstrip("0").rstrip(".") if "." in text else text


def item(drawn, column, row, number):
    """What a cell has, as a line, or nothing."""
    x = 2000000 * column + 1000000 + (drawn // 4 % 101 - 50) * 4000
    y = 2000000 * row + 1000000 + (drawn // 404 % 101 - 50) * 4000
    if drawn % 4 < 2:
        net = drawn % 4 + 1
        return f'  (via (at {mm(x)} {mm(y)}) (size 0.6) (drill 0.3) (layers "F.Cu" "B.Cu") (net {net}) (tstamp g{number}))\n'
    if drawn % 4 == 2:
        start = f"{mm(x - 500000)} {mm(y)}"
        end = f"{mm(x + 500000)} {mm(y + 250000)}"
        return f'  (segment (start {start}) (end {end}) (width 0.25) (layer "F.Cu") (net 2) (tstamp g{number}))\n'
    return ""


def zone(net, name, layer, stamp, side):
    """One of both zones."""
    return (
        f'  (zone (net {net}) (net_name "{name}") (layer "{layer}") (tstamp {stamp}) (hatch edge 0.5)\n'
        "    (connect_pads (clearance 0.2))\n    (min_thickness 0.25)\n"
        "    (fill yes (thermal_gap 0.5) (thermal_bridge_width 0.5) (island_removal_mode 1))\n"
        f"    (polygon (pts (xy 0 0) (xy {side} 0) (xy {side} {side}) (xy 0 {side})))\n  )\n"
    )


def board(seed, size):
    """The whole text."""
    text = '(kicad_pcb (version 20221018) (generator zonefill)\n  (layers (0 "F.Cu" signal) (31 "B.Cu" signal))\n'
    text += '  (net 0 "")\n  (net 1 "GND")\n  (net 2 "VCC")\n'
    state, number = seed, 1
    for cell in range(size * size):
        state = (state * 6364136223846793005 + 1442695040888963407) % 2**64
        line = item(state // 2**33, cell % size, cell // size, number)
        text += line
        number += line != ""
    text += zone(1, "GND", "F.Cu", "zf", 2 * size) + zone(2, "VCC", "B.Cu", "zb", 2 * size)
    return text + ")\n"


if __name__ == "__main__":
    print(board(int(sys.argv[1]), int(sys.argv[2])), end="")
