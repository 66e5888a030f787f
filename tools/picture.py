#!/usr/bin/env python3
"""Draws one layer of a written board as SVG: its fills, tracks, vias, pads and holes, and the board's edge.

    python3 tools/picture.py OUT LAYER > PICTURE.svg          as `filled.kicad_pcb F.Cu`
    python3 tools/picture.py --size 600 OUT LAYER > ..        so many pixels along the longer side, 800 where that isn't said

It is to scale in millimetres, rounded to a hundredth. Each `filled_polygon` is one path, whose holes are what the even-odd rule leaves out. Pads have
the shapes of docs/rules/board.md; a zone's outline is dashed. Whether the board is one that zonefill accepts isn't asked: what isn't told there isn't drawn.
"""
import argparse
import math
import os
import re
import sys
from xml.sax.saxutils import escape

TOKEN = re.compile(r'"(?:[^"\\]|\\.)*"|[()]|[^\s()"]+', re.DOTALL)
STYLE = (
    ".fill{fill:#e9b8a6;fill-rule:evenodd}.track{fill:none;stroke:#b5372a;stroke-linecap:round}.pad{fill:#d79b00}.via{fill:#6f7f8f}"
    ".hole{fill:#fff;stroke:#888;stroke-width:.08}.zone{fill:none;stroke:#7a5fa0;stroke-width:.1;stroke-dasharray:.6 .4}.edge{fill:none;stroke:#222;stroke-width:.15}"
)


def read(text):
    """Returns the list that a text spells, of lists and of words; a string counts as its content."""
    stack = [[]]
    for token in TOKEN.findall(text):
        if token == "(":
            stack.append([])
        elif token == ")":
            last = stack.pop()
            stack[-1].append(last)
        else:
            stack[-1].append(re.sub(r"\\(.)", r"\1", token[1:-1]) if token[0] == '"' else token)
    return stack[0][0]


def lists(item, *heads):
    """Returns the child lists of these heads."""
    return [it for it in item if isinstance(it, list) and it and it[0] in heads]


def words(item, head):
    """Returns the words in the first child list of this head, none where there is no such list."""
    return [it for it in (lists(item, head) or [[]])[0][1:] if isinstance(it, str)]


def numbers(item, head):
    """Returns the numbers in the first child list of this head; words between them, as `oval` or `locked`, are passed over."""
    return [float(it) for it in words(item, head) if re.fullmatch(r"[-+]?(\d+\.?\d*|\.\d+)", it)]


def points(item):
    """Returns the corners in the first `pts` of a list."""
    return [(float(it[1]), float(it[2])) for it in lists((lists(item, "pts") or [[]])[0], "xy")]


def is_on(names, layer):
    """Says whether a list of layers means this one."""
    return layer in names or layer.endswith(".Cu") and "*.Cu" in names or layer in ("F.Cu", "B.Cu") and "F&B.Cu" in names


def short(hundredths):
    """Spells a whole number of hundredths as shortly as SVG reads it."""
    text = f"{abs(hundredths) / 100:.2f}".strip("0").rstrip(".") or "0"
    return "-" + text if hundredths < 0 else text


def number(length):
    """Spells a length, rounded to a hundredth of a millimetre."""
    return short(round(length * 100))


def trace(corners, close):
    """Spells corners as a part of a path, each as the way from the one before."""
    places = [(round(x * 100), round(y * 100)) for x, y in corners]
    ways = [(x - p, y - q) for (p, q), (x, y) in zip(places, places[1:])]
    steps = " ".join(f"{short(x)} {short(y)}" for x, y in ways if (x, y) != (0, 0) or len(ways) == 1)
    return f"M{short(places[0][0])} {short(places[0][1])}" + (f"l{steps}" if steps else "") + ("z" if close else "")


class Picture:
    """The parts of a picture, and the places that they reach."""

    def __init__(self):
        self.parts, self.reached = [], []

    def reach(self, corners, around=0.0):
        """Notes that the picture must show these places and what is so far around them."""
        self.reached += [(x + way, y + way) for x, y in corners for way in (-around, around)]

    def path(self, kind, traces, more=""):
        """Draws a path, where it has any parts."""
        if traces:
            self.parts.append(f'<path class="{kind}"{more} d="{"".join(traces)}"/>')

    def box(self, kind, place, size, radius, angle=0.0):
        """Draws a box with round corners around a place; the angle is counterclockwise, in degrees."""
        (x, y), (width, height) = place, size
        if angle % 180 == 90:
            width, height, angle = height, width, 0.0
        turn = f' transform="rotate({-angle:g} {number(x)} {number(y)})"' if angle % 180 else ""
        corner = f' rx="{number(radius)}"' if radius else ""
        left, top = number(x - width / 2), number(y - height / 2)
        self.parts.append(f'<rect class="{kind}" x="{left}" y="{top}" width="{number(width)}" height="{number(height)}"{corner}{turn}/>')
        self.reach([place], max(size) / 2)

    def disc(self, kind, place, across):
        """Draws a disc around a place."""
        self.parts.append(f'<circle class="{kind}" cx="{number(place[0])}" cy="{number(place[1])}" r="{number(across / 2)}"/>')
        self.reach([place], across / 2)

    def text(self, title, size):
        """Returns the picture as SVG, so many pixels along its longer side."""
        self.reached = self.reached or [(0.0, 0.0)]
        left, top = (min(it[axis] for it in self.reached) - 1 for axis in (0, 1))
        width, height = (max(it[axis] for it in self.reached) + 1 - low for axis, low in ((0, left), (1, top)))
        scale = size / max(width, height)
        corner = f'{number(left)} {number(top)} {number(width)} {number(height)}'
        head = f'<svg xmlns="http://www.w3.org/2000/svg" width="{width * scale:.0f}" height="{height * scale:.0f}" viewBox="{corner}">'
        ground = f'<rect x="{number(left)}" y="{number(top)}" width="{number(width)}" height="{number(height)}" fill="#fff"/>'
        return "\n".join([head, f"<title>{escape(title)}</title>", f"<style>{STYLE}</style>", ground, *self.parts, "</svg>", ""])


def draw_zones(picture, board, layer):
    """Draws the fills of the zones on a layer, and then the outlines of these zones."""
    outlines = []
    for zone in lists(board, "zone"):
        own = words(zone, "layer") or words(zone, "layers")
        for ring in lists(zone, "filled_polygon"):
            if is_on(words(ring, "layer") or own, layer) and points(ring):
                picture.path("fill", [trace(points(ring), True)])
                picture.reach(points(ring))
        if is_on(own, layer) and not lists(zone, "keepout"):
            outlines += [points(it) for it in lists(zone, "polygon") if points(it)]
    picture.path("zone", [trace(it, True) for it in outlines])
    for it in outlines:
        picture.reach(it)


def draw_tracks(picture, board, layer):
    """Draws the tracks of a layer, those of each width as one path."""
    by_width = {}
    for track in lists(board, "segment"):
        if layer in words(track, "layer"):
            ends = [tuple(numbers(track, head)[:2]) for head in ("start", "end")]
            width = numbers(track, "width")[0]
            by_width.setdefault(width, []).append(trace(ends, False))
            picture.reach(ends, width / 2)
    for width, traces in sorted(by_width.items()):
        picture.path("track", traces, f' stroke-width="{number(width)}"')


def draw_vias(picture, board, layer):
    """Draws the vias that have copper on a layer, and their holes."""
    order = [it[1] for it in (lists(board, "layers") or [[]])[0][1:] if len(it) > 1]
    for via in lists(board, "via"):
        ends = [order.index(it) for it in words(via, "layers")[:2] if it in order]
        if layer in order and ends and min(ends) <= order.index(layer) <= max(ends):
            place = tuple(numbers(via, "at")[:2])
            picture.disc("via", place, numbers(via, "size")[0])
            if numbers(via, "drill"):
                picture.disc("hole", place, numbers(via, "drill")[0])


def draw_pad(picture, pad, footprint, layer):
    """Draws a pad where it has copper on the layer, and its hole; a bare hole is drawn on each layer."""
    x, y, turn = (numbers(footprint, "at") + [0.0] * 3)[:3]
    across, down, angle = (numbers(pad, "at") + [0.0] * 3)[:3]
    cosine, sine = math.cos(math.radians(turn)), math.sin(math.radians(turn))
    place = x + across * cosine + down * sine, y - across * sine + down * cosine
    kind, shape, size = pad[2], pad[3], tuple((numbers(pad, "size") * 2)[:2])
    bore = tuple((numbers(pad, "drill") * 2)[:2])
    if kind == "np_thru_hole":
        size, bore = (0.0, 0.0), tuple(map(max, size, bore or size))
    elif not is_on(words(pad, "layers"), layer):
        return
    if shape == "circle":
        size = size[0], size[0]
    least = min(size)
    radius = {"rect": 0.0, "roundrect": least * (numbers(pad, "roundrect_rratio") or [0.25])[0]}.get(shape, least / 2)
    if least:
        picture.box("pad", place, size, radius, angle)
    if bore:
        picture.box("hole", place, bore, min(bore) / 2, angle)


def circle(start, middle, end):
    """Returns the centre and the radius of the circle through three points, or None where they are in line."""
    (x, y), (p, q), (r, s) = start, *((it[0] - start[0], it[1] - start[1]) for it in (middle, end))
    twice = 2 * (p * s - q * r)
    if abs(twice) < 1e-9:
        return None
    across, down = (s * (p * p + q * q) - q * (r * r + s * s)) / twice, (p * (r * r + s * s) - r * (p * p + q * q)) / twice
    return (x + across, y + down), math.hypot(across, down)


def side(start, end, place):
    """Returns a number above 0 where the way from start by the place to end turns clockwise, and below 0 where it turns the other way."""
    return (place[0] - start[0]) * (end[1] - start[1]) - (place[1] - start[1]) * (end[0] - start[0])


def arc(picture, start, middle, end):
    """Spells the arc from start through middle to end as a part of a path: a straight line where the three are in line."""
    around = circle(start, middle, end)
    if around is None:
        return trace([start, end], False)
    (x, y), radius = around
    turn, large = side(start, end, middle), side(start, end, (x, y))
    tops = [(x + radius, y), (x - radius, y), (x, y + radius), (x, y - radius)]
    picture.reach([it for it in tops if side(start, end, it) * turn > 0])
    flags = f"0 {int(large * turn > 0)} {int(turn > 0)}"
    return f"M{number(start[0])} {number(start[1])}A{number(radius)} {number(radius)} {flags} {number(end[0])} {number(end[1])}"


def draw_edge(picture, board):
    """Draws the board's edge."""
    traces = []
    for it in lists(board, "gr_line", "gr_rect", "gr_arc", "gr_poly"):
        if "Edge.Cuts" not in words(it, "layer"):
            continue
        ends = [tuple(numbers(it, head)[:2]) for head in ("start", "mid", "end") if lists(it, head)]
        picture.reach(ends or points(it))
        if it[0] == "gr_arc":
            traces.append(arc(picture, *ends))
        elif it[0] == "gr_rect":
            (a, b), (c, d) = ends
            traces.append(trace([(a, b), (c, b), (c, d), (a, d)], True))
        else:
            traces.append(trace(ends or points(it), it[0] == "gr_poly"))
    picture.path("edge", traces)


def main():
    parser = argparse.ArgumentParser(description=__doc__, formatter_class=argparse.RawDescriptionHelpFormatter)
    parser.add_argument("--size", type=int, default=800)
    parser.add_argument("board")
    parser.add_argument("layer")
    given = parser.parse_args()
    with open(given.board, encoding="utf-8") as file:
        board = read(file.read())
    picture = Picture()
    draw_zones(picture, board, given.layer)
    draw_tracks(picture, board, given.layer)
    for footprint in lists(board, "footprint"):
        for pad in lists(footprint, "pad"):
            draw_pad(picture, pad, footprint, given.layer)
    draw_vias(picture, board, given.layer)
    draw_edge(picture, board)
    sys.stdout.write(picture.text(f"{os.path.basename(given.board)}, {given.layer}", given.size))


if __name__ == "__main__":
    main()
