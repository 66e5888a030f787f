#!/usr/bin/env python3
"""Makes docs/crates.md: each crate's group, head, public names, and which crates stand on it, out of crates.txt and the heads of `lib.rt`.

    python3 tools/crates.py           writes the page
    python3 tools/crates.py --try     writes nothing, and ends with status 1 where the page is another
"""
import os
import re
import sys

TOP = os.path.dirname(os.path.dirname(os.path.abspath(__file__)))
PAGE = os.path.join(TOP, "docs", "crates.md")
FRONT = """# The crates

Made by `python3 tools/crates.py` from `crates.txt` and the head of each crate's `lib.rt`; change those, not this page. What is proved of each crate
stands in [laws.md](laws.md), how they fit together in [architecture.md](architecture.md).

A crate stands on crates below it: it uses their definitions, calls and laws. "Above it" names the crates that list it. Public names are what `lib.rt`
exports; of a type the methods aren't listed.
"""


def read(path):
    """Returns the text of a file of the tree."""
    with open(os.path.join(TOP, path), encoding="utf-8") as file:
        return file.read()


def groups():
    """Returns the groups of crates.txt in order: a title, and its crates, each with what it stands on."""
    found = []
    for line in read("crates.txt").split("\n"):
        if line.startswith("# ---- "):
            found.append((line[7:], {}))
        elif line and not line.startswith("#"):
            name, _, below = line.partition(":")
            found[-1][1][name.split()[0]] = below.split()
    return found


def root_of(crate):
    """Returns the root file of a crate."""
    path = f"crates/{crate}/src/lib.rt"
    return path if os.path.exists(os.path.join(TOP, path)) else f"crates/{crate}/src/main.rt"


def linked(found):
    """Returns a link to a page of docs/ where it is there."""
    there = os.path.exists(os.path.join(TOP, found.group()))
    return f"[{found.group(1)}]({found.group(1)})" if there else found.group()


def head_of(crate):
    """Returns the head of a crate's root file, on one line."""
    lines = [line[3:].strip() for line in read(root_of(crate)).split("\n") if line.startswith("//!")]
    return re.sub(r"\bdocs/([\w./-]+\.md)", linked, " ".join(lines))


def public_of(crate):
    """Returns the names that a crate exports, in order."""
    text = read(root_of(crate))
    used = [name for group in re.findall(r"^pub use [\w:]+::(?:\{([^}]*)\}|(\w+));", text, re.MULTILINE) for it in group for name in re.findall(r"\w+", it)]
    return sorted(set(used + re.findall(r"^pub (?:fn|struct|enum|trait) (\w+)", text, re.MULTILINE)), key=str.lower)


def entry(crate, crates):
    """Returns the lines of one crate."""
    above = [it for it, below in crates.items() if crate in below]
    names = public_of(crate)
    return [
        f"### {crate}",
        "",
        f"[{root_of(crate)}](../{root_of(crate)}). {head_of(crate)}",
        "",
        *([f"- Public: {', '.join(f'`{it}`' for it in names)}"] if names else []),
        f"- Above it ({len(above)}): {', '.join(above)}" if above else "- Nothing stands above it.",
        "",
    ]


def chain(crates):
    """Returns the longest chain of crates that stand on each other, the lowest first."""
    best = {}

    def longest(name):
        if name not in best:
            best[name] = max((longest(it) for it in crates[name] if it in crates), key=len, default=[]) + [name]
        return best[name]

    return max((longest(it) for it in crates), key=len)


def page():
    """Returns the whole page."""
    found = groups()
    crates = {name: below for _, group in found for name, below in group.items()}
    longest = chain(crates)
    lines = [FRONT, f"{len(crates)} crates. The longest chain has {len(longest)}: {', '.join(f'[{it}](#{it})' for it in longest)}.", ""]
    for title, group in found:
        lines += [f"## {title}", ""]
        for crate in group:
            lines += entry(crate, crates)
    return "\n".join(lines)


def main():
    text = page()
    if "--try" in sys.argv[1:]:
        return 0 if os.path.exists(PAGE) and read("docs/crates.md") == text else 1
    with open(PAGE, "w", encoding="utf-8") as file:
        file.write(text)
    return 0


if __name__ == "__main__":
    sys.exit(main())
