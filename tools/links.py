#!/usr/bin/env python3
"""Tries every link and every name in backticks of the pages against the tree. Status 1 where one leads nowhere.

    python3 tools/links.py            tells what leads nowhere; and which links to a definition point at another line than its own
    python3 tools/links.py --mend     sets these lines, and makes links of short forms

The pages are README.md, CONTRIBUTING.md, CHANGELOG.md, docs/ and bench/README.md. What is tried:

- A link to a file, and to a heading of a page: both are there.
- A link whose text is a name in backticks and whose file is code: the file defines that name. The line is told, and is no fault: an edit of
  the file may move it. A page may say `[`IsKept`](fill_rules)`, the crate alone: `--mend` writes the file and the line.
- Any other name in backticks, as `IsKept` or `Board::read`: the name stands somewhere in the tree, code or data. A path in backticks is there.
- A page or script that the crates name, as docs/rules/generator.md: it is there.
"""
import argparse
import collections
import glob
import os
import re
import sys

TOP = os.path.dirname(os.path.dirname(os.path.abspath(__file__)))
LINK = re.compile(r"\[((?:[^\[\]`]|`[^`]*`)*)\]\(([^()\s]+)\)")
TICKS = re.compile(r"`([^`]+)`")
NAME = re.compile(r"[A-Za-z_][A-Za-z0-9_]*(?:(?:::|\.)[A-Za-z_][A-Za-z0-9_]*)*")
PATH = re.compile(r"(?:crates|docs|bench|tools)/[A-Za-z0-9_./-]+")
SPECS = re.compile(r"(?:abbrev |unfoldable |pub )+(?:record |data )?([A-Za-z_][A-Za-z0-9_]*)\s*[:({]|  (?:pub )?([A-Za-z_][A-Za-z0-9_]*) :")
CODE = re.compile(r"\s*(?:pub (?:\(crate\) )?)?(?:fn|struct|enum|trait|const|type) ([A-Za-z_][A-Za-z0-9_]*)|    ([A-Z][A-Za-z0-9]*)(?:[,({]| \{|$)")
CITED = re.compile(r"(?:docs|bench|tools)/[A-Za-z0-9_/-]+\.(?:md|py)")


def read(path):
    """Returns the text of a file of the tree."""
    with open(os.path.join(TOP, path), encoding="utf-8", errors="replace") as file:
        return file.read()


def files(*patterns):
    """Returns the files of the tree that these patterns name, in order."""
    found = [it for pattern in patterns for it in glob.glob(os.path.join(TOP, pattern), recursive=True)]
    return sorted({os.path.relpath(it, TOP) for it in found if os.path.isfile(it) and "/out/" not in it})


def pages():
    """Returns the pages that are tried."""
    return files("README.md", "CONTRIBUTING.md", "CHANGELOG.md", "docs/**/*.md", "bench/**/*.md")


def defined_in(path):
    """Returns the names that a file defines, each with the line of its first definition; fields and variants behind all others."""
    form, lines, inner = (SPECS if path.endswith(".antt") else CODE), {}, {}
    for number, line in enumerate(read(path).split("\n"), 1):
        found = form.match(line)
        if found:
            (lines if found.group(1) else inner).setdefault(found.group(1) or found.group(2), number)
    return {**inner, **lines}, set(inner) - set(lines)


class Tree:
    """What stands in the tree: definitions by file, and every word of the crates, the scripts and their data."""

    def __init__(self):
        code = files("crates/*/specs/**/*.antt", "crates/*/src/**/*.rt")
        tried = {path: defined_in(path) for path in code}
        self.definitions = {path: names for path, (names, _) in tried.items()}
        self.inner = {path: names for path, (_, names) in tried.items()}
        others = files("crates/*/stdin", "crates/*/data/*", "crates/*/proofs/**/*.antt", "bench/**/*.py", "tools/*.py", "crates.txt", "HANDLES", ".ci/run")
        self.words = set()
        for path in code + others:
            self.words.update(re.findall(r"[A-Za-z_][A-Za-z0-9_]*", read(path)))
        self.words.update(part for path in code + others for part in re.split(r"[/.]", path))

    def places(self, where, name):
        """Returns the files of a crate, or of a part of it as `fill_rules/Fill.antt`, that define a name; public specs first."""
        crate, _, tail = where.partition("/")
        last = re.split(r"::|\.", name)[-1] if "::" in name else name.split(".")[0]
        found = [it for it, names in self.definitions.items() if it.startswith(f"crates/{crate}/") and it.endswith(tail) and last in names]
        is_call = "::" in name
        return sorted(found, key=lambda it: (last in self.inner[it], "/Inner/" in it, ("/src/" in it) != is_call, it)), last

    def anywhere(self, name):
        """Returns the one file of public specs that defines a name, and else the one file of code; none where there are several."""
        found = [it for it, names in self.definitions.items() if name in names and "/Inner/" not in it and name not in self.inner[it]]
        for part in "/specs/", "/src/":
            here = [it for it in found if part in it]
            if len(here) == 1:
                return here
        return []

    def has(self, name):
        """Says whether each part of a name stands somewhere."""
        return all(part in self.words for part in re.split(r"::|\.", name))


def headings(path):
    """Returns the anchors of a page's headings, as they are shown on the web."""
    titles = re.findall(r"^#+ (.*)$", re.sub(r"```.*?```", "", read(path), flags=re.DOTALL), re.MULTILINE)
    return {re.sub(r"[^\w\- ]", "", it.lower()).replace(" ", "-") for it in titles}


class Trial:
    """The trial of one page."""

    def __init__(self, tree, page, mend):
        self.tree, self.page, self.mend, self.faults, self.moved = tree, page, mend, [], 0

    def fault(self, at, text):
        """Notes what leads nowhere."""
        self.faults.append(f"{self.page}:{at}: {text}")

    def placed(self, at, label, name, target):
        """Returns the link to a definition: its file, and its line as it is now."""
        path, _, line = target.partition("#")
        here = os.path.dirname(self.page)
        full = os.path.normpath(os.path.join(here, path))
        crate = full.split("/")[1] if full.startswith("crates/") else path
        tail = full.split("/", 2)[2] if full.startswith("crates/") and full in self.tree.definitions else "/".join(path.split("/")[1:]) if not full.startswith("crates/") else ""
        found, last = self.tree.places(f"{crate}/{tail}", name)
        if not found and self.mend:
            found, last = self.tree.places(crate, name)
        if not found and self.mend:
            found = self.tree.anywhere(last)
        if not found:
            self.fault(at, f"{target} doesn't define {name}")
            return f"[{label}]({target})"
        due = f"{os.path.relpath(found[0], here or '.')}#L{self.tree.definitions[found[0]][last]}"
        self.moved += due != target
        return f"[{label}]({due if self.mend else target})"

    def link(self, at, found):
        """Tries a link, and returns it as it should be."""
        label, target = found.groups()
        name = re.fullmatch(r"`(" + NAME.pattern + r")`", label)
        path, _, anchor = target.partition("#")
        if re.match(r"https?:|mailto:", target):
            return found.group()
        full = os.path.normpath(os.path.join(os.path.dirname(self.page), path)) if path else self.page
        is_code = full.endswith((".antt", ".rt")) or not os.path.exists(os.path.join(TOP, full))
        if name and is_code and not path.endswith((".md", ".py", ".txt")):
            return self.placed(at, label, name.group(1), target)
        if not os.path.exists(os.path.join(TOP, full)):
            self.fault(at, f"no {target}")
        elif anchor and full.endswith(".md") and anchor not in headings(full):
            self.fault(at, f"no heading {target}")
        return found.group()

    def ticks(self, at, line):
        """Tries the names in backticks that are no link."""
        for word in TICKS.findall(LINK.sub("", line)):
            if re.fullmatch(PATH, word) and not os.path.exists(os.path.join(TOP, word)):
                self.fault(at, f"no {word}")
            elif re.fullmatch(NAME, word) and not self.tree.has(word) and not os.path.exists(os.path.join(TOP, word)):
                self.fault(at, f"{word} stands nowhere")

    def run(self):
        """Tries the page, and returns its text as it should be."""
        out, fenced = [], False
        for at, line in enumerate(read(self.page).split("\n"), 1):
            fenced ^= line.lstrip().startswith("```")
            if not fenced and not line.startswith("    "):
                self.ticks(at, line)
                line = LINK.sub(lambda found, at=at: self.link(at, found), line)
            out.append(line)
        return "\n".join(out)


def cited():
    """Returns what is told of the pages and scripts that crates name and that aren't there."""
    named = collections.defaultdict(list)
    for path in files("crates/*/src/**/*.rt", "crates/*/specs/**/*.antt", "crates/*/stdin", "crates/*/stdout", "crates/*/data/*"):
        for name in CITED.findall(read(path)):
            named[name].append(path)
    return [f"{path}: no {name}" for name, paths in named.items() for path in paths if not os.path.exists(os.path.join(TOP, name))]


def main():
    parser = argparse.ArgumentParser(description=__doc__, formatter_class=argparse.RawDescriptionHelpFormatter)
    parser.add_argument("--mend", action="store_true")
    given = parser.parse_args()
    tree, faults, moved = Tree(), [], 0
    for page in pages():
        trial = Trial(tree, page, given.mend)
        text = trial.run()
        if given.mend and text != read(page):
            with open(os.path.join(TOP, page), "w", encoding="utf-8") as file:
                file.write(text)
        faults, moved = faults + trial.faults, moved + trial.moved
    faults += cited()
    print("\n".join(faults), end="\n" if faults else "")
    print(f"{len(pages())} pages: {len(faults)} lead nowhere, {moved} lines " + ("set" if given.mend else "moved (--mend sets them)"))
    return 1 if faults else 0


if __name__ == "__main__":
    sys.exit(main())
