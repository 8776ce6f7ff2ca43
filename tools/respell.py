#!/usr/bin/env python3
"""Spells the names that this repository's own definitions, lemmas and fields have as today's Rattle does: respell.tsv beside this
file has a row for each, old, a tab, new. Run once at the top of the repository, right after the kit's port.py.

It turns whole names in the code of .antt and .rt files, in comments those in camel case and those between backticks, in the pages those
between backticks, and in must-fail edits those of the lines `old:` and `new:`. Functions of src/, strings, inputs and outputs stay.
"""

import os
import re

HERE = os.path.dirname(os.path.realpath(__file__))
ROWS = dict(line.rstrip("\n").split("\t") for line in open(os.path.join(HERE, "respell.tsv"), encoding="utf-8"))
NAME = r"[^\s(){}\[\],;.@\"«»`:/]+"
TOKEN = re.compile(NAME)
QUIET = re.compile(r'"(?:[^"\\\n]|\\.)*"')
PAGES = ["README.md", "docs/ARCHITECTURE.md", "docs/PROOFS.md", "docs/DECISIONS.md", "docs/NUMBERS.md", "docs/BENCHMARKS.md"]
# names that had the new spelling already, and meet another
MEETING = {"digits_in": ("crates/printing/proofs/",), "size_fits": ("crates/counting/proofs/",)}


def turned(text, path):
    """A piece of code: each name that has a row."""
    by_hand = path.endswith("/Proof.antt")

    def turn(m):
        old = m.group(0)
        new = ROWS.get(old)
        if new is None or old in MEETING and not path.startswith(MEETING[old]):
            return old
        behind_dot = m.start() > 0 and m.string[m.start() - 1] == "."
        if behind_dot and (old in MEETING or by_hand and new.endswith("_lem")):
            return old
        return new

    out, last = [], 0
    for q in QUIET.finditer(text):
        out += [TOKEN.sub(turn, text[last : q.start()]), q.group(0)]
        last = q.end()
    return "".join(out) + TOKEN.sub(turn, text[last:])


def in_comment(text, path):
    """A comment: names in camel case, and those between backticks."""

    def camel(m):
        return ROWS.get(m.group(0), m.group(0)) if "-" not in m.group(0) and m.group(0) not in MEETING else m.group(0)

    parts = re.split(r"(`[^`]*`)", text)
    return "".join(turned(p, path) if p.startswith("`") else TOKEN.sub(camel, p) for p in parts)


def code(text, mark, path):
    """A file of code, line by line: mark begins a comment."""
    out = []
    for line in text.split("\n"):
        m = re.search(r"(?<![^\s(){};,])" + re.escape(mark), line)
        at = m.start() if m and line[: m.start()].count('"') % 2 == 0 else len(line)
        out.append(turned(line[:at], path) + in_comment(line[at:], path))
    return "\n".join(out)


def edit(text, path):
    return "\n".join(turned(l, path) if l.startswith(("old:", "new:")) else l for l in text.split("\n"))


def page(text, path):
    return "".join(turned(p, path) if p.startswith("`") else p for p in re.split(r"(`[^`\n]*`)", text))


def main():
    turns = []
    for folder, dirs, names in os.walk("crates"):
        dirs[:] = sorted(d for d in dirs if d != "out")
        for name in sorted(names):
            path = os.path.join(folder, name)
            if name.endswith(".antt"):
                turns.append((path, lambda t, p: code(t, "--", p)))
            elif name.endswith(".rt"):
                turns.append((path, lambda t, p: code(t, "//", p)))
            elif name.endswith(".edit"):
                turns.append((path, edit))
    turns += [(p, page) for p in PAGES]
    for path, how in turns:
        with open(path, encoding="utf-8") as f:
            old = f.read()
        new = how(old, path)
        if new != old:
            with open(path, "w", encoding="utf-8") as f:
                f.write(new)


if __name__ == "__main__":
    main()
