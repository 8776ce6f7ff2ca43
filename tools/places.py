#!/usr/bin/env python3
"""Lists the places in crates/*/src that docs/DESIGN-PASS.md counts, by its points 1 to 8, a line each; the last line of a point is its count.

    python3 tools/places.py [POINT..]

It goes by text, so it finds forms, not mistakes: the page says of each place that is still found why it stays.
"""

import glob
import re
import sys
from collections import defaultdict
from difflib import SequenceMatcher

# What a number that stands for a kind, a refusal or "none" is read from.
KIND_NUMBERS = r"\b(row|side): usize\b|\brefused: u64\b|\bTOO_LONG: usize\b|\bNO_PATH: u64\b|\bEXIT: usize\b|\bkind == \d|\bfunct[37]: u8\b|funct[37] == \d+\)|_ => 14,|of\(14,|15 < d "
# Functions that compare, order, copy, convert or print what a derive or a trait of std would.
BY_HAND = (
    r"\bfn (copied\w*|counted_\w*|whole|least|greatest|apart|distance|same_name|same_register|is_register|yes_number"
    r"|\w*_number|reason_word|reply|write_outcome|digit|put_digits|carry|word_or_zero|code_or_zero|joined|past|below|widen|clear|exit_word)\("
)
PROOF_ANSWER = re.compile(r"^(?:pub )?([\w-]+)(?: \w+)* = ")


def files():
    return sorted(glob.glob("crates/*/src/*.rt"))


def code(path):
    """The lines of a file, with comments and clauses left out."""
    depth = 0
    for n, line in enumerate(open(path, encoding="utf-8"), 1):
        text = re.sub(r"//.*", "", line.rstrip("\n"))
        begins = re.match(r"\s*(ghost use|ghost|requires|ensures)\b", text)
        if begins or depth:
            depth += text.count("{") - text.count("}")
            continue
        if text.strip():
            yield n, text


def functions(path):
    """Name, line, parameters and body of each function."""
    rows = list(code(path))
    starts = [k for k, (_, t) in enumerate(rows) if re.match(r"\s*(pub(\(crate\))? )?(extern \"C\" )?fn ", t)]
    for a, b in zip(starts, starts[1:] + [len(rows)]):
        text = "\n".join(t for _, t in rows[a:b])
        m = re.search(r"fn (\w+)(?:<[^(]*>)?\((.*?)\)\s*(?:->.*?)?\n", text + "\n", re.S)
        body = text[m.end():] if m else ""
        parameters = re.findall(r"(\w+): ", m.group(2)) if m else []
        yield m.group(1) if m else "?", rows[a][0], parameters, body


def clauses(path, word):
    """Each clause of that kind, on one line."""
    text = open(path, encoding="utf-8").read()
    for m in re.finditer(r"^\s*" + word + r"\b[^{]*\{", text, re.M):
        depth, k = 1, m.end()
        while depth:
            depth += {"{": 1, "}": -1}.get(text[k], 0)
            k += 1
        yield text.count("\n", 0, m.start()) + 1, " ".join(text[m.end() : k - 1].split())


def matching(pattern):
    for path in files():
        for n, text in code(path):
            if re.search(pattern, text):
                yield f"{path}:{n}: {text.strip()}"


def point_1():
    """Own enums of the shape of Option or Result, flags beside values, numbers for kinds and refusals."""
    for path in files():
        text = "\n".join(t for _, t in code(path))
        for m in re.finditer(r"\benum (\w+) \{(.*?)\n\}", text, re.S):
            variants = re.findall(r"^    (\w+)( \{|\(|,)", m.group(2), re.M)
            if len(variants) == 2:
                yield f"{path}: enum {m.group(1)} of {' and '.join(v for v, _ in variants)}"
    yield from matching(r"^\s*pub \w+: bool,|\{ .*\b\w+: bool \}")
    yield from matching(KIND_NUMBERS)


def point_2():
    """Functions of one shape: bodies of 45 words and signs or more that differ in names, types and numbers."""
    shapes = []
    for path in files():
        for name, n, _, body in functions(path):
            tokens = [re.sub(r"\w+", lambda m: m.group(0) if m.group(0) in KEPT else "n", t) for t in re.findall(r"\w+|[^\w\s]", body)]
            if len(tokens) >= 45:
                shapes.append((path, n, name, tokens))
    for k, (path, n, name, tokens) in enumerate(shapes):
        for other, o, twin, shape in shapes[k + 1 :]:
            m = SequenceMatcher(None, tokens, shape, autojunk=False)
            if m.real_quick_ratio() > 0.9 and m.quick_ratio() > 0.9 and m.ratio() > 0.9:
                yield f"{path}:{n}: {name} and {other}:{o}: {twin}"


KEPT = set("let mut if else while for in match return true false as".split())


def point_3():
    """Loops whose index is counted by hand."""
    yield from matching(r"\bwhile\b")


def point_4():
    """Comparisons, copies, conversions and printing by hand."""
    yield from matching(BY_HAND)


def point_5():
    """Facts in the contracts of three or more functions, and functions that take eight parameters or more."""
    facts = defaultdict(list)
    for path in files():
        for n, clause in clauses(path, "requires"):
            for fact in re.split(r" × ", clause):
                facts[fact.strip("() ")].append(f"{path}:{n}")
    for fact, places in sorted(facts.items()):
        if len(places) >= 3:
            yield f"{len(places)} functions require {fact}: {', '.join(places)}"
    for path in files():
        for name, n, names, _ in functions(path):
            if len(names) >= 8:
                yield f"{path}:{n}: {name} takes {len(names)}"


def point_6():
    """Buffers with a length beside them, parallel arrays, lists searched by hand."""
    yield from matching(r"\bused: usize[,)]|\[u64; MOST_PATHS\]|\[u(32|64); (CODE_WORDS|2 \* MOST_INPUTS|MOST_INPUTS|CODE_PAYLOAD)\]|\blows: &")


def point_7():
    """Switches on which step to run."""
    yield from matching(r"\bmatch (row|i)\b")


def point_8():
    """Answers in proofs/ of two functions or more that are one text but for names."""
    seen = defaultdict(list)
    for path in sorted(glob.glob("crates/*/proofs/**/Answers.antt", recursive=True)):
        for n, line in enumerate(open(path, encoding="utf-8"), 1):
            m = PROOF_ANSWER.match(line)
            if m and len(line) > 60:
                seen[re.sub(r"\bc\.[\w.-]+", "c", line[m.end() :].strip())].append(f"{path}:{n}")
    for text, places in sorted(seen.items()):
        if len(places) >= 2:
            yield f"{len(places)} answers are {text[:80]}: {places[0]}, .."


def main():
    wanted = [int(a) for a in sys.argv[1:]] or range(1, 9)
    for k in wanted:
        rows = list(globals()[f"point_{k}"]())
        for row in rows:
            print(f"{k}: {row}")
        print(f"point {k}: {len(rows)}")


main()
