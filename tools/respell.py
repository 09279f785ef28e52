#!/usr/bin/env python3
"""Spells this repository's own names of specs/ and proofs/ as today's Rattle does: words in snake case.

usage: tools/respell.py [--list]      at the top of the repository, once, after the kit's port script

A name that a .antt file declares (a definition, a lemma, a field, a constructor) and that begins with a small letter
turns from firstPair or first-pair to first_pair, everywhere: in .antt files, in the clauses and `ghost use` items of
.rt files, in must-fail edits, and in code spans of the pages. Types and modules, functions of src/, labels that Rattle
makes and quoted text stay. Two names of one file that would become one are told, and then nothing is written, but for
those that NEW names: they get another spelling.
"""

import collections
import pathlib
import re
import sys

WORD = re.compile(r'[^\s(){}.;,@"«»]+')
DECLARED = re.compile(r"(?m)^ *((?:(?:pub|abbrev|unfoldable|pattern) )*)([^\s(){}.;,@\"]+(?: [^\s(){}.;,@\"]+)*?)(?: \{[^{}\n]*\})* : (.*)$")
GOAL = re.compile(r"(?:tie|goal)\.")
SKIP = {"use", "where", "record", "data", "let", "in"}

# names that would fall together with another: old, new
NEW = {"bit-and": "bit_of_and", "bit-xor": "bit_of_xor", "some_below": "some_below_lem", "x-part": "x_part", "z-part": "z_part"}
# the same where a function of src/ or another crate's lemma has the name: only in these files
NEW_IN = {
    "crates/maxnto/proofs/Examples.antt": {"too_short": "too_short_lem"},
    "crates/majorana/proofs/CheckAnswers.antt": {"rows_short": "rows_short_lem"},
    "crates/majorana/proofs/check_rows/Proof.antt": {"rows_short": "rows_short_lem"},
}
# no clash: one of the two is another crate's, or a field
APART = {("plainAt", "plain_at"), ("x-part", "xPart"), ("z-part", "zPart")}


def snake(name):
    name = re.sub(r"(?<=[a-z0-9])[A-Z]", lambda m: "_" + m[0].lower(), name)
    return re.sub(r"(?<=\w)-(?=\w)", "_", name)


def quiet(text):
    """The text without comments and quoted text."""
    return re.sub(r'"(?:[^"\\\n]|\\.)*"|(?<![^\s(){};,])--[^\n]*', " ", text)


def declared(text):
    for m in DECLARED.finditer(quiet(text)):
        if GOAL.match(m[3]) or "→ statement" in m[3]:
            continue
        for name in m[2].split(" "):
            if name[0].islower() and name not in SKIP and "◌" not in name:
                yield name


def of_library(text, crates):
    """The names that a .antt text imports from no crate of this repository: they stay in it."""
    found = set()
    for path, items in re.findall(r"(?m)^use ([^\s{]+?)\.?\{([^}]*)\}", text):
        steps = path.split(".")
        if steps[0] != "Rattle" or len(steps) < 2 or steps[1] not in crates:
            found.update(it.strip().split(" as ")[0] for it in items.split(","))
    return found


def turn(text, table):
    return WORD.sub(lambda m: table.get(m[0], m[0]), text)


def turn_rt(text, table):
    """In a .rt file: everything but string literals, since no Rust name has a dash or a capital behind a small letter."""
    parts = re.split(r'("(?:\\.|[^"\\])*")', text)
    return "".join(p if i % 2 else turn(p, table) for i, p in enumerate(parts))


def turn_page(text, table):
    """In a page: its code spans."""
    return re.sub(r"`([^`\n]+)`", lambda m: "`" + turn(m[1], table) + "`", text)


def main():
    root = pathlib.Path(".")
    antt = sorted(p for p in root.glob("crates/*/**/*.antt") if "out" not in p.parts)
    rt = sorted(p for p in root.glob("crates/*/src/**/*.rt"))
    edits = sorted(root.glob("crates/*/must-fail/*.edit"))
    pages = [root / "README.md", *sorted(root.glob("docs/*.md"))]
    names = set()
    for p in antt:
        names.update(declared(p.read_text()))
    # a lemma that would have a definition's name ends in _lem
    taken = collections.Counter(snake(n) for n in names)
    table = {n: NEW.get(n, snake(n) + "_lem" * ("-" in n and taken[snake(n)] > 1)) for n in names}
    table = {n: s for n, s in table.items() if n != s}
    if "--list" in sys.argv:
        for n in sorted(table):
            print(n, table[n])
        return 0
    functions = {f for p in rt for f in re.findall(r"\bfn (\w+)", p.read_text())}
    clash = collections.defaultdict(set)
    for p in antt:
        # a definition may have the name of a function of src/, of which a path or a fact of its proof speaks
        words = set(WORD.findall(quiet(p.read_text()))) - (functions - names)
        back = collections.defaultdict(set)
        for w in words:
            back[NEW_IN.get(str(p), {}).get(w, table.get(w, w))].add(w)
        for new, olds in back.items():
            if len(olds) > 1 and tuple(sorted(olds)) not in APART:
                clash[(new, tuple(sorted(olds)))].add(str(p))
    if clash:
        for (new, olds), where in sorted(clash.items()):
            print(f"{', '.join(olds)} would both be {new}: {', '.join(sorted(where))[:400]}")
        return 1
    crates = {p.name for p in root.glob("crates/*")}
    for p in antt + edits:
        text = p.read_text()
        stays = {n: n for n in of_library(text, crates)}
        p.write_text(turn(text, {**table, **NEW_IN.get(str(p), {}), **stays}))
    for p in rt:
        p.write_text(turn_rt(p.read_text(), table))
    for p in pages:
        p.write_text(turn_page(p.read_text(), table))
    print(f"{len(table)} names")
    return 0


if __name__ == "__main__":
    sys.exit(main())
