#!/usr/bin/env python3
"""Brings the repository's own definitions and lemmas to the spelling of today's Rattle, once, after port.py.

usage: python3 tools/respell.py        at the top of the checkout

A definition in lower camel case gets snake case (`successorSet` is `successor_set`), and so does a part of a lemma's name that is one (`setOf-lt` is `set_of-lt`);
a ruleset's middle dot becomes `_`. A name that would fall together with another is listed in OTHERS. Rust functions, exported C names, strings, inputs and outputs
keep their names: the files of src/ are turned outside strings, the edits in must-fail/ too, and the pages between backticks only.
"""
import glob
import re

# Names that would fall together with another of the repository or of the library, and definitions with a dash.
OTHERS = {
    "setAt": "place_set",  # the library has set_at
    "numbers_of": "numbers_of-at",  # a lemma, beside the definition numbersOf
    "from_cell": "from-cell",  # a constructor beside set-cell, and the definition fromCell
    "withdrawals-here": "withdrawals_here",
    "states-here": "states_here",
    "transitions-here": "transitions_here",
    "left-of": "left_of",
    "new-set": "new_set",
}
TOKEN = re.compile(r"--[^\n]*|//[^\n]*|\"(?:[^\"\\]|\\.)*\"|[^\s(){}.;,@\"«»\[\]\\λ`]+")
CAMEL = re.compile(r"^(?:[a-z0-9_]+-)?[a-z][a-z0-9_]*[A-Z]")


def snake(name):
    return re.sub(r"(?<=[a-z0-9])[A-Z]", lambda m: "_" + m.group(0).lower(), name)


def turned(name):
    if name in OTHERS:
        return OTHERS[name]
    if name.endswith("·unfold"):
        return name.replace("·", "_")
    if CAMEL.match(name) and name.isascii():
        return snake(name)
    return name


def code(text, rust):
    """The text of a file of specs/, proofs/ or src/, its comments too; in Rust only camel case, since from_cell and numbers_of are functions there."""

    def one(m):
        t = m.group(0)
        if t.startswith('"'):
            return t
        if t.startswith(("--", "//")):
            return re.sub(r"`([^`]*)`", lambda n: "`" + words(n.group(1), True) + "`", t)
        return turned(t) if not rust or CAMEL.match(t) or t in ("setAt",) else t

    return TOKEN.sub(one, text)


def words(text, rust):
    return TOKEN.sub(lambda m: m.group(0) if m.group(0).startswith('"') else (turned(m.group(0)) if not rust or CAMEL.match(m.group(0)) else m.group(0)), text)


def page(text):
    return re.sub(r"`([^`\n]*)`", lambda m: "`" + words(m.group(1), True) + "`", text)


def edit(text):
    lines = []
    for line in text.split("\n"):
        m = re.match(r"(old|new): ", line)
        if m:
            line = m.group(0) + code(line[m.end() :], ".antt" not in text)
        lines.append(line)
    return "\n".join(lines)


def rewrite(path, by):
    with open(path, encoding="utf-8", newline="") as f:
        old = f.read()
    new = by(old)
    if new != old:
        with open(path, "w", encoding="utf-8", newline="") as f:
            f.write(new)


def main():
    for path in sorted(glob.glob("crates/*/specs/**/*.antt", recursive=True) + glob.glob("crates/*/proofs/**/*.antt", recursive=True)):
        rewrite(path, lambda text: code(text, False))
    for path in sorted(glob.glob("crates/*/src/**/*.rt", recursive=True)):
        rewrite(path, lambda text: code(text, True))
    for path in sorted(glob.glob("crates/*/must-fail/*.edit")):
        rewrite(path, edit)
    for path in sorted(["README.md"] + glob.glob("docs/**/*.md", recursive=True)):
        rewrite(path, page)


main()
