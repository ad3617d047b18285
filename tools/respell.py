#!/usr/bin/env python3
"""Brings the repository's own names to Rattle's spelling: words in snake case, a dash in a law's name only between the names of two words.

usage: python3 tools/respell.py     once, at the top of a checkout, right after the toolchain's own port script

tools/respell.txt lists the names, old and new. A name is turned where it stands alone: in definitions, laws and clauses, in the old and new
text of must-fail edits, in comments, and between backquotes in the pages. Words that are also English stay in comments.
"""
import os
import re

HERE = os.path.dirname(os.path.abspath(__file__))
TOP = os.path.dirname(HERE)
NAME = re.compile(r"[^\s(){}\[\],;.\":`]+")
ENGLISH = {"set-up", "one-to-one", "best-fit", "first-fit", "no-waste", "log-right"}
SKIPPED = {".git", "out", "target"}
# Laws that changed their name, and had that of a function of src/.
FUNCTIONS = {"any_held", "first_below", "held_by", "step_by"}

with open(os.path.join(HERE, "respell.txt"), encoding="utf-8") as table:
    NEW = dict(line.split() for line in table)


def turned(text, kept=frozenset()):
    """The text with each listed name in its new spelling, but for those in `kept` and the parts of a path that a module follows."""

    def new(m):
        module = re.match(r"\.[A-Z]", text[m.end() :])
        return m.group() if module or m.group() in kept else NEW.get(m.group(), m.group())

    return NAME.sub(new, text)


def code(line, mark):
    """A line of a source: a comment keeps words that are also English, and a string stays."""
    at = 0 if line.lstrip().startswith(mark) else line.find(" " + mark)
    at = len(line) if at < 0 else at
    pieces = re.split(r'("(?:[^"\\]|\\.)*")', line[:at]) if mark == "//" else [line[:at]]
    kept = FUNCTIONS if mark == "//" else frozenset()
    return "".join(p if p.startswith('"') else turned(p, kept) for p in pieces) + turned(line[at:], ENGLISH)


def edit(line):
    return turned(line) if line.startswith(("old:", "new:")) else turned(line, ENGLISH) if line.startswith("#") else line


def page(line):
    return re.sub(r"`[^`]*`", lambda m: turned(m.group()), line)


def how(path):
    if path.endswith(".antt"):
        return lambda line: code(line, "--")
    if path.endswith(".rt"):
        return lambda line: code(line, "//")
    return edit if path.endswith(".edit") else page if path.endswith(".md") else None


def main():
    for folder, folders, files in os.walk(TOP):
        folders[:] = sorted(f for f in folders if f not in SKIPPED)
        for name in sorted(files):
            path = os.path.join(folder, name)
            by = how(path)
            if by is None:
                continue
            with open(path, encoding="utf-8") as it:
                old = it.read()
            new = "".join(by(line) for line in old.splitlines(keepends=True))
            if new != old:
                with open(path, "w", encoding="utf-8") as it:
                    it.write(new)


main()
