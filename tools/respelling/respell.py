#!/usr/bin/env python3
"""Brings the names of this repository's definitions and lemmas to today's spelling, by the table names.tsv beside it.

usage: tools/respelling/respell.py     at the top of the repository, once

A name is a whole word of an .antt file, of a .rt file or of a must-fail edit, or a word between backticks in README.md and docs/.
In a comment only words between backticks are names. Files are rewritten in place.
"""
import os
import re
import sys

HERE = os.path.dirname(os.path.realpath(__file__))
NAME = re.compile(r"[A-Za-zα-ωΑ-Ω][\w'₀-₉ℕℤ]*(?:-[\w'₀-₉ℕℤ^]+)*")
TICKS = re.compile(r"`[^`\n]*`")


def table():
    with open(os.path.join(HERE, "names.tsv"), encoding="utf-8") as f:
        return dict(line.rstrip("\n").split("\t") for line in f)


def words(text, names):
    return NAME.sub(lambda m: names.get(m.group(0), m.group(0)), text)


def ticked(text, names):
    return TICKS.sub(lambda m: words(m.group(0), names), text)


def code(text, names, mark):
    """Names in the code of a text, and those between backticks in its comments."""
    lines = []
    for line in text.split("\n"):
        at = line.find(mark)
        cut = len(line) if at < 0 else at
        lines.append(words(line[:cut], names) + ticked(line[cut:], names))
    return "\n".join(lines)


def edit(text, names):
    lines = []
    for line in text.split("\n"):
        known = line.startswith(("old: ", "new: "))
        lines.append(words(line, names) if known else ticked(line, names))
    return "\n".join(lines)


def turned(path, text, names):
    if path.endswith(".antt"):
        return code(text, names, "--")
    if path.endswith(".rt"):
        return code(text, names, "//")
    if path.endswith(".edit"):
        return edit(text, names)
    if path.endswith(".md"):
        return ticked(text, names)
    return text


def files():
    for top in ("crates", "docs", "README.md"):
        if os.path.isfile(top):
            yield top
        for folder, inner, names in os.walk(top):
            inner[:] = sorted(d for d in inner if d != "out")
            for name in sorted(names):
                yield os.path.join(folder, name)


def main():
    if not os.path.isfile("crates.txt"):
        print("respell: run it at the top of the repository", file=sys.stderr)
        return 2
    names = table()
    changed = 0
    for path in files():
        if not path.endswith((".antt", ".rt", ".edit", ".md")):
            continue
        with open(path, encoding="utf-8", newline="") as f:
            text = f.read()
        new = turned(path, text, names)
        if new != text:
            changed += 1
            with open(path, "w", encoding="utf-8", newline="") as f:
                f.write(new)
    print(f"respell: {changed} files")
    return 0


if __name__ == "__main__":
    sys.exit(main())
