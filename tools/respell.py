#!/usr/bin/env python3
"""Gives the definitions and lemmas of specs/ and proofs/ names in snake case.

Run once, at the top, after the upgrade's own script: of two pairs of names the new one of the first is
the old one of the second, so a second run would garble them. The names stand in respelled-names.txt
beside this file, old and new. Whole words are replaced, in .antt and .rt files, must-fail edits and
pages; none of the old names is that of a function or field of src/, or stands in a string.
"""
import glob
import pathlib
import re

HERE = pathlib.Path(__file__).parent
NAMES = dict(line.split() for line in (HERE / "respelled-names.txt").read_text().splitlines())
# What ends a name in antt.
WORD = re.compile(r"[^\s(){}.,;«»\[\]`:|]+")


def respell(text):
    return WORD.sub(lambda word: NAMES.get(word.group(0), word.group(0)), text)


def respell_source(text):
    """A .rt file: names with a capital or a dash can only be names of specs/ or proofs/ there."""
    return "".join(
        line if line.lstrip().startswith("//") and "`" not in line else respell(line)
        for line in text.splitlines(keepends=True)
    )


def main():
    for name in sorted(glob.glob("crates/*/specs/**/*.antt", recursive=True) + glob.glob("crates/*/proofs/**/*.antt", recursive=True)):
        path = pathlib.Path(name)
        path.write_text(respell(path.read_text()))
    for name in sorted(glob.glob("crates/*/src/**/*.rt", recursive=True)):
        path = pathlib.Path(name)
        path.write_text(respell_source(path.read_text()))
    for name in sorted(glob.glob("crates/*/must-fail/*.edit")) + sorted(glob.glob("docs/*.md")) + ["README.md"]:
        path = pathlib.Path(name)
        path.write_text(respell(path.read_text()))


if __name__ == "__main__":
    main()
