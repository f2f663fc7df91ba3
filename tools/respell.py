#!/usr/bin/env python3
"""Respells the repository's own definitions and lemmas as tools/names.txt says, an old and a new name to a line.

    python3 tools/respell.py [FOLDER]     (FOLDER: the top of a checkout; default: the current folder)

A name is respelled where it stands as a whole word: in specs/ and proofs/, in sources, in the edits that must fail, and
in the documents between backticks. Names with a dash are left alone in comments, where they may be plain words.
Functions of src/, strings, inputs and outputs have none of the old names. docs/PORT.md, which tells the old names, is
left alone."""
import pathlib
import re
import sys

HERE = pathlib.Path(__file__).resolve().parent
NAMES = dict(line.split() for line in (HERE / "names.txt").read_text().splitlines())
WORD = re.compile(r"[^\s(){}\[\];,.:@\"`]+")


def respelled(text):
    return WORD.sub(lambda word: NAMES.get(word.group(0), word.group(0)), text)


def respelled_comment(text):
    return WORD.sub(lambda word: word.group(0) if "-" in word.group(0) else respelled(word.group(0)), text)


def with_comments(text, mark):
    lines = []
    for line in text.split("\n"):
        code, sep, comment = line.partition(mark)
        lines.append(respelled(code) + sep + respelled_comment(comment))
    return "\n".join(lines)


def turned(path, text):
    if path.suffix == ".antt":
        return with_comments(text, "--")
    if path.suffix == ".rt":
        return with_comments(text, "//")
    if path.suffix == ".edit":
        return respelled(text)
    return re.sub(r"`[^`\n]*`", lambda code: respelled(code.group(0)), text)


def main():
    top = pathlib.Path(sys.argv[1] if sys.argv[1:] else ".")
    patterns = [
        "crates/*/specs/**/*.antt",
        "crates/*/proofs/**/*.antt",
        "crates/*/src/**/*.rt",
        "crates/*/must-fail/*.edit",
        "docs/*.md",
        "README.md",
    ]
    for path in sorted(path for pattern in patterns for path in top.glob(pattern)):
        if path.name == "PORT.md":
            continue
        old = path.read_text()
        new = turned(path, old)
        if new != old:
            path.write_text(new)


if __name__ == "__main__":
    main()
