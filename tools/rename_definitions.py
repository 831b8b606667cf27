#!/usr/bin/env python3
"""Spells the repository's own definitions and lemmas as the toolchain's library does: words in snake case.

usage: tools/rename_definitions.py [ROOT]

Reads the table beside it, definition_names.txt: a line for each name, the old spelling and the new one. Names are turned
in specs/ and proofs/, in the clauses and ghost items of src/, in must-fail edits, and between backticks in README.md and
docs/. Names that the check makes (a step of a proof is written behind a dot) and text between quotes stay as they are; in
comments only names that have a capital inside are turned, since a dashed one may be prose. It was run once.
"""

import os
import re
import sys

HERE = os.path.dirname(os.path.realpath(__file__))
TOKEN = re.compile(r"[^\s(){}.;,:λ\[\]\"|`!?&←]+")
CAPITAL_INSIDE = re.compile(r"[a-z]+[A-Za-z0-9]*[A-Z]")


def table():
    with open(os.path.join(HERE, "definition_names.txt"), encoding="utf-8") as f:
        return dict(line.split() for line in f if line.strip())


def turned(text, names, allowed):
    """The text with each name of the table turned that is allowed at its place."""

    def one(m):
        word = m.group(0)
        behind_dot = m.start() > 0 and text[m.start() - 1] == "."
        if word not in names or not allowed(word):
            return word
        if behind_dot and "-" in word:
            return word
        return names[word]

    return TOKEN.sub(one, text)


def turned_line(line, names, comment, allowed):
    """A line of code: its text outside quotes, and its comment."""
    # quotes and the comment are kept apart from the code
    parts = re.split(r'("(?:[^"\\]|\\.)*")', line)
    out, rest = [], False
    for i, part in enumerate(parts):
        if rest:
            out.append(turned(part, names, CAPITAL_INSIDE.match))
        elif i % 2:
            out.append(part)
        else:
            at = part.find(comment)
            if at < 0:
                out.append(turned(part, names, allowed))
            else:
                rest = True
                out.append(turned(part[:at], names, allowed))
                out.append(turned(part[at:], names, CAPITAL_INSIDE.match))
    return "".join(out)


def any_name(word):
    return True


def named_in_source(word):
    """A name that no text of Rust can be: functions of src/ keep theirs."""
    return "-" in word or bool(CAPITAL_INSIDE.match(word))


def turn_file(path, names, turn):
    with open(path, encoding="utf-8") as f:
        old = f.read()
    new = "".join(turn(line) for line in old.splitlines(keepends=True))
    if new != old:
        with open(path, "w", encoding="utf-8") as f:
            f.write(new)


def turn_page(line, names):
    return re.sub(r"`[^`]*`", lambda m: turned(m.group(0), names, CAPITAL_INSIDE.match), line)


def main():
    root = sys.argv[1] if len(sys.argv) > 1 else "."
    names = table()
    for folder, dirs, files in os.walk(os.path.join(root, "crates")):
        dirs[:] = sorted(d for d in dirs if d != "out")
        for name in sorted(files):
            path = os.path.join(folder, name)
            if name.endswith(".antt"):
                turn_file(path, names, lambda line: turned_line(line, names, "--", any_name))
            elif name.endswith(".rt"):
                turn_file(path, names, lambda line: turned_line(line, names, "//", named_in_source))
            elif name.endswith(".edit"):
                turn_file(path, names, lambda line: turned_line(line, names, "//", named_in_source))
    pages = [os.path.join(root, "README.md")]
    docs = os.path.join(root, "docs")
    pages += [os.path.join(docs, f) for f in sorted(os.listdir(docs)) if f.endswith(".md")]
    for page in pages:
        turn_file(page, names, lambda line: turn_page(line, names))


if __name__ == "__main__":
    main()
