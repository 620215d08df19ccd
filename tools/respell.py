#!/usr/bin/env python3
"""tools/respell.py: the names of definitions and lemmas in today's spelling.

Run once at the top of the repository, after port.py. tools/respell.txt has the names, OLD NEW a line: words in snake
case, a dash only between the names of two functions, and _lem after a lemma that would have its function's name. Under
'port' stand those that port.py has turned in the proofs already; here they are turned in the pages, the edits and the
lists of tests. Functions of src/, exported names, texts, inputs and outputs keep their names.
"""

import os
import re
import subprocess
import sys

LETTER = r"[A-Za-z0-9_'₀-₉ʹ′″-]"
TOKEN = re.compile(rf"(?<!{LETTER})({LETTER}+)")
# lemmas that port.py gave the name of a function that stood in camel case, and a tactic's word
TAKEN = {"after_last": "after_last_lem", "first_below": "first_below_lem", "moved_by": "moved_by_lem", "first_of": "first_of_tried"}


def names():
    own, port = {}, {}
    part = own
    here = os.path.dirname(os.path.realpath(__file__))
    with open(os.path.join(here, "respell.txt"), encoding="utf-8") as f:
        for line in f:
            words = line.split()
            if words == ["port"]:
                part = port
            elif words and words[0] != "#":
                part[words[0]] = words[1]
    return own, port


def files(*patterns):
    said = subprocess.run(["git", "ls-files", "-z", "--", *patterns], capture_output=True, text=True, check=True).stdout
    return [p for p in said.split("\0") if p]


def turned(text, table, taken=False):
    def new(m):
        word = m.group(1)
        if taken and word in TAKEN and text[m.start() - 1 : m.start()] != ".":
            return TAKEN[word]
        if word == "well-formed" and re.search(r"(^|\s)(--|//) [^\n]*$", text[: m.start()]):
            return word  # the English word, in a comment
        return table.get(word, word)

    return TOKEN.sub(new, text)


def in_backticks(text, table):
    """A page: what stands between backticks, and the blocks that are set in by four spaces."""
    lines = []
    for line in text.split("\n"):
        if line.startswith("    "):
            lines.append(turned(line, table))
        else:
            lines.append(re.sub(r"`[^`]*`", lambda m: turned(m.group(0), table), line))
    return "\n".join(lines)


def write(path, text, old):
    if text != old:
        with open(path, "w", encoding="utf-8") as f:
            f.write(text)


def main():
    own, port = names()
    every = port | own
    for path in files("crates/*.antt", "crates/*.rt"):
        with open(path, encoding="utf-8") as f:
            old = f.read()
        new = turned(old, own, path.endswith(".antt"))
        if path == "crates/numbers/specs/Back.antt":
            new = re.sub(r"(?<![\w'-])byte (?=:|b =|all|\(|s )|(?<=Forall )byte\b", lambda m: m.group(0).replace("byte", "Byte"), new)
        write(path, new, old)
    for path in files("crates/*/must-fail/*.edit", "tests/definitions/*.txt", "tests/wrong/*.txt"):
        with open(path, encoding="utf-8") as f:
            old = f.read()
        write(path, turned(old, every), old)
    for path in files("*.md"):
        with open(path, encoding="utf-8") as f:
            old = f.read()
        write(path, in_backticks(old, every), old)


if __name__ == "__main__":
    sys.exit(main())
