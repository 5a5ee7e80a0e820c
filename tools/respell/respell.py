#!/usr/bin/env python3
"""Brings the definitions and lemmas of this repository to the spelling that Rattle's library has.

usage: python3 tools/respell/respell.py [FOLDER]

Words are in snake case, types and facts in camel case, and in a lemma's name a dash stays only between two names.
names.txt beside this file has a line for each name, old then new. Names are replaced in specs/, proofs/, the clauses
and imports of src/ and the edits of must-fail/; in comments and pages only where they stand between backticks.
Functions of src/, strings, inputs and outputs keep their names. Run it once, after the kit's own script.
"""

import os
import re
import sys

HERE = os.path.dirname(os.path.abspath(__file__))
NAME = re.compile(r"(?<![\w'◌-])[^\W\d][\w'-]*(?![\w'-])")
QUOTED = re.compile(r"`[^`\n]*`")


def table():
    with open(os.path.join(HERE, "names.txt"), encoding="utf-8") as f:
        return dict(line.split() for line in f if line.strip())


def respelled(names, text):
    return NAME.sub(lambda m: names.get(m[0], m[0]), text)


def in_quotes(names, text):
    return QUOTED.sub(lambda m: respelled(names, m[0]), text)


def parts(text, comment):
    """The text cut into pieces of code, strings and comments."""
    kinds = re.compile(r'(?P<note>%s[^\n]*)|(?P<string>b?"(?:\\.|[^"\\])*")' % comment)
    at = 0
    for m in kinds.finditer(text):
        yield "code", text[at : m.start()]
        yield ("note" if m["note"] else "string"), m[0]
        at = m.end()
    yield "code", text[at:]


def turned(names, text, comment):
    say = {"code": respelled, "note": in_quotes, "string": lambda _, t: t}
    return "".join(say[kind](names, piece) for kind, piece in parts(text, comment))


def main(root):
    names = table()
    for folder, dirs, files in os.walk(root):
        dirs[:] = sorted(d for d in dirs if d not in ("out", "target", ".git"))
        for file in sorted(files):
            path = os.path.join(folder, file)
            inside = os.path.relpath(path, root)
            if inside.startswith("crates" + os.sep) and file.endswith((".antt", ".rt", ".edit")):
                turn = lambda t: turned(names, t, "--" if file.endswith(".antt") else "//")
            elif file.endswith(".md"):
                turn = lambda t: in_quotes(names, t)
            else:
                continue
            with open(path, encoding="utf-8") as f:
                old = f.read()
            new = turn(old)
            if new != old:
                with open(path, "w", encoding="utf-8") as f:
                    f.write(new)


if __name__ == "__main__":
    main(sys.argv[1] if len(sys.argv) > 1 else ".")
