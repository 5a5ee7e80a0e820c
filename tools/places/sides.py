#!/usr/bin/env python3
"""Prints each public signature, clause and type that differs between two checkouts, old and new.

    python3 tools/places/sides.py OLD [NEW]

OLD and NEW are the tops of two checkouts (NEW: this one, unless given). Tests and the program are left out. Old stands after
`-`, new after `+`; what is not printed is the same.
"""
import pathlib
import re
import sys

LEFT_OUT = {"model_tests", "text_tests", "vector_tests", "depot"}


def head(lines, at):
    """A function's signature and clauses, up to its body."""
    words = [lines[at].strip()]
    while not words[-1].endswith(";") and (
        not words[-1].endswith("{") or words[-1].startswith(("requires", "ensures"))
    ):
        following = lines[at + 1].strip() if at + 1 < len(lines) else "{"
        if following == "{":
            break
        at += 1
        words.append(following)
    text = re.sub(r"\s*\{$", "", " ".join(words))
    return re.sub(r"\s+", " ", text).replace("( ", "(").replace(", )", ")")


def public_items(top):
    items = {}
    for path in sorted(top.glob("crates/*/src/**/*.rt")):
        crate = path.relative_to(top).parts[1]
        if crate in LEFT_OUT:
            continue
        lines = path.read_text().split("\n")
        block = ""
        for at, line in enumerate(lines):
            found = re.match(r"(?:pub )?(impl|trait)\b(.*)\{$", line)
            if found:
                block = (found.group(1) + found.group(2)).strip()
            if line == "}":
                block = ""
            found = re.match(r"\s*(pub )?fn (\w+)", line)
            if found and (found.group(1) or block.startswith("trait")):
                items[crate, block, found.group(2)] = head(lines, at)
            found = re.match(r"pub (struct|enum) (\w+)", line)
            if found:
                end = lines.index("}", at) if line.endswith("{") else at
                parts = [part.strip() for part in lines[at : end + 1] if not part.strip().startswith("//")]
                items[crate, found.group(1), found.group(2)] = " ".join(parts)
    return items


def shown(key, text):
    place = f"[{key[1]}] " if key[1] not in ("", "struct", "enum") else ""
    return place + text.replace(" ensures ", "\n    ensures ").replace(" requires ", "\n    requires ")


def main():
    old = public_items(pathlib.Path(sys.argv[1]))
    new = public_items(pathlib.Path(sys.argv[2]) if len(sys.argv) > 2 else pathlib.Path(__file__).parents[2])
    for crate in sorted({key[0] for key in [*old, *new]}):
        keys = [key for key in sorted({*old, *new}) if key[0] == crate and old.get(key) != new.get(key)]
        if keys:
            print(f"### {crate}\n\n```text")
            for key in keys:
                for sign, items in (("-", old), ("+", new)):
                    if key in items:
                        print(sign, shown(key, items[key]))
            print("```\n")


main()
