#!/usr/bin/env python3
"""Lists the places in crates/*/src where an older form of the language may stand for a newer one.

    python3 tools/places/places.py [TOP] [POINT..]

TOP is the top of a checkout (this one, unless given); with points (1 to 7) only those are listed. Each place is one line,
`point  file:line  what`. It finds candidates: docs/DESIGN-PASS.md says which were changed and which stay.
"""
import collections
import pathlib
import re
import sys

# An arm that takes an Option apart only to make another one, or to put a value in the place of none.
NONE_ARM = re.compile(r"None => (None|0|Span|Move|false|return None)\b")
# A number code for what was refused, with 0 for what was not; a boolean or a number that picks a case.
CODES = re.compile(r"\(u8, usize|, u8, usize|\((u32|u64), u8, usize|-> \[u8; 3\]|fn \w+\((case|list): usize|\blist: usize")
FLAGS = re.compile(r"\b\w+: bool\b")
COUNTED = re.compile(r"for (?!_ )\w+ in .+\.\..+ \{|for \(\w+, \w+\) in .*enumerate\(\)|^while ")
BY_HAND = re.compile(
    r"as u8 ==|^impl (PartialEq|Eq|PartialOrd|Ord|Clone|Copy|Debug|Default|Hash) for"
    r"|\bas u64\b|=> \"\w+\",|fn same(_bytes)?\("
)
BUFFERS = re.compile(
    r"^(pub )?\w+: \[\w+; \w+\],$|\[u32; 3\].*(count: usize|, usize)|^pub \w+: (Vec<u32>|&'a (mut )?\[u32\]),|^(pub )?count: usize"
)
SWITCHES = re.compile(r"\b\w+: bool\b|\bdyn \b|: fn\(|\bmatch (kind|side) \{|fn keep\(self")


def sources(top):
    for path in sorted(top.glob("crates/*/src/**/*.rt")):
        yield path.relative_to(top), path.read_text()


def by_line(text, pattern):
    for number, line in enumerate(text.splitlines(), 1):
        code = line.split("//")[0].strip()
        if pattern.search(code):
            yield number, code


def functions(text):
    """Each function: line, name, parameters, clauses, body."""
    for found in re.finditer(r"^( *)(?:pub(?:\(crate\))? )?fn (\w+)", text, re.M):
        indent = found.group(1)
        end = re.compile(r"^" + indent + r"(\}|.*\) -> [^{]*;)$", re.M).search(text, found.end())
        whole = text[found.start() : end.end() if end else len(text)]
        line = text.count("\n", 0, found.start()) + 1
        yield line, found.group(2), whole


def parameters(whole):
    found = re.search(r"fn \w+(?:<[^(]*>)?\(([^)]*)\)", whole, re.S)
    names = []
    for part in (found.group(1) if found else "").split(","):
        if ":" in part:
            names.append(part.split(":")[0].replace("mut ", "").strip())
    return [name for name in names if name not in ("self", "rt", "heap")]


KEYWORDS = set("fn pub for in if else match let mut return while break impl usize u32 u64 u8 bool Some None Ok Err".split())


def shape(whole):
    """The code with no clause, name, number or string of its own."""
    code = "\n".join(
        line for line in whole.splitlines() if not re.match(r"\s*(requires|ensures|//)", line)
    )
    code = re.sub(r"^ *pub(\(crate\))? ", "", code)
    words = re.findall(r"\w+|\"[^\"]*\"|'.'|[^\w\s]", code)
    return " ".join(w if w in KEYWORDS or not re.match(r"[\w\"']", w) else "_" for w in words)


def twins(top):
    groups = collections.defaultdict(list)
    for path, text in sources(top):
        for line, name, whole in functions(text):
            form = shape(whole)
            if len(form.split()) >= 24:
                groups[form].append((path, line, name))
    for group in groups.values():
        if len(group) > 1:
            yield group


def repeated(top):
    clauses = collections.defaultdict(list)
    pairs = collections.defaultdict(list)
    for path, text in sources(top):
        for number, line in enumerate(text.splitlines(), 1):
            found = re.match(r"\s*(?:requires|ensures)(?: \w+)? (\{.*\})$", line)
            if found:
                clauses[found.group(1)].append((path, number))
        for line, name, whole in functions(text):
            names = parameters(whole)
            for i, first in enumerate(names):
                for second in names[i + 1 :]:
                    pairs[(first, second)].append((path, line, name))
    return clauses, pairs


def main():
    words = sys.argv[1:]
    top = pathlib.Path(words.pop(0)) if words and not words[0].isdigit() else pathlib.Path(__file__).parents[2]
    wanted = set(words) or set("1234567")
    counts = collections.Counter()

    def tell(point, where, what):
        if point in wanted:
            counts[point] += 1
            print(f"{point}  {where}  {what}")

    for path, text in sources(top):
        for point, pattern in (("1", CODES), ("1", FLAGS), ("1", NONE_ARM), ("3", COUNTED), ("4", BY_HAND), ("6", BUFFERS), ("7", SWITCHES)):
            for number, line in by_line(text, pattern):
                tell(point, f"{path}:{number}", line[:100])
    for group in twins(top):
        tell("2", f"{group[0][0]}:{group[0][1]}", " ~ ".join(f"{p.parts[1]}:{n}" for p, _, n in group))
    clauses, pairs = repeated(top)
    for clause, found in clauses.items():
        if len(found) >= 3:
            tell("5", f"{found[0][0]}:{found[0][1]}", f"{len(found)} times {clause[:90]}")
    for (first, second), found in pairs.items():
        if len(found) >= 3:
            tell("5", f"{found[0][0]}:{found[0][1]}", f"{first}, {second} together in {len(found)} functions")
    print("  ".join(f"point {point}: {counts[point]}" for point in sorted(wanted)))


main()
