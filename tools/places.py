#!/usr/bin/env python3
"""Lists the places in crates/*/src that an older Rust would write by hand.

    python3 tools/places.py [POINT] [--root DIR] [--count]

Each kind of place is found by its text, so a row is a place to look at, and docs/DESIGN-PASS.md says what became of it.
"""
import collections
import glob
import os
import re
import sys

KEYWORDS = set("""as break const continue crate else enum false fn for if impl in let loop match mod move mut pub ref
return self Self static struct super trait true type use where while Some None Ok Err u8 u16 u32 u64 usize bool str
Option Result Vec String""".split())


def code_lines(path):
    """The lines of a file with their numbers, without comments and clauses."""
    depth = 0
    clause = False
    for number, line in enumerate(open(path, encoding="utf-8"), 1):
        text = line.rstrip("\n")
        if re.match(r"\s*//", text):
            continue
        if clause or re.match(r"\s*(ensures|requires|ghost)\b", text):
            depth += text.count("{") - text.count("}")
            clause = depth > 0
            continue
        yield number, text


def functions(path):
    """Each function of a file: its line, its name, its head and the lines of its body."""
    lines = list(code_lines(path))
    i = 0
    while i < len(lines):
        number, text = lines[i]
        found = re.match(r"(\s*)(pub(\(crate\))? )?(const )?fn (\w+)", text)
        if not found:
            i += 1
            continue
        indent = found.group(1)
        head = [text]
        while not lines[i][1].rstrip().endswith(("{", ";", "{}")) and i + 1 < len(lines):
            i += 1
            head.append(lines[i][1])
        body = []
        if lines[i][1].rstrip().endswith("{"):
            i += 1
            while i < len(lines) and lines[i][1] != indent + "}":
                body.append(lines[i][1])
                i += 1
        yield number, found.group(5), " ".join(h.strip() for h in head), body
        i += 1


def shape(body):
    """The body with its names, numbers and texts replaced by where they first stand."""
    text = re.sub(r'b?"[^"]*"|b?\'[^\']*\'', "T", "\n".join(b.strip() for b in body))
    seen = {}

    def put(m):
        word = m.group(0)
        if word in KEYWORDS:
            return word
        return seen.setdefault(word, f"x{len(seen)}")

    return re.sub(r"\b\w+\b", put, text)


REWRAP = re.compile(
    r"None => (None|Err\(|return (None|Err))|Err\(_\) => (Err|None)|Some\(_\) => (Some|Ok)\("
    r"|Ok\((\w+)\) => (Ok|Some)\(\5\)|Err\((\w+)\) => Err\(\7\)|Some\((\w+)\) => (Ok|Some)\(\8\)"
)

LINE = {
    "1 wraps again what it matched": REWRAP,
    "1 a number for a refusal or a kind": re.compile(r"fn number\(|\bnumber: u8\b|_KIND\b.*: u8 =|Result<[^>]*, u8>"),
    "1 a result that says nothing": re.compile(r"fn \w+\(\) -> u8\b"),
    "1 a flag that chooses a kind": re.compile(r"\b(?!holds)\w+: bool[,)]"),
    "1 a flag beside a value": re.compile(r"\bmode: \w*Mode\b|Mode::\w+ =>"),
    "1 a value that stands for none": re.compile(r"const NO_[A-Z]+\b"),
    "3 counts over a range": re.compile(r"^\s*for .* in .*\.\."),
    "3 a while or loop": re.compile(r"^\s*(while|loop)\b"),
    "4 a match that is a test": re.compile(r"=> (true|false),?$"),
    "4 a text by a match": re.compile(r'=> "[^"]*",?$'),
    "4 as where From widens": re.compile(r"\bas u64\b"),
    "6 an array with a count beside": re.compile(r"^\s*(pub )?\w+: \[\w+; \w+\],$"),
    "6 a sorted list searched": re.compile(r"binary_search|partition_point"),
    "7 dyn or a function pointer": re.compile(r"\bdyn\b|: fn\("),
}


def sources(root):
    for path in sorted(glob.glob(os.path.join(root, "crates", "*", "src", "**", "*.rt"), recursive=True)):
        yield path


def places(root):
    rows = []
    shapes = collections.defaultdict(list)
    requires = collections.defaultdict(list)
    together = collections.defaultdict(list)
    for path in sources(root):
        name = os.path.relpath(path, root)
        for number, text in code_lines(path):
            for kind, pattern in LINE.items():
                if pattern.search(text):
                    rows.append((kind, f"{name}:{number}", text.strip()))
        for number, text in enumerate(open(path, encoding="utf-8"), 1):
            m = re.match(r"\s*requires (\w+ )?(\{.*\})\s*$", text)
            if m:
                requires[m.group(2)].append(f"{name}:{number}")
        for number, fn, head, body in functions(path):
            if len(body) >= 3:
                shapes[shape(body)].append((f"{name}:{number}", fn))
            params = re.findall(r"(\w+): ([^,()]+(?:<[^>]*>)?)", head)
            names = tuple(sorted(p for p, _ in params if not re.fullmatch(r"[A-Z]", p)))
            crate = name.split("/")[1]
            for a in range(len(names)):
                for b in range(a + 1, len(names)):
                    together[(crate, names[a], names[b])].append(f"{name}:{number} {fn}")
    for group in shapes.values():
        if len(group) > 1:
            for place, fn in group:
                rows.append(("2 the same shape as another function", place, fn + " ~ " + ", ".join(g for _, g in group if g != fn)))
    for text, where in requires.items():
        if len(where) >= 3:
            for place in where:
                rows.append(("5 a requires that stands three times or more", place, text))
    for (crate, a, b), where in together.items():
        if len(where) >= 5:
            rows.append(("5 parameters that travel together", where[0], f"{a}, {b}: {len(where)} functions of {crate}"))
    return rows


def main():
    args = sys.argv[1:]
    root = "."
    if "--root" in args:
        at = args.index("--root")
        root = args[at + 1]
        del args[at : at + 2]
    count = "--count" in args
    args = [a for a in args if a != "--count"]
    rows = sorted(places(root))
    if args:
        rows = [r for r in rows if r[0].startswith(args[0] + " ")]
    kinds = collections.Counter(r[0] for r in rows)
    tests = collections.Counter(r[0] for r in rows if "_tests/" in r[1] or "test_" in r[1])
    if not count:
        for kind, place, text in rows:
            print(f"{kind} | {place} | {text}")
    for kind in sorted(kinds):
        print(f"{kinds[kind]:4} {kind}, {tests[kind]} of them in tests")


if __name__ == "__main__":
    main()
