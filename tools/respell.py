#!/usr/bin/env python3
"""Brings the repository's own definitions and lemmas to the spelling of today's library.

usage: python3 tools/respell.py      at the top, once, after the kit's port.py

Functions and lemmas are in snake case, types in upper camel case. A name with a capital inside (`birthOf`) and the name
of an own definition or lemma with dashes (`page-again`) turn; names that Rattle makes (`loop-i-preserved`, `w.count-is`)
and names of the library stay. Where two names would fall together, SPECIAL says which one is called otherwise.
"""
import os
import re

TOKEN = re.compile(r"""[^\s(){}\[\].,;:"«»@|`]+""")
SIGNATURE = re.compile(r"^\s*(?:(?:unfoldable|abbrev|opaque|pub)\s+)*(?:(?:record|data)\s+)?([^\s(){}:.,;]+)(?:\s*[({][^)}]*[)}])*\s+:\s+(.*)$")
FIELD = re.compile(r"^\s+pub\s+([^\s(){}:.,;]+)\s+:")

# Lemmas and fields whose new name would be that of a definition beside them.
SPECIAL = {
    "stale-of": "stale_of_lem",
    "needed-by": "needed_by_lem",
    "is-version": "is_version_lem",
    "page-byte": "page_byte_lem",
    "last-birth": "last_birth_lem",
    "register-data": "register_data_lem",
    "is-in": "is_in_lem",
    "said-bytes": "said_bytes_lem",
    "erased-page": "erased_page_lem",
    "pages-programmed": "pages_programmed_lem",
    "pages-erased": "pages_erased_lem",
    "since-value": "since_value_lem",
    "count-value": "count_value_lem",
    "said-with": "said_with_lem",
    "clock-of": "clock_of_lem",
    "held-of": "held_of_lem",
    "label-of": "label_of_lem",
    "filled-up": "filled_up_lem",
    "opened-text": "opened_text_lem",
    "birth-in": "birth_in_lem",
    "version-in": "version_in_lem",
    "word-of": "word_of_lem",
    "read_answer": "read_answer_lem",
    "size_fits": "size_fits_lem",
    "tag_read": "tag_read_lem",
    "all_nothing": "all_nothing_lem",
    "went_back": "went_back_lem",
    "erased-block": "has_erased_block",
    "data-page": "data_page_means",
    "register-page": "register_page_means",
    "open_after": "is_open_after",
    "Last-stay": "LastStays",
    "clockIs": "the_clock_is",
    "heldIs": "the_held_is",
    "pagesAre": "the_pages_are",
}


def snake(name):
    name = name.replace("getD", "get_or").replace("-", "_")
    return re.sub(r"(?<=[a-z0-9])([A-Z])", lambda m: "_" + m[1].lower(), name)


def upper_camel(name):
    return "".join(part[0].upper() + part[1:] for part in name.split("-"))


def texts(top):
    for folder, dirs, files in os.walk(os.path.join(top, "crates")):
        dirs[:] = sorted(d for d in dirs if d != "out")
        for f in sorted(files):
            if f.endswith((".antt", ".rt")):
                yield os.path.join(folder, f)


def bare(line):
    return re.sub(r'--.*$|//.*$|"(?:\\.|[^"\\])*"', "", line)


def names(top):
    """The new name of each old one, and which of them are fields of own records."""
    old, fields, made = set(), set(), set()
    for p in texts(top):
        deep = -1
        with open(p, encoding="utf-8") as f:
            for line in f:
                line = bare(line.rstrip("\n"))
                if re.match(r"(ghost )?use ", line):
                    continue
                if p.endswith(".antt"):
                    m = SIGNATURE.match(line)
                    indent = len(line) - len(line.lstrip())
                    if line.strip() and indent <= deep:
                        deep = -1
                    if deep >= 0 and (n := FIELD.match(line)):
                        fields.add(n[1])
                    if re.match(r"\s*(pub )?record\s.*\swhere$", line):
                        deep = indent
                    if m and re.match(r"goals?\.", m[2]):
                        made.add(m[1])
                    elif m and "-" in m[1]:
                        old.add(m[1])
                for t in TOKEN.findall(line):
                    if re.fullmatch(r"[a-z][A-Za-z0-9_'₀-₉]*", t) and re.search(r"[a-z0-9][A-Z]", t):
                        old.add(t)
    new = {n: upper_camel(n) if n[0].isupper() else snake(n) for n in old - made}
    return new | SPECIAL, fields


def turned(line, new, fields):
    """A line of code with its names turned; strings stay, comments turn where a name has a capital inside."""
    out, at = [], 0
    code = line
    for mark in ("--", "//"):
        k = re.search(r"(?:^|\s)" + mark, code)
        if k:
            code = code[: k.start()]
    quoted = [(m.start(), m.end()) for m in re.finditer(r'"(?:\\.|[^"\\])*"', line)]
    for m in TOKEN.finditer(line):
        name = m[0]
        if name not in new or any(a <= m.start() < b for a, b in quoted):
            continue
        if m.start() >= len(code) and "-" in name:
            continue
        before = line[: m.start()]
        if before.endswith(".") and not before.endswith(("λ.", "..")) and re.search(r"[\w'₀-₉)?]\.$", before):
            if name not in fields and not re.search(r"\buse [^{]*$", before):
                continue
        out.append(line[at : m.start()] + new[name])
        at = m.end()
    return "".join(out) + line[at:]


def main():
    top = "."
    new, fields = names(top)
    for p in texts(top):
        with open(p, encoding="utf-8") as f:
            old = f.read()
        text = "\n".join(turned(line, new, fields) for line in old.split("\n"))
        if text != old:
            with open(p, "w", encoding="utf-8") as f:
                f.write(text)
    print(f"{len(new)} names")


if __name__ == "__main__":
    main()
