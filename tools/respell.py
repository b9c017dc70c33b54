#!/usr/bin/env python3
"""Spells the repository's own definitions and lemmas in snake case: `byteLimit` becomes `byte_limit`.

usage: tools/respell.py [--check]      at the top of the repository, once, after the kit's porting script

A name turns where a file of specs/ or proofs/ declares it and it begins with a small letter and has a capital. A dash
joins names: each part turns by itself. Strings, comments' shell lines and Rust's own names (functions of src/, types)
stay: a Rust name never has that form. Below crates/ every .rt, .antt and must-fail edit is turned, and README.md and
docs/*.md. --check writes nothing and prints the names that would meet another.
"""

import os
import re
import sys

PART = r"[a-z][a-z0-9]*(?:[A-Z][a-z0-9]*)+"
CAMEL = re.compile(rf"(?<![\w'])({PART})(?![\w'])")
DECLARED = re.compile(r"(?m)^ *(?:\w+ )*?((?:[^\s(){}.;,@\"«»:]+ )*?[^\s(){}.;,@\"«»:]+)(?: [{(][^{}\n]*[})])* :")
STRING = re.compile(r'"(?:[^"\\\n]|\\.)*"')
# What the library calls `getD` is `get_or` today; the rest goes by capitals.
SPECIAL = {"getD": "get_or"}
# Lemmas that would have their function's name in one file, where a dash told them apart before.
LEMMAS = {
    "crates/findings/proofs/FindingLaws.antt": ["go_on"],
    "crates/findings/proofs/SoundFindings.antt": ["value_in"],
    "crates/agreement/proofs/Proved.antt": ["value_in"],
    "crates/forms/proofs/Sixteen.antt": ["digit_char"],
    "crates/texts/proofs/DraftLaws.antt": ["names_in"],
    "crates/building/proofs/ViewLaws.antt": ["names_in"],
    "crates/texts/proofs/TextLaws.antt": ["operands_of"],
}


def texts(folders, endings):
    for top in folders:
        for folder, dirs, files in os.walk(top):
            dirs[:] = sorted(d for d in dirs if d not in ("out", ".git", "target"))
            for name in sorted(files):
                if name.endswith(endings):
                    yield os.path.join(folder, name)


def snake(part):
    if part in SPECIAL:
        return SPECIAL[part]
    return re.sub(r"(?<=[a-z0-9])[A-Z]", lambda m: "_" + m[0].lower(), part)


def read(path):
    with open(path, encoding="utf-8") as f:
        return f.read()


# Parameters and imported names of that form, which no line declares alone.
PARAMETERS = {"checkRefused", "failedCases", "firstCase", "heldCases", "lineAfter", "satMode", "sheetAfter", "writeRefused"}


def declared_parts():
    parts = set(PARAMETERS)
    for path in texts(["crates"], (".antt",)):
        text = STRING.sub('""', read(path))
        text = re.sub(r"(?m)--[^\n]*", "", text)
        for names in DECLARED.findall(text):
            parts.update(CAMEL.findall(names))
    return parts


def turned(text, parts):
    """The text outside strings, each declared part in snake case."""
    def word(m):
        return snake(m[1]) if m[1] in parts else m[0]

    out, at = [], 0
    for m in STRING.finditer(text):
        out += [CAMEL.sub(word, text[at:m.start()]), m[0]]
        at = m.end()
    return "".join(out + [CAMEL.sub(word, text[at:])])


def paged(text, words):
    """A page: what stands between backquotes, in the spelling that the crates have."""
    def name(m):
        w = m[0]
        for new in (snake(w), w.replace("-", "_")):
            if w not in words and new in words:
                return new
        return w

    return re.sub(r"`[^`\n]*`", lambda m: re.sub(r"[\w'-]+", name, m[0]), text)


def write(path, text):
    if text != read(path):
        with open(path, "w", encoding="utf-8") as f:
            f.write(text)


def main(argv):
    parts = declared_parts()
    paths = list(texts(["crates"], (".antt", ".rt", ".edit")))
    pages = ["README.md"] + [os.path.join("docs", f) for f in sorted(os.listdir("docs")) if f.endswith(".md")]
    if "--check" in argv:
        wanted = {snake(p): p for p in sorted(parts)}
        for path in paths:
            for w in sorted(set(re.findall(r"(?<![\w'-])[a-z]\w*(?![\w'-])", STRING.sub('""', read(path))))):
                if w in wanted:
                    print(f"{path}: {wanted[w]} would meet {w}")
        print(f"{len(parts)} names")
        return 0
    for path in paths:
        new = read(path)
        for name in LEMMAS.get(path, []):
            new = re.sub(rf"(?<![\w'.-]){name}(?![\w'-])", name + "_lem", new)
        write(path, turned(new, parts))
    words = set()
    for path in texts(["crates"], (".antt",)):
        words.update(re.findall(r"[\w'-]+", read(path)))
    for path in pages:
        write(path, paged(read(path), words))
    return 0


if __name__ == "__main__":
    raise SystemExit(main(sys.argv[1:]))
