#!/usr/bin/env python3
"""Brings the repository's own names to snake case: `lowestFrom` becomes `lowest_from`.

usage: python3 tools/respell.py            at the top of the repository, once

Only names that begin with a small letter and have a capital after a small letter or a figure are changed: the
definitions and lemmas of specs/ and proofs/, wherever they are cited. Types, facts and modules keep their capitals;
the names of functions have none. Names that fall together with another name of the same file are printed.
"""

import glob
import re

WORD = re.compile(r"(?<![\w'-])[^\W\dA-Z_][\w'-]*")
HUMP = re.compile(r"(?<=[a-z0-9])(?=[A-Z])")
PLACES = [
    "crates/*/src/**/*.rt",
    "crates/*/specs/**/*.antt",
    "crates/*/proofs/**/*.antt",
    "crates/*/must-fail/*.edit",
    "docs/**/*.md",
    "README.md",
    "tests/gate/*.txt",
    "tests/tools/*.py",
]


def respelled(part):
    """One part of a name between dashes: snake case, unless it begins with a capital."""
    return HUMP.sub("_", part).lower() if part[:1].islower() and HUMP.search(part) else part


def name(word):
    return "-".join(respelled(part) for part in word.replace("getD", "get_or").split("-"))


def main():
    for place in PLACES:
        for path in sorted(glob.glob(place, recursive=True)):
            with open(path, encoding="utf-8") as f:
                text = f.read()
            words = set(WORD.findall(text))
            for word in sorted(words):
                if name(word) != word and name(word) in words:
                    print(f"{path}: {word} falls together with {name(word)}")
            new = WORD.sub(lambda m: name(m.group(0)), text)
            if new != text:
                with open(path, "w", encoding="utf-8") as f:
                    f.write(new)


main()
