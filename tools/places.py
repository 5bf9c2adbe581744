#!/usr/bin/env python3
"""Counts the places of docs/DESIGN-PASS.md in the sources of a checkout: python3 tools/places.py [TOP] [--list].

Each line is a point of that page, what is looked for, and how many places there are; with --list the places follow.
"""
import re
import sys
from pathlib import Path

LOOK = [
    ("1", "a result of numbers: Answer, or a struct that holds one", r"-> (?:Answer|Held)\b"),
    ("1", "a number of an answer that is tested", r"\bnumber (?:!=|==) \d|\.number (?:!=|==) \d|verdict != 0"),
    ("1", "a value that stands for none", r"where there is none|where none|where there is no |begun: bool|Answer::refused\(0,"),
    ("1", "a number for a kind", r"\(book, [012], n, |f: usize"),
    ("2", "twins, by name", r"fn (?:two|four|put2|put4|put_wide|put_word|apart_at|tick_at|byte_sum|place_sum)\(|^fn main\("),
    ("2", "searches for a lowest place, each a loop of its own", r"return (?:Some\()?[iyj]\)?;"),
    ("3", "a loop that counts", r"^\s*while "),
    ("3", "an index raised by hand", r"^\s*(?:i|j|k|l|b|at|row|place) [+-]= 1;"),
    ("4", "bytes and halves of a number by hand", r"4_294_967_296|% byte|/ byte|byte \*|\* high|% Book::BYTE|/ Book::BYTE"),
    ("4", "filling, turning and comparing by hand", r"\] = 0;|PLACES - 1 - i|seen\[k\] == x"),
    ("5", "periods, table and chain passed along", r"table: Table,? *(?:chain|$)|chain: Chain"),
    ("5", "bytes and the place in them passed along", r"out: &mut \[u8\], (?:at|from): usize"),
    ("5", "a list's three columns passed along", r"periods: &\[u32\], lengths: &\[u32\], starts: &\[u32\]"),
    ("6", "an array with its length beside", r"\[[a-z0-9]*; [A-Za-z:]*(?:MOST|PROBES|INPUT|PLAN|CHECK|PLACES|RATIOS|ROWS)"),
    ("7", "a choice of a call by a match, a dyn or a function pointer", r"Question::[A-Za-z]+(?:\([a-z]+\))? =>|\bdyn\b|: fn\("),
]
PROOFS = [
    ("8", "lines of answers and invariants of functions", r"\S", r"proofs/.*(?:Answers|Invariants)\.antt$"),
    ("8", "an argument named again in an answer", r"let \w+ = c\.(?:args|loop)", r"proofs/.*Answers\.antt$"),
    ("8", "an answer", r"^pub [^:]* : goal\.", r"proofs/.*Answers\.antt$"),
]


def code(text):
    return [(n, line) for n, line in enumerate(text.splitlines(), 1)]


def main():
    args = [a for a in sys.argv[1:] if a != "--list"]
    top = Path(args[0] if args else ".")
    sources = sorted(top.glob("crates/*/src/**/*.rt"))
    proofs = [p for p in sorted(top.glob("crates/*/proofs/**/*.antt")) if "/out/" not in str(p)]
    rows = [(point, what, pattern, sources) for point, what, pattern in LOOK]
    rows += [(point, what, pattern, [p for p in proofs if re.search(where, str(p))]) for point, what, pattern, where in PROOFS]
    for point, what, pattern, files in rows:
        found = []
        for path in files:
            for n, line in code(path.read_text()):
                if re.search(pattern, line):
                    found.append(f"{path.relative_to(top)}:{n}: {line.strip()}")
        print(f"{point} | {what} | {len(found)}")
        if "--list" in sys.argv:
            for line in found:
                print("      " + line)


if __name__ == "__main__":
    main()
