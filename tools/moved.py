#!/usr/bin/env python3
"""Lists each statement of specs/ of another checkout that stands elsewhere here, whole, and each whose words differ.

usage: python3 tools/moved.py OTHER         OTHER: a checkout whose names are spelled as here

A statement is what stands before the first clause of its proof, with the parameters of the sections round it; of a
definition (abbrev, unfoldable, record, data) the clauses belong to it. `pub` and the breaks of lines do not count.
"""

import collections
import glob
import os
import re
import sys

HEAD = re.compile(r"((?:(?:abbrev|pub|unfoldable)\s+)*)(record |data )?([^\s:({]+)(.*)$", re.S)


def indent(line):
    return len(line) - len(line.lstrip(" "))


def blocks(lines, depth):
    """Lines of one depth, each with the deeper lines below it."""
    out = []
    for line in lines:
        if not line.strip() or line.strip().startswith("--"):
            continue
        if indent(line) <= depth or not out:
            out.append([line])
        else:
            out[-1].append(line)
    return out


def statements(path):
    """(name, its statement) in order."""
    with open(path, encoding="utf-8") as f:
        lines = f.read().split("\n")
    found = []

    def walk(lines, depth, parameters):
        defined = None
        for block in blocks(lines, depth):
            first = block[0].strip()
            if re.match(r"(?:(?:pub|unfoldable)\s+)*(use|mod)\s", first):
                defined = None
                continue
            if first.startswith("module "):
                header = re.sub(r"\s+", " ", first)
                walk(block[1:], indent(block[1]) if len(block) > 1 else depth + 2, parameters + [header])
                defined = None
                continue
            if first.startswith("unfolding"):
                continue
            text = re.sub(r"\s+", " ", " ".join(line.strip() for line in block))
            head = HEAD.match(text)
            if not head:
                continue
            name, rest = head.group(3), head.group(4)
            words = head.group(1).replace("pub", "").strip()
            if head.group(2) or re.match(r"(?: ?[({].*)? :(?: |$)", rest):
                statement = re.sub(r"\bpub ", "", text)
                found.append([name, parameters, statement])
                defined = len(found) - 1 if words or head.group(2) else None
            elif defined is not None and found[defined][0] == name:
                found[defined][2] += " ; " + text

    walk(lines, 0, [])
    return found


def all_of(top, places):
    out = collections.OrderedDict()
    for place in places:
        for path in sorted(glob.glob(f"{top}/crates/*/{place}/**/*.antt", recursive=True)):
            short = os.path.relpath(path, top)
            if "/out/" in short or os.path.basename(path) in ("Lib.antt", "Answers.antt", "Invariants.antt", "Proof.antt"):
                continue
            for name, parameters, statement in statements(path):
                out.setdefault((short.split("/")[1], name), []).append((short, parameters, statement))
    return out


def main():
    other, here = all_of(sys.argv[1], ["specs"]), all_of(".", ["specs", "proofs"])
    moved, changed = collections.OrderedDict(), []
    for key, old in other.items():
        new = list(here.get(key, []))
        for path, parameters, statement in old:
            alike = [it for it in new if it[2] == statement and it[1] == parameters]
            alike = [it for it in alike if it[0] == path] or alike
            if not alike:
                changed.append((path, key[1], " ".join(parameters + [statement]), [(it[0], " ".join(it[1] + [it[2]])) for it in new if it[0] == path] or [(it[0], " ".join(it[1] + [it[2]])) for it in new]))
                continue
            new.remove(alike[0])
            if alike[0][0] != path:
                moved.setdefault((path, alike[0][0]), []).append((parameters, statement))
    print(f"{sum(len(it) for it in other.values())} statements of specs/, {sum(len(it) for it in moved.values())} moved, {len(changed)} in other words")
    for (path, to), those in moved.items():
        print(f"\n### {path} to {to}\n")
        for parameters, statement in those:
            print(f"- `{' '.join(parameters)} {statement}`" if parameters else f"- `{statement}`")
    if changed:
        print("\n### In other words\n")
        for path, name, old, new in changed:
            print(f"- {path}: `{name}`\n  - old: `{old}`")
            for place, words in new or [("", "(gone)")]:
                print(f"  - new, {place}: `{words}`")


main()
