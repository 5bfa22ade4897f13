#!/usr/bin/env python3
"""Sees that each name in a contract column of docs/CLAIMS.md stands in the crate of its section, or in the definitions that this crate cites.

usage: checks/names.py

It prints each name that does not, with its line, and each linked file that is not there; the status is 0 where there is none, and else 1.
"""
import os
import re
import sys

ROOT = os.path.dirname(os.path.dirname(os.path.abspath(__file__)))
PAGE = f"{ROOT}/docs/CLAIMS.md"
NAME = re.compile(r"[A-Za-z_][\w']*")
ITEM = re.compile(r"\bpub (?:fn|struct|enum|trait|type|const) (\w+)")
QUOTED = re.compile(r"`([^`]+)`")
LINK = re.compile(r"\]\(\.\./([^)#]+)\)")


def layers():
    """The crates, each with those that it stands on."""
    lines = [it.partition("#")[0] for it in open(f"{ROOT}/crates.txt", encoding="utf-8")]
    return {it.partition(":")[0].split()[0]: it.partition(":")[2].split() for it in lines if ":" in it}


def below(crate, stands_on):
    found = []
    for it in stands_on[crate]:
        if it in stands_on and it not in found:
            found += [it, *(x for x in below(it, stands_on) if x not in found)]
    return found


def words(folder, ending):
    """The names in the files of a folder."""
    found = set()
    for at, _, names in os.walk(folder):
        for name in names:
            if name.endswith(ending):
                found.add(name[: -len(ending)])
                found.update(NAME.findall(open(f"{at}/{name}", encoding="utf-8").read()))
    return found


def items(crate):
    """The names of the public items of a crate."""
    found = set()
    for at, _, names in os.walk(f"{ROOT}/crates/{crate}/src"):
        for name in names:
            found.update(ITEM.findall(open(f"{at}/{name}", encoding="utf-8").read()))
    return found


def known(crates, stands_on):
    """The names that a section of these crates may cite: what stands in them, and the definitions and public items of those below."""
    found = set(stands_on)
    for crate in crates:
        found |= words(f"{ROOT}/crates/{crate}/src", ".rt") | words(f"{ROOT}/crates/{crate}/specs", ".antt")
        for it in below(crate, stands_on):
            found |= words(f"{ROOT}/crates/{it}/specs", ".antt") | items(it)
    return found


def last_cell(line):
    return line.rstrip().rstrip("|").rsplit(" | ", 1)[-1]


def cited(last):
    """The names that the last column of a row cites."""
    return [name for quoted in QUOTED.findall(last) if not quoted.endswith(".antt") for name in NAME.findall(quoted)]


def main():
    stands_on, wrong, allowed = layers(), [], None
    for number, line in enumerate(open(PAGE, encoding="utf-8"), 1):
        wrong += [f"{number}: no file {path}" for path in LINK.findall(line) if not os.path.exists(f"{ROOT}/{path}")]
        head = re.match(r"#+ (.*)", line)
        if head:
            crates = [it for it in NAME.findall(head[1]) if it in stands_on]
            allowed = known(crates, stands_on) if crates else None
        elif allowed is not None and line.startswith("| ") and " | " in line[2:]:
            last = last_cell(line)
            named = [it for it in NAME.findall(last) if it in stands_on]
            wrong += [f"{number}: `{name}` stands in no crate of its section" for name in cited(last) if name not in allowed and name not in known(named, stands_on)]
    print("\n".join(wrong) or "each name stands where its section says")
    return 1 if wrong else 0


if __name__ == "__main__":
    sys.exit(main())
