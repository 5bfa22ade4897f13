#!/usr/bin/env python3
"""Says whether docs/EMBEDDING.md and the section Threads of README.md quote what stands in the tree.

usage: checks/quotes.py

A block of Rust in docs/EMBEDDING.md stands as it is in one file that the heading above it names, of crates/mdb_pool_demo/src or of another crate of PROGRAMS that has a file of this name; a line
`// ..` stands for any lines.
Each clause, in a block of text or in a sentence, is one of a function of the libraries below that program. Each line of the code of README.md stands in that
program. Spaces at both ends don't count, nor do remarks behind `  // ` and `  -- `. The status is 0 where all is so, and else 1.
"""
import glob
import os
import re
import sys

ROOT = os.path.dirname(os.path.dirname(os.path.abspath(__file__)))
PROGRAMS = ("mdb_trials", "mdb_checks_top", "mdb_bench", "mdb_pool_demo")
LIBRARIES = ("mdb_topology", "mdb_shared", "mdb_workers", "mdb_handles", "mdb_recorders")
BLOCK = re.compile(r"```(\w+)\n(.*?)```", re.S)
CLAUSE = re.compile(r"`((?:ensures|requires) [^`]*)`")


def lines_of(text):
    """The lines, without spaces at their ends and remarks."""
    return [re.split(r"  +(?://|--) ", line)[0].strip() for line in text.split("\n") if line.strip()]


def read(path):
    with open(path, encoding="utf-8") as file:
        return lines_of(file.read())


def stands_at(part, lines, start):
    """The place behind the lines of the part, which stand there together from this place on or a later one, or None."""
    for at in range(start, len(lines) - len(part) + 1):
        if lines[at:at + len(part)] == part:
            return at + len(part)
    return None


def stands_in(block, lines):
    """Whether the block stands in the file."""
    parts, at = [[]], 0
    for line in block:
        parts[-1:] = [parts[-1], []] if line == "// .." else [parts[-1] + [line]]
    for part in parts:
        at = stands_at(part, lines, at)
        if at is None:
            return False
    return True


def embedding(files, clauses):
    """What docs/EMBEDDING.md quotes that doesn't stand in the tree."""
    with open(f"{ROOT}/docs/EMBEDDING.md", encoding="utf-8") as file:
        sections = file.read().split("\n## ")
    for section in sections:
        named = re.findall(r"`(\w+\.rt)`", section.split("\n")[0])
        for kind, text in BLOCK.findall(section):
            if kind == "rust" and not any(stands_in(lines_of(text), files[name]) for name in named):
                yield text
            elif kind == "text":
                yield from (it for it in lines_of(text) if it.startswith(("ensures", "requires")) and it not in clauses)
        yield from (it for it in CLAUSE.findall(BLOCK.sub("", section)) if it not in clauses)


def readme(files):
    """What the section Threads of README.md quotes that doesn't stand in the program."""
    with open(f"{ROOT}/README.md", encoding="utf-8") as file:
        section = file.read().partition("\n## Threads\n")[2].partition("\n## ")[0]
    code = [line for line in section.split("\n") if line.startswith("    ")]
    known = {line for lines in files.values() for line in lines}
    yield from (it for it in lines_of("\n".join(code)) if it not in known)


def main():
    files = {os.path.basename(path): read(path) for crate in PROGRAMS for path in glob.glob(f"{ROOT}/crates/{crate}/src/**/*.rt", recursive=True)}
    clauses = {line for crate in LIBRARIES for path in glob.glob(f"{ROOT}/crates/{crate}/src/**/*.rt", recursive=True) for line in read(path)}
    found = [*embedding(files, clauses), *readme(files)]
    for text in found:
        print("not in the tree:", text)
    print("%d quotes that don't stand in the tree" % len(found))
    sys.exit(1 if found else 0)


if __name__ == "__main__":
    main()
