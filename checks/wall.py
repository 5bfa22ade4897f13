#!/usr/bin/env python3
"""Whether anything above a pool names what the pool keeps, or sees through what the pool says of itself.

What stands above mdb_pool names a pool by its number, its address and its options, by what it says of itself now
(specs/Now), and by when it fits the items of a history (specs/Standing). What it keeps (specs/Kept, specs/Acts, the
types of src/kept, and the fields of the record `Kept`) is the business of mdb_pool alone, and so are the parts of
`Fits` and the bodies of what is sealed. The last line is `N files above a pool, M of them behind it`."""
import os
import re
import sys

ROOT = os.path.dirname(os.path.dirname(os.path.abspath(__file__)))
PUBLIC = {"PoolState"}
KEPT = re.compile(r"mdb_pool\.specs\.(?:Kept|Acts)\b|mdb_pool\.specs\.declared\.(?:kept|acts|steps)\.[\w.]*?(\w+)\.\{")
PARTS = re.compile(r"\.fits\.(?:matches|asked|order)\b|\bfits\.(?:matches|order)\b")
POOL = os.path.join(ROOT, "crates", "mdb_pool", "specs")


def text_of(*path):
    with open(os.path.join(POOL, *path), encoding="utf-8") as file:
        return file.read()


def fields():
    """What names a field of what a pool keeps."""
    names = re.findall(r"(?m)^  pub (\w+) :", text_of("Kept", "Record.antt"))
    return re.compile(rf"(?<!declared)\.kept\.(?:{'|'.join(names)})\b")


def seals():
    """What opens a definition of the pool that is sealed."""
    texts = [text_of(name) for name in ("Core.antt", "Now.antt", "Planning.antt")]
    names = [name for text in texts for name in re.findall(r"(?m)^unfoldable pub (\w+) :", text)]
    return re.compile(rf"\bunfold(?:ing)?\b.*\b(?:{'|'.join(names)})\b")


BEHIND = [PARTS, fields(), seals()]


def faults(path):
    """The lines of a file that name what a pool keeps."""
    with open(path, encoding="utf-8") as file:
        for number, line in enumerate(file, 1):
            named = KEPT.search(line)
            if named and named.group(1) not in PUBLIC or any(each.search(line) for each in BEHIND):
                yield number, line.strip()


def files():
    """The files of all crates but mdb_pool."""
    crates = os.path.join(ROOT, "crates")
    for crate in sorted(os.listdir(crates)):
        if crate == "mdb_pool":
            continue
        for part in ("src", "specs", "proofs"):
            for folder, _, names in os.walk(os.path.join(crates, crate, part)):
                yield from (os.path.join(folder, name) for name in sorted(names) if name.endswith((".rt", ".antt")))


def main():
    above, behind = 0, 0
    for path in files():
        above += 1
        found = list(faults(path))
        behind += bool(found)
        for number, line in found:
            print(f"{os.path.relpath(path, ROOT)}:{number}: {line}")
    print(f"{above} files above a pool, {behind} of them behind it")
    return 1 if behind else 0


if __name__ == "__main__":
    sys.exit(main())
