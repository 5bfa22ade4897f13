#!/usr/bin/env python3
"""Proves the programs and the library for C, with a line for each crate, and keeps the programs in packaging/out/proved.

usage: packaging/prove.py [--to FOLDER] [NAME ..]

`rt ci` proves each crate and those below it, with as many side by side as there are processors, and what was proved before is not proved again. How long
is left is said by the table of docs/GATE.md: the greater of the longest chain that is left and the sum that is left over the processors, times how much
slower than the table's machine this one has been so far. NAME is a crate, with or without its mdb_.
"""
from __future__ import annotations

import argparse
import os
import re
import subprocess
import sys
import time
from pathlib import Path

import kit as kits
from plain import Stop, ends_well, last_line
from shipped import HERE, LIBRARY, PROGRAMS, TOP

PROVED = HERE / "out/proved"
# What a crate takes that the table does not have yet.
UNKNOWN = 60.0


def table_of(top: Path) -> dict[str, float]:
    """The seconds of each crate's proof by the table of docs/GATE.md."""
    rows = re.findall(r"(?m)^\| `(\w+)` \| (\d+) \|", (top / "docs/GATE.md").read_text(encoding="utf-8"))
    return {name: float(seconds) for name, seconds in rows}


class Progress:
    """What is proved, and how long the rest takes."""

    def __init__(self, crates: kits.Crates, names: list[str], seconds: dict[str, float], processors: int) -> None:
        self.crates, self.processors, self.begun = crates, processors, time.monotonic()
        self.left = {it: seconds.get(it, UNKNOWN) for name in names for it in (*crates.below(name), name)}
        self.all, self.first, self.kept = len(self.left), self.seconds_left(), 0.0

    def chain(self, name: str) -> float:
        below = [it for it in self.crates.of(name) if it in self.crates.stands_on]
        return self.left.get(name, 0.0) + max((self.chain(it) for it in below if it in self.left), default=0.0)

    def seconds_left(self) -> float:
        return max([sum(self.left.values()) / self.processors, *(self.chain(it) for it in self.left)], default=0.0)

    def done(self, name: str, how: str) -> str:
        before = self.seconds_left()
        self.left.pop(name, None)
        if how == "kept":
            self.kept += before - self.seconds_left()
        expected = self.first - self.seconds_left() - self.kept
        slower = (time.monotonic() - self.begun) / expected if expected > 30 else 1.0
        minutes = self.seconds_left() * slower / 60
        return f"{self.all - len(self.left)}/{self.all} {name} {how}" + (f", about {minutes:.0f} minutes left" if self.left else "")


def follow(names: list[str], progress: Progress, log: Path) -> None:
    """Runs rt ci, with a line for each crate that it ends."""
    words, environment = ["rt", "ci", *names], {**os.environ, "RT_JOBS": str(progress.processors), "PYTHONUNBUFFERED": "1"}
    with open(log, "w", encoding="utf-8") as kept:
        streams = {"stdin": subprocess.DEVNULL, "stdout": subprocess.PIPE, "stderr": subprocess.STDOUT}
        ran = subprocess.Popen(words, cwd=TOP, env=environment, text=True, errors="replace", **streams)
        for line in ran.stdout:
            kept.write(line)
            ended = re.match(r"rt: (\w+) (?:is )?(proved|kept|NOT PROVED)\b", line)
            if ended and ended[1] in progress.left:
                print(progress.done(ended[1], ended[2]), flush=True)
    if ran.wait():
        raise Stop(f"not all is proved, as {log} says: {last_line(log.read_text(encoding='utf-8'))}")


def take(names: list[str], crates: kits.Crates, to: Path) -> None:
    """Takes the programs that rt ci kept."""
    kept = kits.kept_of(TOP, kits.kit_folder())
    for name in names:
        if kits.take(name, kept, to):
            print(f"{to / name} is proved")
        elif crates.root(name) == "src/main.rt":
            print(f"prove.py: {name} is proved, but rt kept no program of it: run rt run in crates/{name}", file=sys.stderr)


@ends_well
def main() -> None:
    at = argparse.ArgumentParser(description=__doc__.split("\n")[0])
    at.add_argument("names", nargs="*", metavar="NAME", help="the crates (the library for C and the programs)")
    at.add_argument("--to", type=Path, default=PROVED, help="the folder for the programs (packaging/out/proved)")
    given = at.parse_args()
    kits.kit_folder()
    crates = kits.crates_of(TOP)
    names = [it if it in crates.stands_on else f"mdb_{it}" for it in given.names] or [LIBRARY, *PROGRAMS]
    processors = len(os.sched_getaffinity(0))
    progress = Progress(crates, names, table_of(TOP), processors)
    print(f"{progress.all} crates on {processors} processors: {progress.first / 60:.0f} minutes on the machine of docs/GATE.md", flush=True)
    log = given.to / "prove.log"
    given.to.mkdir(parents=True, exist_ok=True)
    follow(names, progress, log)
    take(names, crates, given.to)


if __name__ == "__main__":
    main()
