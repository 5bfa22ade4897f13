#!/usr/bin/env python3
"""Tests what stands outside the gate: the library for C, the bindings, the live client, the played servers, packaging, and what comes beside them.

usage: checks/outside.py [--unproved] [--install] [--skip-missing] [--as-built] [--jobs N] [--limit SECONDS] [--list] [PART ..]

Archive and programs are made first, over what rt ci proved of these very files (packaging/build.py), or without proof with --unproved. Then each PART, all
where none is named, runs the short form of its tests, and has a line: whether it passed, its seconds, and the last lines of what failed. The whole takes at
most fifteen minutes on four free processors. The last line is 'N passed, M failed', and the status 1 where one failed.

A part whose tools are missing counts as failed, or is left out and told with --skip-missing; --install installs them from Debian, as root. --as-built takes
what an earlier call made, whatever has changed since. What the parts wrote is kept in checks/out/outside.
"""

from __future__ import annotations

import argparse
import os
import signal
import sys
import time
from concurrent.futures import ThreadPoolExecutor
from dataclasses import dataclass
from pathlib import Path

sys.dont_write_bytecode = True
from outside_built import OUT, Built, Stop, make
from outside_needs import install, missing
from outside_parts import PARTS, Part
from outside_run import SESSIONS, Failed, run

SHOWN = 12


@dataclass(frozen=True)
class Outcome:
    """How a part ended: 'ok', 'FAILED' or 'skipped', with the lines that say why."""

    name: str
    state: str
    seconds: float
    why: tuple[str, ...] = ()

    def __str__(self) -> str:
        lines = [f"{self.state:8}{self.name:12}{self.seconds:7.1f} s"]
        if len(self.why) == 1:
            return f"{lines[0]}  {self.why[0]}"
        return "\n".join([*lines, *(f"        | {it}" for it in self.why)])


def tell(outcome: Outcome) -> Outcome:
    print(outcome, flush=True)
    return outcome


def lacking(part: Part, given: argparse.Namespace) -> Outcome | None:
    """What is told of a part whose tools are missing; None where they are there."""
    why = missing(part.needs, given.python)
    return Outcome(part.name, "skipped" if given.skip_missing else "FAILED", 0, (why,)) if why else None


def last_lines(log: Path, why: Failed) -> tuple[str, ...]:
    """The last lines that a part wrote, and where the others are."""
    said = [it for it in log.read_text(encoding="utf-8", errors="replace").splitlines() if it.strip()]
    return (*said[-SHOWN:], f"{why}; all that it wrote: {log}")


def play(part: Part, built: Built, limit: float) -> Outcome:
    """Runs the commands of a part, up to the first that fails."""
    begun = time.monotonic()
    log = OUT / f"{part.name}.log"
    try:
        with open(log, "w", encoding="utf-8") as file:
            for command in part.commands(built):
                run(command, file, begun + limit)
    except Failed as why:
        return tell(Outcome(part.name, "FAILED", time.monotonic() - begun, last_lines(log, why)))
    except OSError as why:
        return tell(Outcome(part.name, "FAILED", time.monotonic() - begun, (str(why),)))
    return tell(Outcome(part.name, "ok", time.monotonic() - begun))


def build(parts: list[Part], built: Built, given: argparse.Namespace) -> Outcome:
    """Makes what the parts stand on."""
    begun = time.monotonic()
    try:
        how = make({it for part in parts for it in part.uses}, built, given)
        return tell(Outcome("build", "ok", time.monotonic() - begun, (how,)))
    except Failed as why:
        return tell(Outcome("build", "FAILED", time.monotonic() - begun, last_lines(OUT / "build.log", why)))
    except (Stop, OSError) as why:
        return tell(Outcome("build", "FAILED", time.monotonic() - begun, (str(why),)))


def outcomes(parts: list[Part], given: argparse.Namespace) -> list[Outcome]:
    """How the build and each part ended."""
    built = Built(given.python)
    lacks = {part.name: outcome for part in parts if (outcome := lacking(part, given))}
    told = [tell(it) for it in lacks.values()]
    left = [it for it in parts if it.name not in lacks]
    if any(it.uses for it in left):
        told.append(build(left, built, given))
        if told[-1].state != "ok":
            told += [tell(Outcome(it.name, "FAILED", 0, ("not run: there is no build",))) for it in left if it.uses]
            left = [it for it in left if not it.uses]
    with ThreadPoolExecutor(given.jobs) as pool:
        try:
            return told + list(pool.map(lambda part: play(part, built, given.limit), left))
        finally:
            SESSIONS.end_all()


def words() -> argparse.Namespace:
    at = argparse.ArgumentParser(description=__doc__, formatter_class=argparse.RawDescriptionHelpFormatter)
    at.add_argument("--unproved", action="store_true", help="build without proof, for development")
    at.add_argument("--install", action="store_true", help="install from Debian what is missing, as root")
    at.add_argument("--skip-missing", action="store_true", help="leave parts out whose tools are missing")
    at.add_argument("--as-built", action="store_true", help="take what an earlier call made")
    at.add_argument("--jobs", type=int, default=max(1, len(os.sched_getaffinity(0)) // 2), help="so many parts side by side (half as many as processors)")
    at.add_argument("--limit", type=float, default=600, metavar="SECONDS", help="a part that takes longer has failed (600)")
    at.add_argument("--python", default="/usr/bin/python3", help="the Python that has Debian's packages (/usr/bin/python3)")
    at.add_argument("--list", action="store_true", help="say which parts there are")
    at.add_argument("parts", nargs="*", metavar="PART", help="the parts (all)")
    return at.parse_args()


def main() -> int:
    """The status."""
    given = words()
    # what runs is ended also where this script is told to end
    signal.signal(signal.SIGTERM, lambda *_: sys.exit(128 + signal.SIGTERM))
    unknown = [it for it in given.parts if it not in PARTS]
    if unknown:
        print(f"outside.py: there is no part {unknown[0]}: {' '.join(PARTS)}", file=sys.stderr)
        return 2
    parts = [part for name, part in PARTS.items() if not given.parts or name in given.parts]
    if given.list:
        print("\n".join(f"{it.name:12}{it.says}" for it in parts))
        return 0
    if given.unproved:
        print("built without proof: what follows says nothing of what the gate proved", flush=True)
    if given.install:
        why = install(parts, given.python)
        if why:
            print(f"not installed: {why}", flush=True)
    OUT.mkdir(parents=True, exist_ok=True)
    told = outcomes(parts, given)
    skipped = [it.name for it in told if it.state == "skipped"]
    if skipped:
        print(f"left out: {' '.join(skipped)}")
    wrong = sum(it.state == "FAILED" for it in told)
    print(f"{sum(it.state == 'ok' for it in told)} passed, {wrong} failed")
    return 1 if wrong else 0


if __name__ == "__main__":
    try:
        sys.exit(main())
    except KeyboardInterrupt:
        sys.exit("outside.py: stopped")
