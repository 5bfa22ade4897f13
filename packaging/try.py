#!/usr/bin/env python3
"""Uses a release as a stranger would, without the kit and without a network, and says how long each thing took.

usage: packaging/try.py [--dist FOLDER] [--rooms FOLDER] [--only WORD]

In a root of Debian 12, one of Debian 11 and one that has musl alone: each package is installed, the first example compiled and run, the tests of each
binding run against the packed files, and each program's `stdin` gives its `stdout`; the files for aarch64 under qemu-user. The roots are made by
debootstrap, once, in packaging/out/rooms: that takes some minutes, root, and apt's network. The last line is 'N passed, M failed'.
"""
from __future__ import annotations

import argparse
import sys
import time
from pathlib import Path
from typing import Callable

import emulated
import rooms
import trials
from plain import Stop, ends_well, need
from shipped import DIST, HERE


class Trials:
    """Runs each trial, and tells how it went."""

    def __init__(self, only: str) -> None:
        self.only, self.passed, self.failed = only, 0, 0

    def one(self, room: rooms.Room, name: str, does: Callable[[rooms.Room], None]) -> None:
        if self.only not in f"{room.name} {name}":
            return
        begun = time.monotonic()
        try:
            does(room)
            self.passed, why = self.passed + 1, ""
        except (Stop, OSError) as error:
            self.failed, why = self.failed + 1, f": {error}"
        print(f"{'FAILED' if why else 'ok':6}  {room.name:9}  {time.monotonic() - begun:6.1f} s  {name}{why}", flush=True)


@ends_well
def main() -> None:
    at = argparse.ArgumentParser(description=__doc__.split("\n")[0])
    at.add_argument("--dist", type=Path, default=DIST, help="the folder of the release (dist)")
    at.add_argument("--rooms", type=Path, default=HERE / "out/rooms", help="where the roots of Debian are kept (packaging/out/rooms)")
    at.add_argument("--only", default="", metavar="WORD", help="the trials whose room and name have this word")
    given = at.parse_args()
    need({"unshare": "util-linux", "qemu-aarch64": "qemu-user", "aarch64-linux-gnu-gcc": "gcc-aarch64-linux-gnu", "lintian": "lintian"})
    of = trials.Packed(given.dist.resolve())
    every = Trials(given.only)
    for name in rooms.RELEASES:
        begun = time.monotonic()
        room = rooms.debian_room(name, given.rooms.resolve())
        print(f"        {name:9}  {time.monotonic() - begun:6.1f} s  the root is there", flush=True)
        for title, does in trials.in_debian(of, has_all="cargo" in rooms.RELEASES[name]):
            every.one(room, title, does)
        if name == "bookworm":
            bare = rooms.musl_room(given.rooms.resolve(), room)
            for title, does in trials.in_musl(of, room):
                every.one(bare, title, does)
    here = rooms.Room("here", given.rooms.resolve() / "here")
    for title, does in emulated.with_emulator(of):
        every.one(here, title, does)
    print(f"{every.passed} passed, {every.failed} failed")
    sys.exit(1 if every.failed else 0)


if __name__ == "__main__":
    main()
