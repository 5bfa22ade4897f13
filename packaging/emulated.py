"""What a stranger does with the files for aarch64, on this machine: the cross compiler of Debian, and qemu-user. Nothing here runs on such a processor."""
from __future__ import annotations

import subprocess
from functools import partial
from pathlib import Path
from typing import Iterator

from plain import Stop, run
from rooms import Room
from shipped import TARGETS
from trials import WANTED, Packed, Trial, lintian, programs, same

AARCH64 = TARGETS[1]


def emulated(folder: Path, command: str, feed: bytes, status: int) -> bytes:
    """What a static program of a folder writes."""
    name, *words = command.split()
    ran = subprocess.run([AARCH64.emulator, str(folder / name), *words], input=feed, stdout=subprocess.PIPE, stderr=subprocess.PIPE)
    if ran.returncode != status:
        raise Stop(f"{name} ended with {ran.returncode}, and not {status}")
    return ran.stdout


def with_emulator(of: Packed) -> Iterator[Trial]:
    cc, qemu = AARCH64.tool("gcc"), [AARCH64.emulator, "-L", f"/usr/{AARCH64.multiarch}"]

    def first(room: Room, *sources: str, also: tuple[str, ...] = (), variables: tuple[str, ...] = ()) -> None:
        run(cc, *sources, *also, "-o", room.place / "round")
        same(run(*qemu, *variables, room.place / "round").encode(), WANTED, "round")

    def folder(room: Room) -> Path:
        return of.unpacked(f"mdb-*-{AARCH64.cpu}-linux.tar.gz", room.place)

    def archive(room: Room) -> None:
        top = folder(room)
        first(room, str(top / "share/doc/mdb/examples/round.c"), f"-I{top}/include", str(top / "lib/libmdb.a"))

    def shared(room: Room) -> None:
        top = folder(room)
        words = (f"-I{top}/include", f"-L{top}/lib", "-lmdb", "-Wl,--allow-shlib-undefined")
        first(room, str(top / "share/doc/mdb/examples/round.c"), also=words, variables=("-E", f"LD_LIBRARY_PATH={top}/lib"))

    def one_file(room: Room) -> None:
        top = of.unpacked("mdb-*-assembly.tar.gz", room.place)
        first(room, *(str(top / it) for it in ("round.c", "mdb.S", "heap.c")))

    def each(room: Room) -> None:
        top = folder(room)
        programs(lambda command, feed, status: emulated(top / "bin", command, feed, status))

    yield "aarch64 tar.gz, libmdb.a: the first example, under qemu", archive
    yield "aarch64 tar.gz, shared: the first example, under qemu", shared
    yield "aarch64 assembly: the first example, under qemu", one_file
    yield "aarch64 tar.gz: each program's stdin and stdout, under qemu", each
    yield "lintian: the Debian packages of both processors", partial(lintian, of)
