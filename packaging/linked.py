"""The libraries and the programs of a release, made of what was built."""
from __future__ import annotations

import os
import sysconfig
from pathlib import Path

from plain import put, run, write
from shipped import HERE, LIBRARY, PROGRAMS, Target

# A linker that leaves nothing of the day, the folder or the machine in what it makes.
LINKING = ["-Wl,--build-id=none", "-Wl,-z,noexecstack,-z,relro,-z,now", "-Wl,--gc-sections"]


def compile_c(target: Target, source: Path, to: Path, *words: object) -> None:
    run(target.tool("gcc"), "-O2", "-fPIC", "-fno-ident", f"-ffile-prefix-map={source.parent}=.", *words, "-c", source, "-o", to)


def static_library(target: Target, archive: Path, heap: Path, room: Path) -> Path:
    """libmdb.a: the archive, with heap.c."""
    to = room / "libmdb.a"
    compile_c(target, heap, room / "heap.o")
    put(archive, to)
    run(target.tool("ar"), "rsD", to, room / "heap.o")
    return to


def exports_of(target: Target, archive: Path) -> list[str]:
    lines = (it.split() for it in run(target.tool("nm"), archive).splitlines())
    return sorted(it[2] for it in lines if len(it) == 3 and it[1] == "T" and it[2].startswith("mdb_"))


def shared_library(target: Target, archive: Path, to: Path, interface: int, *libc: str) -> None:
    """libmdb.so. With no word for the C library it names none, and takes malloc and five more of whichever the process has: glibc or musl."""
    write(to.with_suffix(".map"), "{ global: mdb_*; local: *; };\n")
    words = [f"-Wl,-soname,libmdb.so.{interface}", f"-Wl,--version-script={to.with_suffix('.map')}", *LINKING]
    wanted = [f"-Wl,-u,{it}" for it in exports_of(target, archive)]
    run(target.tool("gcc"), "-shared", "-nostdlib", *words, *wanted, archive, *libc, "-lgcc", "-o", to)
    run(target.tool("strip"), "--strip-unneeded", to)


def program(target: Target, object_file: Path, heap: Path, room: Path) -> Path:
    """A program, linked statically over musl: it runs on any Linux of its processor."""
    to, musl = room / object_file.stem, target.musl
    headers = Path("/usr/include") / musl.name if musl.parent == Path("/usr/lib") else musl.parent / "include"
    plain = ("-nostdinc", "-isystem", headers, "-isystem", f"{run(target.tool('gcc'), '-print-file-name=include').strip()}")
    if not (room / "system.o").is_file():
        compile_c(target, HERE / "system.c", room / "system.o", *plain)
    run(target.tool("objcopy"), "--redefine-sym", "main=rattle_main", object_file, room / "main.o")
    parts = [musl / "crt1.o", musl / "crti.o", room / "main.o", room / "system.o", room / "heap.o", musl / "libc.a"]
    run(target.tool("gcc"), "-static", "-nostdlib", *LINKING, *parts, "-lgcc", musl / "libc.a", musl / "crtn.o", "-o", to)
    run(target.tool("strip"), to)
    return to


def python_headers(target: Target, room: Path) -> list[str]:
    """Where Python.h is: this machine's, whose settings Debian keeps for each processor apart. The stable ABI asks for what all of 64 bits with Linux have alike."""
    headers = Path(sysconfig.get_paths()["include"])
    own = Path("/usr/include") / f"{os.uname().machine}-linux-gnu" / headers.name / "pyconfig.h"
    if not own.is_file():
        return [f"-I{headers}"]
    write(room / "python" / target.multiarch / headers.name / "pyconfig.h", f'#include "{own}"\n')
    return [f"-I{headers}", f"-I{room / 'python'}"]


def python_steps(target: Target, sources: Path, room: Path) -> Path:
    """The compiled steps of the Python package, for every Python from 3.9 on by the stable ABI. They name no library and no C library."""
    to, source = room / "_compiled.abi3.so", sources / "bindings/python/src"
    compiling = ["-O2", "-fPIC", "-fno-ident", f"-ffile-prefix-map={source}=.", "-std=gnu11", "-DPy_LIMITED_API=0x03090000", f"-I{sources / 'include'}"]
    parts = [source / f"{it}.c" for it in ("steps", "told")]
    run(target.tool("gcc"), "-shared", "-nostdlib", *compiling, *python_headers(target, room), *LINKING, *parts, "-lgcc", "-o", to)
    run(target.tool("strip"), "--strip-unneeded", to)
    return to


class Made:
    """All that was linked for a target."""

    def __init__(self, target: Target, built: Path, sources: Path, room: Path, interface: int) -> None:
        room.mkdir(parents=True)
        heap, folder = sources / "bindings/heap.c", built / target.cpu
        self.target = target
        self.archive = static_library(target, folder / f"{LIBRARY}.a", heap, room)
        self.shared, self.debian = room / "libmdb.so", room / "debian.so"
        shared_library(target, self.archive, self.shared, interface)
        shared_library(target, self.archive, self.debian, interface, "-lc")
        self.python_steps = python_steps(target, sources, room)
        self.assembly = folder / f"{LIBRARY}.s"
        self.programs = [program(target, folder / f"{it}.o", heap, room) for it in PROGRAMS]
