"""What the parts of outside.py stand on: the library for C and the programs, of what the gate proved or without proof."""

from __future__ import annotations

import argparse
import hashlib
import os
import subprocess
import sys
import time
from dataclasses import dataclass
from pathlib import Path
from typing import TextIO

from outside_run import TOP, command, run

sys.path.insert(0, str(TOP / "packaging"))
import kit as kits
from plain import Stop
from shipped import LIBRARY

OUT = TOP / "checks/out/outside"
BINDINGS = TOP / "bindings"
# A build takes at most so long.
LIMIT = 3600.0


@dataclass(frozen=True)
class Built:
    """Where the archive, the library of bindings/Makefile and the programs are, and the Python for scripts."""

    python: str
    archive: Path = OUT / f"built/{os.uname().machine}/{LIBRARY}.a"
    library: Path = BINDINGS / "out"

    def program(self, name: str) -> Path:
        return OUT / "bin" / name


def state_of(sources: Path, proved: bool) -> str | None:
    """What a build of these sources is known by; None where there are changes, which no commit has."""
    git = ["git", "--no-optional-locks", "-C", str(sources)]
    words = ["--", "crates", "crates.txt", "HANDLES"]
    if subprocess.run([*git, "status", "--porcelain", *words], stdout=subprocess.PIPE, check=False).stdout:
        return None
    files = subprocess.run([*git, "ls-files", "-s", *words], stdout=subprocess.PIPE, check=True).stdout
    return f"{hashlib.sha256(files).hexdigest()} {kits.identity(kits.kit_folder())} {proved}"


def is_current(file: Path, state: str | None, as_built: bool) -> bool:
    stamp = file.with_name(f"{file.name}.of")
    return file.is_file() and stamp.is_file() and (as_built or stamp.read_text(encoding="utf-8") == state)


def make(names: set[str], built: Built, given: argparse.Namespace) -> str:
    """Makes what is used and not there yet, and says how. `names` has the library's crate and programs."""
    proved = not given.unproved
    file_of = {it: built.archive if it == LIBRARY else built.program(it) for it in sorted(names)}
    state = None if given.as_built else state_of(TOP, proved)
    wanted = [it for it, file in file_of.items() if not is_current(file, state, given.as_built)]
    for it in wanted:
        file_of[it].with_name(f"{file_of[it].name}.of").unlink(missing_ok=True)
    with open(OUT / "build.log", "w", encoding="utf-8") as log:
        until = time.monotonic() + LIMIT
        if wanted:
            (of_gate if proved else without_proof)(wanted, log, until)
        if LIBRARY in names:
            words = ("make", "-C", BINDINGS, "-B", f"ARCHIVE={built.archive}", "all")
            run(command(*words), log, until)
    for it in wanted:
        file_of[it].with_name(f"{file_of[it].name}.of").write_text(state or "changes", encoding="utf-8")
    how = "of what the gate proved" if proved else "without proof"
    return f"{', '.join(wanted)} {how}" if wanted else "all was built before"


def of_gate(names: list[str], log: TextIO, until: float) -> None:
    """The library over what rt ci proved, and the programs that it kept."""
    if LIBRARY in names:
        run(command(sys.executable, TOP / "packaging/build.py", "--cpu", os.uname().machine, "--to", OUT / "built", LIBRARY), log, until)
    programs = [it for it in names if it != LIBRARY]
    kept = kits.kept_of(TOP, kits.kit_folder()) if programs else {}
    lacking = [it for it in programs if not kits.take(it, kept, OUT / "bin")]
    if lacking:
        raise Stop(f"rt ci has kept no {', '.join(lacking)} as in this checkout: run .ci/run first, or use --unproved")


def without_proof(names: list[str], log: TextIO, until: float) -> None:
    """The library and the programs as unproved.py lowers them, each program linked by the system's compiler."""
    cpu = os.uname().machine
    run(command(sys.executable, TOP / "packaging/unproved.py", "--cpu", cpu, "--to", OUT / "built", *names), log, until)
    (OUT / "bin").mkdir(exist_ok=True)
    for name in names:
        if name != LIBRARY:
            made = OUT / f"built/{cpu}/{name}.main.o"
            run(command("objcopy", "--redefine-sym", "main=rattle_main", made.with_name(f"{name}.o"), made), log, until)
            run(command("gcc", "-O2", made, TOP / "packaging/system.c", BINDINGS / "heap.c", "-o", OUT / "bin" / name), log, until)
