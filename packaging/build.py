#!/usr/bin/env python3
"""Builds the library for C and the programs over the libraries that rt ci proved on this machine.

usage: packaging/build.py [--sources CHECKOUT] [--to FOLDER] [--cpu CPU ..] [--jobs N] [CRATE ..]

Of each CRATE (all that a release has, where none is named) the crate itself is checked once more for each processor, over the libraries that rt ci kept
of these very files, and what was checked is built: FOLDER/CPU/NAME.o, the object file of a program, or FOLDER/CPU/NAME.a and NAME.s, archive and text of the
library, with LLVM's module NAME.bc, and NAME.json, which has the prover's last line and says of what it was made. Nothing below the crate is proved again, and nothing is written
to the checkout. Needs the kit; the target's C library is not asked for.
"""
from __future__ import annotations

import argparse
import os
import shutil
import subprocess
import tempfile
import time
from pathlib import Path

import kit as kits
from built import begin, end, file_of, made_of
from plain import Stop, ends_well, last_line, run
from shipped import BUILT, LIBRARY, PROGRAMS, TARGETS, TOP, Target

# A clang that also keeps what it is given, as $ROOM says: the module, as it is or rewritten, or the text of the assembler that was made of it, and each call's words.
KEEPING = """#!/bin/sh
for it in module.bc rewritten.ll module.s; do
    [ -f "$it" ] && cp "$it" {room}/
done
echo "$@" >> {room}/calls
exec {clang} "$@"
"""


def toolchain(kit: Path, room: Path, script: str = KEEPING) -> Path:
    """The kit's toolchain, with a script in the place of its clang, which leaves the module in the room."""
    tools = room / "toolchain"
    (tools / "bin").mkdir(parents=True)
    os.symlink(kit / "toolchain" / "lib", tools / "lib")
    for it in (kit / "toolchain" / "bin").iterdir():
        if it.name != "clang":
            os.symlink(it, tools / "bin" / it.name)
    clang = tools / "bin" / "clang"
    clang.write_text(script.format(room=room, clang=kit / "toolchain" / "bin" / "clang"))
    clang.chmod(0o755)
    return tools


def assembly(kit: Path, room: Path, to: Path) -> None:
    """The text of the assembler for the module that the archive was made of."""
    if (room / "module.s").is_file():
        shutil.copyfile(room / "module.s", to)
        return
    calls = [it.split() for it in (room / "calls").read_text().splitlines()]
    words = next(it for it in reversed(calls) if "-c" in it and "module.o" in it)
    words = ["-S" if it == "-c" else str(to) if it == "module.o" else it for it in words]
    run(kit / "toolchain" / "bin" / "clang", *words, "-fno-addrsig", "-fno-verbose-asm", cwd=room)


class Builder:
    """What all crates of one build share."""

    def __init__(self, sources: Path, to: Path, jobs: int) -> None:
        self.kit, self.crates, self.to, self.jobs = kits.kit_folder(), kits.crates_of(sources), to, jobs
        self.made = made_of(sources, self.kit, True)
        self.kept, self.lent = kits.kept_of(sources, self.kit), to / "proved"
        # what an earlier build left may be of other sources
        shutil.rmtree(self.lent, ignore_errors=True)

    def lend(self, name: str) -> None:
        """Brings the libraries below a crate."""
        lacking = [it for it in self.crates.below(name) if it not in self.kept]
        if lacking:
            raise Stop(f"{name}: rt ci has kept no proof of {', '.join(lacking)} as in this checkout: run .ci/run, or rt ci {name}")
        for it in self.crates.below(name):
            folder = self.lent / it
            if not folder.is_dir():
                kits.lend(self.kept[it], folder)

    def words(self, name: str, target: Target) -> list[str]:
        """How rt calls rattle for this crate, but for where the libraries are and the target."""
        crates, rlibs = self.crates, self.kit / "rlibs"
        rlib = lambda it: self.lent / it / "rlib" / f"{it}.rlib"
        words = ["--crate-name", name, crates.root(name)]
        words += [word for it in crates.of_kit(name) for word in ("--extern", f"{it}={rlibs}/{it}.rlib")]
        words += ["-L", f"dependency={rlibs}"]
        words += [word for it in crates.of(name) if it in crates.stands_on for word in ("--extern", f"{it}={rlib(it)}")]
        words += [word for it in crates.below(name) for word in ("-L", f"dependency={rlib(it).parent}")]
        words += ["--antt-project", f"{self.kit}/rattle/logic/antt-project.json", "--links", f"{name}="]
        words += ["--crate-type", "staticlib"] if "staticlib" in crates.kinds[name] else []
        return [*words, "--target", target.triple]

    def build(self, name: str, target: Target) -> None:
        """Checks a crate for a target, and builds what was checked."""
        self.lend(name)
        words = self.words(name, target)
        to = file_of(self.to, target, name)
        begin(to)
        begun = time.monotonic()
        with tempfile.TemporaryDirectory(prefix="mdb-build-") as made:
            room = Path(made)
            said = self.rattle("check", name, *words, "--logic-built", self.kit / "logic_built", "--empty-contracts", "--jobs", self.jobs, "-o", room / "checked")
            verdict = said.rstrip("\n").rpartition("\n")[2]
            if not verdict.startswith("logic=proved "):
                raise Stop(f"{name}: not proved: {verdict}")
            proved = time.monotonic()
            self.rattle("build", name, *words, "--crate-checked", room / "checked", "--toolchain", toolchain(self.kit, room), "--backend", "llvm", "-o", to)
            if to.suffix == ".a":
                assembly(self.kit, room, to.with_suffix(".s"))
            shutil.copyfile(room / "module.bc", to.with_suffix(".bc"))
        end(to, self.made, verdict)
        print(f"{name} for {target.cpu}: proved in {proved - begun:.0f} s, built in {time.monotonic() - proved:.0f} s, {to.stat().st_size} bytes", flush=True)

    def rattle(self, command: str, name: str, *words: object) -> str:
        """What rattle says, of which the last line is the verdict: it may stand on either stream."""
        said = [str(it) for it in (self.kit / "bin" / "rattle", command, *words)]
        ran = subprocess.run(said, cwd=self.crates.folder(name), stdin=subprocess.DEVNULL, stdout=subprocess.PIPE, stderr=subprocess.STDOUT, text=True, errors="replace", check=False)
        if ran.returncode:
            raise Stop(f"rattle {command} of {name} ended with {ran.returncode}: {last_line(ran.stdout)}")
        return ran.stdout


@ends_well
def main() -> None:
    at = argparse.ArgumentParser(description=__doc__.split("\n")[0])
    at.add_argument("--sources", type=Path, default=TOP, help="the checkout whose crates are built (this one)")
    at.add_argument("--to", type=Path, default=BUILT, help="the folder for what is built (packaging/out/built)")
    at.add_argument("--cpu", nargs="*", choices=[it.cpu for it in TARGETS], default=[it.cpu for it in TARGETS], help="the processors (all)")
    at.add_argument("--jobs", type=int, default=1, help="the prover's processes for a crate (1)")
    at.add_argument("crates", nargs="*", metavar="CRATE", help="mdb_c, or a program (all that a release has)")
    given = at.parse_args()
    builder = Builder(given.sources.resolve(), given.to.resolve(), given.jobs)
    for target in TARGETS:
        for name in (given.crates or (LIBRARY, *PROGRAMS)) if target.cpu in given.cpu else ():
            builder.build(name, target)
    shutil.rmtree(builder.lent, ignore_errors=True)


if __name__ == "__main__":
    main()
