#!/usr/bin/env python3
"""Builds modules of WebAssembly, which a browser runs: packaging/out/wasm/NAME.wasm.

usage: packaging/wasm.py [--built FOLDER] [--to FOLDER] [NAME ..]

NAME is mdb, the library for C; storm, the library with the simulation of examples/storm; or a program (mdb_auditor, mdb_recorded, mdb_fleet, mdb_proxy), whose main runs
over a text: all of them where none is named. The first FOLDER is what packaging/build.py or packaging/unproved.py left, with the modules for LLVM for x86-64. Their
text is given the data layout and the triple of wasm64 and compiled by the kit's clang, with heap_wasm.c and wide_wasm.c, and for C and programs
libc_wasm.c and system_wasm.c, in place of a C library; binaryen then lowers it to a memory of 32 bits, which every browser has. Neither step is covered by a
proof: checks/wasm.py compares what the modules write with what the native ones do. Beside each stands NAME.json, which says of what it was made. Needs the kit,
and wasm-opt (Debian's binaryen).
"""
from __future__ import annotations

import argparse
import json
import re
import tempfile
from dataclasses import dataclass
from pathlib import Path

import kit as kits
from built import file_of, page_of
from packed import sum_of
from plain import Stop, ends_well, need, run
from shipped import BUILT, HERE, LIBRARY, TARGETS, TOP

LAYOUT = "e-m:e-p:64:64-p10:8:8-p20:8:8-i64:64-i128:128-n32:64-S128-ni:1:10:20"
TRIPLE = "wasm64-unknown-unknown"
CPU = "lime1"
COMPILING = f"--target={TRIPLE} -mcpu={CPU} -mbulk-memory -mllvm -expand-div-rem-bits=64 -ffunction-sections -fdata-sections -Wno-override-module".split()
ALONE = [*"-O2 -ffreestanding -fno-builtin -nostdinc -x c".split(), "-I", str(HERE / "wasm_include"), "-I", str(TOP / "include")]
# What stands in for a C library and for instructions that there are none of; further files for C, and for programs.
HELPERS = ("heap_wasm.c", "wide_wasm.c")
FOR_C = (*HELPERS, "libc_wasm.c")
FOR_PROGRAMS = (*FOR_C, "system_wasm.c")
STORM = TOP / "examples/storm"
PROGRAMS = ("mdb_auditor", "mdb_recorded", "mdb_fleet", "mdb_proxy")
NAMES = ("mdb", "storm", *PROGRAMS)
LINKING = "-flavor wasm -mwasm64 --no-entry --stack-first -z stack-size=1048576 --gc-sections --fatal-warnings --strip-all".split()
LOWERING = "--enable-memory64 --enable-bulk-memory --enable-sign-ext --enable-nontrapping-float-to-int --enable-mutable-globals --memory64-lowering".split()
# What a host calls beside the functions of the header.
ROOM = ["mdb_room", "mdb_room_back"]
RUNNING = ["mdb_run", "mdb_written", "mdb_written_length"]
# What is of another processor, in the attributes of functions.
FOREIGN = re.compile(r' "(?:probe-stack|stack-probe-size|target-cpu|target-features|tune-cpu)"="[^"]*"')


def retargeted(text: str) -> str:
    """The text of a module for wasm64 in place of x86-64."""
    text = re.sub(r"(?m)^target datalayout = .*", f'target datalayout = "{LAYOUT}"', text)
    text = re.sub(r"(?m)^target triple = .*", f'target triple = "{TRIPLE}"', text)
    return FOREIGN.sub("", text)


def exports_of(text: str) -> list[str]:
    """The functions of the library that can be called from outside."""
    return sorted(re.findall(r"(?m)^define (?!internal |private )[^@]*@(mdb_\w+)\(", text))


@dataclass
class Plan:
    """What a module is linked of beside a crate: files of C, with flags, and what a host calls."""

    files: list[Path]
    exports: list[str]
    flags: list[str]


def functions_of(header: Path) -> list[str]:
    """The functions that a header declares."""
    return re.findall(r"(?m)^[a-z][\w *]*?\b(\w+)\(", header.read_text(encoding="utf-8"))


def text_of(kit: Path, module: Path) -> str:
    """The text of a module for LLVM, for wasm64; the main of a program has another name, since C has its own rules for one."""
    text = run(kit / "toolchain/bin/clang", "-Wno-override-module", "-x", "ir", module, "-S", "-emit-llvm", "-Xclang", "-disable-llvm-passes", "-o", "-")
    return re.sub(r"(?m)^(define [^@]*)@main\(", r"\1@program_main(", retargeted(text))


def plan_of(name: str, text: str) -> Plan:
    if name == "mdb":
        return Plan([HERE / it for it in HELPERS], exports_of(text), [])
    if name == "storm":
        files = [*(HERE / it for it in FOR_C), *(it for it in sorted(STORM.glob("*.c")) if it.name != "main.c")]
        return Plan(files, [it for header in ("storm.h", "settings.h") for it in functions_of(STORM / header)], [])
    has_words = not re.search(r"(?m)^define [^@]*@program_main\(\)", text)
    return Plan([HERE / it for it in FOR_PROGRAMS], RUNNING, ["-DMAIN_HAS_WORDS"] if has_words else [])


class Linker:
    """Makes modules; what two of them have in common is compiled once."""

    def __init__(self, kit: Path, built: Path, room: Path) -> None:
        self.kit, self.built, self.room = kit, built, room
        self.target = next(it for it in TARGETS if it.cpu == "x86_64")

    def compiled(self, crate: str) -> tuple[str, Path]:
        """The text of a crate's module, and its object file."""
        module, made = self.room / f"{crate}.ll", self.room / f"{crate}.o"
        if not made.is_file():
            module.write_text(text_of(self.kit, file_of(self.built, self.target, crate).with_suffix(".bc")), encoding="utf-8")
            run(self.kit / "toolchain/bin/clang", *COMPILING, "-O3", "-x", "ir", "-c", module, "-o", made)
        return module.read_text(encoding="utf-8"), made

    def linked(self, name: str, crate: str) -> Path:
        """The module with a memory of 64 bits."""
        text, library = self.compiled(crate)
        plan = plan_of(name, text)
        if not plan.exports:
            raise Stop("the module has no function that can be called from outside")
        objects = [self.room / f"{name}-{it.stem}.o" for it in plan.files]
        for file, made in zip(plan.files, objects):
            run(self.kit / "toolchain/bin/clang", *COMPILING, *ALONE, *plan.flags, "-c", file, "-o", made)
        words = [f"--export={it}" for it in (*plan.exports, *ROOM)]
        run(self.kit / "toolchain/bin/ld.lld", *LINKING, *words, "-o", self.room / f"{name}.wasm", library, *objects)
        return self.room / f"{name}.wasm"

    def build(self, name: str, to: Path) -> None:
        crate = name if name in PROGRAMS else LIBRARY
        made = page_of(self.built, self.target, crate)
        run("wasm-opt", *LOWERING, self.linked(name, crate), "-o", to)
        page = {**made, "lowered": run("wasm-opt", "--version").strip(), "sum": sum_of(to)}
        to.with_suffix(".json").write_text(json.dumps(page, indent=1, sort_keys=True) + "\n", encoding="utf-8")
        print(f"{to.name}: {to.stat().st_size} bytes, {'proved before it was lowered' if made['proved'] else 'not proved'}", flush=True)


@ends_well
def main() -> None:
    at = argparse.ArgumentParser(description=__doc__.split("\n")[0])
    at.add_argument("--built", type=Path, default=BUILT, help="the folder of what was built (packaging/out/built)")
    at.add_argument("--to", type=Path, default=HERE / "out/wasm", help="the folder for the modules (packaging/out/wasm)")
    at.add_argument("names", nargs="*", metavar="NAME", help=f"{', '.join(NAMES)} (all)")
    given = at.parse_args()
    need({"wasm-opt": "binaryen"})
    for name in given.names:
        if name not in NAMES:
            at.error(f"no module {name}")
    given.to.mkdir(parents=True, exist_ok=True)
    with tempfile.TemporaryDirectory(prefix="mdb-wasm-") as room:
        linker = Linker(kits.kit_folder(), given.built, Path(room))
        for name in given.names or NAMES:
            linker.build(name, given.to / f"{name}.wasm")


if __name__ == "__main__":
    main()
