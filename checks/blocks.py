#!/usr/bin/env python3
"""Runs what README.md, docs/SCRIPT.md and examples/scripts show, and says what comes out otherwise.

usage: checks/blocks.py PROGRAMS [--library FILE]

PROGRAMS is a folder with mdb_script, mdb_proxy, mdb_fleet and mdb_auditor. Each FILE.script of examples/scripts gives FILE.log, and a log of a driver is legal to
the auditor. Each entry that a page shows is what the program writes for the lines before the first ` | `, where `..` stands for any facts. README's program in Python
is run with the library FILE (libmdb.so); each line of its program in C stands in bindings/examples/round.c. The status is 0 where all is so, and else 1.
"""
from __future__ import annotations

import argparse
import os
import re
import subprocess
import sys
import textwrap
from pathlib import Path

TOP = Path(__file__).resolve().parent.parent
SCRIPTS = TOP / "examples/scripts"
ENTRY = " | "
ANY = " | .."


def program_of(script: str) -> str:
    """The program that reads a script, by its first word."""
    return {"shares": "mdb_proxy", "fleet ": "mdb_fleet"}.get(script[:6], "mdb_script")


def written(program: Path, script: str) -> str:
    ran = subprocess.run([program], input=script.encode(), stdout=subprocess.PIPE, stderr=subprocess.PIPE, check=False)
    return ran.stdout.decode() + (f"status {ran.returncode}: {ran.stderr.decode()}" if ran.returncode else "")


def blocks_of(page: Path) -> list[list[str]]:
    """The indented blocks of a page, without their indents."""
    found = re.findall(r"(?:^    [^\n]*\n)+", page.read_text(encoding="utf-8"), re.M)
    return [textwrap.dedent(it).splitlines() for it in found]


def is_shown(shown: str, entry: str) -> bool:
    """Whether an entry is as a page shows it."""
    parts = [re.escape(it) for it in shown.split(ANY)]
    return re.fullmatch("(?: \\| .*)?".join(parts), entry) is not None


class Wrong:
    """Counts what is otherwise, and tells it."""

    def __init__(self) -> None:
        self.count = 0

    def unless(self, right: bool, why: str) -> None:
        if not right:
            self.count += 1
            print(why)


def scripts(programs: Path, wrong: Wrong) -> int:
    """The examples that have files."""
    files = sorted(SCRIPTS.glob("*.script"))
    for file in files:
        script, log = file.read_text(), file.with_suffix(".log").read_text()
        name = program_of(script)
        wrong.unless(written(programs / name, script) == log, f"{file.name}: {name} writes another log")
        if name == "mdb_script":
            verdict = written(programs / "mdb_auditor", log)
            wrong.unless(verdict == f"legal entries={len(log.splitlines())}\n", f"{file.name}: the auditor says {verdict}")
    return len(files)


def entries(page: Path, programs: Path, wrong: Wrong) -> int:
    """The logs that a page shows, one a block."""
    shown = [it for it in blocks_of(page) if ENTRY in it[0]]
    for block in shown:
        script = "".join(it.split(ENTRY)[0] + "\n" for it in block)
        log = written(programs / program_of(script), script).splitlines()
        wrong.unless(len(log) == len(block), f"{page.name}: {len(block)} entries are shown, and {len(log)} written")
        for told, entry in zip(block, log):
            wrong.unless(is_shown(told, entry), f"{page.name} shows: {told}\nand written is: {entry}")
    return len(shown)


def in_c(page: Path, wrong: Wrong) -> int:
    """The program in C that a page quotes."""
    source = " ".join((TOP / "bindings/examples/round.c").read_text().split())
    lines = [line for it in blocks_of(page) if it[0].startswith("mdb_slot") for line in it]
    for statement in (f"{it.strip()};" for line in lines for it in line.split(";") if it.strip()):
        wrong.unless(statement[:-1] in source, f"{page.name}: round.c has no `{statement}`")
    return bool(lines)


def in_python(page: Path, library: Path, wrong: Wrong) -> int:
    """The program in Python that a page shows."""
    shown = ["\n".join(["import mdb", *it]) for it in blocks_of(page) if it[0].startswith("with mdb.")]
    variables = {**os.environ, "PYTHONPATH": str(TOP / "bindings/python"), "MDB_LIBRARY": str(library), "PYTHONDONTWRITEBYTECODE": "1"}
    for text in shown:
        ran = subprocess.run([sys.executable, "-c", text], env=variables, stderr=subprocess.PIPE, text=True, check=False)
        wrong.unless(ran.returncode == 0, f"{page.name}: the program in Python ends with {ran.returncode}: {ran.stderr}")
    return len(shown)


def main() -> None:
    at = argparse.ArgumentParser(description=__doc__.split("\n")[0])
    at.add_argument("programs", type=Path)
    at.add_argument("--library", type=Path, metavar="FILE")
    given = at.parse_args()
    wrong, readme = Wrong(), TOP / "README.md"
    count = scripts(given.programs, wrong) + in_c(readme, wrong)
    count += sum(entries(it, given.programs, wrong) for it in (readme, TOP / "docs/SCRIPT.md"))
    count += in_python(readme, given.library, wrong) if given.library else 0
    print(f"{count} examples and blocks, {wrong.count} wrong")
    sys.exit(1 if wrong.count else 0)


if __name__ == "__main__":
    main()
