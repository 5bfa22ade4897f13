"""What a release has: its programs, its targets, and the one version of all of it."""
from __future__ import annotations

import os
import re
from dataclasses import dataclass
from pathlib import Path

from plain import Stop

TOP = Path(__file__).resolve().parent.parent
HERE = TOP / "packaging"
# What is built goes here, unless a command is told otherwise.
BUILT = HERE / "out" / "built"
DIST = TOP / "dist"

# Who answers for the Debian packages.
MAINTAINER = "Nalomuvish <nalomuvish@example.org>"

# The program for people, which a checkout may not have yet, and those of the specification. One more is one more name here, and its lines in packaging/man.
TOOL = "mdb"
PROGRAMS = tuple(
    it for it in (TOOL, "mdb_script", "mdb_auditor", "mdb_recorded", "mdb_proxy", "mdb_fleet") if it != TOOL or (TOP / "crates" / it / "src/main.rt").is_file()
)
# The crate whose archive is libmdb.
LIBRARY = "mdb_c"


@dataclass(frozen=True)
class Target:
    """A processor with Linux, and what others call it."""

    cpu: str
    debian: str
    go: str

    @property
    def triple(self) -> str:
        return f"{self.cpu}-unknown-linux-gnu"

    @property
    def multiarch(self) -> str:
        return f"{self.cpu}-linux-gnu"

    @property
    def folder(self) -> str:
        """The folder of this processor in the Rust crate."""
        return f"{self.cpu}-linux"

    @property
    def wheel_tags(self) -> list[str]:
        """The library asks for six functions that each C library of Linux has, so one wheel serves all."""
        return [f"py3-none-{system}_{self.cpu}" for system in ("manylinux2014", "manylinux_2_17", "musllinux_1_1")]

    @property
    def emulator(self) -> str:
        return f"qemu-{self.cpu}"

    @property
    def musl(self) -> Path:
        """Where Debian's musl-dev of this processor has libc.a."""
        return Path(os.environ.get(f"MUSL_{self.cpu}", f"/usr/lib/{self.cpu}-linux-musl"))

    def tool(self, name: str) -> str:
        return f"{self.multiarch}-{name}"


TARGETS = (Target("x86_64", "amd64", "amd64"), Target("aarch64", "arm64", "arm64"))


# Each place that says the version, and how. The header's is the one that the others are held to.
SAID = {
    "include/mdb.h": r'#define MDB_VERSION "(.+)"',
    "bindings/python/pyproject.toml": r'(?m)^version = "(.+)"',
    "bindings/python/mdb/__init__.py": r'__version__ = "(.+)"',
    "bindings/rust/mdb/Cargo.toml": r'(?m)^version = "(.+)"',
    "bindings/rust/mdb-sys/Cargo.toml": r'(?m)^version = "(.+)"',
    "crates/mdb_commands/src/help.rt": r'"mdb (\S+), interface',
}


def said(top: Path, path: str, pattern: str) -> str:
    found = re.search(pattern, (top / path).read_text(encoding="utf-8"))
    if not found:
        raise Stop(f"{path} does not say its version")
    return found[1]


def version(top: Path) -> str:
    """The version of a checkout, which all places agree on."""
    each = {path: said(top, path, pattern) for path, pattern in SAID.items()}
    wanted = each["include/mdb.h"]
    for path, other in each.items():
        if other != wanted:
            raise Stop(f"{path} says version {other}, and include/mdb.h {wanted}")
    numbers = [int(it) for it in wanted.split(".")]
    number = int(said(top, "include/mdb.h", r"#define MDB_VERSION_NUMBER (\d+)"))
    if number != sum(it * unit for it, unit in zip(numbers, (10000, 100, 1))):
        raise Stop(f"include/mdb.h says version {wanted} and the number {number}")
    return wanted


def is_released(top: Path, wanted: str) -> bool:
    """Whether CHANGES begins with the section of this version, and not with what is not released yet."""
    section = said(top, "CHANGES.md", r"(?m)^## (.+)$")
    if section not in (wanted, "Not released yet"):
        raise Stop(f"CHANGES.md begins with {section}, and include/mdb.h says version {wanted}")
    return section == wanted


def interface(top: Path) -> int:
    """The number of the interface, which the bindings were written for too."""
    number = said(top, "include/mdb.h", r"#define MDB_ABI (\d+)")
    if said(top, "bindings/python/mdb/_library.py", r"(?m)^ABI = (\d+)") != number:
        raise Stop(f"bindings/python/mdb/_library.py is for another interface than {number}, that of include/mdb.h")
    return int(number)
