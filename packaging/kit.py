"""The kit, the crates of a checkout, and what rt ci has proved of them on this machine."""
from __future__ import annotations

import contextlib
import hashlib
import importlib.machinery
import importlib.util
import json
import os
import shutil
import sys
from dataclasses import dataclass
from pathlib import Path

from plain import Stop, once, run


def kit_folder() -> Path:
    """The folder of the kit whose rt is on the path."""
    found = shutil.which("rt")
    if not found:
        raise Stop("rt is not on the path: this needs the Rattle kit")
    return Path(found).resolve().parent.parent


@dataclass
class Crates:
    """The crates of crates.txt: what each stands on, and the words after its name."""

    top: Path
    stands_on: dict[str, list[str]]
    kinds: dict[str, list[str]]

    def below(self, name: str) -> list[str]:
        """The crates of the repository below one, each after those that it uses."""
        inner = [it for it in self.of(name) if it in self.stands_on]
        return once(found for it in inner for found in (*self.below(it), it))

    def of(self, name: str) -> list[str]:
        if name not in self.stands_on:
            raise Stop(f"crates.txt has no crate {name}")
        return self.stands_on[name]

    def of_kit(self, name: str) -> list[str]:
        """The kit's libraries that a crate names, and std, which all have."""
        return ["std", *(it for it in self.of(name) if it not in self.stands_on)]

    def folder(self, name: str) -> Path:
        return self.top / "crates" / name

    def root(self, name: str) -> str:
        return "src/main.rt" if (self.folder(name) / "src/main.rt").is_file() else "src/lib.rt"


def crates_of(top: Path) -> Crates:
    crates = Crates(top, {}, {})
    for line in (top / "crates.txt").read_text(encoding="utf-8").splitlines():
        head, colon, tail = line.partition("#")[0].partition(":")
        if colon:
            name, *kinds = head.split()
            crates.stands_on[name], crates.kinds[name] = tail.split(), kinds
    return crates


def rt_itself(kit: Path):
    """The kit's rt as a module: its own functions name what it keeps."""
    sys.dont_write_bytecode = True
    sys.path.insert(0, str(kit / "bin"))
    loader = importlib.machinery.SourceFileLoader("rt", str(kit / "bin" / "rt"))
    made = importlib.util.module_from_spec(importlib.util.spec_from_loader("rt", loader))
    sys.modules["rt"] = made
    loader.exec_module(made)
    return made


@dataclass
class Kept:
    """A crate that rt ci proved: the files that it kept, by their paths, with their sums. Of a program they are its executables."""

    folder: Path
    files: list[tuple[str, str]]


def kept_of(top: Path, kit: Path) -> dict[str, Kept]:
    """The crates of a checkout that rt ci proved on this machine, from the same files over the same libraries."""
    rt = rt_itself(kit)
    try:
        with inside(top):
            rt.Crate.cuts_libraries, rt.Crate.allowed = True, rt.handles_of(str(top))
            found, sums = {}, {}
            for crate in rt.crates_of(str(top)):
                below = [it.name for it in crate.below()]
                if any(it not in sums for it in below):
                    continue
                key = hashlib.sha256(repr((rt.own_sum(crate), [(it, sums[it]) for it in below])).encode()).hexdigest()
                folder = Path(rt.STORE, f"proof-{crate.name}-{key}")
                if (folder / "made.json").is_file():
                    made = json.loads((folder / "made.json").read_text(encoding="utf-8"))
                    files = [(path, total) for path, total in made["files"]]
                    if not crate.is_program:
                        sums[crate.name] = hashlib.sha256(repr(files).encode()).hexdigest()
                    found[crate.name] = Kept(folder, files)
            return found
    except AttributeError as why:
        raise Stop(f"this kit's rt is not the one that this was written for: {why}") from None


@contextlib.contextmanager
def inside(folder: Path):
    before = os.getcwd()
    os.chdir(folder)
    try:
        yield
    finally:
        os.chdir(before)


def lend(kept: Kept, to: Path) -> None:
    """Puts what was kept of a library into a folder, each file as it was proved."""
    for number, (path, total) in enumerate(kept.files):
        place = to / path
        place.parent.mkdir(parents=True, exist_ok=True)
        try:
            os.link(kept.folder / str(number), place)
        except OSError:
            shutil.copyfile(kept.folder / str(number), place)
        if hashlib.sha256(place.read_bytes()).hexdigest() != total:
            raise Stop(f"{kept.folder} is damaged: file {number} is not the one that was kept")


def take(name: str, kept: dict[str, Kept], to: Path) -> bool:
    """Takes the executable of a program that rt ci kept into a folder. Whether there is one."""
    paths = [path for path, _ in kept[name].files] if name in kept else []
    if name not in paths:
        return False
    to.mkdir(parents=True, exist_ok=True)
    part = to / f".{name}"
    shutil.copyfile(kept[name].folder / str(paths.index(name)), part)
    part.chmod(0o755)
    part.rename(to / name)
    return True


def identity(kit: Path) -> str:
    return run(kit / "bin" / "rt", "version").strip()
