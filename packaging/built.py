"""What a build leaves: each crate with a page beside it that says of what it was made."""
from __future__ import annotations

import json
import re
from pathlib import Path

import kit as kits
from packed import sum_of
from plain import Stop, run
from shipped import LIBRARY, PROGRAMS, TARGETS, Target

# What has to be the same for all crates of a release.
SHARED = ("commit", "kit", "logic", "compiler", "proved")


def file_of(built: Path, target: Target, name: str) -> Path:
    return built / target.cpu / f"{name}{'.a' if name == LIBRARY else '.o'}"


def made_of(sources: Path, kit: Path, proved: bool) -> dict[str, object]:
    """Of what a build is made that begins now."""
    compiler = run(kit / "toolchain" / "bin" / "clang", "--version").splitlines()[0]
    commit = run("git", "-C", sources, "rev-parse", "HEAD").strip()
    changed = bool(run("git", "--no-optional-locks", "-C", sources, "status", "--porcelain", "--", "crates", "crates.txt", "HANDLES"))
    logic = re.search(r" logic (\w+)", kits.identity(kit))
    return {"commit": commit, "changed": changed, "kit": kits.identity(kit), "logic": logic[1] if logic else "", "compiler": compiler, "proved": proved}


def begin(file: Path) -> None:
    """A build that is broken off leaves no page, so it is none."""
    file.parent.mkdir(parents=True, exist_ok=True)
    file.with_suffix(".json").unlink(missing_ok=True)


def end(file: Path, made: dict[str, object], verdict: str) -> None:
    page = {**made, "verdict": verdict, "sum": sum_of(file)}
    file.with_suffix(".json").write_text(json.dumps(page, indent=1, sort_keys=True) + "\n", encoding="utf-8")


def targets_in(built: Path) -> list[Target]:
    """The processors for which the library is built. Each has to have all programs."""
    found = [it for it in TARGETS if file_of(built, it, LIBRARY).is_file()]
    if not found:
        raise Stop(f"{built} has no {LIBRARY}.a: run packaging/build.py first")
    return found


def page_of(built: Path, target: Target, name: str) -> dict[str, object]:
    file = file_of(built, target, name)
    page = file.with_suffix(".json")
    if not (file.is_file() and page.is_file()):
        raise Stop(f"{built} has no {name} for {target.cpu}: run packaging/build.py, to its end")
    said = json.loads(page.read_text(encoding="utf-8"))
    if said["sum"] != sum_of(file):
        raise Stop(f"{file} is not what was built: run packaging/build.py")
    return said


def pages_in(built: Path, targets: list[Target]) -> dict[str, dict[str, dict[str, object]]]:
    """The pages of all crates, which have to be of one build."""
    pages = {target.cpu: {name: page_of(built, target, name) for name in (LIBRARY, *PROGRAMS)} for target in targets}
    first = pages[targets[0].cpu][LIBRARY]
    for cpu, of_cpu in pages.items():
        for name, page in of_cpu.items():
            other = next((it for it in SHARED if page[it] != first[it]), None)
            if other:
                raise Stop(f"{built}: {name} for {cpu} has another {other} than {LIBRARY}: run packaging/build.py for all")
    return pages


def hold(built: Path, pages: dict[str, dict[str, dict[str, object]]], commit: str) -> None:
    """Ends where not all is proved, or something is of another commit or of a checkout with changes."""
    for cpu, of_cpu in pages.items():
        for name, page in of_cpu.items():
            if not page["proved"]:
                raise Stop(f"{built}: {name} for {cpu} was built without proof: run packaging/build.py")
            if page["commit"] != commit:
                raise Stop(f"{built}: {name} for {cpu} is of commit {page['commit'][:12]}, and the checkout of {commit[:12]}: run packaging/build.py")
            if page["changed"]:
                raise Stop(f"{built}: {name} for {cpu} was built of a checkout with changes: run packaging/build.py")
