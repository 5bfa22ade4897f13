#!/usr/bin/env python3
"""Makes a release of what build.py built: dist/, whole or not at all.

usage: packaging/dist.py --log GATE.LOG [--check] [--built FOLDER] [--sources CHECKOUT] [--to FOLDER]
       packaging/dist.py --unproved [..]

The checkout must be clean, and GATE.LOG the log of its own gate, which passed: `.ci/run > GATE.LOG`. Needs no kit: a compiler for each processor, musl,
dpkg-deb, git. The same commit, built by the same compilers, gives the same bytes, whatever the folder and the day. --unproved takes what unproved.py
built, asks for no log and a clean checkout neither, and marks the version: it is for trying the packaging.
"""
from __future__ import annotations

import argparse
import os
import shutil
import sysconfig
import tempfile
from pathlib import Path

import built
import debian
import gate_log
import packages
from kit import crates_of
from linked import Made
from packed import sum_of
from plain import Stop, ends_well, need, run, write
from release import Release
from shipped import BUILT, DIST, LIBRARY, TARGETS, TOP, Target, interface, is_released, version


def tools_for(targets: list[Target]) -> dict[str, str]:
    tools = {"git": "git", "dpkg-deb": "dpkg", str(Path(sysconfig.get_paths()["include"]) / "Python.h"): "libpython3-dev"}
    for it in targets:
        of_gcc = "gcc" if it.cpu == os.uname().machine else f"gcc-{it.multiarch.replace('_', '-')}"
        tools |= {it.tool("gcc"): of_gcc, it.tool("objcopy"): of_gcc.replace("gcc", "binutils", 1), str(it.musl / "libc.a"): f"musl-dev:{it.debian}"}
    return tools


def gate_of(sources: Path, log: Path | None, commit: str) -> gate_log.GateLog:
    """What the gate said of this very commit, in a checkout without changes. All else is refused."""
    if not log or not log.name:
        raise Stop("--log GATE.LOG is missing: the log of the gate that passed (make -C packaging dist LOG=GATE.LOG)")
    changes = run("git", "--no-optional-locks", "-C", sources, "status", "--porcelain").splitlines()
    if changes:
        raise Stop(f"{sources} has changes: {changes[0].strip()}{f' and {len(changes) - 1} more' if len(changes) > 1 else ''}")
    said = gate_log.read(log)
    gate_log.hold(said, log, commit, list(crates_of(sources).stands_on))
    return said


def version_of(sources: Path, commit: str, is_proved: bool) -> str:
    """The version, with the commit behind it where CHANGES does not say that it is released."""
    wanted = version(sources)
    released = is_released(sources, wanted)
    if not is_proved:
        return f"{wanted}+unproved"
    if not released:
        return f"{wanted}+{commit[:8]}"
    tagged = run("git", "-C", sources, "for-each-ref", "--format=%(*objectname)%(objectname)", f"refs/tags/v{wanted}").strip()
    if tagged and not tagged.startswith(commit):
        raise Stop(f"the tag v{wanted} is of another commit: a new release needs a new version")
    return wanted


def release_of(given: argparse.Namespace, to: Path, targets: list[Target]) -> Release:
    """All that is asked before anything is made."""
    sources = given.sources.resolve()
    commit = run("git", "-C", sources, "rev-parse", "HEAD").strip()
    log = None if given.unproved else gate_of(sources, given.log, commit)
    pages = built.pages_in(given.built, targets)
    if not given.unproved:
        built.hold(given.built, pages, commit)
    facts = pages[targets[0].cpu][LIBRARY]
    date = int(os.environ.get("SOURCE_DATE_EPOCH") or run("git", "-C", sources, "log", "-1", "--format=%ct"))
    verdicts = {cpu: {name: page["verdict"] for name, page in of_cpu.items()} for cpu, of_cpu in pages.items()}
    tools = {it.cpu: run(it.tool("gcc"), "--version").splitlines()[0] for it in targets}
    named = version_of(sources, commit, bool(facts["proved"]))
    of = Release(sources, to, named, interface(sources), commit, date, facts, verdicts, log, tools)
    of.sum_sources(run("git", "-C", sources, "ls-files", "crates", "crates.txt", "HANDLES", "include", "bindings", "packaging", "pages").splitlines())
    return of


def make(of: Release, folder: Path, targets: list[Target], room: Path) -> None:
    all_made = [Made(it, folder, of.sources, room / it.cpu, of.interface) for it in targets]
    for made in all_made:
        cpu = made.target.cpu
        packages.plain_folder(of, made, room / f"plain-{cpu}")
        packages.wheel(of, made, room / f"wheel-{cpu}")
        debian.packages(of, made, room / f"debian-{cpu}")
    packages.rust(of, all_made, room / "rust")
    packages.go(of, all_made, room / "go")
    packages.assembly(of, all_made, room / "assembly")
    packages.pages(of)
    sums = {it.name: sum_of(it) for it in sorted(of.to.iterdir())}
    write(of.to / "MANIFEST.json", of.manifest(files=sums))
    sums["MANIFEST.json"] = sum_of(of.to / "MANIFEST.json")
    write(of.to / "SHA256SUMS", "".join(f"{total}  {name}\n" for name, total in sorted(sums.items())))


def put_in_place(part: Path, to: Path) -> None:
    """The new folder takes the place of an earlier one."""
    earlier = to.with_name(f".{to.name}.earlier")
    shutil.rmtree(earlier, ignore_errors=True)
    if to.exists():
        to.rename(earlier)
    part.rename(to)
    shutil.rmtree(earlier, ignore_errors=True)


@ends_well
def main() -> None:
    at = argparse.ArgumentParser(description=__doc__.split("\n")[0])
    at.add_argument("--log", type=Path, help="the log of the gate of this commit")
    at.add_argument("--built", type=Path, default=BUILT, help="what build.py built (packaging/out/built)")
    at.add_argument("--sources", type=Path, default=TOP, help="the checkout (this one)")
    at.add_argument("--to", type=Path, default=DIST, help="the folder of the release (dist)")
    at.add_argument("--check", action="store_true", help="only ask whether a release may be made here")
    at.add_argument("--unproved", action="store_true", help="pack what unproved.py built, and say so in the version")
    given = at.parse_args()
    to = given.to.resolve()
    part = to.with_name(f".{to.name}.part")
    need(tools_for(list(TARGETS) if given.check else built.targets_in(given.built)))
    if given.check:
        commit = run("git", "-C", given.sources, "rev-parse", "HEAD").strip()
        gate_of(given.sources.resolve(), given.log, commit)
        version_of(given.sources, commit, True)
        return
    targets = built.targets_in(given.built)
    of = release_of(given, part, targets)
    shutil.rmtree(part, ignore_errors=True)
    try:
        part.mkdir(parents=True)
        with tempfile.TemporaryDirectory(prefix="mdb-dist-", dir=part.parent) as room:
            make(of, given.built.resolve(), targets, Path(room))
        for it in sorted(part.iterdir()):
            print(f"{it.stat().st_size:>10}  {it.name}")
        put_in_place(part, to)
    finally:
        shutil.rmtree(part, ignore_errors=True)


if __name__ == "__main__":
    main()
