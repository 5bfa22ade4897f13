"""Roots of Debian without the kit, in which a release is used as a stranger would use it."""
from __future__ import annotations

import os
import shutil
import subprocess
from pathlib import Path

from plain import Stop, last_line, need, run

COMMON = "gcc,libc6-dev,pkg-config,musl-tools,python3,python3-pip,python3-pytest,make"
# A release of Debian, and what is installed there by apt. An older one has no Rust 1.63 and no Go 1.19.
RELEASES = {"bookworm": f"{COMMON},cargo,rustc,golang-go", "bullseye": COMMON}
CLEAN = {"PATH": "/usr/sbin:/usr/bin:/sbin:/bin", "HOME": "/root", "LANG": "C.UTF-8", "LC_ALL": "C.UTF-8"}


class Room:
    """A root, with a folder /try that each run begins anew. What runs there has no network."""

    def __init__(self, name: str, root: Path) -> None:
        self.name, self.root, self.place = name, root, root / "try"
        shutil.rmtree(self.place, ignore_errors=True)
        self.place.mkdir(parents=True)

    def run(self, command: str, feed: bytes = b"", status: int = 0, **variables: str) -> bytes:
        """What a command of the shell writes, in /try."""
        alone = ["unshare", "--net", "--pid", "--fork", f"--mount-proc={self.root}/proc"]
        words = [*alone, "chroot", str(self.root), "/bin/sh", "-ec", f"cd /try\n{command}"]
        ran = subprocess.run(words, input=feed, stdout=subprocess.PIPE, stderr=subprocess.PIPE, env={**CLEAN, **variables})
        if ran.returncode != status:
            said = last_line((ran.stderr or ran.stdout).decode(errors="replace"))
            raise Stop(f"`{command.strip().splitlines()[-1].strip()}` ended with {ran.returncode}, and not {status}: {said}")
        return ran.stdout


class Bare(Room):
    """A room without a shell: a command is a program and its words."""

    def run(self, command: str, feed: bytes = b"", status: int = 0, **variables: str) -> bytes:
        words = ["unshare", "--net", "chroot", str(self.root), *command.split()]
        ran = subprocess.run(words, input=feed, stdout=subprocess.PIPE, stderr=subprocess.PIPE, env={**CLEAN, **variables})
        if ran.returncode != status:
            raise Stop(f"`{command}` ended with {ran.returncode}, and not {status}: {last_line(ran.stderr.decode(errors='replace'))}")
        return ran.stdout


def debian_room(name: str, folder: Path) -> Room:
    """A root made by debootstrap, once: what is tried in it leaves it as it was, but for /try and the packages of the release."""
    root, ready = folder / name, folder / f"{name}.ready"
    if not ready.is_file():
        if os.geteuid():
            raise Stop("only root can make a root of Debian: run this as root")
        need({"debootstrap": "debootstrap", "unshare": "util-linux"})
        shutil.rmtree(root, ignore_errors=True)
        folder.mkdir(parents=True, exist_ok=True)
        # what it mounts in the root is gone when it ends, however it ends
        run("unshare", "--mount", "debootstrap", "--variant=minbase", f"--include={RELEASES[name]}", name, root)
        ready.touch()
    return Room(name, root)


def musl_room(folder: Path, debian: Room) -> Bare:
    """A root that has musl's loader and nothing else: no shell, and no glibc."""
    root = folder / "musl"
    shutil.rmtree(root, ignore_errors=True)
    loader = next((it for it in (debian.root / "lib").glob("ld-musl-*.so.1")), None)
    if not loader:
        raise Stop(f"{debian.name} has no musl: it was made by another version of this script; remove {debian.root} and its .ready")
    (root / "lib").mkdir(parents=True)
    shutil.copy2(debian.root / "usr/lib/x86_64-linux-musl/libc.so", root / "lib" / loader.name)
    (root / "lib" / loader.name).chmod(0o755)
    return Bare("musl", root)
