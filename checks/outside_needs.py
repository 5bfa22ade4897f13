"""The tools that the parts of outside.py need, and the packages of Debian that bring them."""

from __future__ import annotations

import os
import shutil
import subprocess
from pathlib import Path
from typing import Iterable, Protocol

# A command, a file, `python MODULE` or `pkg-config LIBRARY`, and its package.
PACKAGES = {
    "gcc": "gcc",
    "g++": "g++",
    "make": "make",
    "pkg-config": "pkg-config",
    "valgrind": "valgrind",
    "ss": "iproute2",
    "go": "golang-go",
    "/usr/share/gocode/src/go.mongodb.org/mongo-driver": "golang-mongodb-mongo-driver-dev",
    "cargo": "cargo",
    "node": "nodejs",
    "/usr/include/node/node_api.h": "libnode-dev",
    "javac": "default-jdk-headless",
    "/usr/share/java/jna.jar": "libjna-java",
    "dpkg-deb": "dpkg",
    "aarch64-linux-gnu-gcc": "gcc-aarch64-linux-gnu",
    "/usr/aarch64-linux-gnu/lib/libc.so.6": "libc6-dev-arm64-cross",
    "/usr/lib/x86_64-linux-musl/libc.a": "musl-dev:amd64",
    "/usr/lib/aarch64-linux-musl/libc.a": "musl-dev:arm64",
    "pkg-config libbson-1.0": "libbson-dev",
    "pkg-config libssl": "libssl-dev",
    "openssl": "openssl",
    "python pytest": "python3-pytest",
    "python bson": "python3-bson",
    "python pymongo": "python3-pymongo",
    "python dns": "python3-dnspython",
}


class Needing(Protocol):
    """Whatever needs tools."""

    @property
    def needs(self) -> tuple[str, ...]:
        """Commands, files, modules and libraries that PACKAGES has."""


def is_there(need: str, python: str) -> bool:
    kind, _, name = need.partition(" ")
    if not name:
        return shutil.which(need) is not None if "/" not in need else Path(need).exists()
    words = [python, "-c", f"import {name}"] if kind == "python" else ["pkg-config", "--exists", name]
    try:
        return subprocess.run(words, stdout=subprocess.DEVNULL, stderr=subprocess.DEVNULL, check=False).returncode == 0
    except FileNotFoundError:
        return False


def lacked(needs: Iterable[str], python: str) -> list[str]:
    return [it for it in dict.fromkeys(needs) if not is_there(it, python)]


def packages_of(needs: Iterable[str]) -> list[str]:
    return sorted({PACKAGES[it] for it in needs})


def missing(needs: Iterable[str], python: str) -> str:
    """The one line that says what is missing, or nothing."""
    lacks = lacked(needs, python)
    return f"missing: {', '.join(lacks)} (Debian: apt-get install {' '.join(packages_of(lacks))})" if lacks else ""


def install(parts: Iterable[Needing], python: str) -> str:
    """Installs what the parts lack, and nothing where nothing is lacking. Answers why it could not."""
    packages = packages_of(lacked((it for part in parts for it in part.needs), python))
    if not packages:
        return ""
    if os.geteuid():
        return f"only root can run apt-get install {' '.join(packages)}"
    print(f"installing {' '.join(packages)}", flush=True)
    own = subprocess.run(["dpkg", "--print-architecture"], stdout=subprocess.PIPE, text=True, check=False).stdout.strip()
    others = sorted({name.partition(":")[2] for name in packages if ":" in name} - {own})
    commands = [["dpkg", "--add-architecture", it] for it in others]
    commands += [["apt-get", "update", "-qq"], ["apt-get", "install", "-y", "-qq", "--no-install-recommends", *packages]]
    variables = {**os.environ, "DEBIAN_FRONTEND": "noninteractive"}
    for words in commands:
        ran = subprocess.run(words, env=variables, stdout=subprocess.PIPE, stderr=subprocess.STDOUT, text=True, check=False)
        if ran.returncode:
            said = ran.stdout.strip().splitlines()
            return f"{' '.join(words[:2])} ended with {ran.returncode}: {said[-1] if said else 'no word of why'}"
    return ""
