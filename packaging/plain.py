"""How the commands of this folder run others, and how they end: an error is one line."""
from __future__ import annotations

import functools
import os
import shutil
import signal
import subprocess
import sys
from pathlib import Path
from typing import Callable, Iterable


class Stop(Exception):
    """An error that its one line says whole."""


def last_line(text: str) -> str:
    lines = [it.strip() for it in text.splitlines() if it.strip()]
    return lines[-1] if lines else "no word of why"


def run(*words: object, **how: object) -> str:
    """What a command writes. One that fails is an error of one line: its own last one."""
    said = [str(it) for it in words]
    try:
        ran = subprocess.run(said, stdin=subprocess.DEVNULL, stdout=subprocess.PIPE, stderr=subprocess.PIPE, text=True, errors="replace", **how)
    except FileNotFoundError:
        raise Stop(f"{said[0]} is not there") from None
    if ran.returncode:
        raise Stop(f"{os.path.basename(said[0])} ended with {ran.returncode}: {last_line(ran.stderr or ran.stdout)}")
    return ran.stdout


def need(tools: dict[str, str]) -> None:
    """Ends where a command or a file is missing. Each has the Debian package that brings it."""
    missing = {name: package for name, package in tools.items() if not (shutil.which(name) or ("/" in name and Path(name).exists()))}
    if missing:
        packages = " ".join(sorted(set(missing.values())))
        raise Stop(f"missing: {', '.join(missing)} (Debian: apt-get install {packages})")


def files_below(folder: Path) -> list[Path]:
    """The files of a folder and of those in it, sorted, by their paths in it."""
    found = (Path(at, name) for at, _, names in os.walk(folder) for name in names)
    return sorted(it.relative_to(folder) for it in found)


def put(source: Path, to: Path, mode: int = 0o644) -> None:
    write(to, source.read_bytes(), mode)


def write(to: Path, text: str | bytes, mode: int = 0o644) -> None:
    to.parent.mkdir(parents=True, exist_ok=True)
    to.write_bytes(text if isinstance(text, bytes) else text.encode())
    to.chmod(mode)


def ends_well(main: Callable[[], None]) -> Callable[[], None]:
    """Runs a command's main: each error is one line on standard error, and status 1."""

    @functools.wraps(main)
    def whole() -> None:
        signal.signal(signal.SIGTERM, lambda number, _: sys.exit(128 + number))
        name = os.path.basename(sys.argv[0])
        try:
            main()
        except Stop as why:
            sys.exit(f"{name}: {why}")
        except OSError as why:
            sys.exit(f"{name}: {why.strerror}{f': {why.filename}' if why.filename else ''}")
        except KeyboardInterrupt:
            sys.exit(f"{name}: stopped")

    return whole


def once(items: Iterable[str]) -> list[str]:
    return list(dict.fromkeys(items))
