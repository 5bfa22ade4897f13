"""How outside.py runs a command: with its output in a file, and an end."""

from __future__ import annotations

import os
import signal
import subprocess
import threading
import time
from dataclasses import dataclass, field
from pathlib import Path
from typing import Mapping, TextIO

TOP = Path(__file__).resolve().parent.parent


class Failed(Exception):
    """A command that did not end well, in one line."""


@dataclass(frozen=True)
class Command:
    """A command, where it runs, and the variables that it gets beside those that there are."""

    words: tuple[object, ...]
    folder: Path = TOP
    variables: Mapping[str, object] = field(default_factory=dict)

    @property
    def name(self) -> str:
        return " ".join(str(it).removeprefix(f"{TOP}/") for it in self.words[:3])


def command(*words: object, folder: Path = TOP, **variables: object) -> Command:
    return Command(words, folder, variables)


class Sessions:
    """The commands that run, each a session of its own."""

    def __init__(self) -> None:
        self.lock, self.running, self.stopped = threading.Lock(), set[int](), False

    def begin(self, words: list[str], **how: object) -> subprocess.Popen[bytes]:
        with self.lock:
            if self.stopped:
                raise Failed("stopped")
            made = subprocess.Popen(words, stdin=subprocess.DEVNULL, stderr=subprocess.STDOUT, start_new_session=True, **how)
            self.running.add(made.pid)
            return made

    def end(self, made: subprocess.Popen[bytes]) -> None:
        """Ends a command, and what it left behind."""
        with self.lock:
            kill(made.pid)
            self.running.discard(made.pid)
        made.wait()

    def end_all(self) -> None:
        """Ends all, and lets none begin."""
        with self.lock:
            self.stopped = True
            for it in self.running:
                kill(it)


SESSIONS = Sessions()


def run(one: Command, log: TextIO, until: float) -> None:
    """Runs a command to its end, and ends it and what it started at the time `until` (time.monotonic). Raises Failed where it does not end well."""
    log.write(f"$ {one.name}\n")
    log.flush()
    variables = {**os.environ, "PYTHONDONTWRITEBYTECODE": "1", **{name: str(it) for name, it in one.variables.items()}}
    made = SESSIONS.begin([str(it) for it in one.words], cwd=one.folder, env=variables, stdout=log)
    try:
        status = made.wait(max(0.0, until - time.monotonic()))
    except subprocess.TimeoutExpired:
        raise Failed(f"{one.name} took too long, and was ended") from None
    finally:
        SESSIONS.end(made)
    if status:
        raise Failed(f"{one.name} ended with {status}")


def kill(session: int) -> None:
    try:
        os.killpg(session, signal.SIGKILL)
    except ProcessLookupError:
        pass
