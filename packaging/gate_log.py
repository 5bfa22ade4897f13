"""What the merge gate said: the commit, and of each crate the prover's last line."""
from __future__ import annotations

import re
from dataclasses import dataclass, field
from pathlib import Path

from plain import Stop, last_line

KEPT = "kept: an earlier run proved the same files over the same libraries"


@dataclass
class GateLog:
    commit: str
    passed: int
    verdicts: dict[str, str] = field(default_factory=dict)


def read(path: Path) -> GateLog:
    """The log of a gate that passed. Any other is an error."""
    text = path.read_text(encoding="utf-8", errors="replace")
    ended = re.fullmatch(r"(\d+) passed, 0 failed", last_line(text))
    if not ended:
        raise Stop(f"{path} does not end in 'N passed, 0 failed': {last_line(text)[:200]}")
    wrong = re.search(r"(?m)^\d+ passed, [1-9]\d* failed.*", text)
    if wrong:
        raise Stop(f"{path} says '{wrong[0][:200]}' before its end")
    commit = re.search(r"(?m)^commit ([0-9a-f]{40})$", text)
    if not commit:
        raise Stop(f"{path} has no line 'commit ..', with which .ci/run begins: of which commit is it?")
    return GateLog(commit[1], int(ended[1]), verdicts_in(text))


def verdicts_in(text: str) -> dict[str, str]:
    found, crate = {}, None
    for line in text.splitlines():
        begun, kept = re.fullmatch(r"== (\w+)(: its tests)?", line), re.match(r"rt: (\w+) is kept: ", line)
        if begun:
            crate = None if begun[2] else begun[1]
        elif kept:
            found[kept[1]] = KEPT
        elif crate and line.startswith("logic=proved "):
            found[crate] = line
    return found


def hold(log: GateLog, path: Path, commit: str, crates: list[str]) -> None:
    """Ends where the log is not of this commit, or names another set of crates."""
    if log.commit != commit:
        raise Stop(f"{path} is of commit {log.commit[:12]}, and the checkout of {commit[:12]}")
    lacking = [it for it in crates if it not in log.verdicts]
    if lacking:
        raise Stop(f"{path} has no verdict on {', '.join(lacking)}")
