"""The proved programs beside a run: `mdb_fleet` says again what each hello said, and `mdb_recorded` judges what a driver's listeners told."""

from __future__ import annotations

import os
import shutil
import subprocess
from collections import Counter
from concurrent.futures import ThreadPoolExecutor
from dataclasses import dataclass

from .fleet import Fleet, Said, Sent

# So many different states of members are asked for at most; later ones of a longer run are not.
MOST_STATES = 400
SECONDS = 60


def program(name: str) -> str | None:
    """The program that a variable names (MDB_FLEET), or that the search path has."""
    named = os.environ.get(name.upper())
    return named if named else shutil.which(name)


@dataclass(frozen=True)
class Agreement:
    """How many replies of how many different states were compared, and the first difference."""

    replies: int
    states: int
    difference: str | None


def script(fleet: Fleet, sent: Sent) -> str:
    """The script in which the driver gets this reply alone."""
    lines = [f"fleet {len(fleet)}"]
    lines += [f"{event} 0 {member}" for event, member in fleet.events[: sent.events]]
    return "\n".join([*lines, f"ask 0 {sent.member}", "deliver 0 0", ""])


def expected(member: int, said: Said) -> str:
    """What a driver describes that got this reply alone."""
    if not said.primary:
        return "ReplicaSetNoPrimary primary=- election=- set=-"
    return f"ReplicaSetWithPrimary primary=m{member}:27017 election={said.election_id} set={said.set_version}"


def agreement(fleet: Fleet, path: str) -> Agreement:
    """Compares each reply that was sent with what the proved fleet makes of the same events. Raises OSError where the program cannot be run."""
    states: dict[tuple[int, int], Sent] = {}
    for sent in fleet.sent:
        known = states.setdefault((sent.events, sent.member), sent)
        if known.said != sent.said:
            return Agreement(0, 0, f"member {sent.member} said two things after {sent.events} events")
    asked = list(states.values())[:MOST_STATES]
    with ThreadPoolExecutor(4) as pool:
        differences = [it for it in pool.map(lambda sent: _difference(fleet, sent, path), asked) if it]
    kept = {(sent.events, sent.member) for sent in asked}
    replies = sum((sent.events, sent.member) in kept for sent in fleet.sent)
    return Agreement(replies, len(asked), differences[0] if differences else None)


def _difference(fleet: Fleet, sent: Sent, path: str) -> str | None:
    ran = subprocess.run([path], input=script(fleet, sent), capture_output=True, text=True, timeout=SECONDS, check=False)
    lines = ran.stdout.splitlines()
    told = lines[-1].split(" | ")[-1] if ran.returncode == 0 and lines else f"status {ran.returncode} {ran.stderr.strip()}"
    refused = [line for line in lines if "Refused" in line]
    wanted = expected(sent.member, sent.said)
    if told == wanted and not refused:
        return None
    return f"member {sent.member} after {sent.events} events: said {wanted}, the proved fleet {refused[0] if refused else told}"


def recorded(path: str, recording: str, standard: str | None) -> tuple[int, str]:
    """The status and the last line of `mdb_recorded` for a recording, with how often each rule was broken."""
    with open(recording, encoding="utf-8") as file:
        words = [path, *(["--cmap", standard] if standard else [])]
        ran = subprocess.run(words, stdin=file, capture_output=True, text=True, timeout=SECONDS, check=False)
    lines = ran.stdout.splitlines()
    rules = Counter(line.split(" ")[2] for line in lines if line.startswith("event "))
    told = ", ".join(f"{count} {rule}" for rule, count in rules.most_common())
    return ran.returncode, (f"{told}; " if told else "") + (lines[-1] if lines else ran.stderr.strip())
