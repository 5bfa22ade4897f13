"""The transcript of a run: each point in the order in which it was reached, and what was decided there.

A line is `SECONDS point POINT | DECISIONS` or `SECONDS deed RULE | ACTION`; lines of the plan come first, as `plan LINE`.
"""

from __future__ import annotations

from dataclasses import dataclass, field
from typing import Iterable

from .plan import Plan, PlanError, action, parse
from .points import Decision, Point

_FIRST = "mdb-play transcript 1"


@dataclass
class Transcript:
    """Lines, and the plan that they were made by."""

    plan: Plan
    lines: list[str] = field(default_factory=list)

    def point(self, at: float, point: Point, decisions: Iterable[Decision]) -> None:
        """A point was reached."""
        self.lines.append(f"{at:.4f} point {point} | {', '.join(str(it) for it in decisions)}".rstrip())

    def deed(self, at: float, rule: int, text: str) -> None:
        """Something was done to the servers."""
        self.lines.append(f"{at:.4f} deed {rule} | {text}")

    def text(self) -> str:
        """The whole transcript."""
        return "\n".join([_FIRST, *(f"plan {line}" for line in self.plan.lines), *self.lines, ""])


@dataclass
class Recorded:
    """What a transcript says: its plan, the name of each point's message, what was decided there, and the order of the points."""

    plan: Plan
    names: dict[str, str] = field(default_factory=dict)
    decisions: dict[str, list[Decision]] = field(default_factory=dict)


def read(text: str) -> Recorded:
    """The transcript that a text has. Raises PlanError."""
    lines = text.splitlines()
    if not lines or lines[0] != _FIRST:
        raise PlanError(f"no transcript: it begins with `{_FIRST}`")
    told = Recorded(parse("\n".join(line[5:] for line in lines if line.startswith("plan "))))
    for number, line in enumerate(lines, 1):
        words = line.split(" ", 2)
        if len(words) == 3 and words[1] == "point":
            _point(told, number, words[2])
    return told


def _point(told: Recorded, number: int, text: str) -> None:
    try:
        point, _, decided = text.partition(" |")
        key, name = point.rsplit(" ", 1)
        told.names[key] = name
        found = [_decision(it) for it in decided.strip().split(", ") if it]
    except (ValueError, IndexError) as why:
        raise PlanError(f"line {number} of the transcript: {why}") from why
    if found:
        told.decisions[key] = found


def _decision(text: str) -> Decision:
    rule, phase, *words = text.split(" ")
    return Decision(int(rule), phase, action(words))


class Replayed:
    """Decides as a transcript has it, and notes where the client parts from it."""

    def __init__(self, told: Recorded) -> None:
        self._told = told
        self._left = dict(told.decisions)
        self.parted: str | None = None

    def decide(self, point: Point) -> list[Decision]:
        """What was decided at this point then."""
        known = self._told.names.get(point.key)
        if known is not None and known != point.name and self.parted is None:
            self.parted = f"at {point.key}: {point.name}, where {known} was"
        return self._left.pop(point.key, [])

    def outcome(self) -> str:
        """`followed`, or where the client parted first."""
        if self.parted is None and self._left:
            key = next(iter(self._left))
            self.parted = f"at {key} {self._told.names[key]}, which was not reached"
        return "followed" if self.parted is None else f"parted {self.parted}"
