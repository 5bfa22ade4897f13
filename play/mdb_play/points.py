"""Points of a run, and what is decided at each: by the plan, or as a transcript has it."""

from __future__ import annotations

import hashlib
from dataclasses import dataclass
from typing import Protocol

from .plan import Action, Chance, Nth, Plan, Rule, duration

WRITES = frozenset({"insert", "update", "delete", "findandmodify"})
HELLOS = frozenset({"hello", "ismaster"})


@dataclass(frozen=True)
class Point:
    """A message: the member, the kind of its connection, the connection's number of that kind there, the message's number on it, and its name.

    Kinds are `new` (before its second message), `monitor` (awaits news), `poll` (other hellos: round trips, or a monitor of an older driver) and `application`.
    A first hello is named `handshake`, a later one `check`.
    """

    member: int
    kind: str
    connection: int
    message: int
    name: str

    @property
    def key(self) -> str:
        """The point without its name."""
        return f"{self.member} {self.kind} {self.connection} {self.message}"

    def __str__(self) -> str:
        return f"{self.key} {self.name}"


@dataclass(frozen=True)
class Decision:
    """What is done at a point: by which line of the plan, in which phase of the message, and what."""

    rule: int
    phase: str
    action: Action

    def __str__(self) -> str:
        return f"{self.rule} {self.phase} {self.action}"


class Decider(Protocol):
    """What decides at each point."""

    def decide(self, point: Point) -> list[Decision]:
        """What is done at this point, which is asked for once."""


def fits(rule_name: str, name: str) -> bool:
    """A message of this name is one that a line means: by its name, as a `write`, or as any command of an application."""
    if rule_name == "write":
        return name in WRITES
    if rule_name == "any":
        return name not in ("handshake", "check")
    return rule_name == name


def chance(seed: int, key: str, point: Point) -> float:
    """A number from 0 up to 1 that hangs on the seed, the line and the point alone."""
    text = f"{seed} {key} {point}".encode("utf-8")
    return int.from_bytes(hashlib.blake2b(text, digest_size=8).digest(), "big") / 2**64


class Planned:
    """Decides by a plan."""

    def __init__(self, plan: Plan) -> None:
        self._seed = plan.seed
        self._rules = [rule for rule in plan.rules if isinstance(rule.when, (Nth, Chance))]
        self._seen: dict[str, int] = {}

    def decide(self, point: Point) -> list[Decision]:
        """Counts the message, and gives what the lines of the plan say that fit it."""
        return [it for it in (self._decision(rule, point) for rule in self._rules) if it]

    def _decision(self, rule: Rule, point: Point) -> Decision | None:
        when = rule.when
        assert isinstance(when, (Nth, Chance))
        if not fits(when.name, point.name) or when.member not in (None, point.member):
            return None
        if isinstance(when, Nth):
            self._seen[rule.key] = self._seen.get(rule.key, 0) + 1
            if self._seen[rule.key] != when.count:
                return None
        elif chance(self._seed, rule.key, point) * when.of >= when.hits:
            return None
        return Decision(rule.number, when.phase, self._exact(rule, point))

    def _exact(self, rule: Rule, point: Point) -> Action:
        """The action, with a duration in place of a range."""
        words = rule.action.words
        if rule.action.word != "delay" or ".." not in words[0]:
            return rule.action
        least, most = (duration(it) for it in words[0].split(".."))
        amount = least + (most - least) * chance(self._seed, rule.key + " amount", point)
        return Action("delay", (f"{amount:.1f}ms",))
