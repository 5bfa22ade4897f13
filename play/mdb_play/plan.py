"""Plans: what happens to the servers, and at which points. A plan is lines; `docs/PLAY.md` has its words."""

from __future__ import annotations

import re
from dataclasses import dataclass, field
from typing import Callable, Iterable, Union

from .damage import DAMAGES

KINDS = {"set": "replica", "standalone": "standalone", "routers": "router", "balancer": "balancer"}
PHASES = ("before", "before-reply", "after-reply")
ROLES = ("member", "arbiter", "ghost", "standalone", "router")
HOSTS = ("127.0.0.1", "localhost", "::1")
MOST_MEMBERS = 50
LONGEST_TEXT = 255
_DURATION = re.compile(r"(\d+(?:\.\d+)?)(ms|s)")


class PlanError(ValueError):
    """A line of a plan that cannot be read, with its number."""


@dataclass(frozen=True)
class Action:
    """What is done: a word, and what stands behind it."""

    word: str
    words: tuple[str, ...] = ()

    @property
    def of_message(self) -> bool:
        """It is done to the message at whose point it stands, and to nothing else."""
        return self.word in _OF_MESSAGE or self.word == "damage" and len(self.words) == 1 or self.word == "reset" and not self.words

    def __str__(self) -> str:
        return " ".join((self.word, *self.words))


@dataclass(frozen=True)
class Start:
    """Before the client begins."""


@dataclass(frozen=True)
class Later:
    """So many milliseconds after the line before it was done, or after the client's start."""

    milliseconds: float


@dataclass(frozen=True)
class Nth:
    """At the n-th message of a name, of all members or of one."""

    name: str
    count: int
    member: int | None
    phase: str


@dataclass(frozen=True)
class Chance:
    """At each message of a name, with a chance of so many in so many."""

    hits: int
    of: int
    name: str
    member: int | None
    phase: str


When = Union[Start, Later, Nth, Chance]


@dataclass(frozen=True)
class Rule:
    """One line: when, and what.

    `number` counts the lines without comments and empty ones, so that it is the same where a transcript has them. `key` is the line's text, counted where a plan has it twice:
    what chance decides hangs on it, and not on the number.
    """

    number: int
    key: str
    when: When
    action: Action


@dataclass
class Plan:
    """A whole plan."""

    kind: str = "replica"
    name: str = "rs"
    host: str = "127.0.0.1"
    count: int = 3
    seed: int = 1
    end: float = 60.0
    until: float | None = None
    recover: float = 15.0
    seeds: list[int] | None = None
    names: list[int] | None = None
    text: str = ""
    # of the server of names; 0 is the system's choice
    port: int = 0
    options: list[str] = field(default_factory=list)
    allowed: set[str] = field(default_factory=set)
    rules: list[Rule] = field(default_factory=list)
    lines: list[str] = field(default_factory=list)

    def reseed(self, seed: int) -> None:
        """It has this seed, also in its lines; no other line gets another number."""
        self.seed = seed
        told = any(it.startswith("seed ") for it in self.lines)
        self.lines = [f"seed {seed}" if it.startswith("seed ") else it for it in self.lines] + ([] if told else [f"seed {seed}"])


def duration(text: str) -> float:
    """Milliseconds of `5ms` or `2s`. Raises ValueError."""
    found = _DURATION.fullmatch(text)
    if not found:
        raise ValueError(f"{text} is no duration, as 300ms or 2s")
    return float(found[1]) * (1000 if found[2] == "s" else 1)


def parse(text: str) -> Plan:
    """The plan that the lines say; `;` separates lines too. Raises PlanError."""
    plan = Plan()
    parts = [part for line in text.split("\n") for part in line.split("#")[0].split(";")]
    for number, part in enumerate(parts, 1):
        plain = " ".join(part.split())
        if not plain:
            continue
        try:
            _line(plan, plain)
        except (ValueError, IndexError, KeyError) as why:
            raise PlanError(f"line {number}, {plain}: {why}") from why
        plan.lines.append(plain)
    _finish(plan)
    return plan


def _finish(plan: Plan) -> None:
    for member in (*(plan.seeds or ()), *(plan.names or ())):
        if member >= plan.count:
            raise PlanError(f"there is no member {member} to be named")
    if plan.names is None and any(rule.action.word == "names" for rule in plan.rules):
        raise PlanError("the names change, and no line names the first ones")
    if plan.names is not None and (plan.seeds or plan.host != HOSTS[0]):
        raise PlanError(f"names go with neither seeds nor a host other than {HOSTS[0]}")
    for rule in plan.rules:
        for member in _members_of(rule):
            if member >= plan.count:
                raise PlanError(f"{rule.key}: there is no member {member}")
    starts = [rule for rule in plan.rules if isinstance(rule.when, Start) and rule.action.word in ("elect", "nobody")]
    if plan.kind == "replica" and not starts:
        plan.rules.insert(0, Rule(0, "elect 0", Start(), Action("elect", ("0",))))


def _members_of(rule: Rule) -> Iterable[int]:
    member = getattr(rule.when, "member", None)
    if member is not None:
        yield member
    if not rule.action.of_message and rule.action.words:
        yield from (int(it) for it in rule.action.words[0].split(",") if it.isdigit())


def _line(plan: Plan, plain: str) -> None:
    word, *rest = plain.split(" ")
    if word in ("at", "sometimes", "always"):
        when, action = {"at": _at, "sometimes": _sometimes, "always": _always}[word](rest)
        again = sum(rule.key.startswith(plain) for rule in plan.rules)
        plan.rules.append(Rule(len(plan.lines) + 1, f"{plain} {again}" if again else plain, when, action))
    elif word in _SETTINGS:
        _SETTINGS[word](plan, *rest)
    elif word in KINDS:
        plan.kind = KINDS[word]
        if word == "set" and len(rest) == 2:
            plan.name = rest.pop(0)
        plan.count = int(rest[0])
        if not 1 <= plan.count <= MOST_MEMBERS:
            raise ValueError(f"1 to {MOST_MEMBERS} members")
    else:
        raise ValueError(f"no such word: {word}")


def _set_seeds(plan: Plan, members: str) -> None:
    plan.seeds = [int(it) for it in members.split(",")]


def _set_names(plan: Plan, members: str) -> None:
    plan.names = [int(it) for it in members.split(",")]


def _set_text(plan: Plan, text: str) -> None:
    if len(text) > LONGEST_TEXT or not text.isascii():
        raise ValueError(f"a text has at most {LONGEST_TEXT} characters of ASCII")
    plan.text = text


def _set_seed(plan: Plan, number: str) -> None:
    plan.seed = int(number)


def _set_time(name: str) -> Callable[[Plan, str], None]:
    return lambda plan, text: setattr(plan, name, duration(text) / 1000)


def _set_host(plan: Plan, host: str) -> None:
    if host not in HOSTS:
        raise ValueError(f"the hosts are {' '.join(HOSTS)}")
    plan.host = host


_SETTINGS: dict[str, Callable[..., None]] = {
    "host": _set_host,
    "seed": _set_seed,
    "seeds": _set_seeds,
    "names": _set_names,
    "text": _set_text,
    "end": _set_time("end"),
    "until": _set_time("until"),
    "recover": _set_time("recover"),
    "option": lambda plan, *options: plan.options.extend(options),
    "allow": lambda plan, *verdicts: plan.allowed.update(verdicts),
}


def _at(words: list[str]) -> tuple[When, Action]:
    if words[0] == "start":
        return Start(), action(words[1:])
    if words[0].startswith("+"):
        return Later(duration(words[0][1:])), action(words[1:])
    name, count = words[0].lower(), int(words[1])
    if count < 1:
        raise ValueError("messages are counted from 1")
    member, phase, rest = _place(words[2:])
    return Nth(name, count, member, phase), action(rest)


def _sometimes(words: list[str]) -> tuple[When, Action]:
    hits, of = (int(it) for it in words[0].split("/"))
    if not 0 < hits <= of:
        raise ValueError(f"{words[0]} is no chance")
    member, phase, rest = _place(words[2:])
    return Chance(hits, of, words[1].lower(), member, phase), action(rest)


def _always(words: list[str]) -> tuple[When, Action]:
    return _sometimes(["1/1", *words])


def _place(words: list[str]) -> tuple[int | None, str, list[str]]:
    member, phase = None, PHASES[0]
    if words[0] == "of":
        member, words = int(words[1]), words[2:]
    if words[0] in PHASES:
        phase, words = words[0], words[1:]
    return member, phase, words


def _is_member(word: str) -> None:
    if not word.isdigit():
        raise ValueError(f"{word} is no member")


def _is_number(word: str) -> None:
    if not word.isdigit():
        raise ValueError(f"{word} is no number")


def _is_damage(word: str) -> None:
    if word not in DAMAGES and word != "none":
        raise ValueError(f"{word} is no damage; there are {' '.join(DAMAGES)}")


def _is_range(word: str) -> None:
    for part in word.split(".."):
        duration(part)


def _is_role(word: str) -> None:
    if word not in ROLES:
        raise ValueError(f"{word} is no role; there are {' '.join(ROLES)}")


def _is_any(_word: str) -> None:
    return None


def _are_members(word: str) -> None:
    for part in word.split(","):
        _is_member(part)


_OF_MESSAGE = {"lose": [], "lose-reply": [], "close": [], "delay": [_is_range], "error": [_is_number]}
_OF_SET: dict[str, list[Callable[[str], None]]] = {
    "nobody": [],
    "stepdown": [],
    "elect": [_is_member],
    "crown": [_is_member],
    "part": [_is_member],
    "heal": [],
    "kill": [_is_member],
    "start": [_is_member],
    "restart": [_is_member],
    "freeze": [_is_member],
    "thaw": [_is_member],
    "clog": [_is_member],
    "reset": [_is_member],
    "slow": [_is_member, _is_range],
    "fail": [_is_member, _is_number, _is_number],
    "spoil": [_is_member, _is_damage],
    "damage": [_is_member, _is_damage],
    "hide": [_is_member],
    "show": [_is_member],
    "rename": [_is_member, _is_any],
    "wire": [_is_member, _is_number, _is_number],
    "role": [_is_member, _is_role],
    "reconfigure": [_are_members],
    "names": [_are_members],
    "spread": [_is_range],
}


def action(words: list[str]) -> Action:
    """The action that words say. Raises ValueError."""
    word, *rest = words
    if word in ("damage", "reset") and len(rest) == (1 if word == "damage" else 0):
        shape = [_is_damage] if word == "damage" else []
    else:
        shape = {**_OF_MESSAGE, **_OF_SET}.get(word)  # type: ignore[dict-item]
    if shape is None:
        raise ValueError(f"no such action: {word}")
    if len(rest) != len(shape):
        raise ValueError(f"{word} takes {len(shape)} words behind it")
    for check, it in zip(shape, rest):
        check(it)
    return Action(word, tuple(rest))
