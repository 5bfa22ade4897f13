"""What the servers saw of a client: connections, commands, what was told of who is primary, and what was done to the servers. Verdicts are made of it."""

from __future__ import annotations

import hashlib
from dataclasses import dataclass, field
from enum import Enum
from typing import Any

from .sessions import Operation
from .store import key_of
from .wire import Document, encoded


class Outcome(Enum):
    """What became of a command, as far as the client could see."""

    RUNNING = "running"
    ACKNOWLEDGED = "acknowledged"
    FAILED = "failed"
    UNANSWERED = "unanswered"


class End(Enum):
    """Who ended a connection."""

    CLIENT = "client"
    SERVER = "server"


@dataclass
class Link:
    """A connection. `wrong` is when a reply with another responseTo was sent on it, and `cut_busy` says that it ended with a command in progress."""

    number: int
    member: int
    opened: float
    kind: str = "new"
    ordinal: int = 0
    modern: bool = False
    closed: float | None = None
    end: End | None = None
    cut_busy: bool = False
    wrong: float | None = None
    last: float = 0.0


@dataclass
class Command:
    """A command of an application. `version` is the topology version that the error tells by which it failed."""

    at: float
    link: Link
    name: str
    writes: bool
    operation: Operation | None
    transaction: bool
    outcome: Outcome = Outcome.RUNNING
    answered: float | None = None
    code: int | None = None
    version: tuple[str, int] | None = None
    executed: bool = False
    again: bool = False
    branch: bool = False
    namespace: str = ""
    print: bytes = b""
    ids: tuple[bytes, ...] = ()
    dropped: bool = False


@dataclass(frozen=True)
class Told:
    """A hello told a client whether a member is writable, and by which election. `asked` is when it was asked for, or when the answer before it in a stream was sent."""

    at: float
    link: Link
    writable: bool
    election: int
    line: str = ""
    asked: float = 0.0
    version: tuple[str, int] | None = None


@dataclass(frozen=True)
class Deed:
    """Something that was done to the servers, or to a message."""

    at: float
    rule: int
    text: str


@dataclass(frozen=True)
class States:
    """How the members are from a moment on, a letter each: `P` takes writes, `s` doesn't, `f` is frozen, `-` is down."""

    at: float
    letters: str


@dataclass
class Watch:
    """All of it, in the order of time. Times are in seconds since the client began."""

    links: list[Link] = field(default_factory=list)
    commands: list[Command] = field(default_factory=list)
    told: list[Told] = field(default_factory=list)
    deeds: list[Deed] = field(default_factory=list)
    states: list[States] = field(default_factory=list)
    # When a member sent a damaged hello.
    faults: list[tuple[float, int]] = field(default_factory=list)
    # How late the servers themselves came to a timer at most, in seconds: a machine that is this busy delays the client too.
    lag: float = 0.0

    _counts: dict[tuple[int, str], int] = field(default_factory=dict)

    def open_link(self, member: int, at: float) -> Link:
        """A connection was taken."""
        self.links.append(Link(len(self.links), member, at))
        self.turn(self.links[-1], "new")
        return self.links[-1]

    def turn(self, link: Link, kind: str) -> None:
        """The connection is the next one of this kind at its member."""
        count = self._counts.get((link.member, kind), 0) + 1
        self._counts[link.member, kind] = count
        link.kind, link.ordinal = kind, count


def version_of(said: Document) -> tuple[str, int] | None:
    """The process and the counter of the topology version that an answer has."""
    version = said.get("topologyVersion")
    return (str(version["processId"]), int(version["counter"])) if version else None


_STATEMENTS = {"insert": "documents", "update": "updates", "delete": "deletes"}


def describe(command: Command, document: Document) -> None:
    """Puts in what a write writes: what its statements are apart from any `_id`, and the `_id`s that it inserts. Documents of nothing else can't be told apart."""
    if command.name == "findandmodify":
        statements: list[Any] = [{key: document.get(key) for key in ("query", "update", "remove")}]
    else:
        statements = document.get(_STATEMENTS.get(command.name, ""), [])
    inserts = command.name == "insert"
    plain = [{key: value for key, value in it.items() if key != "_id"} if inserts else it for it in statements]
    if any(plain):
        whole = encoded({"name": command.name, "in": command.namespace, "what": plain})
        command.print = hashlib.blake2b(whole, digest_size=12).digest()
    command.ids = tuple(key_of(it["_id"]) for it in statements if "_id" in it) if inserts else ()
