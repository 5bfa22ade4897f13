#!/usr/bin/env python3
"""Puts the event tests of CMAP before the judge: what each test expects is accepted, and what has one event more, less or other is refused.

usage: checks/recorded/standard.py PROGRAM [FOLDER]

PROGRAM is mdb_recorded; FOLDER has the tests as JSON files (that of Debian's golang-mongodb-mongo-driver-dev). A test names some events and leaves others out:
here those are added that must have come before, so that a recording is whole. Then each event is told twice, left out, or told of a connection that never was,
and the rules that this breaks are wanted, by the table below. A change that the standard allows has no row, and is not tried.
"""
from __future__ import annotations

import json
import subprocess
import sys
from dataclasses import dataclass, field
from pathlib import Path
from typing import Any

DEBIAN = Path("/usr/share/gocode/src/go.mongodb.org/mongo-driver/data/connection-monitoring-and-pooling")
ANY = 42
NEVER = 9000
# An event, and the rule that it breaks where it is told once more.
TWICE = {
    "ConnectionPoolCreated": "pool-created-twice",
    "ConnectionPoolReady": "pool-ready-twice",
    "ConnectionPoolCleared": "cleared-while-paused",
    "ConnectionPoolClosed": "pool-is-closed",
    "ConnectionCreated": "created-twice",
    "ConnectionReady": "ready-twice",
    "ConnectionCheckedOut": "checked-out-twice",
    "ConnectionCheckedIn": "not-checked-out",
    "ConnectionClosed": "closed-twice",
    "ConnectionCheckOutFailed": "not-started",
}
# An event, and the rule that it breaks where it is told of a connection that was never created.
STRANGE = {"ConnectionReady": "not-created", "ConnectionCheckedOut": "not-created", "ConnectionCheckedIn": "not-created", "ConnectionClosed": "not-created"}
# An event, and the rule that a later event breaks where it is left out; only where one of those events follows for the same connection, or any for a pool's.
MISSING = {
    "ConnectionPoolCreated": ("pool-not-created", ("ConnectionCreated", "ConnectionPoolReady", "ConnectionCheckOutStarted", "ConnectionPoolClosed")),
    "ConnectionCreated": ("not-created", ("ConnectionReady",)),
    "ConnectionReady": ("not-ready", ("ConnectionCheckedOut",)),
    "ConnectionCheckedOut": ("not-checked-out", ("ConnectionCheckedIn",)),
    "ConnectionCheckedIn": ("checked-out-twice", ("ConnectionCheckedOut",)),
}
OF_CONNECTIONS = ("ConnectionCreated", "ConnectionReady", "ConnectionCheckedOut", "ConnectionCheckedIn", "ConnectionClosed")
# Which method of a recording takes an event.
TAKEN = {
    "ConnectionPoolCreated": "open",
    "ConnectionPoolReady": "make_ready",
    "ConnectionPoolCleared": "clear",
    "ConnectionPoolClosed": "close",
    "ConnectionCreated": "create",
    "ConnectionReady": "establish",
    "ConnectionCheckOutStarted": "begin",
    "ConnectionCheckOutFailed": "fail",
    "ConnectionCheckedOut": "hand_out",
    "ConnectionCheckedIn": "hand_in",
    "ConnectionClosed": "end",
}
# A close's reasons by CMAP, and the judge's name of one.
REASONS = {"connectionError": "error"}


@dataclass
class Recording:
    """The events of one pool as they are told, and what its connections are by them."""

    options: dict[str, object]
    lines: list[dict[str, object]] = field(default_factory=list)
    created: bool = False
    ready: bool = False
    closed: bool = False
    started: int = 0
    last: int = 0
    pending: list[int] = field(default_factory=list)
    available: list[int] = field(default_factory=list)
    out: list[int] = field(default_factory=list)

    def tell(self, event: str, **members: object) -> None:
        self.lines.append({"kind": "pool", "event": event, "address": "a:1", **members})

    def pool(self) -> None:
        """The pool is there, and ready unless it is closed."""
        if not self.created:
            self.take({"type": "ConnectionPoolCreated"})
        if not self.ready and not self.closed:
            self.take({"type": "ConnectionPoolReady"})

    def start(self) -> None:
        """A check-out is under way."""
        if not self.started:
            self.take({"type": "ConnectionCheckOutStarted"})

    def lying(self, wanted: int) -> int:
        """A connection that can be handed out: the wanted one, or any."""
        while not (wanted in self.available or (wanted == ANY and self.available)):
            if not self.pending:
                self.take({"type": "ConnectionCreated", "connectionId": wanted if wanted > self.last and wanted != ANY else ANY})
            self.take({"type": "ConnectionReady", "connectionId": self.pending[0]})
        return self.available[-1] if wanted == ANY else wanted

    def had(self, wanted: int) -> int:
        """A connection that somebody has."""
        while not (wanted in self.out or (wanted == ANY and self.out)):
            self.take({"type": "ConnectionCheckedOut", "connectionId": ANY})
        return self.out[0] if wanted == ANY else wanted

    def take(self, event: dict[str, object]) -> None:
        """Tells an event of a test, behind those that it needs."""
        name = str(event["type"])
        wanted = int(str(event.get("connectionId", ANY)))
        if name not in ("ConnectionPoolCreated", "ConnectionPoolReady"):
            self.pool()
        getattr(self, TAKEN[name])(name, wanted, event)

    def open(self, name: str, wanted: int, event: dict[str, object]) -> None:
        self.created = True
        self.tell(name, **self.options)

    def make_ready(self, name: str, wanted: int, event: dict[str, object]) -> None:
        if not self.created:
            self.take({"type": "ConnectionPoolCreated"})
        self.ready = True
        self.tell(name)

    def clear(self, name: str, wanted: int, event: dict[str, object]) -> None:
        self.ready = False
        self.tell(name, **({"interruptInUseConnections": True} if event.get("interruptInUseConnections") else {}))

    def close(self, name: str, wanted: int, event: dict[str, object]) -> None:
        for connection in list(self.available):
            self.take({"type": "ConnectionClosed", "connectionId": connection, "reason": "poolClosed"})
        self.closed, self.ready = True, False
        self.tell(name)

    def begin(self, name: str, wanted: int, event: dict[str, object]) -> None:
        self.started += 1
        self.tell(name)

    def fail(self, name: str, wanted: int, event: dict[str, object]) -> None:
        self.start()
        self.started -= 1
        self.tell(name, reason=event["reason"])

    def create(self, name: str, wanted: int, event: dict[str, object]) -> None:
        self.last = self.last + 1 if wanted == ANY else wanted
        self.pending.append(self.last)
        self.tell(name, connectionId=self.last)

    def establish(self, name: str, wanted: int, event: dict[str, object]) -> None:
        if not self.pending:
            self.take({"type": "ConnectionCreated", "connectionId": wanted})
        connection = self.pending[0] if wanted == ANY else wanted
        self.pending.remove(connection)
        self.available.append(connection)
        self.tell(name, connectionId=connection)

    def hand_out(self, name: str, wanted: int, event: dict[str, object]) -> None:
        self.start()
        connection = self.lying(wanted)
        self.started -= 1
        self.available.remove(connection)
        self.out.append(connection)
        self.tell(name, connectionId=connection)

    def hand_in(self, name: str, wanted: int, event: dict[str, object]) -> None:
        connection = self.had(wanted)
        self.out.remove(connection)
        self.available.append(connection)
        self.tell(name, connectionId=connection)

    def end(self, name: str, wanted: int, event: dict[str, object]) -> None:
        live = [*self.available, *self.pending, *self.out]
        connection = live[0] if wanted == ANY and live else wanted
        for kept in (self.available, self.pending, self.out):
            if connection in kept:
                kept.remove(connection)
        reason = str(event.get("reason", ""))
        self.tell(name, connectionId=connection, **({"reason": REASONS.get(reason, reason)} if reason else {}))


def recorded(test: dict[str, Any]) -> list[dict[str, object]]:
    """The recording of a test."""
    given = dict(test.get("poolOptions") or {})
    options = {key: given[key] for key in ("maxPoolSize", "minPoolSize", "maxConnecting", "maxIdleTimeMS") if isinstance(given.get(key), int)}
    made = Recording(options)
    for event in test["events"]:
        made.take(event)
    return made.lines


def same(one: dict[str, object], other: dict[str, object]) -> bool:
    return one["event"] not in OF_CONNECTIONS or one.get("connectionId") == other.get("connectionId")


def changed(lines: list[dict[str, object]]) -> list[tuple[str, list[dict[str, object]], str]]:
    """Each wrong recording by one change of a right one: what was changed, its lines, and the rule that is broken."""
    made = []
    for at, line in enumerate(lines):
        name, before, after = str(line["event"]), lines[:at], lines[at + 1 :]
        if name in TWICE:
            made.append((f"{name} is told twice", [*before, line, line, *after], TWICE[name]))
        if name in STRANGE:
            made.append((f"{name} of another connection", [*before, {**line, "connectionId": NEVER}, *after], STRANGE[name]))
        rule, needing = MISSING.get(name, ("", ()))
        follows = next((it for it in after if it["event"] in needing and same(line, it)), None)
        if follows:
            made.append((f"{name} is left out", [*before, *after], rule))
    return made


def judged(program: str, lines: list[dict[str, object]]) -> tuple[int, str]:
    text = "".join(json.dumps(it) + "\n" for it in lines)
    answer = subprocess.run([program], input=text.encode(), stdout=subprocess.PIPE, check=False)
    return answer.returncode, answer.stdout.decode()


def main() -> None:
    program, folder = sys.argv[1], Path(sys.argv[2]) if len(sys.argv) > 2 else DEBIAN
    tests, changes, wrong = 0, 0, 0
    for path in sorted(folder.glob("*.json")):
        test = json.loads(path.read_text())
        if test.get("version") != 1 or "events" not in test:
            continue
        tests += 1
        lines = recorded(test)
        status, said = judged(program, lines)
        if status:
            wrong += 1
            print(f"{path.name}: status {status}, and 0 is wanted:\n{said}", *map(json.dumps, lines), sep="\n")
        for what, other, rule in changed(lines):
            changes += 1
            status, said = judged(program, other)
            if status != 7 or f": {rule} " not in said:
                wrong += 1
                print(f"{path.name}: {what}: status {status}, and 7 with {rule} is wanted:\n{said}")
    if wrong:
        sys.exit(f"{wrong} answers differ")
    print(f"{tests} tests of the standard are accepted, {changes} changed ones refused")
    if not tests:
        sys.exit(f"{folder} has no tests")


if __name__ == "__main__":
    main()
