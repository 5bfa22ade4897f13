"""The standard's JSON tests of CMAP over a pool of pymongo: the stock one, ours alone, or ours of a driver; over a server that answers each handshake."""

from __future__ import annotations

import json
import socket
import struct
import threading
import time
from pathlib import Path
from typing import Any

import bson
from pymongo import monitoring
from pymongo import pool as stock
from pymongo.errors import ConnectionFailure

import mdb
import pymongo_driver
from pymongo_driver.machine import Machine, Shared
from pymongo_driver.pool import sizes_of
from pymongo_driver.words import name_of

HELLO = {
    "ismaster": True,
    "maxBsonObjectSize": 16777216,
    "maxMessageSizeBytes": 48000000,
    "maxWriteBatchSize": 100000,
    "minWireVersion": 0,
    "maxWireVersion": 9,
    "ok": 1.0,
}
SHORT = 0.05  # seconds between two rounds of background work


class Answering:
    """A server that answers each message with the same hello."""

    def __init__(self) -> None:
        self.socket = socket.create_server(("127.0.0.1", 0))
        self.address = self.socket.getsockname()
        threading.Thread(target=self._accept, daemon=True).start()

    def _accept(self) -> None:
        while True:
            try:
                one, _ = self.socket.accept()
            except OSError:
                return
            threading.Thread(target=self._answer, args=(one,), daemon=True).start()

    @staticmethod
    def _answer(one: socket.socket) -> None:
        body = bson.encode(HELLO)
        with one:
            while len(head := one.recv(16, socket.MSG_WAITALL)) == 16:
                length, number, _, _ = struct.unpack("<iiii", head)
                one.recv(length - 16, socket.MSG_WAITALL)
                one.sendall(struct.pack("<iiiiiqii", 36 + len(body), 0, number, 1, 8, 0, 0, 1) + body)


class Heard(monitoring.ConnectionPoolListener):
    """The events, in their order, by their names in the files."""

    def __init__(self) -> None:
        self.events: list[tuple[str, Any]] = []
        self.changed = threading.Condition()

    def __getattribute__(self, name: str) -> Any:
        if name.startswith(("pool_", "connection_")):
            return self._hear
        return super().__getattribute__(name)

    def _hear(self, event: Any) -> None:
        kind = type(event).__name__.removesuffix("Event")
        with self.changed:
            self.events.append((f"Connection{kind}" if kind.startswith("Pool") else kind, event))
            self.changed.notify_all()

    def wait(self, kind: str, count: int) -> None:
        with self.changed:
            if not self.changed.wait_for(lambda: sum(name == kind for name, _ in self.events) >= count, 5):
                raise AssertionError(f"no {count} of {kind} came")


def _options(told: dict[str, Any], heard: Heard) -> Any:
    names = {"maxPoolSize": "max_pool_size", "minPoolSize": "min_pool_size"}
    given = {names[name]: it for name, it in told.items() if name in names}
    seconds = {"maxIdleTimeMS": "max_idle_time_seconds", "waitQueueTimeoutMS": "wait_queue_timeout"}
    given.update({seconds[name]: it / 1000 for name, it in told.items() if name in seconds})
    return stock.PoolOptions(event_listeners=monitoring._EventListeners([heard]), **given)


class Bed:
    """A pool that a test is run over."""

    def __init__(self, way: str, address: Any, options: Any) -> None:
        self.way, self.name = way, name_of(address)
        if way == "stock":
            self.pool: Any = stock.Pool(address, options)
        elif way == "alone":
            self.pool = pymongo_driver.pool(address, options)
        else:
            sizes = sizes_of(options)
            words = [f"max={sizes['max_size']}", f"min={sizes['min_size']}", f"connecting={sizes['max_connecting']}"]
            words += [f"{name}={sizes[key]}" for name, key in (("idle", "max_idle"), ("wait", "max_wait")) if sizes[key]]
            self.machine = Machine(mdb.Driver(f"open seeds={self.name} direct {' '.join(words)}"))
            self.pool = pymongo_driver.Pool(address, options, Shared(self.machine, self.name))
            self._hello("ok rtt=5 isWritablePrimary=true maxWireVersion=9")
        self.over = threading.Event()
        self.worker = threading.Thread(target=self._work, daemon=True)
        self.worker.start()

    def _hello(self, outcome: str) -> None:
        self.machine.step(self.machine.core.hello, self.name, self.pool._steps.number, outcome)

    def _work(self) -> None:
        while not self.over.wait(SHORT):
            if not self.pool.closed:
                self.pool.remove_stale_sockets(self.pool.generation, {})

    def clear(self) -> None:
        if self.way == "driver":
            self._hello("err network msg=reset")
            self._hello("ok rtt=5 isWritablePrimary=true maxWireVersion=9")
        else:
            self.pool.reset()

    def close(self) -> None:
        if self.way == "driver":
            self.machine.step(self.machine.core.stop)
        else:
            self.pool.close()

    def end(self) -> None:
        self.over.set()
        self.worker.join()


class Played:
    """The operations of a file."""

    def __init__(self, bed: Bed, heard: Heard) -> None:
        self.bed, self.heard = bed, heard
        self.held: dict[str, Any] = {}
        self.threads: dict[str, list[Any]] = {}
        self.failed: Exception | None = None

    def play(self, operation: dict[str, Any]) -> None:
        thread = operation.get("thread")
        if thread:
            self.threads[thread].append(operation)
            starter = threading.Thread(target=self._guarded, args=(operation,), daemon=True)
            self.threads[thread].append(starter)
            starter.start()
        else:
            getattr(self, operation["name"])(operation)

    def _guarded(self, operation: dict[str, Any]) -> None:
        try:
            getattr(self, operation["name"])(operation)
        except Exception as error:
            self.failed = error

    def start(self, operation: dict[str, Any]) -> None:
        self.threads[operation["target"]] = []

    def waitForThread(self, operation: dict[str, Any]) -> None:
        for it in self.threads[operation["target"]]:
            if isinstance(it, threading.Thread):
                it.join(10)
        if self.failed:
            raise self.failed

    def wait(self, operation: dict[str, Any]) -> None:
        time.sleep(operation["ms"] / 1000)

    def waitForEvent(self, operation: dict[str, Any]) -> None:
        self.heard.wait(operation["event"], operation["count"])

    def checkOut(self, operation: dict[str, Any]) -> None:
        with self.bed.pool.get_socket({}, checkout=True) as info:
            self.held[operation.get("label", f"unnamed {len(self.held)}")] = info

    def checkIn(self, operation: dict[str, Any]) -> None:
        self.bed.pool.return_socket(self.held.pop(operation["connection"]))

    def clear(self, _operation: dict[str, Any]) -> None:
        self.bed.clear()

    def close(self, _operation: dict[str, Any]) -> None:
        self.bed.close()


def _fits(wanted: dict[str, Any], kind: str, event: Any) -> bool:
    if wanted["type"] != kind:
        return False
    told = {"connectionId": getattr(event, "connection_id", None), "reason": getattr(event, "reason", None), "address": getattr(event, "address", None)}
    return all(told[name] is not None if it == 42 else told[name] == it for name, it in wanted.items() if name in told)


def _failure(error: Exception) -> str:
    if isinstance(error, stock._PoolClosedError):
        return "PoolClosedError"
    return "WaitQueueTimeoutError" if isinstance(error, ConnectionFailure) and "Timed out while checking out" in str(error) else type(error).__name__


def run_over(path: Path, way: str) -> str | None:
    """Why the test of the file fails, or None where it passes."""
    test, heard, server = json.loads(path.read_text(encoding="utf-8")), Heard(), Answering()
    bed = Bed(way, server.address, _options(test.get("poolOptions", {}), heard))
    played, error = Played(bed, heard), None
    try:
        for operation in test["operations"]:
            played.play(operation)
    except Exception as why:
        error = why
    bed.end()
    server.socket.close()
    wanted = test.get("error", {}).get("type")
    found = _failure(error) if error else None
    if found != wanted:
        return f"the error is {found} ({error}), and {wanted} is wanted"
    left = [(kind, event) for kind, event in heard.events if kind not in test.get("ignore", ())]
    for at, it in enumerate(test["events"]):
        if at >= len(left) or not _fits(it, *left[at]):
            told = left[at][1] if at < len(left) else None
            return f"event {at} is {told}, and {it} is wanted"
    return None


def run(path: Path, ours: bool) -> str | None:
    """Stock, or ours alone."""
    return run_over(path, "alone" if ours else "stock")


def run_of_driver(path: Path, ours: bool) -> str | None:
    """Stock, or ours of a driver."""
    return run_over(path, "driver" if ours else "stock")
