"""A small driver that keeps the rules, and mutants of it that break one each."""

from __future__ import annotations

import socket
import struct
import threading
import time
import uuid
from typing import Any, Dict

import bson
from bson.binary import Binary

Document = Dict[str, Any]
MUTANTS = ("takes-wrong-answers", "forgets-the-clear", "writes-to-the-old-primary", "never-retries", "retries-twice", "retries-as-another")
RETRYABLE = {10107, 13435, 11600, 11602, 13436, 189, 91}
SECONDS = 60.0


class Broken(Exception):
    """The connection failed."""


class Link:
    """A connection, of a generation of its pool."""

    def __init__(self, port: int, generation: int, checks: bool = True) -> None:
        self.generation, self._checks, self._number = generation, checks, 0
        try:
            self._socket = socket.create_connection(("127.0.0.1", port), SECONDS)
        except OSError as why:
            raise Broken from why

    def ask(self, command: Document) -> Document:
        """The answer to a command. Raises Broken."""
        self._number += 1
        body = bytes(5) + bson.encode(command)
        try:
            self._socket.sendall(struct.pack("<iiii", 16 + len(body), self._number, 0, 2013) + body)
            length, _, answers, _ = struct.unpack("<iiii", self._read(16))
            whole = self._read(length - 16)
        except OSError as why:
            raise Broken from why
        if answers != self._number and self._checks:
            raise Broken("a wrong responseTo")
        return bson.decode(whole[5:])

    def close(self) -> None:
        """It ends."""
        self._socket.close()

    def _read(self, size: int) -> bytes:
        parts, left = [], size
        while left:
            part = self._socket.recv(left)
            if not part:
                raise Broken
            parts.append(part)
            left -= len(part)
        return b"".join(parts)


class Mini:
    """Monitors of all members, a pool each, and inserts that are sent again once."""

    def __init__(self, ports: list[int], mutant: str = "") -> None:
        self._mutant, self._ports, self._lock = mutant, ports, threading.Lock()
        self._primary: int | None = None
        self._first: int | None = None
        self._greatest = b""
        self._generations = {port: 0 for port in ports}
        self._idle: dict[int, list[Link]] = {port: [] for port in ports}
        self._stopped = threading.Event()
        self._numbers = threading.local()
        self._monitors = [threading.Thread(target=self._watch, args=(port,), daemon=True) for port in ports]
        for monitor in self._monitors:
            monitor.start()

    def close(self) -> None:
        """All ends."""
        self._stopped.set()
        for monitor in self._monitors:
            monitor.join(SECONDS)
        for links in self._idle.values():
            for link in links:
                link.close()

    def insert(self, document: Document) -> bool:
        """Inserts, and says whether that was acknowledged."""
        made = {"_id": bson.ObjectId(), **document}
        number = self._number()
        for _ in range({"never-retries": 1, "retries-twice": 4}.get(self._mutant, 2)):
            try:
                said = self._once(made, number)
            except Broken:
                made, number = self._another(made, number)
                continue
            if said.get("code") not in RETRYABLE:
                return bool(said["ok"])
        return False

    def _another(self, document: Document, number: tuple[Binary, int]) -> tuple[Document, tuple[Binary, int]]:
        if self._mutant != "retries-as-another":
            return document, number
        return {**document, "_id": bson.ObjectId()}, self._number()

    def _number(self) -> tuple[Binary, int]:
        known = self._numbers
        if not hasattr(known, "session"):
            known.session, known.number = Binary(uuid.uuid4().bytes, 4), 0
        known.number += 1
        return known.session, known.number

    def _once(self, document: Document, number: tuple[Binary, int]) -> Document:
        port = self._chosen()
        link = self._out(port)
        try:
            said = link.ask({"insert": "items", "documents": [document], "$db": "test", "lsid": {"id": number[0]}, "txnNumber": bson.Int64(number[1])})
        except Broken:
            link.close()
            self._clear(port, link.generation)
            raise
        if said.get("code") in RETRYABLE:
            with self._lock:
                self._primary = None if self._primary == port else self._primary
        self._in(port, link)
        return said

    def _chosen(self) -> int:
        until = time.monotonic() + SECONDS
        while time.monotonic() < until:
            with self._lock:
                if self._mutant == "writes-to-the-old-primary" and self._first is not None:
                    return self._first
                if self._primary is not None:
                    return self._primary
            time.sleep(0.005)
        raise TimeoutError("no primary")

    def _out(self, port: int) -> Link:
        with self._lock:
            generation = self._generations[port]
            while self._idle[port]:
                link = self._idle[port].pop()
                if link.generation == generation:
                    return link
                link.close()
        return Link(port, generation, self._mutant != "takes-wrong-answers")

    def _in(self, port: int, link: Link) -> None:
        with self._lock:
            if link.generation == self._generations[port]:
                self._idle[port].append(link)
                return
        link.close()

    def _clear(self, port: int, generation: int) -> None:
        with self._lock:
            if generation != self._generations[port]:
                return
            self._primary = None if self._primary == port else self._primary
            if self._mutant != "forgets-the-clear":
                self._generations[port] += 1

    def _watch(self, port: int) -> None:
        """A monitor: it waits for news, and begins again where its connection fails."""
        link: Link | None = None
        known: Any = None
        while not self._stopped.is_set():
            try:
                link = link or Link(port, 0)
                said = link.ask({"hello": 1, "helloOk": True, "$db": "admin", **({"topologyVersion": known, "maxAwaitTimeMS": 100} if known else {})})
                known = said["topologyVersion"]
                self._heard(port, said)
            except (Broken, KeyError):
                known, link = None, None
                self._clear(port, self._generations[port])
                time.sleep(0.05)
        if link:
            link.close()

    def _heard(self, port: int, said: Document) -> None:
        with self._lock:
            if said["isWritablePrimary"] and said["electionId"].binary >= self._greatest:
                self._greatest, self._primary = said["electionId"].binary, port
                self._first = self._first or port
            elif self._primary == port:
                self._primary = None
