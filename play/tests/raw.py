"""Connections by hand, for tests of the servers."""

from __future__ import annotations

import socket
import struct
from typing import Any, Dict

import bson

Document = Dict[str, Any]
SECONDS = 30.0


class Raw:
    """One connection, and messages as a test wants them."""

    def __init__(self, port: int) -> None:
        self.socket = socket.create_connection(("127.0.0.1", port), SECONDS)
        # Beyond the numbers that the servers give their replies.
        self._number = 1_000_000

    def __enter__(self) -> "Raw":
        return self

    def __exit__(self, *_: object) -> None:
        self.socket.close()

    def send(self, command: Document, flags: int = 0) -> int:
        """Sends an OP_MSG, and gives its number."""
        self._number += 1
        body = struct.pack("<IB", flags, 0) + bson.encode(command)
        self.socket.sendall(struct.pack("<iiii", 16 + len(body), self._number, 0, 2013) + body)
        return self._number

    def query(self, command: Document, flags: int = 0) -> int:
        """Sends an OP_QUERY, and gives its number."""
        self._number += 1
        body = struct.pack("<I", flags) + b"admin.$cmd\0" + struct.pack("<ii", 0, -1) + bson.encode(command)
        self.socket.sendall(struct.pack("<iiii", 16 + len(body), self._number, 0, 2004) + body)
        return self._number

    def read(self) -> tuple[int, int, Document]:
        """The next reply: the number that it answers, its flags (those of OP_MSG), and its document."""
        length, _, answers, opcode = struct.unpack("<iiii", self.exactly(16))
        body = self.exactly(length - 16)
        flags = struct.unpack_from("<I", body)[0] if opcode == 2013 else 0
        return answers, flags, bson.decode(body[5 if opcode == 2013 else 20 :])

    def ask(self, command: Document) -> Document:
        """The answer to a command."""
        number = self.send({**command, "$db": command.get("$db", "test")})
        answers, _, said = self.read()
        assert answers == number
        return said

    def exactly(self, size: int) -> bytes:
        """So many bytes. Raises ConnectionError where it ends before."""
        parts = []
        while size:
            part = self.socket.recv(min(size, 1 << 20))
            if not part:
                raise ConnectionError("it ended")
            parts.append(part)
            size -= len(part)
        return b"".join(parts)
