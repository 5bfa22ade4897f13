"""Messages of the wire protocol: OP_MSG, and OP_QUERY with its OP_REPLY, which drivers send before they know a server."""

from __future__ import annotations

import asyncio
import struct
from dataclasses import dataclass
from typing import Any, Dict

import bson
from bson.binary import UuidRepresentation
from bson.codec_options import CodecOptions

Document = Dict[str, Any]

OP_REPLY, OP_QUERY, OP_MSG = 1, 2004, 2013
CHECKSUM, MORE_TO_COME, EXHAUST = 1, 1 << 1, 1 << 16
SLAVE_OK = 1 << 2
# The greatest message that a server takes (maxMessageSizeBytes).
GREATEST = 48_000_000
# A message above this size counts against what all connections may hold at once.
LARGE = 1 << 20

_OPTIONS: CodecOptions[Document] = CodecOptions(document_class=dict, tz_aware=True, uuid_representation=UuidRepresentation.UNSPECIFIED)
_HEAD = struct.Struct("<iiii")


class Malformed(ValueError):
    """Bytes that are no request."""


@dataclass(frozen=True)
class Request:
    """A request: its number, the opcode by which it is answered, its command, and what its flags say."""

    number: int
    opcode: int
    command: Document
    exhaust: bool = False
    silent: bool = False
    secondary_ok: bool = False

    @property
    def name(self) -> str:
        """The command's name, as the client spells it."""
        return next(iter(self.command), "")


class Budget:
    """Bytes of large messages that all connections may hold at once."""

    def __init__(self, most: int) -> None:
        self.left = most

    def take(self, size: int) -> None:
        """Raises Malformed where there are not so many left."""
        if size > self.left:
            raise Malformed("too many bytes in large messages at once")
        self.left -= size

    def give(self, size: int) -> None:
        """They are free again."""
        self.left += size


async def read_request(reader: asyncio.StreamReader, budget: Budget, seconds: float) -> Request:
    """The next request; a message that was begun is to be whole within so many seconds. Raises Malformed, IncompleteReadError or TimeoutError."""
    head = await reader.readexactly(_HEAD.size)
    length, number, _, opcode = _HEAD.unpack(head)
    if not _HEAD.size <= length <= GREATEST:
        raise Malformed(f"a length of {length}")
    size = length - _HEAD.size
    large = size if size > LARGE else 0
    budget.take(large)
    try:
        body = await asyncio.wait_for(reader.readexactly(size), seconds)
        return parsed(number, opcode, body)
    finally:
        budget.give(large)


def parsed(number: int, opcode: int, body: bytes) -> Request:
    """The request in the bytes behind a head. Raises Malformed."""
    try:
        if opcode == OP_QUERY:
            return _query(number, body)
        if opcode == OP_MSG:
            return _message(number, body)
    except (struct.error, ValueError, IndexError, bson.errors.BSONError) as why:
        raise Malformed(str(why)) from why
    raise Malformed(f"opcode {opcode}")


def _query(number: int, body: bytes) -> Request:
    flags = struct.unpack_from("<I", body)[0]
    at = body.index(b"\0", 4) + 9
    command = _document(body, at)
    if "$query" in command:
        command = command["$query"]
    return Request(number, OP_QUERY, command, secondary_ok=bool(flags & SLAVE_OK))


def _message(number: int, body: bytes) -> Request:
    flags = struct.unpack_from("<I", body)[0]
    if flags & 0xFFFF & ~(CHECKSUM | MORE_TO_COME):
        raise Malformed(f"required flags {flags:#x}")
    end = len(body) - (4 if flags & CHECKSUM else 0)
    command: Document = {}
    lists: Document = {}
    at = 4
    while at < end:
        kind, size = body[at], struct.unpack_from("<i", body, at + 1)[0]
        if size < 5 or at + 1 + size > end:
            raise Malformed("a section longer than its message")
        if kind == 0:
            command = _document(body, at + 1)
        elif kind == 1:
            lists.update(_sequence(body[at + 5 : at + 1 + size]))
        else:
            raise Malformed(f"a section of kind {kind}")
        at += 1 + size
    return Request(number, OP_MSG, {**command, **lists}, bool(flags & EXHAUST), bool(flags & MORE_TO_COME))


def _sequence(section: bytes) -> Document:
    """A sequence of documents, under its name."""
    end = section.index(b"\0")
    name, at, documents = section[:end].decode("utf-8"), end + 1, []
    while at < len(section):
        documents.append(_document(section, at))
        at += struct.unpack_from("<i", section, at)[0]
    return {name: documents}


def _document(body: bytes, at: int) -> Document:
    size = struct.unpack_from("<i", body, at)[0]
    if size < 5 or at + size > len(body):
        raise Malformed("a document longer than its message")
    made: Document = bson.decode(body[at : at + size], _OPTIONS)
    return made


def encoded(document: Document) -> bytes:
    """The document as BSON."""
    made: bytes = bson.encode(document, codec_options=_OPTIONS)
    return made


def packed(request: Request, document: Document, number: int, answers: int | None = None, flags: int = 0) -> bytes:
    """The answer to a request, as its opcode asks. A streamed reply answers the reply before it, whose number is `answers`."""
    body = encoded(document)
    legacy = request.opcode == OP_QUERY
    front = struct.pack("<iqii", 8, 0, 0, 1) if legacy else struct.pack("<IB", flags, 0)
    to = request.number if answers is None else answers
    return _HEAD.pack(_HEAD.size + len(front) + len(body), number, to, OP_REPLY if legacy else OP_MSG) + front + body
