"""A server of names on 127.0.0.1 that knows one host: the SRV records that name members, and the options of its TXT record, for `mongodb+srv://`.

The host is HOST, whose parent domain has the address 127.0.0.1 in it as a name: so the members keep their addresses, and no name is to be resolved beside.
Where a client asks this server alone, the host is LETTERED, since there are resolvers that take no name of digits alone, and each name beside it has the address.
"""

from __future__ import annotations

import asyncio
import struct
from typing import Callable, cast

HOST = "mdb.0.0.1"
LETTERED = "mdb.play.test"
SERVICE = f"_mongodb._tcp.{HOST}"
_SRV, _TXT, _A, _IN = 33, 16, 1, 1
_SECONDS = 1
_NO_SUCH_NAME = 3
# The name of the question, by its place in the message.
_ASKED = b"\xc0\x0c"


def spelled(name: str) -> bytes:
    """A name as messages have it."""
    return b"".join(bytes([len(it)]) + it.encode() for it in name.split(".")) + b"\0"


def question(query: bytes) -> tuple[str, int, int]:
    """The name, the kind, and the end of the first question of a query. Raises ValueError for what is none."""
    labels, at = [], 12
    while at < len(query) and query[at]:
        labels.append(query[at + 1 : at + 1 + query[at]].decode("ascii", "replace"))
        at += 1 + query[at]
    if len(query) < at + 5 or query[2] & 0x80 or not labels:
        raise ValueError("no query")
    return ".".join(labels).lower(), struct.unpack_from(">H", query, at + 1)[0], at + 5


def record(kind: int, data: bytes) -> bytes:
    return _ASKED + struct.pack(">HHIH", kind, _IN, _SECONDS, len(data)) + data


class Names(asyncio.DatagramProtocol):
    """Answers queries. `ports` tells the port of each member that is named now, by its number."""

    def __init__(self, host: str, ports: Callable[[], dict[int, int]], text: str) -> None:
        self.host, self._ports, self._text = host, ports, text
        self._service, self._domain = f"_mongodb._tcp.{host}", host.partition(".")[2]
        self._transport: asyncio.DatagramTransport | None = None

    @property
    def address(self) -> str:
        """Where it listens."""
        assert self._transport is not None
        host, port = self._transport.get_extra_info("sockname")[:2]
        return f"{host}:{port}"

    def connection_made(self, transport: asyncio.BaseTransport) -> None:
        self._transport = cast(asyncio.DatagramTransport, transport)

    def datagram_received(self, data: bytes, addr: tuple[str, int]) -> None:
        try:
            answer = self.answer(data)
        except ValueError:
            return
        if self._transport is not None:
            self._transport.sendto(answer, addr)

    def answer(self, query: bytes) -> bytes:
        """The answer to a query: of a name that it does not know, that there is none. Raises ValueError for what is no query."""
        name, kind, end = question(query)
        records, is_member = [], name.endswith("." + self._domain) and name not in (self._service, self.host)
        if (name, kind) == (self._service, _SRV):
            records = [record(_SRV, struct.pack(">HHH", 0, 0, port) + spelled(self._target(number))) for number, port in self._ports().items()]
        if (name, kind) == (self.host, _TXT) and self._text:
            records = [record(_TXT, bytes([len(self._text)]) + self._text.encode())]
        if is_member and kind == _A:
            records = [record(_A, bytes([127, 0, 0, 1]))]
        flags = 0x8180 | (0 if is_member or name in (self._service, self.host) else _NO_SUCH_NAME)
        return query[:2] + struct.pack(">HHHHH", flags, 1, len(records), 0, 0) + query[12:end] + b"".join(records)

    def _target(self, number: int) -> str:
        return "127.0.0.1" if self.host == HOST else f"m{number}.{self._domain}"

    def close(self) -> None:
        """It listens no longer."""
        if self._transport is not None:
            self._transport.close()


async def listening(ports: Callable[[], dict[int, int]], text: str, port: int = 0) -> Names:
    """A server of names at a port that a client asks alone; 0 is one of the system's choice. Raises OSError."""
    host = LETTERED if port else HOST
    _, names = await asyncio.get_running_loop().create_datagram_endpoint(lambda: Names(host, ports, text), local_addr=("127.0.0.1", port))
    return names
