"""A member: a process that listens, what it says of itself, and its connections."""

from __future__ import annotations

import asyncio
import socket
import ssl
from typing import TYPE_CHECKING, Awaitable, Callable

from bson import Int64, ObjectId

from .cursors import Cursors
from .sessions import Sessions
from .store import Store
from .wire import Document

if TYPE_CHECKING:
    from .conversation import Conversation
    from .world import World

Serve = Callable[["Member", asyncio.StreamReader, asyncio.StreamWriter], Awaitable[None]]
Told = Callable[[], None]
_BUFFER = 1 << 18
# A full queue of a listener takes a few attempts to connect before it leaves them without an answer.
_FILLERS = 4


class Reader(asyncio.StreamReader):
    """A reader that tells at once when the other side has ended the connection."""

    told: Told | None = None

    def feed_eof(self) -> None:
        super().feed_eof()
        if self.told:
            self.told()

    def set_exception(self, exc: BaseException) -> None:
        super().set_exception(exc)  # type: ignore[arg-type]
        if self.told:
            self.told()


class Member:
    """One server of the plan."""

    def __init__(self, world: "World", number: int, role: str) -> None:
        self.world, self.number, self.role, self.port = world, number, role, 0
        self.hidden, self.name, self.wires = False, world.plan.name, (0, 21)
        self.late: tuple[float, float] = (0.0, 0.0)
        self.damage, self.spoil, self.errors = "none", "none", list[int]()
        self.links: set["Conversation"] = set()
        # Who it takes for the primary, and by which election.
        self.primary: int | None = None
        self.heard = 0
        # Its own documents, where it has left the set without knowing, and how many elections there had been.
        self.branch: Store | None = None
        self.branched_at = 0
        self.healed = asyncio.Event()
        self.thawed, self.changed = asyncio.Event(), asyncio.Event()
        self.thawed.set()
        self._listener: asyncio.AbstractServer | None = None
        self._clogs: list[socket.socket] = []
        self._life, self._turns = 0, 0
        self._born()

    def _born(self) -> None:
        self._life += 1
        self._process = ObjectId(f"{self.world.plan.seed & 0xFFFFFFFF:08x}{self.number + 1:08x}{self._life:08x}")
        self.sessions, self.cursors = Sessions(), Cursors(self.number)

    @property
    def address(self) -> str:
        """Its host and its port."""
        host = self.world.plan.host
        return f"[{host}]:{self.port}" if ":" in host else f"{host}:{self.port}"

    @property
    def _bound(self) -> str:
        """The address at which it listens: of the two of `localhost` the second one alone."""
        return "127.0.0.1" if self.world.plan.host == "localhost" else self.world.plan.host

    @property
    def up(self) -> bool:
        """Its process listens."""
        return self._listener is not None

    @property
    def believes(self) -> bool:
        """It believes that it is the primary."""
        return self.role == "member" and self.world.fleet.said(self.number).primary

    @property
    def writable(self) -> bool:
        """It takes writes."""
        return self.role in ("standalone", "router", "balancer") or self.believes

    @property
    def letter(self) -> str:
        """How it is: `P` takes writes, `s` doesn't, `f` is frozen, `-` is down."""
        if not self.up:
            return "-"
        if not self.thawed.is_set():
            return "f"
        return "P" if self.writable else "s"

    @property
    def store(self) -> Store:
        """The documents that it reads and writes."""
        return self.world.store if self.branch is None else self.branch

    def version(self) -> Document:
        """Its topology version: its process, and how often it changed."""
        return {"processId": self._process, "counter": Int64(self.world.fleet.said(self.number).counter + self._turns)}

    def tell(self, turned: bool = True) -> None:
        """Whoever waits for news is answered; `turned` where it changed in another way than those that the fleet counts."""
        self._turns += turned
        self.changed.set()
        self.changed = asyncio.Event()

    def turn(self) -> None:
        """Its topology version rises, and nobody is told: the answer that needs a newer one than a monitor has tells it first."""
        self._turns += 1

    def leave(self) -> None:
        """From now on it writes to documents of its own."""
        if self.branch is None:
            self.branch, self.branched_at = self.world.store.branch(), self.world.elections
            self.healed = asyncio.Event()

    def rejoin(self, keeps: bool) -> None:
        """It has the documents of the set again; where it `keeps` its own, they are the set's."""
        if self.branch is None:
            return
        if keeps:
            self.world.store.take(self.branch)
        self.world.dropped(self, keeps)
        self.branch = None
        self.healed.set()

    async def start(self, serve: Serve, tls: ssl.SSLContext | None) -> None:
        """It listens, at its port of before where it had one."""
        while self._clogs:
            self._clogs.pop().close()
        if self._listener is None:
            made = await asyncio.get_running_loop().create_server(lambda: self._protocol(serve), self._bound, self.port, backlog=4096, ssl=tls)
            self._listener, self.port = made, made.sockets[0].getsockname()[1]

    def _protocol(self, serve: Serve) -> asyncio.StreamReaderProtocol:
        return asyncio.StreamReaderProtocol(Reader(limit=_BUFFER), lambda reader, writer: serve(self, reader, writer))

    def reset(self) -> None:
        """All its connections are reset."""
        for link in list(self.links):
            link.cut()

    def kill(self) -> None:
        """Its process ends, and what it has in memory goes."""
        if self._listener:
            self._listener.close()
            self._listener = None
        self.thawed.set()
        self.reset()
        self._born()

    def clog(self) -> None:
        """As killed, but attempts to connect are not answered at all."""
        self.kill()
        family = socket.AF_INET6 if ":" in self._bound else socket.AF_INET
        listener = socket.socket(family)
        listener.setsockopt(socket.SOL_SOCKET, socket.SO_REUSEADDR, 1)
        listener.bind((self._bound, self.port))
        listener.listen(0)
        self._clogs = [listener]
        for _ in range(_FILLERS):
            filler = socket.socket(family)
            filler.setblocking(False)
            filler.connect_ex((self._bound, self.port))
            self._clogs.append(filler)

    def hello(self, command: Document, connection: int) -> Document:
        """The answer to a hello, in the words of the command's age."""
        modern = "hello" in command
        said: Document = {
            "helloOk": True,
            "isWritablePrimary" if modern else "ismaster": self.writable,
            "topologyVersion": self.version(),
            "maxBsonObjectSize": 16_777_216,
            "maxMessageSizeBytes": 48_000_000,
            "maxWriteBatchSize": 100_000,
            "logicalSessionTimeoutMinutes": 30,
            "connectionId": connection,
            "minWireVersion": self.wires[0],
            "maxWireVersion": self.wires[1],
            "readOnly": False,
        }
        if self.role in ("router", "balancer"):
            said["msg"] = "isdbgrid"
        if self.role == "balancer" and command.get("loadBalanced"):
            said["serviceId"] = self.world.service(connection)
        if self.role == "ghost" or self.role in ("member", "arbiter") and self.number not in self.world.configured:
            said.update({"isreplicaset": True, "secondary": False})
        elif self.role in ("member", "arbiter"):
            said.update(self._membership())
        return {**said, "ok": 1.0}

    def _membership(self) -> Document:
        fleet = self.world.fleet
        told = fleet.reply(fleet.ask(self.number))
        others = [self.world.members[it] for it in self.world.configured]
        said: Document = {
            "setName": self.name,
            "setVersion": told.set_version,
            "me": self.address,
            "secondary": not told.primary and self.role == "member",
            "hosts": [it.address for it in others if not it.hidden and it.role != "arbiter"],
        }
        arbiters = [it.address for it in others if it.role == "arbiter"]
        said.update({"arbiters": arbiters} if arbiters else {})
        said.update({"arbiterOnly": True} if self.role == "arbiter" else {})
        said.update({"hidden": True} if self.hidden else {})
        if told.election_id is not None:
            said["electionId"] = ObjectId(told.election_id)
        primary = self.number if told.primary else self.primary
        said.update({} if primary is None else {"primary": self.world.members[primary].address})
        return said
