"""A driver."""

from __future__ import annotations

from ctypes import byref, c_size_t, c_uint32, c_uint64, create_string_buffer
from typing import Any, Iterator

from ._held import Held
from ._library import LIBRARY, CheckNumbers, DriverPoolNumbers, ServerNumbers, TopologyNumbers, TypesNumbers
from ._steps import driver_steps
from .errors import NoEntry, NoRoom, check
from .numbers import number
from .values import (
    Action,
    Awaited,
    Check,
    Connection,
    Event,
    Next,
    PoolCounts,
    PoolState,
    Reply,
    Server,
    ServerKind,
    Text,
    ToldFact,
    Topology,
    TopologyKind,
    Use,
)

_ROOM = 512


def _bytes(text: str | bytes) -> bytes:
    return text.encode("utf-8") if isinstance(text, str) else text


class Driver(Held):
    """One driver: its connection pools, and what it knows of its servers.

    It opens no socket and reads no clock: it is told what happened, step by step, and each step answers a Reply with the facts that became true by it.
    Moments are in milliseconds, durations of checks in nanoseconds. Any number of threads may share one: `lock` gives it to one call at a time, and can be
    held around a step and the questions about it. A signal handler or a finalizer may call it too; by ctypes it may then change the facts of the step that
    it interrupts. A number that does not fit the library's raises OverflowError, and the library is not asked. A driver is not copied.
    """

    def __init__(self, line: str | bytes, seat: int = 0) -> None:
        """Opens a driver by an `open` line of a script, as `open seeds=a:27017 max=10`. Raises Malformed or NoMemory."""
        super().__init__(LIBRARY.mdb_close)
        self._steps = driver_steps(self._slot)
        self._return = getattr(self._steps, "return")
        text = _bytes(line)
        check(LIBRARY.mdb_open_line(byref(self._slot), number(seat, 32), text, len(text)), line)

    def close(self) -> None:
        """Frees the driver. Each later call raises Closed; a second close does nothing."""
        self._freed()

    # ---- by lines

    def line(self, line: str | bytes, seat: int = 0) -> Reply:
        """Does the step that a line of a script spells, any but `open`."""
        with self.lock:
            return self._steps.line(seat, line)

    def entry_text(self) -> str:
        """The text of the last entry, with its newline."""
        return self._text(LIBRARY.mdb_entry_text)

    # ---- by calls

    def request(self, moment: int, party: int, address: str, seat: int = 0) -> Reply:
        """A caller asks for a connection to the address (CMAP, "Checking Out a Connection")."""
        with self.lock:
            return self._steps.request(moment, seat, party, address)

    def warm(self, moment: int, party: int, address: str, seat: int = 0) -> Reply:
        """One connection more for the pool of the address, where fewer live than its minimum."""
        with self.lock:
            return self._steps.warm(moment, seat, party, address)

    def collect(self, moment: int, party: int, seat: int = 0) -> Reply:
        """The caller of a request asks how it stands. That it ended is told once."""
        with self.lock:
            return self._steps.collect(moment, seat, party)

    def give_up(self, moment: int, party: int, seat: int = 0) -> Reply:
        """The caller of a request no longer wants its connection."""
        with self.lock:
            return self._steps.give_up(moment, seat, party)

    def return_(self, moment: int, party: int, used: Use = Use.OK, seat: int = 0) -> Reply:
        """A party returns its connection (CMAP, "Checking In a Connection")."""
        with self.lock:
            return self._return(moment, seat, party, used)

    def claim(self, moment: int, seat: int = 0) -> Reply:
        """A worker asks for a connection to establish (CMAP, "Establishing a Connection")."""
        with self.lock:
            return self._steps.claim(moment, seat)

    def established(self, moment: int, connection: Connection, wire: int, service: str = "", server_id: int | None = None, seat: int = 0) -> Reply:
        """A pending connection was established. `service` is the service behind a load balancer, in 24 hex digits."""
        told = -1 if server_id is None else number(server_id, 63)
        made = (connection[0], connection[1], number(wire, 31), told)
        with self.lock:
            return self._steps.established(moment, seat, made, service)

    def pin(self, moment: int, party: int, seat: int = 0) -> Reply:
        """A party pins its connection, so that it stays with its session when it comes back."""
        with self.lock:
            return self._steps.pin(moment, seat, party)

    def replicate(self, moment: int, connection: Connection, seat: int = 0) -> Reply:
        """One pin more of a pinned connection."""
        with self.lock:
            return self._steps.replicate(moment, seat, connection)

    def take(self, moment: int, party: int, connection: Connection, seat: int = 0) -> Reply:
        """A new party takes a pinned connection."""
        with self.lock:
            return self._steps.take(moment, seat, party, connection)

    def unpin(self, moment: int, connection: Connection, seat: int = 0) -> Reply:
        """One pin less of a pinned connection."""
        with self.lock:
            return self._steps.unpin(moment, seat, connection)

    def maintain(self, moment: int, address: str, seat: int = 0) -> Reply:
        """The timer of the pool of the address: stale and idle connections are closed (CMAP, "Background Thread")."""
        with self.lock:
            return self._steps.maintain(moment, seat, address)

    def expire(self, moment: int, address: str, seat: int = 0) -> Reply:
        """The callers of the pool of the address that waited for too long end."""
        with self.lock:
            return self._steps.expire(moment, seat, address)

    def beat(self, moment: int, address: str, pool: int, seat: int = 0) -> Reply:
        """The monitor of the address begins a check, for the pool of this number."""
        with self.lock:
            return self._steps.beat(moment, seat, address, pool)

    def want(self, moment: int, watcher: int, seat: int = 0) -> Reply:
        """A watcher wants the servers checked at once."""
        with self.lock:
            return self._steps.want(moment, seat, watcher)

    def unwant(self, moment: int, watcher: int, seat: int = 0) -> Reply:
        """A watcher no longer wants it."""
        with self.lock:
            return self._steps.unwant(moment, seat, watcher)

    def error(self, moment: int, party: int, error: str, seat: int = 0) -> Reply:
        """An operation of a party met an error on its connection, as `network msg=reset`."""
        with self.lock:
            return self._steps.error(moment, seat, party, error)

    def failed(self, moment: int, connection: Connection, outcome: str, seat: int = 0) -> Reply:
        """A pending connection failed: `pre ERROR` before the server's hello, `post ERROR` or `post sid=ID ERROR` after it."""
        with self.lock:
            return self._steps.failed(moment, seat, connection, outcome)

    def hello(self, moment: int, address: str, pool: int, outcome: str, seat: int = 0) -> Reply:
        """What the hello of a monitor came to: `ok rtt=NANOSECONDS FIELD=VALUE ..` or `err ERROR`. The address has its port."""
        with self.lock:
            return self._steps.hello(moment, seat, f"{address} {pool}", outcome)

    def beaten(self, moment: int, address: str, pool: int, outcome: str, seat: int = 0) -> Reply:
        """The check of a monitor ended: its nanoseconds, and then `ok FIELD=VALUE ..`, `err ERROR` or `cancelled ERROR`."""
        with self.lock:
            return self._steps.beaten(moment, seat, f"{address} {pool}", outcome)

    def hello_bson(self, moment: int, address: str, pool: int, nanos: int, document: bytes, seat: int = 0) -> Reply:
        """The hello of a monitor was answered by this document, in BSON, after so many nanoseconds. Raises BadDocument."""
        with self.lock:
            return self._steps.hello_bson(moment, seat, nanos, pool, 0, address, document)

    def beaten_bson(self, moment: int, address: str, pool: int, nanos: int, document: bytes, more: bool = False, seat: int = 0) -> Reply:
        """The check of a monitor was answered by this document, in BSON, after so many nanoseconds.

        `more` says that the server sends more replies unasked. The document may have tags and names that no line can spell. Raises BadDocument.
        """
        with self.lock:
            return self._steps.beaten_bson(moment, seat, nanos, pool, int(more), address, document)

    def rtt(self, moment: int, address: str, pool: int, nanos: int, seat: int = 0) -> Reply:
        """A round trip was measured beside the checks of a monitor. The address has its port."""
        with self.lock:
            return self._steps.rtt(moment, seat, f"{address} {pool}", nanos)

    def hosts(self, moment: int, hosts: str, seat: int = 0) -> Reply:
        """DNS names these servers now: addresses with their ports, and commas between them."""
        with self.lock:
            return self._steps.hosts(moment, seat, hosts)

    def cluster_time(self, moment: int, time: int, seat: int = 0) -> Reply:
        """A reply told this time of the cluster."""
        with self.lock:
            return self._steps.cluster_time(moment, seat, time)

    def stop(self, moment: int, seat: int = 0) -> Reply:
        """The driver stops: its pools and its monitors are closed."""
        with self.lock:
            return self._steps.stop(moment, seat)

    # ---- what is known; no steps

    def facts(self) -> list[ToldFact]:
        """The facts of the last entry with their texts, in the order in which they became true.

        What a step's reply has in `facts` costs less. Hold `lock` around the step and this where threads share the driver.
        """
        with self.lock:
            return list(self._facts())

    def topology(self) -> Topology:
        """What is known of the topology."""
        told = TopologyNumbers()
        with self.lock:
            check(LIBRARY.mdb_topology_get(byref(self._slot), byref(told)))
            texts = [self._some_text(LIBRARY.mdb_topology_text, which) for which in (Text.SET_NAME, Text.ELECTION_ID, Text.ERROR)]
        return Topology(
            TopologyKind(told.kind),
            told.servers,
            bool(told.compatible),
            texts[0],
            told.max_set_version if told.has_max_set_version else None,
            texts[1],
            told.cluster_time if told.has_cluster_time else None,
            told.session_minutes if told.has_session_minutes else None,
            texts[2],
            bool(told.polled),
        )

    def servers(self) -> list[Server]:
        """What is known of the servers, in the order of their addresses."""
        told = TopologyNumbers()
        with self.lock:
            check(LIBRARY.mdb_topology_get(byref(self._slot), byref(told)))
            return [self._server(index) for index in range(told.servers)]

    def server(self, address: str) -> Server:
        """What is known of the server with the address. Raises NoEntry where there is none."""
        text, place = _bytes(address), c_size_t()
        with self.lock:
            check(LIBRARY.mdb_server_at(byref(self._slot), text, len(text), byref(place)), address)
            return self._server(place.value)

    def server_number(self, address: str) -> int:
        """The number of the server at the address, as facts have it in `pool`. It stands for this address as long as the driver lives.

        Raises NoEntry where the server is neither known nor one whose pool the last entry closed.
        """
        return self._narrow(LIBRARY.mdb_server_number, address)

    def job_address(self, connection: Connection) -> str:
        """The address to which a pending connection goes. Raises NoEntry where it is not pending."""
        return self._text(LIBRARY.mdb_job_address, number(connection.pool, 32), number(connection.id, 32))

    def next_check(self, address: str) -> Check:
        """What the check of the server does that begins now, asked before `beat`. Raises NoEntry where no pool is open there."""
        text, told = _bytes(address), CheckNumbers()
        with self.lock:
            check(LIBRARY.mdb_check_get(byref(self._slot), text, len(text), byref(told)), address)
        awaited = Awaited(bytes(told.process), told.counter, told.most) if told.awaits else None
        return Check(Action(told.action), told.connection, told.timeout, awaited, bool(told.legacy), bool(told.asks))

    def next_after(self, address: str, pool: int, outcome: str) -> Next:
        """What follows a check that ends so, asked before `beaten`, with the same words. Raises NoEntry where no pool is open there."""
        monitor, text, told = _bytes(f"{address} {pool}"), _bytes(outcome), c_uint32()
        with self.lock:
            check(LIBRARY.mdb_check_next(byref(self._slot), monitor, len(monitor), text, len(text), byref(told)), outcome)
        return Next(told.value)

    def last_moment(self) -> int:
        """The moment of the last step that was accepted."""
        return self._wide(LIBRARY.mdb_last_moment)

    def published(self) -> int:
        """How often an accepted step told of the topology, its opening included."""
        return self._wide(LIBRARY.mdb_published)

    def watchers(self) -> int:
        """How many watchers want the servers checked at once. Where it is 0 before a `want`, that one is the first."""
        return self._wide(LIBRARY.mdb_watchers)

    def open_pool(self, address: str) -> int:
        """The number of the pool that is open at the address. Raises NoEntry where there is none."""
        return self._narrow(LIBRARY.mdb_open_pool, address)

    def pool(self, pool: int) -> PoolCounts:
        """What the pool of this number has. Raises NoEntry where none was opened, or it was closed and nothing of it lives."""
        told = DriverPoolNumbers()
        with self.lock:
            check(LIBRARY.mdb_driver_pool_get(byref(self._slot), number(pool, 32), byref(told)), pool)
        return PoolCounts(pool, PoolState(told.state), told.generation, told.available, bool(told.has_job))

    # ---- within

    def _narrow(self, call: Any, address: str) -> int:
        """What the call tells of an address."""
        text, found = _bytes(address), c_uint32()
        with self.lock:
            check(call(byref(self._slot), text, len(text), byref(found)), address)
            return found.value

    def _wide(self, call: Any) -> int:
        found = c_uint64()
        with self.lock:
            check(call(byref(self._slot), byref(found)))
            return found.value

    def _text(self, call: Any, *index: int) -> str:
        """A text that the call writes, with a larger buffer where it does not fit."""
        out, size = create_string_buffer(_ROOM), c_size_t()
        with self.lock:
            while True:
                status = call(byref(self._slot), *index, out, len(out), byref(size))
                if status != NoRoom.status:
                    check(status)
                    return out.raw[: size.value].decode("ascii")
                out = create_string_buffer(2 * size.value)

    def _facts(self) -> Iterator[ToldFact]:
        for index, fact in enumerate(self._steps.facts()):
            text, address = self._text(LIBRARY.mdb_fact_text, index), self._some_text(LIBRARY.mdb_fact_address, index)
            before, after = self._types(index, fact.event)
            yield ToldFact._make((*fact, text, address, before, after))

    def _types(self, index: int, event: Event) -> tuple[Any, Any]:
        kinds: Any = {Event.SERVER_CHANGED: ServerKind, Event.TOPOLOGY_CHANGED: TopologyKind}.get(event)
        if kinds is None:
            return None, None
        types = TypesNumbers()
        check(LIBRARY.mdb_fact_types(byref(self._slot), index, byref(types)), index)
        return kinds(types.before), kinds(types.after)

    def _some_text(self, call: Any, *index: int) -> str | None:
        """A text that the call writes, and None where there is no such text."""
        try:
            return self._text(call, *index)
        except NoEntry:
            return None

    def _server(self, index: int) -> Server:
        told = ServerNumbers()
        check(LIBRARY.mdb_server_get(byref(self._slot), index, byref(told)), index)
        texts = {which: self._some_text(LIBRARY.mdb_server_text, index, which) for which in Text}
        hosts, passives, arbiters = (tuple((texts[which] or "").split(",")) if texts[which] else () for which in (Text.HOSTS, Text.PASSIVES, Text.ARBITERS))
        reply = texts[Text.REPLY]
        return Server(
            texts[Text.ADDRESS] or "",
            ServerKind(told.kind),
            told.round_trip if told.has_round_trip else None,
            told.updated if told.has_updated else None,
            told.min_wire,
            told.max_wire,
            texts[Text.SET_NAME],
            told.set_version if told.has_set_version else None,
            hosts,
            passives,
            arbiters,
            texts[Text.ME],
            texts[Text.PRIMARY],
            texts[Text.ELECTION_ID],
            texts[Text.ERROR],
            None if reply is None else reply.strip(),
        )
