"""Replies and facts."""

from __future__ import annotations

from dataclasses import dataclass
from enum import IntEnum
from typing import NamedTuple


class Kind(IntEnum):
    """The kind of a reply."""

    POOLED = 1
    """The party has the connection."""
    ESTABLISHING = 2
    """Its connection is pending."""
    WAITING = 3
    """The request is in the queue."""
    ENDED = 4
    """The request has ended with no connection in hand."""
    JOB = 5
    """A pending connection to establish."""
    NO_JOB = 6
    """Every pending connection is being established."""
    CHANGED = 7
    """Whether the step changed the topology or cleared a pool."""
    COUNT = 8
    """An average round trip, or how many watchers ask."""
    DONE = 9
    """The step was done, and there is no more to tell."""
    REFUSED = 10
    """The step changed nothing."""


class End(IntEnum):
    """How a request ended."""

    CLEARED = 1
    FAILED = 2
    CLOSED = 3
    WARMED = 4
    FILLED = 5
    GAVE_UP = 6
    TIMED_OUT = 7


class Why(IntEnum):
    """Why a step was refused: the first reason that holds, in this order."""

    TIME_BACK = 1
    UNKNOWN_SERVER = 2
    REQUEST_KNOWN = 3
    UNKNOWN_REQUEST = 4
    NOT_HOLDER = 5
    NOT_PENDING = 6
    UNPINNED = 7
    PIN_IN_USE = 8
    PIN_STATE = 9
    CHECK_RUNNING = 10
    NOT_CHECKING = 11
    WRONG_MODE = 12
    EXHAUSTED = 13


class Exhausted(IntEnum):
    """Which number would pass its limit, where a step was refused as EXHAUSTED."""

    POOL = 1
    GENERATION = 2
    MONITOR = 3
    SERVERS = 4


class CloseReason(IntEnum):
    """Why a connection was closed (CMAP, "ConnectionClosedEvent")."""

    STALE = 1
    IDLE = 2
    ERROR = 3
    DROPPED = 4
    POOL_CLOSED = 5


class FailReason(IntEnum):
    """Why a check-out failed (CMAP, "ConnectionCheckOutFailedEvent")."""

    TIMEOUT = 1
    CONNECTION_ERROR = 2


class PoolState(IntEnum):
    """The state of a pool (CMAP, "Connection Pool")."""

    NEW = 1
    READY = 2
    PAUSED = 3
    CLOSED = 4


class Cause(IntEnum):
    """Why a pool is cleared."""

    NETWORK = 0
    NETWORK_TIMEOUT = 1
    """The connections in use are interrupted."""
    OTHER = 2


class DocumentFault(IntEnum):
    """What is bad in a document."""

    SIZE = 1
    """It has more bytes than a document may have."""
    SHORT = 2
    """The bytes end within a value."""
    LENGTH = 3
    """A length counts too little, or more bytes than there are."""
    ZERO = 4
    """There is no zero byte where a name, a text or a document ends."""
    UTF8 = 5
    """A name or a text is not UTF-8."""
    BOOL = 6
    """A truth value is neither 0 nor 1."""
    TYPE = 7
    """There is no such type."""
    DEPTH = 8
    """Too many documents stand within one another."""
    PAST = 9
    """An element passes the end of its document."""
    TRAILING = 10
    """Bytes stand behind the document."""
    FIELD = 11
    """A field has another type, or is absent and has to be there."""


class Use(IntEnum):
    """How a connection was used by the party that returns it."""

    OK = 0
    ERRORED = 1
    DROPPED = 2
    STREAMING = 3


class FactKind(IntEnum):
    """The kind of a fact."""

    OPENED = 1
    POOL = 2
    GRANTED = 3
    ENDED = 4
    RAISED = 5
    SDAM = 6
    CHECK_NOW = 7
    CANCEL = 8


class Event(IntEnum):
    """The event of a fact of a pool (CMAP, "Events"), or of a server or the topology (SDAM monitoring)."""

    NONE = 0
    POOL_CREATED = 1
    POOL_READY = 2
    POOL_CLEARED = 3
    POOL_CLOSED = 4
    CONNECTION_CREATED = 5
    CONNECTION_READY = 6
    CONNECTION_CLOSED = 7
    CHECKOUT_STARTED = 8
    CHECKOUT_FAILED = 9
    CHECKED_OUT = 10
    CHECKED_IN = 11
    SERVER_CHANGED = 32
    SERVER_OPENING = 33
    SERVER_CLOSED = 34
    TOPOLOGY_CHANGED = 35
    TOPOLOGY_OPENING = 36
    TOPOLOGY_CLOSED = 37
    HEARTBEAT_STARTED = 38
    HEARTBEAT_SUCCEEDED = 39
    HEARTBEAT_FAILED = 40


class Action(IntEnum):
    """What a check of a server does."""

    CONNECT = 1
    """It makes a connection, whose first command is the check."""
    READ = 2
    """It sends nothing and reads the next reply."""
    HELLO = 3
    """It sends the command over the connection that there is."""


class Next(IntEnum):
    """What a monitor does after a check."""

    RETRY = 1
    """It checks again at once: a server that was available may have restarted."""
    SLEEP = 2
    """It waits until the time between two checks is over, or a check is wanted."""
    CONTINUE = 3
    """It checks at once: the server answers when something changes."""


class TopologyKind(IntEnum):
    """The type of a topology (SDAM, "TopologyType")."""

    UNKNOWN = 1
    SINGLE = 2
    REPLICA_SET_NO_PRIMARY = 3
    REPLICA_SET_WITH_PRIMARY = 4
    SHARDED = 5
    LOAD_BALANCED = 6


class ServerKind(IntEnum):
    """The type of a server (SDAM, "ServerType")."""

    UNKNOWN = 1
    STANDALONE = 2
    MONGOS = 3
    RS_PRIMARY = 4
    RS_SECONDARY = 5
    RS_ARBITER = 6
    RS_OTHER = 7
    RS_GHOST = 8
    LOAD_BALANCER = 9


class Text(IntEnum):
    """A text of a server; the first three are also texts of a topology."""

    SET_NAME = 1
    ELECTION_ID = 2
    ERROR = 3
    ADDRESS = 4
    INFO = 5
    ME = 6
    PRIMARY = 7
    HOSTS = 8
    PASSIVES = 9
    ARBITERS = 10
    REPLY = 11


class Connection(NamedTuple):
    """A connection, by the number of its pool and its own."""

    pool: int
    id: int


class Fact(NamedTuple):
    """What became true by a step. A number that the kind does not have is 0."""

    kind: FactKind
    event: Event
    """Of POOL and SDAM."""
    pool: int
    """The number of the pool; of CHECK_NOW, of CANCEL and of events of a server that of the server."""
    id: int
    """The connection of GRANTED and of events that name one; of a heartbeat the driver's number of the monitor's connection."""
    party: int
    """Of GRANTED and ENDED."""
    why: int
    """Of ENDED an End, of CONNECTION_CLOSED a CloseReason, of CHECKOUT_FAILED a FailReason; of a heartbeat 1 where the server answers when something changes."""
    number: int
    """The milliseconds of CONNECTION_READY, CHECKED_OUT and CHECKOUT_FAILED; the nanoseconds of a heartbeat that ended; 1 of a POOL_CLEARED that interrupts."""
    service: str | None
    """The service behind a load balancer, in 24 hex digits, where the fact names one."""
    has_pool: bool
    """Whether `pool` is the number of a pool."""


class ToldFact(NamedTuple):
    """A fact of the last entry with its text; the members that a Fact has are the same."""

    kind: FactKind
    event: Event
    pool: int
    id: int
    party: int
    why: int
    number: int
    service: str | None
    has_pool: bool
    text: str
    """The whole fact, as an entry's text has it."""
    address: str | None
    """The address that it names, if it names one."""
    before: ServerKind | TopologyKind | None
    """Of SERVER_CHANGED and TOPOLOGY_CHANGED, the type before the change."""
    after: ServerKind | TopologyKind | None
    """The type after it."""


class Reply(NamedTuple):
    """What the one who makes a step is told, and what became true by it. A number that the kind does not have is 0."""

    kind: Kind
    pool: int = 0
    """Of POOLED, ESTABLISHING and JOB."""
    id: int = 0
    """The connection, of the same three."""
    why: int = 0
    """Of ENDED an End, of REFUSED a Why."""
    number: int = 0
    """Of CHANGED 0 or 1, of COUNT the count; of a refusal as TIME_BACK the last moment, as EXHAUSTED an Exhausted."""
    facts: tuple[Fact, ...] = ()
    """The facts of the step, in the order in which they became true."""

    @property
    def connection(self) -> Connection:
        """Of POOLED, ESTABLISHING and JOB."""
        return Connection(self.pool, self.id)

    @property
    def end(self) -> End:
        """Of ENDED."""
        return End(self.why)

    @property
    def refusal(self) -> Why:
        """Of REFUSED."""
        return Why(self.why)

    @property
    def exhausted(self) -> Exhausted:
        """Of REFUSED as EXHAUSTED."""
        return Exhausted(self.number)


@dataclass(frozen=True)
class PoolCounts:
    """What a pool has."""

    number: int
    state: PoolState
    generation: int
    """How often it was cleared as a whole (CMAP, "Generation")."""
    available: int
    """How many connections nobody has."""
    has_job: bool | None
    """Of a driver's pool, whether a pending connection waits for a worker who claims it; of a pool that stands alone None."""
    in_use: int | None = None
    """Of a pool that stands alone, how many connections are neither available nor pending; of a driver's pool None, as the next two."""
    pending: int | None = None
    """How many connections are not established yet."""
    waiting: int | None = None
    """How many callers wait in the queue."""


@dataclass(frozen=True)
class Topology:
    """What is known of the topology (SDAM, "TopologyDescription"). What is not known is None."""

    kind: TopologyKind
    servers: int
    """How many servers it has."""
    compatible: bool
    """Whether the driver can speak to each server; else `error` says why not."""
    set_name: str | None
    max_set_version: int | None
    max_election_id: str | None
    cluster_time: int | None
    session_minutes: int | None
    """The least session timeout of the servers that hold data."""
    error: str | None
    polled: bool
    """Whether its SRV records are looked up again from time to time."""


@dataclass(frozen=True)
class Server:
    """What is known of a server (SDAM, "ServerDescription"). What is not known is None."""

    address: str
    kind: ServerKind
    round_trip: int | None
    """Nanoseconds, on average."""
    updated: int | None
    """The moment of the last reply."""
    min_wire: int
    max_wire: int
    set_name: str | None
    set_version: int | None
    hosts: tuple[str, ...]
    passives: tuple[str, ...]
    arbiters: tuple[str, ...]
    me: str | None
    primary: str | None
    election_id: str | None
    error: str | None
    """The error of its last check or of an operation, as a line has it."""
    reply: str | None
    """The fields of its last reply, as a line has them."""


@dataclass(frozen=True)
class Check:
    """What the check of a server does that begins now (SDAM, "Server Monitoring")."""

    action: Action
    connection: int
    """The driver's number of the connection that it uses or makes."""
    timeout: int
    """After how many milliseconds it counts as a network timeout."""
    awaited: Awaited | None
    """Of a hello that is answered when something changes."""
    legacy: bool
    """Whether the command is `isMaster`, and not `hello`."""
    asks: bool
    """Whether an `isMaster` says `helloOk: true`."""


@dataclass(frozen=True)
class Awaited:
    """With what a server answers a hello when something changes, and may answer several times."""

    process: bytes
    """The process of the topology version."""
    counter: int
    """Its counter."""
    most: int
    """The greatest time for which the server may wait, in milliseconds."""
