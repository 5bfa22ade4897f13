"""The connection pools and the server discovery of a MongoDB driver, proved, as a package over the C library of include/mdb.h.

    import mdb

    with mdb.Driver("open seeds=a:27017 lb max=10") as driver:
        reply = driver.request(0, 1, "a:27017")
        driver.established(1, reply.connection, wire=21, service="0102030405060708090a0b0c")
        driver.return_(2, 1)
"""

from ._steps import COMPILED
from .driver import Driver
from .errors import BadDocument, BadRecords, Closed, Malformed, MdbError, NoEntry, NoMemory, NoRoom, Opened, Unspelled
from .fleet import Fleet, Member
from .pool import Pool
from .srv import accepted_hosts, rescan_seconds, txt_options
from .values import (
    Action,
    Awaited,
    Cause,
    Check,
    CloseReason,
    Connection,
    DocumentFault,
    End,
    Event,
    Exhausted,
    Fact,
    FactKind,
    FailReason,
    Kind,
    Next,
    PoolCounts,
    PoolState,
    Reply,
    Server,
    ServerKind,
    Text,
    ToldFact,
    Topology,
    TopologyKind,
    Use,
    Why,
)

__all__ = [
    "Action",
    "Awaited",
    "BadDocument",
    "BadRecords",
    "COMPILED",
    "Cause",
    "Check",
    "CloseReason",
    "Closed",
    "Connection",
    "DocumentFault",
    "Driver",
    "End",
    "Event",
    "Exhausted",
    "Fact",
    "FactKind",
    "FailReason",
    "Fleet",
    "Kind",
    "Malformed",
    "MdbError",
    "Member",
    "Next",
    "NoEntry",
    "NoMemory",
    "NoRoom",
    "Opened",
    "Pool",
    "PoolCounts",
    "PoolState",
    "Reply",
    "Server",
    "ServerKind",
    "Text",
    "ToldFact",
    "Topology",
    "TopologyKind",
    "Unspelled",
    "Use",
    "Why",
    "accepted_hosts",
    "rescan_seconds",
    "txt_options",
]
__version__ = "0.3.0"
