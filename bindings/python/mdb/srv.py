"""The rules of SRV and TXT records, which concern no driver. They look nothing up: what the resolver told is handed in."""

from __future__ import annotations

from ctypes import byref, c_size_t, create_string_buffer
from typing import Any, Iterable

from ._library import LIBRARY
from .errors import BadRecords, NoRoom, check
from .numbers import number


def accepted_hosts(name: str, found: Iterable[str], skip: bool = False) -> list[str]:
    """The hosts of an SRV lookup of the name that are in its domain, each as `host:port`, in their order.

    One host of another domain refuses the lookup ("Initial DNS Seedlist Discovery"); with `skip` it is left out ("Polling SRV Records for mongos
    Discovery"). Raises BadRecords where the lookup is refused, also where no host is left.
    """
    hosts = ",".join(found).encode()
    return _text(LIBRARY.mdb_srv_hosts, name.encode(), hosts, int(skip)).split(",")


def txt_options(name: str, records: Iterable[Iterable[bytes]]) -> dict[str, str]:
    """What the TXT records of the name set, of `authSource`, `replicaSet` and `loadBalanced`. A record is its strings. Raises BadRecords where there is more than one record, or it says anything else."""
    joined = [b"".join(record) for record in records]
    options = _text(LIBRARY.mdb_srv_txt, name.encode(), len(joined), joined[0] if joined else b"")
    return dict(option.split("=", 1) for option in options.split("&") if option)


def rescan_seconds(accepted: int, ttl: int, heartbeat: int) -> int:
    """After how many seconds the records are looked up again, where so many hosts of the last lookup were accepted, 0 where it failed.

    Raises OverflowError for a number that does not fit the library's.
    """
    return LIBRARY.mdb_srv_rescan(number(accepted, 32), number(ttl, 32), number(heartbeat, 64))


def _text(call: Any, name: bytes, *values: Any) -> str:
    words = [it for value in values for it in ((value, len(value)) if isinstance(value, bytes) else (value,))]
    out, needed = create_string_buffer(1024), c_size_t()
    while True:
        status = call(name, len(name), *words, out, len(out), byref(needed))
        if status != NoRoom.status:
            text = out.raw[: needed.value].decode("utf-8")
            check(status, text if status == BadRecords.status else name)
            return text
        out = create_string_buffer(needed.value)
