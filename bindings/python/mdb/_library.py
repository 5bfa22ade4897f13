"""The shared library and its functions, as include/mdb.h declares them."""

from __future__ import annotations

import ctypes
import os
from ctypes import POINTER, Structure, c_char, c_int32, c_int64, c_size_t, c_uint8, c_uint32, c_uint64, c_void_p

ABI = 4
# How many facts a call that ends in _told tells at most.
TOLD_FACTS = 8


class Slot(Structure):
    """Memory for one driver, or for one pool that stands alone. Its words are the library's."""

    _fields_ = [("state", c_uint64), ("at", c_void_p)]


class ReplyNumbers(Structure):
    _fields_ = [("kind", c_uint32), ("pool", c_uint32), ("id", c_uint32), ("why", c_uint32), ("number", c_uint64)]


class FactNumbers(Structure):
    _fields_ = [
        ("kind", c_uint32),
        ("event", c_uint32),
        ("pool", c_uint32),
        ("id", c_uint32),
        ("party", c_uint32),
        ("why", c_uint32),
        ("number", c_uint64),
        ("service", c_uint8 * 12),
        ("has_service", c_uint32),
        ("has_pool", c_uint32),
    ]


class At(Structure):
    _fields_ = [("moment", c_uint64), ("seat", c_uint32)]


class ConnectionNumbers(Structure):
    _fields_ = [("pool", c_uint32), ("id", c_uint32)]


class EstablishedNumbers(Structure):
    _fields_ = [("pool", c_uint32), ("id", c_uint32), ("wire", c_int32), ("server_id", c_int64)]


class TopologyNumbers(Structure):
    _fields_ = [
        ("servers", c_uint64),
        ("cluster_time", c_uint64),
        ("session_minutes", c_uint64),
        ("kind", c_uint32),
        ("max_set_version", c_int32),
        ("has_max_set_version", c_uint32),
        ("has_cluster_time", c_uint32),
        ("has_session_minutes", c_uint32),
        ("compatible", c_uint32),
        ("polled", c_uint32),
    ]


class ServerNumbers(Structure):
    _fields_ = [
        ("round_trip", c_uint64),
        ("updated", c_int64),
        ("kind", c_uint32),
        ("min_wire", c_int32),
        ("max_wire", c_int32),
        ("set_version", c_int32),
        ("has_round_trip", c_uint32),
        ("has_updated", c_uint32),
        ("has_set_version", c_uint32),
        ("has_error", c_uint32),
    ]


class TypesNumbers(Structure):
    _fields_ = [("before", c_uint32), ("after", c_uint32)]


class CheckNumbers(Structure):
    _fields_ = [
        ("timeout", c_uint64),
        ("most", c_uint64),
        ("counter", c_int64),
        ("process", c_uint8 * 12),
        ("action", c_uint32),
        ("connection", c_uint32),
        ("awaits", c_uint32),
        ("legacy", c_uint32),
        ("asks", c_uint32),
    ]


class ToldNumbers(Structure):
    _fields_ = [("reply", ReplyNumbers), ("count", c_uint64), ("facts", FactNumbers * TOLD_FACTS)]


class CameNumbers(Structure):
    _fields_ = [("moment", c_uint64), ("nanos", c_uint64), ("seat", c_uint32), ("pool", c_uint32), ("more", c_uint32)]


class FaultNumbers(Structure):
    _fields_ = [("place", c_uint64), ("kind", c_uint32), ("field", c_char * 36)]


class AnsweredNumbers(Structure):
    _fields_ = [("reply", ReplyNumbers), ("bad", FaultNumbers)]


class PoolOptionsNumbers(Structure):
    _fields_ = [
        ("max_idle", c_uint64),
        ("max_wait", c_uint64),
        ("number", c_uint32),
        ("max_size", c_uint32),
        ("min_size", c_uint32),
        ("max_connecting", c_uint32),
        ("load_balanced", c_uint32),
    ]


class PoolStateNumbers(Structure):
    _fields_ = [
        *((name, c_uint64) for name in ("generation", "available", "in_use", "pending", "waiting")),
        ("number", c_uint32),
        ("state", c_uint32),
    ]


class DriverPoolNumbers(Structure):
    _fields_ = [("generation", c_uint64), ("available", c_uint64), ("state", c_uint32), ("has_job", c_uint32)]


class MemberNumbers(Structure):
    _fields_ = [("election", c_uint64), ("set_version", c_uint32), ("counter", c_uint32), ("primary", c_uint32), ("unused", c_uint32)]


_SLOT, _AT, _REPLY, _SIZE, _TOLD = POINTER(Slot), POINTER(At), POINTER(ReplyNumbers), POINTER(c_size_t), POINTER(ToldNumbers)
# A text that is read is a bytes object, which ctypes passes as a pointer to its first byte, and never as NULL.
_IN, _OUT = [ctypes.c_char_p, c_size_t], [c_void_p, c_size_t, _SIZE]
_MEMBERS = [POINTER(MemberNumbers), c_size_t]
_FACTS = [_SLOT, POINTER(FactNumbers), c_size_t, _SIZE]

_CALLS = {
    "mdb_open_line": [_SLOT, c_uint32, *_IN],
    "mdb_line": [_SLOT, c_uint32, *_IN, _REPLY],
    "mdb_entry_text": [_SLOT, *_OUT],
    "mdb_request": [_SLOT, _AT, c_uint32, *_IN, _REPLY],
    "mdb_warm": [_SLOT, _AT, c_uint32, *_IN, _REPLY],
    "mdb_collect": [_SLOT, _AT, c_uint32, _REPLY],
    "mdb_give_up": [_SLOT, _AT, c_uint32, _REPLY],
    "mdb_return": [_SLOT, _AT, c_uint32, c_uint32, _REPLY],
    "mdb_claim": [_SLOT, _AT, _REPLY],
    "mdb_job_address": [_SLOT, c_uint32, c_uint32, *_OUT],
    "mdb_established": [_SLOT, _AT, POINTER(EstablishedNumbers), *_IN, _REPLY],
    "mdb_pin": [_SLOT, _AT, c_uint32, _REPLY],
    "mdb_replicate": [_SLOT, _AT, POINTER(ConnectionNumbers), _REPLY],
    "mdb_take": [_SLOT, _AT, c_uint32, POINTER(ConnectionNumbers), _REPLY],
    "mdb_unpin": [_SLOT, _AT, POINTER(ConnectionNumbers), _REPLY],
    "mdb_maintain": [_SLOT, _AT, *_IN, _REPLY],
    "mdb_expire": [_SLOT, _AT, *_IN, _REPLY],
    "mdb_beat": [_SLOT, _AT, *_IN, c_uint32, _REPLY],
    "mdb_want": [_SLOT, _AT, c_uint32, _REPLY],
    "mdb_unwant": [_SLOT, _AT, c_uint32, _REPLY],
    "mdb_error": [_SLOT, _AT, c_uint32, *_IN, _REPLY],
    "mdb_failed": [_SLOT, _AT, POINTER(ConnectionNumbers), *_IN, _REPLY],
    "mdb_hello": [_SLOT, _AT, *_IN, *_IN, _REPLY],
    "mdb_beaten": [_SLOT, _AT, *_IN, *_IN, _REPLY],
    "mdb_rtt": [_SLOT, _AT, *_IN, c_uint64, _REPLY],
    "mdb_hosts": [_SLOT, _AT, *_IN, _REPLY],
    "mdb_cluster_time": [_SLOT, _AT, c_uint64, _REPLY],
    "mdb_stop": [_SLOT, _AT, _REPLY],
    "mdb_hello_bson": [_SLOT, POINTER(CameNumbers), *_IN, *_IN, POINTER(AnsweredNumbers)],
    "mdb_beaten_bson": [_SLOT, POINTER(CameNumbers), *_IN, *_IN, POINTER(AnsweredNumbers)],
    "mdb_request_told": [_SLOT, _AT, c_uint32, *_IN, _TOLD],
    "mdb_collect_told": [_SLOT, _AT, c_uint32, _TOLD],
    "mdb_return_told": [_SLOT, _AT, c_uint32, c_uint32, _TOLD],
    "mdb_established_told": [_SLOT, _AT, POINTER(EstablishedNumbers), *_IN, _TOLD],
    "mdb_line_told": [_SLOT, c_uint32, *_IN, _TOLD],
    "mdb_facts": _FACTS,
    "mdb_fact_count": [_SLOT, _SIZE],
    "mdb_fact_at": [_SLOT, c_size_t, POINTER(FactNumbers)],
    "mdb_fact_text": [_SLOT, c_size_t, *_OUT],
    "mdb_fact_address": [_SLOT, c_size_t, *_OUT],
    "mdb_fact_types": [_SLOT, c_size_t, POINTER(TypesNumbers)],
    "mdb_topology_get": [_SLOT, POINTER(TopologyNumbers)],
    "mdb_topology_text": [_SLOT, c_uint32, *_OUT],
    "mdb_server_get": [_SLOT, c_size_t, POINTER(ServerNumbers)],
    "mdb_server_at": [_SLOT, *_IN, _SIZE],
    "mdb_server_text": [_SLOT, c_size_t, c_uint32, *_OUT],
    "mdb_server_number": [_SLOT, *_IN, POINTER(c_uint32)],
    "mdb_check_get": [_SLOT, *_IN, POINTER(CheckNumbers)],
    "mdb_check_next": [_SLOT, *_IN, *_IN, POINTER(c_uint32)],
    "mdb_srv_hosts": [*_IN, *_IN, c_uint32, *_OUT],
    "mdb_srv_txt": [*_IN, c_uint32, *_IN, *_OUT],
    "mdb_fleet_begin": [*_MEMBERS, POINTER(c_uint64)],
    "mdb_fleet_elect": [*_MEMBERS, POINTER(c_uint64), c_uint32],
    "mdb_fleet_step_down": [*_MEMBERS, c_uint32, POINTER(c_uint32)],
    "mdb_fleet_reconfigure": [*_MEMBERS, c_uint32, POINTER(c_uint32)],
    "mdb_fleet_reply": [*_MEMBERS, c_uint32, *_OUT],
    "mdb_last_moment": [_SLOT, POINTER(c_uint64)],
    "mdb_published": [_SLOT, POINTER(c_uint64)],
    "mdb_open_pool": [_SLOT, *_IN, POINTER(c_uint32)],
    "mdb_driver_pool_get": [_SLOT, c_uint32, POINTER(DriverPoolNumbers)],
    "mdb_watchers": [_SLOT, POINTER(c_uint64)],
    "mdb_pool_open": [_SLOT, POINTER(PoolOptionsNumbers)],
    "mdb_pool_request": [_SLOT, _AT, c_uint32, _TOLD],
    "mdb_pool_warm": [_SLOT, _AT, c_uint32, _TOLD],
    "mdb_pool_collect": [_SLOT, _AT, c_uint32, _TOLD],
    "mdb_pool_give_up": [_SLOT, _AT, c_uint32, _TOLD],
    "mdb_pool_return": [_SLOT, _AT, c_uint32, c_uint32, _TOLD],
    "mdb_pool_claim": [_SLOT, _AT, _TOLD],
    "mdb_pool_established": [_SLOT, _AT, c_uint32, *_IN, _TOLD],
    "mdb_pool_failed": [_SLOT, _AT, c_uint32, *_IN, _TOLD],
    "mdb_pool_pin": [_SLOT, _AT, c_uint32, _TOLD],
    "mdb_pool_replicate": [_SLOT, _AT, c_uint32, _TOLD],
    "mdb_pool_take": [_SLOT, _AT, c_uint32, c_uint32, _TOLD],
    "mdb_pool_unpin": [_SLOT, _AT, c_uint32, _TOLD],
    "mdb_pool_ready": [_SLOT, _AT, _TOLD],
    "mdb_pool_clear": [_SLOT, _AT, c_uint32, *_IN, _TOLD],
    "mdb_pool_maintain": [_SLOT, _AT, _TOLD],
    "mdb_pool_tick": [_SLOT, _AT, _TOLD],
    "mdb_pool_next_due": [_SLOT, c_uint64, POINTER(c_uint64)],
    "mdb_pool_expire": [_SLOT, _AT, _TOLD],
    "mdb_pool_close": [_SLOT, _AT, _TOLD],
    "mdb_pool_facts": _FACTS,
    "mdb_pool_get": [_SLOT, POINTER(PoolStateNumbers)],
    "mdb_pool_generation": [_SLOT, *_IN, POINTER(c_uint64)],
}


def _places() -> list[str]:
    """Where the library may be: what MDB_LIBRARY names, and that alone; or else this package, bindings/out of a checkout, the system."""
    named = os.environ.get("MDB_LIBRARY")
    if named:
        return [named]
    here = os.path.dirname(os.path.abspath(__file__))
    inside = [os.path.join(here, "libmdb.so"), os.path.join(here, "..", "..", "out", "libmdb.so")]
    return [os.path.normpath(it) for it in inside if os.path.exists(it)] + [f"libmdb.so.{ABI}"]


def _open() -> ctypes.CDLL:
    """The library at the first place."""
    place = _places()[0]
    try:
        return ctypes.CDLL(place)
    except OSError as why:
        raise ImportError(
            f"mdb found no library for C: {why}. Install a wheel of mdb for this processor, or libmdb{ABI}, or run `make -C bindings` in a checkout, or name "
            "libmdb.so by the variable MDB_LIBRARY"
        ) from None


def _load() -> ctypes.CDLL:
    library = _open()
    try:
        library.mdb_abi.argtypes, library.mdb_abi.restype = [], c_uint32
    except AttributeError:
        raise ImportError(f"{library._name} is not the library of mdb.h: it has no mdb_abi") from None
    if library.mdb_abi() != ABI:
        raise ImportError(f"{library._name} has the interface {library.mdb_abi()}, and this package is for {ABI}: take both from one release")
    for name, types in _CALLS.items():
        function = getattr(library, name)
        function.argtypes, function.restype = types, c_uint32
    for name in ("mdb_close", "mdb_pool_free"):
        function = getattr(library, name)
        function.argtypes, function.restype = [_SLOT], None
    library.mdb_srv_rescan.argtypes, library.mdb_srv_rescan.restype = [c_uint32, c_uint32, c_uint64], c_uint64
    return library


LIBRARY = _load()


def addresses() -> dict[str, int]:
    """Where each function of the library that answers a status begins, for the compiled steps."""
    return {name: ctypes.cast(getattr(LIBRARY, name), c_void_p).value or 0 for name in _CALLS}
