"""The steps of drivers and pools: compiled where they are there, and by ctypes elsewhere, or where the variable MDB_STEPS is `ctypes`."""

from __future__ import annotations

import os
from ctypes import addressof
from importlib import import_module
from typing import Any

from . import _by_ctypes, _told
from ._library import Slot, addresses
from .errors import BadDocument, check
from .values import DocumentFault, Fact, Reply


def _bad(kind: int, place: int, field: str) -> BadDocument:
    return BadDocument(DocumentFault(kind), place, field)


def _loaded() -> Any:
    """The compiled steps over the library that was loaded, or None."""
    if os.environ.get("MDB_STEPS") == "ctypes":
        return None
    try:
        module = import_module("mdb._compiled")
    except ImportError:
        return None
    members = (_told.KINDS, _told.ENDS, _told.REFUSALS, _told.FACT_KINDS, _told.EVENTS, _told.CLOSES, _told.FAILS)
    module.bind(addresses(), (Reply, Fact, check, _bad, *members))
    return module


_COMPILED = _loaded()
COMPILED: bool = _COMPILED is not None


def driver_steps(slot: Slot) -> Any:
    """The steps of the driver in this slot."""
    return _COMPILED.DriverSteps(addressof(slot), slot) if COMPILED else _by_ctypes.DriverSteps(slot)


def pool_steps(slot: Slot) -> Any:
    """The steps of the pool in this slot."""
    return _COMPILED.PoolSteps(addressof(slot), slot) if COMPILED else _by_ctypes.PoolSteps(slot)
