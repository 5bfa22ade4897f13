"""The steps of drivers and of pools that stand alone by ctypes: what works without a compiler.

A step takes the moment, the seat and then what its shape says; it answers the reply with the facts of the step. Who calls holds the lock of the slot.
"""

from __future__ import annotations

from ctypes import byref, c_size_t
from typing import Any, Callable

from ._library import LIBRARY, TOLD_FACTS, AnsweredNumbers, At, CameNumbers, ConnectionNumbers, EstablishedNumbers, FactNumbers, Slot, ToldNumbers
from ._told import fact_of, reply_of
from .errors import BadDocument, NoRoom, check
from .numbers import number
from .values import DocumentFault, Fact, Reply

# Of each step what stands behind the moment and the seat: a number of 32 or of 64 bits, a text, a connection, or what establishing found out.
DRIVER = {
    "request": ("narrow", "text"),
    "warm": ("narrow", "text"),
    "collect": ("narrow",),
    "give_up": ("narrow",),
    "return": ("narrow", "narrow"),
    "claim": (),
    "established": ("made", "text"),
    "pin": ("narrow",),
    "replicate": ("connection",),
    "take": ("narrow", "connection"),
    "unpin": ("connection",),
    "maintain": ("text",),
    "expire": ("text",),
    "beat": ("text", "narrow"),
    "want": ("narrow",),
    "unwant": ("narrow",),
    "error": ("narrow", "text"),
    "failed": ("connection", "text"),
    "hello": ("text", "text"),
    "beaten": ("text", "text"),
    "rtt": ("text", "wide"),
    "hosts": ("text",),
    "cluster_time": ("wide",),
    "stop": (),
}
POOL = {
    "request": ("narrow",),
    "warm": ("narrow",),
    "collect": ("narrow",),
    "give_up": ("narrow",),
    "return": ("narrow", "narrow"),
    "claim": (),
    "established": ("narrow", "text"),
    "failed": ("narrow", "text"),
    "pin": ("narrow",),
    "replicate": ("narrow",),
    "take": ("narrow", "narrow"),
    "unpin": ("narrow",),
    "ready": (),
    "clear": ("narrow", "text"),
    "maintain": (),
    "tick": (),
    "expire": (),
    "close": (),
}
# Those of a driver that tell their facts by the same call.
TOLD = {"request", "collect", "return", "established"}


def utf8(text: str | bytes) -> bytes:
    """The bytes of a text for the library."""
    return text.encode("utf-8") if isinstance(text, str) else text


def _text(text: str | bytes) -> tuple[bytes, int]:
    held = utf8(text)
    return held, len(held)


def _made(made: tuple[int, int, int, int]) -> tuple[Any]:
    pool, connection, wire, server = made
    return (byref(EstablishedNumbers(number(pool, 32), number(connection, 32), wire, server)),)


_AS: dict[str, Callable[[Any], tuple[Any, ...]]] = {
    "narrow": lambda value: (number(value, 32),),
    "wide": lambda value: (number(value, 64),),
    "text": _text,
    "connection": lambda value: (byref(ConnectionNumbers(number(value[0], 32), number(value[1], 32))),),
    "made": _made,
}


class _Steps:
    """The steps of one slot."""

    _facts: Callable[..., int]

    def __init__(self, slot: Slot) -> None:
        self._slot = slot

    def facts(self) -> tuple[Fact, ...]:
        """The facts of the last step."""
        room, count = TOLD_FACTS, c_size_t()
        while True:
            facts = (FactNumbers * room)()
            status = type(self)._facts(byref(self._slot), facts, room, byref(count))
            if status != NoRoom.status:
                check(status, "facts")
                return tuple(fact_of(facts[it]) for it in range(count.value))
            room = count.value

    def _done(self, status: int, what: object, told: ToldNumbers, is_told: bool) -> Reply:
        check(status, what)
        if not is_told or told.count > TOLD_FACTS:
            return reply_of(told.reply, self.facts())
        return reply_of(told.reply, tuple(fact_of(told.facts[it]) for it in range(told.count)))


def _step(name: str, call: Any, shape: tuple[str, ...], is_told: bool) -> Callable[..., Reply]:
    """The method that makes the step of this name."""
    converters = [_AS[it] for it in shape]

    def step(self: Any, moment: int, seat: int, *values: Any) -> Reply:
        at, told = At(number(moment, 64), number(seat, 32)), ToldNumbers()
        passed = [it for convert, value in zip(converters, values) for it in convert(value)]
        return self._done(call(byref(self._slot), byref(at), *passed, byref(told if is_told else told.reply)), name, told, is_told)

    step.__name__ = name
    return step


def _document(name: str, call: Any) -> Callable[..., Reply]:
    """The method that makes the step of this name with a document."""

    def step(self: Any, moment: int, seat: int, nanos: int, pool: int, more: int, address: str | bytes, document: bytes) -> Reply:
        came = CameNumbers(number(moment, 64), number(nanos, 64), number(seat, 32), number(pool, 32), more)
        answered = AnsweredNumbers()
        status = call(byref(self._slot), byref(came), *_text(address), document, len(document), byref(answered))
        if status == BadDocument.status:
            raise BadDocument(DocumentFault(answered.bad.kind), answered.bad.place, answered.bad.field.decode("ascii"))
        check(status, name)
        return reply_of(answered.reply, self.facts())

    step.__name__ = name
    return step


class DriverSteps(_Steps):
    """The steps of a driver."""

    _facts = LIBRARY.mdb_facts

    def line(self, seat: int, line: str | bytes) -> Reply:
        told = ToldNumbers()
        return self._done(LIBRARY.mdb_line_told(byref(self._slot), number(seat, 32), *_text(line), byref(told)), line, told, True)


class PoolSteps(_Steps):
    """The steps of a pool that stands alone."""

    _facts = LIBRARY.mdb_pool_facts


for _name, _shape in DRIVER.items():
    setattr(DriverSteps, _name, _step(_name, getattr(LIBRARY, f"mdb_{_name}_told" if _name in TOLD else f"mdb_{_name}"), _shape, _name in TOLD))
for _name in ("hello_bson", "beaten_bson"):
    setattr(DriverSteps, _name, _document(_name, getattr(LIBRARY, f"mdb_{_name}")))
for _name, _shape in POOL.items():
    setattr(PoolSteps, _name, _step(_name, getattr(LIBRARY, f"mdb_pool_{_name}"), _shape, True))
