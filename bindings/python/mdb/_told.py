"""What the library told, as values: the members of enumerations by their numbers."""

from __future__ import annotations

from enum import IntEnum
from typing import Any

from .values import CloseReason, End, Event, Fact, FactKind, FailReason, Kind, Reply, Why


def _by_number(names: type[IntEnum]) -> tuple[IntEnum | int, ...]:
    """The member of each number from 0 on; a number that has none stands for itself."""
    found: dict[int, IntEnum] = {it.value: it for it in names}
    return tuple(found.get(number, number) for number in range(max(found) + 1))


# The compiled steps take the members from here.
KINDS, ENDS, REFUSALS = _by_number(Kind), _by_number(End), _by_number(Why)
FACT_KINDS, EVENTS, CLOSES, FAILS = _by_number(FactKind), _by_number(Event), _by_number(CloseReason), _by_number(FailReason)


def reply_of(told: Any, facts: tuple[Fact, ...]) -> Reply:
    """A reply by its numbers."""
    why = {Kind.ENDED: ENDS, Kind.REFUSED: REFUSALS}.get(told.kind)
    return Reply(KINDS[told.kind], told.pool, told.id, why[told.why] if why else told.why, told.number, facts)


def fact_of(told: Any) -> Fact:
    """A fact by its numbers."""
    service = bytes(told.service).hex() if told.has_service else None
    kind, event = FACT_KINDS[told.kind], EVENTS[told.event]
    return Fact(kind, event, told.pool, told.id, told.party, _why(kind, event)[told.why], told.number, service, bool(told.has_pool))


def _why(kind: int, event: int) -> tuple[IntEnum | int, ...]:
    """The reasons of such a fact."""
    if kind == FactKind.ENDED:
        return ENDS
    return {Event.CONNECTION_CLOSED: CLOSES, Event.CHECKOUT_FAILED: FAILS}.get(event, (0, 1))  # type: ignore[call-overload]
