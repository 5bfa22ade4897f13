"""What an update makes of a document: a replacement, or the operators that applications use most."""

from __future__ import annotations

import copy
import datetime
from typing import Any, Callable

from .matching import Unsupported, same
from .wire import Document

Put = Callable[[Document, str, Any], None]


def changed(document: Document, update: Any, inserts: bool) -> Document:
    """The document after the update; the given one stays as it is. `inserts` says that an upsert makes it. Raises Unsupported."""
    if isinstance(update, list):
        raise Unsupported("an update by a pipeline")
    if not update or not next(iter(update)).startswith("$"):
        kept = {"_id": document["_id"]} if "_id" in document else {}
        return {**kept, **copy.deepcopy(update)}
    new = copy.deepcopy(document)
    for operator, fields in update.items():
        if operator == "$setOnInsert" and not inserts:
            continue
        for path, value in fields.items():
            _apply(operator, new, path, value)
    return new


def _apply(operator: str, document: Document, path: str, value: Any) -> None:
    if operator not in _OPERATORS:
        raise Unsupported(operator)
    *outer, last = path.split(".")
    place: Any = document
    for key in outer:
        if isinstance(place, list):
            place = place[int(key)]
        else:
            place = place.setdefault(key, {})
    if isinstance(place, list):
        fields = {last: place[int(last)]} if int(last) < len(place) else {}
        _OPERATORS[operator](fields, last, value)
        place[int(last) : int(last) + 1] = list(fields.values())
    else:
        _OPERATORS[operator](place, last, value)


def _set(fields: Document, key: str, value: Any) -> None:
    fields[key] = copy.deepcopy(value)


def _unset(fields: Document, key: str, _: Any) -> None:
    fields.pop(key, None)


def _add(fields: Document, key: str, value: Any) -> None:
    fields[key] = fields.get(key, 0) + value


def _multiply(fields: Document, key: str, value: Any) -> None:
    fields[key] = fields.get(key, 0) * value


def _least(fields: Document, key: str, value: Any) -> None:
    fields[key] = min(fields.get(key, value), value)


def _greatest(fields: Document, key: str, value: Any) -> None:
    fields[key] = max(fields.get(key, value), value)


def _each(value: Any) -> list[Any]:
    return value["$each"] if isinstance(value, dict) and "$each" in value else [value]


def _push(fields: Document, key: str, value: Any) -> None:
    fields[key] = [*fields.get(key, []), *copy.deepcopy(_each(value))]


def _add_to_set(fields: Document, key: str, value: Any) -> None:
    known = list(fields.get(key, []))
    for it in _each(value):
        if not any(same(it, old) for old in known):
            known.append(copy.deepcopy(it))
    fields[key] = known


def _pull(fields: Document, key: str, value: Any) -> None:
    fields[key] = [it for it in fields.get(key, []) if not same(it, value)]


def _now(fields: Document, key: str, _: Any) -> None:
    fields[key] = datetime.datetime.now(datetime.timezone.utc)


_OPERATORS: dict[str, Put] = {
    "$set": _set,
    "$setOnInsert": _set,
    "$unset": _unset,
    "$inc": _add,
    "$mul": _multiply,
    "$min": _least,
    "$max": _greatest,
    "$push": _push,
    "$addToSet": _add_to_set,
    "$pull": _pull,
    "$currentDate": _now,
}
