"""Documents in memory: collections by name, documents by their `_id`. Documents are replaced and never changed, so that a copy of a store is cheap."""

from __future__ import annotations

import copy
import functools
from typing import Any, Iterator

from bson import ObjectId

from .changes import changed
from .matching import Unsupported, fits, is_operators, values_at
from .wire import Document, encoded


class Duplicate(ValueError):
    """A document with this `_id` is there."""


def key_of(value: Any) -> bytes:
    """What stands for an `_id`; numbers that are equal are the same one."""
    plain = int(value) if isinstance(value, float) and value.is_integer() else value
    return encoded({"": int(plain) if isinstance(plain, int) and not isinstance(plain, bool) else plain})


class Store:
    """The documents of a replica set, or of one member that has left it."""

    def __init__(self) -> None:
        self.collections: dict[str, dict[bytes, Document]] = {}
        # What retried writes are answered with again, by session and number, and how transactions ended.
        self.remembered: dict[tuple[bytes, int], Document] = {}

    def branch(self) -> "Store":
        """A store that begins as this one, and is changed without it."""
        made = Store()
        made.collections = {name: dict(documents) for name, documents in self.collections.items()}
        made.remembered = dict(self.remembered)
        return made

    def take(self, other: "Store") -> None:
        """Becomes what the other store is."""
        self.collections, self.remembered = other.collections, other.remembered

    def find(self, name: str, query: Document) -> Iterator[Document]:
        """The documents of a collection that fit a filter, in the order of their insertion."""
        documents = self.collections.get(name, {})
        wanted = query.get("_id")
        if "_id" in query and not is_operators(wanted):
            found = documents.get(key_of(wanted))
            return iter([found] if found is not None and fits(found, query) else [])
        return (it for it in list(documents.values()) if fits(it, query))

    def insert(self, name: str, document: Document) -> Document:
        """The document as it is stored, with an `_id`. Raises Duplicate."""
        made = document if "_id" in document else {"_id": ObjectId(), **document}
        key = key_of(made["_id"])
        documents = self.collections.setdefault(name, {})
        if key in documents:
            raise Duplicate(f"E11000 duplicate key error collection: {name} index: _id_ dup key: {{ _id: {made['_id']!r} }}")
        documents[key] = made
        return made

    def replace(self, name: str, document: Document) -> None:
        """The document takes the place of the one with its `_id`."""
        self.collections[name][key_of(document["_id"])] = document

    def remove(self, name: str, document: Document) -> None:
        """The document with its `_id` goes."""
        self.collections[name].pop(key_of(document["_id"]), None)

    def upserted(self, name: str, query: Document, update: Any) -> Document:
        """Inserts what an upsert makes where nothing fits."""
        start = {key: value for key, value in query.items() if not key.startswith("$") and not is_operators(value) and "." not in key}
        return self.insert(name, changed(start, update, inserts=True))


def sorted_by(documents: list[Document], order: Document) -> list[Document]:
    """The documents in an order, as `{"n": 1}`."""
    for path, way in reversed(list(order.items())):
        documents = sorted(documents, key=functools.partial(_rank, path.split(".")), reverse=way == -1)
    return documents


def _rank(path: list[str], document: Document) -> tuple[int, Any]:
    found = values_at(document, path)
    value = found[0] if found else None
    if value is None:
        return 0, 0
    if isinstance(value, bool):
        return 4, value
    if isinstance(value, (int, float)):
        return 1, value
    return (2, value) if isinstance(value, str) else (3, encoded({"": value}))


def shown(document: Document, projection: Document) -> Document:
    """The fields that a projection of whole fields keeps."""
    if not projection:
        return document
    keeps = any(value and key != "_id" for key, value in projection.items())
    tops = {key.split(".")[0]: value for key, value in projection.items()}
    if keeps:
        return {key: value for key, value in document.items() if tops.get(key, key == "_id")}
    return {key: value for key, value in document.items() if tops.get(key, 1)}


def aggregated(documents: list[Document], pipeline: list[Document]) -> list[Document]:
    """What a pipeline of the simplest stages makes of documents. Raises Unsupported."""
    for stage in pipeline:
        (name, value), *more = stage.items()
        if more or name not in _STAGES:
            raise Unsupported(name)
        documents = _STAGES[name](documents, value)
    return documents


def _group(documents: list[Document], value: Document) -> list[Document]:
    groups: dict[bytes, Document] = {}
    for document in documents:
        by = _expression(document, value["_id"])
        group = groups.setdefault(key_of(by), {"_id": copy.deepcopy(by)})
        for field, accumulator in value.items():
            if field == "_id":
                continue
            ((operator, inner),) = accumulator.items()
            if operator != "$sum":
                raise Unsupported(operator)
            group[field] = group.get(field, 0) + (_expression(document, inner) or 0)
    return list(groups.values())


def _expression(document: Document, value: Any) -> Any:
    if isinstance(value, str) and value.startswith("$"):
        return next(iter(values_at(document, value[1:].split("."))), None)
    return value


_STAGES = {
    "$match": lambda documents, value: [it for it in documents if fits(it, value)],
    "$sort": sorted_by,
    "$skip": lambda documents, value: documents[int(value) :],
    "$limit": lambda documents, value: documents[: int(value)],
    "$project": lambda documents, value: [shown(it, value) for it in documents],
    "$group": _group,
    "$count": lambda documents, value: [{value: len(documents)}] if documents else [],
}
