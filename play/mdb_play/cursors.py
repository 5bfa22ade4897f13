"""Cursors: the documents of a `find` or an `aggregate` that are still to be given, batch by batch."""

from __future__ import annotations

from dataclasses import dataclass

from bson import Int64

from .wire import Document, encoded

FIRST_BATCH = 101
# Bytes of documents in a batch at most.
BATCH_BYTES = 16_000_000


@dataclass
class Cursor:
    """Documents of a namespace, from a place on."""

    namespace: str
    documents: list[Document]


class Cursors:
    """The cursors of one process of one member; none of them is known elsewhere."""

    def __init__(self, member: int) -> None:
        self._open: dict[int, Cursor] = {}
        self._next = (member + 1) << 32

    def first(self, namespace: str, documents: list[Document], size: int | None, single: bool = False) -> Document:
        """The answer to the command that opens a cursor. A batch of size 0 gives none; `single` ends the cursor behind it."""
        batch, rest = _batch(documents, FIRST_BATCH if size is None else size)
        number = 0
        if rest and not single:
            self._next += 1
            number = self._next
            self._open[number] = Cursor(namespace, rest)
        return {"cursor": {"firstBatch": batch, "id": Int64(number), "ns": namespace}, "ok": 1.0}

    def more(self, number: int, size: int | None) -> Document | None:
        """The answer to `getMore`, and None where there is no such cursor."""
        cursor = self._open.get(number)
        if cursor is None:
            return None
        batch, cursor.documents = _batch(cursor.documents, size or len(cursor.documents))
        if not cursor.documents:
            del self._open[number]
        return {"cursor": {"nextBatch": batch, "id": Int64(number if cursor.documents else 0), "ns": cursor.namespace}, "ok": 1.0}

    def kill(self, numbers: list[int]) -> Document:
        """The answer to `killCursors`."""
        killed = [it for it in numbers if self._open.pop(it, None)]
        missing = [it for it in numbers if it not in killed]
        return {"cursorsKilled": [Int64(it) for it in killed], "cursorsNotFound": [Int64(it) for it in missing], "cursorsAlive": [], "cursorsUnknown": [], "ok": 1.0}


def _batch(documents: list[Document], size: int) -> tuple[list[Document], list[Document]]:
    """The first documents, as many as asked for and as fit into a batch."""
    count, room = 0, BATCH_BYTES
    for document in documents[: abs(size)]:
        room -= len(encoded(document))
        if room < 0 and count:
            break
        count += 1
    return documents[:count], documents[count:]
