"""What a primary keeps of sessions: transactions that are not ended, and writes that may be sent again."""

from __future__ import annotations

from dataclasses import dataclass
from typing import Any

from .store import Store
from .wire import Document

Operation = tuple[bytes, int]


def operation_of(command: Document) -> Operation | None:
    """The session and the number that a command has, where it has both."""
    session, number = command.get("lsid"), command.get("txnNumber")
    if not isinstance(session, dict) or number is None or "id" not in session:
        return None
    return bytes(session["id"]), int(number)


def in_transaction(command: Document) -> bool:
    """The command is one of a transaction, its commit and abort included."""
    return command.get("autocommit") is False


@dataclass
class Transaction:
    """A transaction in progress: the store at its begin, and the store as it sees it."""

    base: Store
    view: Store

    def commit(self, store: Store) -> None:
        """Its changes become those of the store. What others wrote to the same documents meanwhile is overwritten."""
        for name, documents in self.view.collections.items():
            before, into = self.base.collections.get(name, {}), store.collections.setdefault(name, {})
            for key, document in documents.items():
                if before.get(key) is not document:
                    into[key] = document
            for key in before.keys() - documents.keys():
                into.pop(key, None)


class Sessions:
    """The transactions in the memory of one primary; they end without a trace when it steps down."""

    def __init__(self) -> None:
        self._running: dict[bytes, tuple[int, Transaction]] = {}

    def clear(self) -> None:
        """All are aborted."""
        self._running.clear()

    def begin(self, operation: Operation, store: Store) -> Transaction:
        """A new transaction; an earlier one of the session is aborted."""
        base = store.branch()
        made = Transaction(base, base.branch())
        self._running[operation[0]] = operation[1], made
        return made

    def running(self, operation: Operation) -> Transaction | None:
        """The transaction of this session and number."""
        number, transaction = self._running.get(operation[0], (None, None))
        return transaction if number == operation[1] else None

    def finish(self, name: str, operation: Operation, store: Store) -> Document | None:
        """The answer to `commitTransaction` or `abortTransaction`, and None where there is no such transaction."""
        transaction = self.running(operation)
        if transaction is None:
            known: Any = store.remembered.get(operation)
            return known if known is not None and name == known["ended"] else None
        del self._running[operation[0]]
        if name == "committransaction":
            transaction.commit(store)
        store.remembered[operation] = {"ok": 1.0, "ended": name}
        return store.remembered[operation]
