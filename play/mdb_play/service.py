"""What a member answers to a command of an application."""

from __future__ import annotations

from dataclasses import dataclass
from typing import TYPE_CHECKING

from .commands import BUILD, PLAIN, READING, WRITING, do
from .matching import Unsupported
from .sessions import Operation, in_transaction, operation_of
from .store import Duplicate
from .wire import OP_QUERY, Document, Request
from .wording import NOT_WRITABLE, failure, labels_of

if TYPE_CHECKING:
    from .member import Member

_ENDS = ("committransaction", "aborttransaction")
# Cursors are read where they were opened, whoever is primary by then.
_ANYWHERE = ("getmore", "killcursors")


@dataclass(frozen=True)
class Served:
    """An answer; whether the command was done, and whether it had been done before."""

    document: Document
    executed: bool = False
    again: bool = False


def writes(command: Document, name: str) -> bool:
    """The command writes, or ends a transaction."""
    return name in WRITING or name in _ENDS or name == "aggregate" and any("$out" in it or "$merge" in it for it in command.get("pipeline", []))


def serve(member: "Member", request: Request, modern: bool) -> Served:
    """Does the command."""
    name, command = request.name.lower(), request.command
    if name in PLAIN:
        return Served({"n": 0, "err": None, "ok": 1.0} if name == "getlasterror" else {"ok": 1.0})
    if name == "buildinfo":
        return Served(BUILD)
    if name not in WRITING and name not in READING and name not in _ENDS:
        return Served(failure(59, modern, f"no such command: '{request.name}'"))
    code = _refusal(member, request, name)
    if code is not None:
        return Served(refused(member, request, code, modern))
    try:
        return _transaction(member, name, command, modern) if in_transaction(command) else _plain(member, name, command)
    except (Unsupported, Duplicate) as why:
        return Served(failure(11000 if isinstance(why, Duplicate) else 9, modern, str(why)))
    except (KeyError, TypeError, ValueError, AttributeError, IndexError) as why:
        return Served(failure(9, modern, f"{name}: {why!r}"))


def refused(member: "Member", request: Request, code: int, modern: bool) -> Document:
    """The answer that tells this error, with the labels that fit the command, and the topology version where it tells of the server's state.

    A member that tells of a state that it isn't in tells a new version, as one that has left the state already: by an older version a driver is not to heed it.
    """
    command, transaction = request.command, in_transaction(request.command)
    labels = labels_of(code, operation_of(command) is not None and not transaction, transaction, request.name.lower() in _ENDS)
    said = failure(code, modern, labels=labels)
    if code not in NOT_WRITABLE:
        return said
    if member.writable:
        member.turn()
    return {**said, "topologyVersion": member.version()}


def _refusal(member: "Member", request: Request, name: str) -> int | None:
    """The code of the error by which the member refuses the command."""
    write = writes(request.command, name)
    if write and member.errors:
        return member.errors.pop()
    if name in _ANYWHERE or member.writable:
        return None
    if write or in_transaction(request.command):
        return 10107
    return None if _secondary_ok(request) else 13435


def _secondary_ok(request: Request) -> bool:
    if request.opcode == OP_QUERY:
        return request.secondary_ok
    preference = request.command.get("$readPreference") or {}
    return preference.get("mode", "primary") != "primary"


def _plain(member: "Member", name: str, command: Document) -> Served:
    store, operation = member.store, operation_of(command)
    remembers = operation is not None and name in WRITING
    if remembers and operation in store.remembered:
        return Served(store.remembered[operation], again=True)
    said = do(store, member.cursors, name, command)
    if remembers and operation is not None:
        _forget(store.remembered, operation)
        store.remembered[operation] = said
    return Served(said, executed=name in WRITING and _changed(name, said))


def _changed(name: str, said: Document) -> bool:
    """Something is stored otherwise than before."""
    if name == "update":
        return bool(said["nModified"] or said.get("upserted"))
    if name == "findandmodify":
        return bool(said["lastErrorObject"]["n"])
    return bool(said.get("n", 1))


def _forget(remembered: dict[Operation, Document], operation: Operation) -> None:
    """A session's next write makes the one before it forgotten."""
    remembered.pop((operation[0], operation[1] - 1), None)


def _transaction(member: "Member", name: str, command: Document, modern: bool) -> Served:
    operation = operation_of(command)
    if operation is None:
        return Served(failure(72, modern, "a transaction needs lsid and txnNumber"))
    if name in _ENDS:
        known = member.store.remembered.get(operation)
        said = member.sessions.finish(name, operation, member.store)
        if said is None:
            return Served(_no_transaction(modern, name == "committransaction"))
        return Served({"ok": 1.0}, executed=known is None and name == "committransaction", again=known is not None)
    running = member.sessions.begin(operation, member.store) if command.get("startTransaction") else member.sessions.running(operation)
    if running is None:
        return Served(_no_transaction(modern, True))
    return Served(do(running.view, member.cursors, name, command))


def _no_transaction(modern: bool, transient: bool) -> Document:
    labels = ["TransientTransactionError"] if transient else []
    return failure(251, modern, "Given transaction number does not match any in-progress transactions", labels)
