"""The commands that read and write documents, over a store and the cursors of a member."""

from __future__ import annotations

from typing import Any, Callable, Iterable

from .changes import changed
from .cursors import Cursors
from .matching import Unsupported, same, values_at
from .store import Duplicate, Store, aggregated, shown, sorted_by
from .wire import Document

Do = Callable[[Store, Cursors, str, Document], Document]
_LARGEST = 1 << 31


def namespace(command: Document) -> str:
    """The database and the collection of a command."""
    target = next(iter(command.values()))
    return f"{command.get('$db', 'test')}.{target if isinstance(target, str) else '$cmd'}"


def _insert(store: Store, _: Cursors, name: str, command: Document) -> Document:
    return _each(command, "documents", lambda it: (1 if store.insert(name, it) else 0, None, None))


def _update(store: Store, _: Cursors, name: str, command: Document) -> Document:
    return _each(command, "updates", lambda it: _update_one(store, name, it))


def _delete(store: Store, _: Cursors, name: str, command: Document) -> Document:
    return _each(command, "deletes", lambda it: (_delete_one(store, name, it), None, None))


def _each(command: Document, field: str, do: Callable[[Document], tuple[int, int | None, Any]]) -> Document:
    """Does each statement, up to the first that fails where they are ordered, and counts."""
    n, modified, upserted, errors = 0, None, [], []
    for index, statement in enumerate(command.get(field, [])):
        try:
            count, more, made = do(statement)
        except Duplicate as why:
            errors.append({"index": index, "code": 11000, "errmsg": str(why)})
            if command.get("ordered", True):
                break
            continue
        n += count
        modified = modified if more is None else (modified or 0) + more
        if made is not None:
            upserted.append({"index": index, "_id": made})
    said: Document = {"n": n}
    said.update({"nModified": modified or 0} if field == "updates" else {})
    said.update({"upserted": upserted} if upserted else {})
    said.update({"writeErrors": errors} if errors else {})
    return {**said, "ok": 1.0}


def _update_one(store: Store, name: str, statement: Document) -> tuple[int, int, Any]:
    found = list(store.find(name, statement["q"]))
    if not found and statement.get("upsert"):
        return 1, 0, store.upserted(name, statement["q"], statement["u"])["_id"]
    modified = 0
    chosen = found if statement.get("multi") else found[:1]
    for document in chosen:
        new = changed(document, statement["u"], inserts=False)
        modified += not same(new, document)
        store.replace(name, new)
    return len(chosen), modified, None


def _delete_one(store: Store, name: str, statement: Document) -> int:
    found = list(store.find(name, statement["q"]))
    chosen = found[:1] if statement.get("limit") else found
    for document in chosen:
        store.remove(name, document)
    return len(chosen)


def _find_and_modify(store: Store, _: Cursors, name: str, command: Document) -> Document:
    query = command.get("query") or {}
    found = sorted_by(list(store.find(name, query)), command.get("sort") or {})[:1]
    state: Document = {"n": len(found)}
    value: Document | None = found[0] if found else None
    if command.get("remove"):
        for document in found:
            store.remove(name, document)
    elif found:
        new = changed(found[0], command["update"], inserts=False)
        store.replace(name, new)
        value = new if command.get("new") else value
        state["updatedExisting"] = True
    elif command.get("upsert"):
        made = store.upserted(name, query, command["update"])
        value = made if command.get("new") else None
        state = {"n": 1, "updatedExisting": False, "upserted": made["_id"]}
    else:
        state["updatedExisting"] = False
    if value is not None:
        value = shown(value, command.get("fields") or {})
    return {"lastErrorObject": state, "value": value, "ok": 1.0}


def _find(store: Store, cursors: Cursors, name: str, command: Document) -> Document:
    found = sorted_by(list(store.find(name, command.get("filter") or {})), command.get("sort") or {})
    begin, limit = int(command.get("skip") or 0), abs(int(command.get("limit") or 0)) or _LARGEST
    documents = [shown(it, command.get("projection") or {}) for it in found[begin : begin + limit]]
    size = command.get("batchSize")
    single = bool(command.get("singleBatch")) or int(command.get("limit") or 0) < 0
    return cursors.first(name, documents, None if size is None else int(size), single)


def _aggregate(store: Store, cursors: Cursors, name: str, command: Document) -> Document:
    documents = aggregated(list(store.find(name, {})), command.get("pipeline", []))
    size = command.get("cursor", {}).get("batchSize")
    return cursors.first(name, documents, None if size is None else int(size))


def _count(store: Store, _: Cursors, name: str, command: Document) -> Document:
    begin, limit = int(command.get("skip") or 0), abs(int(command.get("limit") or 0)) or _LARGEST
    found = sum(1 for _ in store.find(name, command.get("query") or {}))
    return {"n": min(max(found - begin, 0), limit), "ok": 1.0}


def _distinct(store: Store, _: Cursors, name: str, command: Document) -> Document:
    values: list[Any] = []
    for document in store.find(name, command.get("query") or {}):
        for value in values_at(document, command["key"].split(".")):
            if not isinstance(value, list) and not any(same(value, it) for it in values):
                values.append(value)
    return {"values": values, "ok": 1.0}


def _get_more(_: Store, cursors: Cursors, __: str, command: Document) -> Document:
    said = cursors.more(int(command.get("getMore") or command.get("getmore") or 0), int(command.get("batchSize") or 0))
    return said if said is not None else {"ok": 0.0, "code": 43, "errmsg": "cursor id not found", "codeName": "CursorNotFound"}


def _kill_cursors(_: Store, cursors: Cursors, __: str, command: Document) -> Document:
    return cursors.kill([int(it) for it in command.get("cursors", [])])


def _create(store: Store, _: Cursors, name: str, __: Document) -> Document:
    store.collections.setdefault(name, {})
    return {"ok": 1.0}


def _create_indexes(store: Store, cursors: Cursors, name: str, command: Document) -> Document:
    """Indexes are told of and not kept: no other index than that of `_id` makes a document a duplicate."""
    _create(store, cursors, name, command)
    return {"numIndexesBefore": 1, "numIndexesAfter": 1 + len(command.get("indexes", [])), "createdCollectionAutomatically": False, "ok": 1.0}


def _drop(store: Store, _: Cursors, name: str, __: Document) -> Document:
    if store.collections.pop(name, None) is None:
        return {"ok": 0.0, "code": 26, "errmsg": "ns not found", "codeName": "NamespaceNotFound"}
    return {"ns": name, "nIndexesWas": 1, "ok": 1.0}


def _drop_database(store: Store, _: Cursors, __: str, command: Document) -> Document:
    for name in _of_database(store.collections, command):
        del store.collections[name]
    return {"dropped": command.get("$db", "test"), "ok": 1.0}


def _list_collections(store: Store, cursors: Cursors, _: str, command: Document) -> Document:
    names = [name.split(".", 1)[1] for name in _of_database(store.collections, command)]
    made = [{"name": name, "type": "collection", "options": {}, "info": {"readOnly": False}} for name in names]
    return cursors.first(f"{command.get('$db', 'test')}.$cmd.listCollections", [it for it in made if command.get("filter", {}).get("name", it["name"]) == it["name"]], None)


def _list_indexes(_: Store, cursors: Cursors, name: str, __: Document) -> Document:
    return cursors.first(name, [{"v": 2, "key": {"_id": 1}, "name": "_id_"}], None)


def _list_databases(store: Store, _: Cursors, __: str, ___: Document) -> Document:
    names = sorted({name.split(".", 1)[0] for name in store.collections})
    return {"databases": [{"name": name, "sizeOnDisk": 1.0, "empty": False} for name in names], "totalSize": 1.0, "ok": 1.0}


def _of_database(names: Iterable[str], command: Document) -> list[str]:
    return [name for name in names if name.startswith(f"{command.get('$db', 'test')}.")]


WRITING: dict[str, Do] = {
    "insert": _insert,
    "update": _update,
    "delete": _delete,
    "findandmodify": _find_and_modify,
    "create": _create,
    "createindexes": _create_indexes,
    "drop": _drop,
    "dropdatabase": _drop_database,
}
READING: dict[str, Do] = {
    "find": _find,
    "aggregate": _aggregate,
    "count": _count,
    "distinct": _distinct,
    "getmore": _get_more,
    "killcursors": _kill_cursors,
    "listcollections": _list_collections,
    "listindexes": _list_indexes,
    "listdatabases": _list_databases,
}
# Answered with `ok` alone by every server.
PLAIN = frozenset({"ping", "endsessions", "refreshsessions", "killsessions", "logout", "whatsmyuri", "getlasterror", "startsession", "getparameter"})
BUILD: Document = {"version": "7.0.0", "versionArray": [7, 0, 0, 0], "gitVersion": "none", "maxBsonObjectSize": 16_777_216, "modules": [], "bits": 64, "ok": 1.0}


def do(store: Store, cursors: Cursors, name: str, command: Document) -> Document:
    """The answer to a command that reads or writes. Raises Unsupported."""
    made = WRITING.get(name) or READING.get(name)
    if made is None:
        raise Unsupported(name)
    return made(store, cursors, namespace(command), command)
