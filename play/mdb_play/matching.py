"""Which documents a filter fits: equality, comparisons, lists and the logical operators, along paths with points."""

from __future__ import annotations

import re
from typing import Any, Callable

from .wire import Document, encoded


class Unsupported(ValueError):
    """An operator that the servers do not have."""


def fits(document: Document, query: Document) -> bool:
    """The document fits the filter. Raises Unsupported for an operator that is not known."""
    return all(_part(document, key, wanted) for key, wanted in query.items())


def _part(document: Document, key: str, wanted: Any) -> bool:
    if key == "$and":
        return all(fits(document, it) for it in wanted)
    if key == "$or":
        return any(fits(document, it) for it in wanted)
    if key == "$nor":
        return not any(fits(document, it) for it in wanted)
    if key == "$comment":
        return True
    if key.startswith("$"):
        raise Unsupported(key)
    found = values_at(document, key.split("."))
    if is_operators(wanted):
        return all(_operator(found, name, value) for name, value in wanted.items())
    return _equal(found, wanted)


def is_operators(value: Any) -> bool:
    """It is a document of operators, as `{"$gt": 3}`."""
    return isinstance(value, dict) and bool(value) and next(iter(value)).startswith("$")


def values_at(value: Any, path: list[str]) -> list[Any]:
    """All values at a path; a list stands for itself and for each of its elements. Empty where there is none."""
    if not path:
        return [value, *value] if isinstance(value, list) else [value]
    if isinstance(value, list):
        inner = [found for it in value if isinstance(it, dict) for found in values_at(it, path)]
        place = int(path[0]) if path[0].isdigit() else len(value)
        return inner + (values_at(value[place], path[1:]) if place < len(value) else [])
    if isinstance(value, dict) and path[0] in value:
        return values_at(value[path[0]], path[1:])
    return []


def same(left: Any, right: Any) -> bool:
    """Two values are equal as the servers compare them: numbers by value, documents with the order of their fields, everything else by type too."""
    if _is_number(left) and _is_number(right):
        return bool(left == right)
    if type(left) is not type(right):
        return False
    return encoded({"v": left}) == encoded({"v": right})


def _is_number(value: Any) -> bool:
    return isinstance(value, (int, float)) and not isinstance(value, bool)


def _equal(found: list[Any], wanted: Any) -> bool:
    return any(same(it, wanted) for it in found) or wanted is None and not found


def _ordered(holds: Callable[[Any, Any], bool]) -> Callable[[list[Any], Any], bool]:
    def compared(found: list[Any], wanted: Any) -> bool:
        return any(_comparable(it, wanted) and holds(it, wanted) for it in found)

    return compared


def _comparable(left: Any, right: Any) -> bool:
    return _is_number(left) and _is_number(right) or type(left) is type(right) and not isinstance(left, (dict, list, type(None)))


def _regex(found: list[Any], pattern: Any) -> bool:
    return any(isinstance(it, str) and re.search(getattr(pattern, "pattern", pattern), it) for it in found)


_OPERATORS: dict[str, Callable[[list[Any], Any], bool]] = {
    "$eq": _equal,
    "$ne": lambda found, wanted: not _equal(found, wanted),
    "$gt": _ordered(lambda left, right: bool(left > right)),
    "$gte": _ordered(lambda left, right: bool(left >= right)),
    "$lt": _ordered(lambda left, right: bool(left < right)),
    "$lte": _ordered(lambda left, right: bool(left <= right)),
    "$in": lambda found, wanted: any(_equal(found, it) for it in wanted),
    "$nin": lambda found, wanted: not any(_equal(found, it) for it in wanted),
    "$exists": lambda found, wanted: bool(found) == bool(wanted),
    "$regex": _regex,
}


def _operator(found: list[Any], name: str, value: Any) -> bool:
    if name == "$not":
        return not all(_operator(found, inner, it) for inner, it in value.items())
    if name not in _OPERATORS:
        raise Unsupported(name)
    return _OPERATORS[name](found, value)
