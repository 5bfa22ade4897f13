"""Shorter plans of which the same verdicts fail."""

from __future__ import annotations

from typing import Callable

Accusations = Callable[[list[str]], frozenset[str]]
# A verdict may hang on the client's own threads: a line goes only where it fails without it in each of so many runs.
TRIES = 2


def shrink(lines: list[str], accusations: Accusations) -> tuple[list[str], frozenset[str]]:
    """The lines that are left, and which verdicts failed. What sets up the servers stays, and only actions are taken out."""
    wrong = accusations(lines)
    if not wrong:
        return lines, wrong
    size = max(1, sum(map(_is_action, lines)) // 2)
    while size:
        lines = _without(lines, size, lambda left: all(wrong <= accusations(left) for _ in range(TRIES)))
        size //= 2
    return lines, wrong


def _is_action(line: str) -> bool:
    return line.split(" ")[0] in ("at", "sometimes", "always")


def _without(lines: list[str], size: int, still: Callable[[list[str]], bool]) -> list[str]:
    """The lines without those groups of this size that are not needed, from the last one on."""
    end = sum(map(_is_action, lines))
    while end > 0:
        places = [at for at, line in enumerate(lines) if _is_action(line)]
        gone = set(places[max(0, end - size) : end])
        left = [line for at, line in enumerate(lines) if at not in gone]
        if gone and still(left):
            lines = left
        end -= size
    return lines
