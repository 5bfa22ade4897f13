"""The worked rows of the repository: scripts whose entries are given, in crates/mdb_checks_top/stdin."""

from __future__ import annotations

import os
import sys

HERE = os.path.dirname(os.path.abspath(__file__))
sys.path.insert(0, os.path.join(HERE, "..", "..", "..", "checks"))
from cases import fits, lines_of  # noqa: E402, F401 (the reader of cases is no package)


def rows() -> list[tuple[str, list[tuple[str, str]]]]:
    """Each script's title, and its lines with the rest of their entries. A row is `script LINE => REST`, and then `then LINE => REST` for each more."""
    found: list[tuple[str, list[tuple[str, str]]]] = []
    title = ""
    for raw in lines_of("mdb_checks_top"):
        word, _, rest = raw.partition(" ")
        line, mark, wanted = rest.partition(" => ")
        if word == "#":
            title = rest
        elif word == "script" and mark:
            found.append((title, [(line, wanted)]))
        elif word == "then" and mark and found and found[-1][0] == title:
            found[-1][1].append((line, wanted))
    return found
