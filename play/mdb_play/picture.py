"""The time line of a run as text: a row for each member, one for the commands, and what was done when."""

from __future__ import annotations

from .watch import Outcome, Watch

WIDTH = 100
MOST_DEEDS = 30
_LEGEND = "P takes writes  s doesn't  f frozen  - down; commands: + all fine  x some failed  o some unanswered"


def picture(watch: Watch, seconds: float) -> str:
    """Rows of letters over so many seconds."""
    column = max(seconds, 0.001) / WIDTH
    members = len(watch.states[-1].letters) if watch.states else 0
    rows = [f"   {number} {''.join(_letter(watch, number, at * column) for at in range(WIDTH))}" for number in range(members)]
    scale = "".join(f"{at * column:<10.2f}" for at in range(0, WIDTH, 10))
    deeds = [f"     {it.at:8.3f} {it.text}" for it in watch.deeds[:MOST_DEEDS]]
    more = len(watch.deeds) - MOST_DEEDS
    return "\n".join([f"     {scale}s", *rows, f" all {_commands(watch, column)}", f"     {_LEGEND}", *deeds, *([f"     and {more} more"] if more > 0 else [])])


def _letter(watch: Watch, member: int, at: float) -> str:
    found = [it.letters[member] for it in watch.states if it.at <= at]
    return found[-1] if found else " "


def _commands(watch: Watch, column: float) -> str:
    row = [" "] * WIDTH
    for command in watch.commands:
        at = min(WIDTH - 1, max(0, int(command.at / column)))
        mark = {Outcome.ACKNOWLEDGED: "+", Outcome.FAILED: "x"}.get(command.outcome, "o")
        row[at] = max(row[at], mark, key=" +xo".index)
    return "".join(row)
