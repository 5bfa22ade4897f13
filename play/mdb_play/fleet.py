"""Who is primary: the members' terms, election ids, set versions and topology versions, by the library for C.

The rule is the one of the proved crate `mdb_fleets`: an election is decided by the caller, its winner has the greatest set version of all, and
an old primary goes on believing that it is one until it steps down.
"""

from __future__ import annotations

from dataclasses import dataclass

import mdb

# What a member holds for true of itself.
Said = mdb.Member


@dataclass(frozen=True)
class Sent:
    """A reply: its member, what that said, and how many events came before it."""

    member: int
    said: Said
    events: int


class Fleet:
    """1 to 50 members, numbered from 0; all are secondaries at the beginning."""

    def __init__(self, count: int) -> None:
        self._set = mdb.Fleet(count)
        self.events: list[tuple[str, int]] = []
        self._sent: list[Sent] = []

    def __len__(self) -> int:
        return len(self._set)

    @property
    def elections(self) -> int:
        """How many elections there were."""
        return self._set.elections

    def elect(self, member: int) -> None:
        """The next election is the member's. The others stay as they are."""
        self._set.elect(member)
        self.events.append(("elect", member))

    def demote(self, member: int) -> bool:
        """It becomes a secondary; false where it is one."""
        return self._told("down", member, self._set.step_down(member))

    def reconfigure(self, member: int) -> bool:
        """Its set version rises by one; false where it is a secondary."""
        return self._told("reconf", member, self._set.reconfigure(member))

    def said(self, member: int) -> Said:
        """What the member holds for true now."""
        return self._set.member(member)

    def ask(self, member: int) -> int:
        """The number of the reply that the member gives now, counted from 0."""
        self._sent.append(Sent(member, self.said(member), len(self.events)))
        return len(self._sent) - 1

    def reply(self, number: int) -> Said:
        """What was said by the reply of this number."""
        return self._sent[number].said

    @property
    def sent(self) -> list[Sent]:
        """All replies, in their order."""
        return self._sent

    def _told(self, event: str, member: int, changed: bool) -> bool:
        if changed:
            self.events.append((event, member))
        return changed
