"""A made-up replica set, for tests of failover: who is primary, terms, election ids, set versions and topology versions by the proved rule."""

from __future__ import annotations

from ctypes import byref, c_size_t, c_uint32, c_uint64, create_string_buffer
from dataclasses import dataclass
from typing import Any

from ._library import LIBRARY, MemberNumbers
from .errors import NoEntry, NoRoom, check
from .numbers import number


@dataclass(frozen=True)
class Member:
    """What a member holds for true of itself. `election` is the number of the election by which it believes to be the primary, or None; `counter` rises with each change."""

    set_version: int
    election: int | None
    counter: int

    @property
    def primary(self) -> bool:
        """It believes that it is the primary."""
        return self.election is not None

    @property
    def election_id(self) -> str | None:
        """The id of its election, in 24 hexadecimal digits."""
        return None if self.election is None else f"{self.election:024x}"


class Fleet:
    """1 to 50 members, numbered from 0; all are secondaries with set version 1 at the beginning.

    An election is decided by the caller; no majority is asked, and an old primary goes on believing that it is one until it steps down. Raises Malformed
    for another number of members, and NoEntry for a member that there is not.
    """

    def __init__(self, members: int) -> None:
        self._count = number(members, 32)
        self._members, self._elections = (MemberNumbers * self._count)(), c_uint64()
        check(LIBRARY.mdb_fleet_begin(self._members, self._count, byref(self._elections)), members)

    def __len__(self) -> int:
        return self._count

    @property
    def elections(self) -> int:
        """How many elections were held."""
        return self._elections.value

    def elect(self, member: int) -> None:
        """The next election is the member's, who gets the greatest set version of all. The others stay as they are."""
        check(LIBRARY.mdb_fleet_elect(self._members, self._count, byref(self._elections), number(member, 32)), member)

    def step_down(self, member: int) -> bool:
        """It becomes a secondary; False where it is one."""
        return self._changes(LIBRARY.mdb_fleet_step_down, member)

    def reconfigure(self, member: int) -> bool:
        """Its set version rises by one; False where it is a secondary."""
        return self._changes(LIBRARY.mdb_fleet_reconfigure, member)

    def member(self, member: int) -> Member:
        """What the member holds for true now."""
        if not 0 <= member < self._count:
            raise NoEntry(member)
        it = self._members[member]
        return Member(it.set_version, it.election if it.primary else None, it.counter)

    def reply(self, member: int) -> str:
        """What the member answers to a hello now, as the fields of a line."""
        out, needed = create_string_buffer(4096), c_size_t()
        while True:
            status = LIBRARY.mdb_fleet_reply(self._members, self._count, number(member, 32), out, len(out), byref(needed))
            if status != NoRoom.status:
                check(status, member)
                return out.raw[: needed.value].decode("ascii").strip()
            out = create_string_buffer(needed.value)

    def _changes(self, call: Any, member: int) -> bool:
        changed = c_uint32()
        check(call(self._members, self._count, number(member, 32), byref(changed)), member)
        return bool(changed.value)
