"""An exception for each status that is not OK."""

from __future__ import annotations

from .values import DocumentFault


class MdbError(Exception):
    """A call was not done, and nothing changed. `status` is the number of include/mdb.h."""

    status = 0


class NoMemory(MdbError, MemoryError):
    """There was no memory. The call may be made again."""

    status = 1


class Malformed(MdbError, ValueError):
    """The line spells no such step, or a text or a number means nothing."""

    status = 2


class NoRoom(MdbError):
    """A text did not fit into its buffer. The package asks again with a larger one, so its users do not see this."""

    status = 3


class Closed(MdbError):
    """The driver is closed."""

    status = 4


class Opened(MdbError):
    """The slot holds a driver already."""

    status = 5


class NoEntry(MdbError, LookupError):
    """There is no such fact, pool, server or text."""

    status = 6


class BadRecords(MdbError, ValueError):
    """SRV or TXT records break a rule, which the text names."""

    status = 7


class BadDocument(MdbError, ValueError):
    """A document is none that may be taken."""

    status = 8

    def __init__(self, fault: DocumentFault, place: int, field: str) -> None:
        super().__init__(f"the document is bad ({fault.name}) at {field or f'byte {place}'}")
        self.fault = fault
        """What is bad."""
        self.place = place
        """The number of the bad byte, from 0; of FIELD 0."""
        self.field = field
        """Of FIELD its name, and else no text."""

    def __reduce__(self) -> tuple[type["BadDocument"], tuple[DocumentFault, int, str]]:
        return BadDocument, (self.fault, self.place, self.field)


class Unspelled(MdbError):
    """No line can spell what the last step told of, such as a tag with a space in a document."""

    status = 9


_BY_STATUS: dict[int, type[MdbError]] = {error.status: error for error in (NoMemory, Malformed, NoRoom, Closed, Opened, NoEntry, BadRecords, Unspelled)}


def check(status: int, what: object = "") -> None:
    """Raises the exception of the status, unless it is OK."""
    if status:
        raise _BY_STATUS.get(status, MdbError)(what)
