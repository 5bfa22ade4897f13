"""Numbers for the library."""

from operator import index


def number(value: int, bits: int) -> int:
    """The number, if it fits: ctypes would drop the bits beyond."""
    whole = index(value)
    if not 0 <= whole < 1 << bits:
        raise OverflowError(f"{value} is no number of {bits} bits")
    return whole
