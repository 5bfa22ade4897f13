"""Runs scripts by calls over the library whose heap refuses: for each step each of its allocations in turn. Prints how many were refused, and how many steps were done."""

from __future__ import annotations

from ctypes import c_int, c_long

from mdb import Driver, NoMemory, Pool
from mdb._library import LIBRARY
from scripts import script
from spoken import by_call

LIBRARY.mdb_test_refuse.argtypes, LIBRARY.mdb_test_refuse.restype = [c_long], None
LIBRARY.mdb_test_refused.argtypes, LIBRARY.mdb_test_refused.restype = [], c_int
TRIES = 400


def insisted(call, unchanged):
    """The call's result, and how often it was refused before: a try without a refusal is the last."""
    for number in range(TRIES):
        LIBRARY.mdb_test_refuse(number)
        try:
            result = call()
        except NoMemory:
            LIBRARY.mdb_test_refuse(-1)
            unchanged()
            continue
        LIBRARY.mdb_test_refuse(-1)
        return result, number
    raise AssertionError("refused for ever")


def drivers(seed: int) -> tuple[int, int]:
    """One script over a driver that is refused and one that is not: the same replies and the same log."""
    lines, refused = script(seed, 60), 0
    driver, number = insisted(lambda: Driver(lines[0]), lambda: None)
    refused += number
    with Driver(lines[0]) as wanted, driver:
        for line in lines[1:]:
            before = driver.entry_text()
            reply, number = insisted(lambda: by_call(driver, line), lambda: same(driver.entry_text(), before))
            same(reply, by_call(wanted, line))
            same(driver.entry_text(), wanted.entry_text())
            same(insisted(driver.facts, lambda: None)[0], wanted.facts())
            refused += number
    return refused, len(lines) - 1


def pools() -> tuple[int, int]:
    """The same over a pool that stands alone."""
    steps = [
        ("ready", 1),
        ("request", 2, 1),
        ("claim", 2),
        ("established", 3, 1),
        ("collect", 3, 1),
        ("request", 3, 2),
        ("return_", 4, 1),
        ("maintain", 5),
        ("close", 6),
    ]
    pool, refused = insisted(Pool, lambda: None)
    with Pool() as wanted, pool:
        for name, *values in steps:
            before = pool.facts()
            reply, number = insisted(lambda: getattr(pool, name)(*values), lambda: same(pool.facts(), before))
            same(reply, getattr(wanted, name)(*values))
            refused += number
    return refused, len(steps)


def same(found, wanted):
    assert found == wanted, (found, wanted)


totals = [pools(), *(drivers(seed) for seed in range(4))]
print(*(sum(it) for it in zip(*totals)))
