"""A driver that keeps the rules is not accused, and each mutant of it by the verdict that names what it does."""

from __future__ import annotations

import threading
import time

import pytest
from mini import MUTANTS, Mini

from mdb_play.thread import Played

THREADS = 4
# No run is longer than so many seconds.
MOST = 120.0
FLAKY = "sometimes 1/10 insert before-reply reset; seed 3"
ELECTED = "at insert 20 stepdown; at +100ms elect 1"
# By its name: the plan at which a mutant is caught, and the verdict.
CAUGHT = {
    "takes-wrong-answers": ("sometimes 1/20 insert damage answers", "wrong-answers"),
    "forgets-the-clear": ("at insert 40 before-reply reset; at insert 60 before-reply reset", "stale-connections"),
    "writes-to-the-old-primary": (ELECTED, "old-primary"),
    "never-retries": (FLAKY, "retries"),
    "retries-twice": ("at insert 20 fail 0 189 40; at +400ms elect 1", "retries"),
    "retries-as-another": (FLAKY, "double-writes"),
}
# Who sends a write again as another has not sent it again, and who writes to the old primary does not recover.
ALSO = {"retries-as-another": {"retries"}, "writes-to-the-old-primary": {"recovery"}}


def play(played: Played, plan: str, mutant: str = "") -> None:
    """Plays a plan to the driver, for as long behind its first deed as a machine as busy as this one needs."""
    played.plan("set rs 3; " + plan)
    world = played.world
    driver = Mini([it.port for it in world.members], mutant)
    begin = time.monotonic()

    def ends(number: int) -> bool:
        passed = time.monotonic() - begin
        first = min((it.at for it in world.watch.deeds if it.at > 0), default=passed)
        return number >= 40 and passed - first > 4.0 + 6 * world.watch.lag or passed > MOST

    def work(thread: int) -> None:
        number = 0
        while not ends(number):
            number += 1
            driver.insert({"text": f"{thread} {number}"})
            time.sleep(0.005)

    threads = [threading.Thread(target=work, args=(it,)) for it in range(THREADS)]
    for thread in threads:
        thread.start()
    for thread in threads:
        thread.join()
    driver.close()


@pytest.mark.parametrize("plan", sorted({plan for plan, _ in CAUGHT.values()}))
def test_a_driver_that_keeps_the_rules_is_not_accused(played: Played, plan: str) -> None:
    play(played, plan)
    assert played.verdict.failed == []


@pytest.mark.parametrize("mutant", MUTANTS)
def test_a_mutant_is_caught(played: Played, mutant: str) -> None:
    plan, verdict = CAUGHT[mutant]
    play(played, plan, mutant)
    assert verdict in played.verdict.failed
    assert set(played.verdict.failed) - ALSO.get(mutant, set()) == {verdict}
