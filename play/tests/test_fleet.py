"""The rule of who is primary, and the proved program beside it."""

from __future__ import annotations

import random

import pytest

from mdb_play.fleet import Fleet, Said
from mdb_play.proved import agreement, program

PROGRAM = program("mdb_fleet")
needs_program = pytest.mark.skipif(PROGRAM is None, reason="no program mdb_fleet")


def random_fleet(seed: int, fleet: Fleet) -> Fleet:
    """A fleet after random events and replies."""
    chance = random.Random(seed)
    for _ in range(12):
        member = chance.randrange(len(fleet))
        chance.choice([fleet.elect, fleet.demote, fleet.reconfigure, fleet.ask, fleet.ask])(member)
    return fleet


def test_an_old_primary_believes_until_it_steps_down() -> None:
    fleet = Fleet(3)
    assert not fleet.demote(0) and not fleet.reconfigure(0)
    fleet.elect(0)
    fleet.reconfigure(0)
    fleet.elect(1)
    assert [fleet.said(it) for it in range(3)] == [Said(2, 1, 2), Said(2, 2, 1), Said(1, None, 0)]
    assert fleet.said(1).election_id == "000000000000000000000002"
    number = fleet.ask(0)
    fleet.demote(0)
    assert fleet.reply(number).primary and not fleet.said(0).primary
    assert fleet.events == [("elect", 0), ("reconf", 0), ("elect", 1), ("down", 0)]


@needs_program
@pytest.mark.parametrize("seed", range(3))
def test_the_proved_fleet_agrees(seed: int) -> None:
    assert PROGRAM
    fleet = random_fleet(seed, Fleet(1 + seed % 5))
    told = agreement(fleet, PROGRAM)
    assert told.difference is None and told.replies == len(fleet.sent)


class EarlyElections(Fleet):
    """A wrong rule: the winner keeps its own set version."""

    def said(self, member: int) -> Said:
        told = super().said(member)
        return Said(1, told.election, told.counter) if told.election == 2 else told


@needs_program
def test_another_rule_is_told() -> None:
    assert PROGRAM
    fleet = EarlyElections(3)
    fleet.elect(0)
    fleet.reconfigure(0)
    fleet.elect(1)
    fleet.ask(1)
    told = agreement(fleet, PROGRAM)
    assert told.difference is not None and "set=2" in told.difference
