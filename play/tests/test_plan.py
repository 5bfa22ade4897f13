"""Plans: what is read, and what is refused."""

from __future__ import annotations

import glob
import os

import pytest

from mdb_play.plan import Action, Chance, Later, Nth, PlanError, Start, parse

PLANS = sorted(glob.glob(os.path.join(os.path.dirname(__file__), "..", "plans", "*.plan")))


def test_the_plan_of_the_page_is_read() -> None:
    plan = parse(
        "set rs 3\nseed 7\nat insert 20 before-reply kill 0 # a comment; with a semicolon\nat +300ms elect 1; at check 4 of 2 damage short\nsometimes 1/50 insert delay 5ms..200ms\nend 60s"
    )
    assert (plan.kind, plan.count, plan.seed, plan.end) == ("replica", 3, 7, 60.0)
    first, *rest = plan.rules
    assert isinstance(first.when, Start) and first.action == Action("elect", ("0",))
    assert rest[0].when == Nth("insert", 20, None, "before-reply") and rest[0].action == Action("kill", ("0",))
    assert rest[1].when == Later(300.0)
    assert rest[2].when == Nth("check", 4, 2, "before") and rest[2].action.of_message
    assert rest[3].when == Chance(1, 50, "insert", None, "before")
    assert len({rule.number for rule in plan.rules}) == len(plan.rules)


@pytest.mark.parametrize(
    "text",
    [
        "at insert 0 kill 0",
        "at insert 1 kill 3",
        "at insert 1 of 7 kill 0",
        "at insert 1 damage much",
        "at insert 1 explode",
        "at insert 1 kill",
        "at insert 1 kill 0 1",
        "at +5 elect 1",
        "sometimes 2/1 insert reset",
        "sometimes 0/9 insert reset",
        "set rs 51",
        "role 0 king",
        "at start role 0 king",
        "host example.org",
        "whatever",
    ],
)
def test_what_is_no_plan_is_refused(text: str) -> None:
    with pytest.raises(PlanError):
        parse(text)


@pytest.mark.parametrize("name", PLANS, ids=[os.path.basename(it) for it in PLANS])
def test_the_plans_of_the_library_are_read(name: str) -> None:
    with open(name, encoding="utf-8") as file:
        assert parse(file.read()).rules is not None


def test_there_are_forty_plans() -> None:
    assert len(PLANS) >= 40
