"""What is decided at a point hangs on the seed and the point, and a transcript decides as it was decided."""

from __future__ import annotations

from mdb_play.plan import parse
from mdb_play.points import Planned, Point
from mdb_play.shrink import shrink
from mdb_play.transcript import Replayed, Transcript, read

PLAN = "seed 7\nat insert 3 before-reply kill 0\nsometimes 1/5 insert delay 5ms..200ms\nat check 2 of 1 damage short"
POINTS = [Point(0, "application", 1 + it % 3, 2 + it // 3, "insert") for it in range(60)] + [Point(1, "monitor", 1, it, "check") for it in range(1, 5)]


def decided(text: str, points: list[Point]) -> dict[str, list[str]]:
    planned = Planned(parse(text))
    return {str(it): [str(one) for one in planned.decide(it)] for it in points}


def test_chance_hangs_on_the_seed_and_the_point_alone() -> None:
    once, backwards = decided(PLAN, POINTS), decided(PLAN, POINTS[::-1])
    other = decided(PLAN.replace("seed 7", "seed 8"), POINTS)
    delays = {key: [it for it in told if "delay" in it] for key, told in once.items()}
    assert delays == {key: [it for it in told if "delay" in it] for key, told in backwards.items()}
    assert delays != {key: [it for it in told if "delay" in it] for key, told in other.items()}
    assert 4 <= sum(map(bool, delays.values())) <= 24


def test_the_nth_message_is_counted_over_members_or_of_one() -> None:
    told = decided(PLAN, POINTS)
    kills = [key for key, it in told.items() if any("kill" in one for one in it)]
    assert kills == [str(POINTS[2])]
    assert [key for key, it in told.items() if any("damage" in one for one in it)] == ["1 monitor 1 2 check"]


def test_a_line_that_goes_changes_no_other_chance() -> None:
    longer = decided("at delete 1 reset\n" + PLAN, POINTS)
    plain = {key: [it.split(" ", 1)[1] for it in told] for key, told in decided(PLAN, POINTS).items()}
    assert plain == {key: [it.split(" ", 1)[1] for it in told] for key, told in longer.items()}


def test_a_transcript_is_followed() -> None:
    plan = parse(PLAN)
    planned, transcript = Planned(plan), Transcript(plan)
    made = {}
    for point in POINTS:
        made[point] = planned.decide(point)
        transcript.point(0.5, point, made[point])
    replayed = Replayed(read(transcript.text()))
    assert all(replayed.decide(point) == made[point] for point in POINTS)
    assert replayed.outcome() == "followed"


def test_a_transcript_has_the_numbers_of_its_plan() -> None:
    plan = parse("\n# a comment\nset rs 3; \n\n at insert 1 reset # another\nat insert 2 stepdown; at +50ms elect 1\n")
    plan.reseed(9)
    again = read(Transcript(plan).text()).plan
    assert again.seed == 9 and again.rules == plan.rules and [rule.number for rule in plan.rules] == [0, 2, 3, 4]


def test_where_a_client_parts_is_told() -> None:
    plan = parse(PLAN)
    planned, transcript = Planned(plan), Transcript(plan)
    for point in POINTS:
        transcript.point(0.5, point, planned.decide(point))
    replayed = Replayed(read(transcript.text()))
    replayed.decide(Point(0, "application", 2, 2, "find"))
    assert replayed.outcome() == "parted at 0 application 2 2: find, where insert was"
    short = Replayed(read(transcript.text()))
    assert short.outcome().startswith("parted at 0 application ") and short.outcome().endswith("which was not reached")


def test_shrinking_keeps_what_is_needed() -> None:
    lines = ["set rs 3", "seed 7", *(f"at insert {it} kill 0" for it in range(1, 20)), "end 60s"]
    left, wrong = shrink(lines, lambda kept: frozenset({"retries"}) if {"at insert 3 kill 0", "at insert 17 kill 0"} <= set(kept) else frozenset())
    assert wrong == {"retries"}
    assert left == ["set rs 3", "seed 7", "at insert 3 kill 0", "at insert 17 kill 0", "end 60s"]


def test_nothing_wrong_is_not_shrunk() -> None:
    assert shrink(["at insert 1 kill 0"], lambda _: frozenset()) == (["at insert 1 kill 0"], frozenset())
