"""Verdicts of made-up observations: what each accuses, and what it lets pass."""

from __future__ import annotations

import pytest

from mdb_play import verdicts
from mdb_play.plan import parse
from mdb_play.running import ClientEnd, Run
from mdb_play.verdicts import FAILS, OK, UNJUDGED, Verdict
from mdb_play.watch import Command, Deed, End, Link, Outcome, States, Told
from mdb_play.world import World


@pytest.fixture
def run() -> Run:
    """A run of ten seconds, of a client with a monitor at each of two members."""
    made = Run(World(parse("set rs 2")), 10.0, ClientEnd(0))
    for member in range(2):
        made.world.watch.links.append(Link(member, member, 0.0, "monitor", 1))
    made.world.watch.states.append(States(0.0, "Ps"))
    return made


def link(run: Run, member: int = 0, opened: float = 0.0) -> Link:
    made = Link(len(run.world.watch.links), member, opened, "application", 1)
    run.world.watch.links.append(made)
    return made


def insert(run: Run, at: float, on: Link, outcome: Outcome = Outcome.ACKNOWLEDGED, number: int | None = None, text: str = "") -> Command:
    operation = None if number is None else (b"s", number)
    made = Command(at, on, "insert", True, operation, False, outcome, at + 0.01, executed=True, print=(text or str(at)).encode())
    run.world.watch.commands.append(made)
    return made


def told(run: Run, at: float, member: int, writable: bool, election: int = 0) -> None:
    run.world.watch.told.append(Told(at, run.world.watch.links[member], writable, election))


def state(verdict: Verdict) -> str:
    return verdict.state


def test_writes_are_gone(run: Run) -> None:
    on = link(run)
    insert(run, 1.0, on).dropped = True
    assert state(verdicts.lost_writes(run)) == FAILS
    run.world.watch.commands[0].ids = (b"1",)
    insert(run, 2.0, on).ids = (b"1",)
    assert state(verdicts.lost_writes(run)) == OK


def test_writes_are_stored_twice(run: Run) -> None:
    on = link(run)
    insert(run, 1.0, on, Outcome.UNANSWERED, text="a")
    assert state(verdicts.double_writes(run)) == OK
    insert(run, 1.1, on, text="a")
    assert state(verdicts.double_writes(run)) == FAILS
    insert(run, 1.2, on, text="a")
    assert state(verdicts.double_writes(run)) == OK


def test_an_old_primary_is_written_to(run: Run) -> None:
    on = link(run)
    told(run, 0.1, 0, True, 1)
    insert(run, 2.0, on)
    told(run, 3.0, 0, False)
    insert(run, 3.9, on)
    assert state(verdicts.old_primary(run)) == OK
    insert(run, 4.1, on)
    assert state(verdicts.old_primary(run)) == FAILS
    run.world.watch.lag = 0.5
    assert state(verdicts.old_primary(run)) == OK


def test_a_primary_of_an_earlier_election_is_written_to(run: Run) -> None:
    on = link(run)
    told(run, 0.1, 0, True, 1)
    told(run, 2.0, 1, True, 2)
    told(run, 2.5, 0, True, 1)
    insert(run, 4.0, on)
    assert state(verdicts.old_primary(run)) == FAILS


def test_two_clients_are_not_judged_by_what_one_was_told(run: Run) -> None:
    run.world.watch.links.append(Link(2, 0, 1.0, "monitor", 2))
    for judge in (verdicts.old_primary, verdicts.stale_connections):
        assert state(judge(run)) == UNJUDGED


def test_a_monitor_that_follows_another_is_no_second_client(run: Run) -> None:
    run.world.watch.links[0].closed = 1.0
    run.world.watch.links.append(Link(2, 0, 1.1, "monitor", 2))
    assert state(verdicts.stale_connections(run)) == OK


def test_stale_connections_are_used(run: Run) -> None:
    cut, old, new = link(run), link(run), link(run, opened=2.1)
    cut.closed, cut.end, cut.cut_busy = 2.0, End.SERVER, True
    insert(run, 2.5, old)
    insert(run, 5.0, new)
    assert state(verdicts.stale_connections(run)) == OK
    insert(run, 5.0, old)
    assert state(verdicts.stale_connections(run)) == FAILS


def test_an_error_that_a_hello_overtook_clears_nothing(run: Run) -> None:
    links, news = run.world.watch.links, run.world.watch.told
    error = insert(run, 2.0, link(run), Outcome.FAILED)
    error.code, error.version = 91, ("p", 3)
    insert(run, 5.0, error.link)
    news.append(Told(2.015, links[0], False, 0, asked=1.0, version=("p", 2)))  # an older state
    news.append(Told(2.015, links[0], False, 0, asked=1.0, version=("q", 3)))  # of another process
    news.append(Told(2.015, links[0], False, 0, asked=2.012, version=("p", 3)))  # asked for when the error had come
    news.append(Told(2.015, links[1], False, 0, asked=1.0, version=("p", 3)))  # another member's
    assert state(verdicts.stale_connections(run)) == FAILS
    news.append(Told(2.015, links[0], False, 0, asked=1.0, version=("p", 3)))
    assert state(verdicts.stale_connections(run)) == OK


def test_wrong_answers_are_taken(run: Run) -> None:
    on = link(run)
    assert state(verdicts.wrong_answers(run)) == UNJUDGED
    on.wrong = 1.0
    assert state(verdicts.wrong_answers(run)) == OK
    insert(run, 1.1, on)
    assert state(verdicts.wrong_answers(run)) == FAILS


def test_retries(run: Run) -> None:
    on = link(run)
    assert state(verdicts.retries(run)) == UNJUDGED
    failed = insert(run, 1.0, on, Outcome.FAILED, 1)
    failed.code = 189
    assert state(verdicts.retries(run)) == OK
    insert(run, 1.05, on, number=7)
    assert state(verdicts.retries(run)) == FAILS
    run.world.plan.options.append("serverSelectionTimeoutMS=20")
    assert state(verdicts.retries(run)) == OK
    run.world.plan.options.clear()
    insert(run, 1.1, on, number=1)
    assert state(verdicts.retries(run)) == OK
    insert(run, 1.2, on, number=1)
    assert state(verdicts.retries(run)) == FAILS


def test_a_retry_that_had_no_time_is_not_missed(run: Run) -> None:
    insert(run, 8.0, link(run), Outcome.FAILED, 1).code = 189
    assert state(verdicts.retries(run)) == OK
    run.client = ClientEnd(1)
    assert state(verdicts.retries(run)) == FAILS


@pytest.mark.parametrize("deed, expected", [("reset", FAILS), ("reset 0", OK), ("kill 0", OK)])
def test_a_retry_that_may_have_met_another_failure_is_not_missed(run: Run, deed: str, expected: str) -> None:
    insert(run, 1.0, link(run), Outcome.FAILED, 1).code = 189
    insert(run, 2.0, link(run), number=7)
    run.world.watch.deeds.append(Deed(1.5, 1, deed))
    assert state(verdicts.retries(run)) == expected


def test_recovery(run: Run) -> None:
    on = link(run)
    insert(run, 1.0, on)
    run.world.watch.deeds.append(Deed(2.0, 1, "elect 1"))
    assert state(verdicts.recovery(run)) == UNJUDGED
    insert(run, 4.99, on)
    verdict = verdicts.recovery(run)
    assert verdict.state == OK and verdict.numbers["slowest"] == 3.0 and verdict.numbers["longest_gap"] == 3.99
    run.world.plan.recover = 2.0
    assert state(verdicts.recovery(run)) == FAILS


@pytest.mark.parametrize(
    "end, expected",
    [(ClientEnd(0), OK), (ClientEnd(3), FAILS), (ClientEnd(-6), FAILS), (ClientEnd(-15, told=True), OK), (ClientEnd(-9, hung=True), FAILS), (None, UNJUDGED)],
)
def test_how_the_client_ended(run: Run, end: ClientEnd | None, expected: str) -> None:
    run.client = end
    assert state(verdicts.client(run)) == expected


def test_what_the_plan_allows_does_not_fail(run: Run) -> None:
    run.world.plan.allowed.add("client")
    run.client = ClientEnd(1)
    made = {it.name: it.state for it in verdicts.judge(run)}
    assert made["client"] == "allowed" and FAILS not in made.values()
