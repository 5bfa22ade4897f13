"""The compiled steps and those by ctypes: the same names, the same replies and facts, the same exceptions."""

import gc
import pytest
import threading

import mdb
from mdb import Driver, Event, FactKind, Kind, Malformed, _by_ctypes, _steps
from scripts import script
from spoken import by_call

compiled = pytest.mark.skipif(not mdb.COMPILED, reason="the compiled steps are not there")


def by_ctypes(line):
    driver = Driver(line)
    driver._steps = _by_ctypes.DriverSteps(driver._slot)
    driver._return = getattr(driver._steps, "return")
    return driver


@compiled
def test_both_have_the_same_steps():
    for name in ("DriverSteps", "PoolSteps"):
        wanted = {it for it in dir(getattr(_by_ctypes, name)) if not it.startswith("_")}
        assert {it for it in dir(getattr(_steps._COMPILED, name)) if not it.startswith("_")} == wanted


@compiled
@pytest.mark.parametrize("seed", range(30))
def test_both_answer_the_same(seed):
    lines = script(seed, 150)
    with Driver(lines[0]) as ours, by_ctypes(lines[0]) as theirs:
        assert ours.facts() == theirs.facts()
        for n, line in enumerate(lines[1:]):
            said = (lambda driver: by_call(driver, line)) if n % 3 else (lambda driver: driver.line(line))
            one, other = said(ours), said(theirs)
            assert one == other and repr(one) == repr(other), line
            assert ours.entry_text() == theirs.entry_text()


@compiled
@pytest.mark.parametrize(
    "call",
    [
        lambda driver: driver.request(-1, 1, "a:1"),
        lambda driver: driver.request(1, 1 << 32, "a:1"),
        lambda driver: driver.request(1, 1.0, "a:1"),
        lambda driver: driver.request(1, 1, ""),
        lambda driver: driver.request(1, 1, "\ud800"),
        lambda driver: driver.established(1, (0, 1 << 32), 21),
        lambda driver: driver.established(1, (0, 1), -1),
        lambda driver: driver.line("claim"),
        lambda driver: driver.claim(1, seat=1 << 32),
        lambda driver: driver.failed(1, (0, -1), "pre other msg="),
        lambda driver: driver.rtt(1, "a:1", 0, 1 << 64),
    ],
)
def test_both_raise_the_same(call):
    raised = []
    for driver in (Driver("open seeds=a:1"), by_ctypes("open seeds=a:1")):
        before = driver.entry_text()
        with pytest.raises((OverflowError, TypeError, ValueError)) as one:
            call(driver)
        raised.append((one.type, str(one.value)) if one.type in (OverflowError, Malformed) else one.type)
        assert driver.entry_text() == before
    assert raised[0] == raised[1]


def test_a_reply_has_the_facts_of_its_step():
    with Driver("open seeds=a:1,b:2 max=3") as driver:
        for line in script(3, 200)[1:]:
            reply = driver.line(line)
            assert list(reply.facts) == [mdb.Fact(*fact[:9]) for fact in driver.facts()]
            for fact in reply.facts:
                assert type(fact.kind) is FactKind and type(fact.event) is Event and type(reply.kind) is Kind
                if fact.has_pool and fact.kind is FactKind.OPENED:
                    assert driver.server_number(driver.facts()[reply.facts.index(fact)].address) == fact.pool


def test_more_facts_than_one_call_tells():
    seeds = ",".join(f"h{n}:1" for n in range(100))
    with Driver(f"open seeds={seeds}") as driver:
        reply = driver.stop(1)
        assert len(reply.facts) == len(driver.facts()) > 100


def test_facts_stay_those_of_their_step_among_threads():
    driver, faults = Driver("open seeds=a:1 max=8"), []
    driver.hello(0, "a:1", 0, "ok rtt=5 isWritablePrimary=true maxWireVersion=21")

    def work(first):
        for party in range(first, first + 300):
            reply = driver.request(1, party, "a:1")
            if reply.kind is Kind.ESTABLISHING:
                facts = driver.established(1, reply.connection, 21).facts
                driver.collect(1, party)
            else:
                facts = reply.facts
            if reply.kind in (Kind.ESTABLISHING, Kind.POOLED) and [it.party for it in reply.facts + facts if it.kind is FactKind.GRANTED][:1] not in (
                [party],
                [],
            ):
                faults.append((party, facts))
            if [it.event for it in driver.return_(1, party).facts][:1] != [Event.CHECKED_IN]:
                driver.give_up(1, party)

    crew = [threading.Thread(target=work, args=(1000 * n,)) for n in range(1, 5)]
    for one in crew:
        one.start()
    for one in crew:
        one.join()
    assert not faults


def test_what_is_told_of_pools_and_watchers():
    with Driver("open seeds=a:1") as driver:
        assert (driver.pool(0).state, driver.watchers(), driver.server_number("a:1")) == (mdb.PoolState.NEW, 0, 0)
        assert driver.want(1, 5).number == 1 and driver.watchers() == 1
        driver.hello(1, "a:1", 0, "ok rtt=5 isWritablePrimary=true maxWireVersion=21")
        driver.request(1, 1, "a:1")
        assert (driver.pool(0).state, driver.pool(0).available, driver.pool(0).has_job) == (mdb.PoolState.READY, 0, True)
        for call in (lambda: driver.pool(1), lambda: driver.server_number("b:1")):
            with pytest.raises(mdb.NoEntry):
                call()


def test_nothing_stays_of_rounds():
    with Driver("open seeds=a:1 lb") as driver:
        reply = driver.request(0, 0, "a:1")
        driver.established(0, reply.connection, 21, "0102030405060708090a0b0c")
        driver.return_(0, 0)
        for first in (1, 2001):
            for party in range(first, first + 2000):
                driver.request(1, party, "a:1")
                driver.return_(1, party)
            gc.collect()
            objects = len(gc.get_objects()) if first == 1 else (objects, len(gc.get_objects()))
        assert abs(objects[1] - objects[0]) < 50
