"""The package: exceptions, threads, numbers, what is known."""

import copy
import sys
import threading

import pytest

import mdb
from mdb import Action, Awaited, Closed, Connection, Driver, End, Event, FactKind, Kind, Malformed, Next, NoEntry, ServerKind, TopologyKind, Use, Why


def opened() -> Driver:
    driver = Driver("open seeds=a:27017 max=2 wait=5")
    assert driver.line("hello 1 a:27017 0 ok rtt=5 minWireVersion=0 maxWireVersion=21").kind is Kind.CHANGED
    return driver


def test_ordinary_path():
    with opened() as driver:
        reply = driver.request(2, 1, "a")
        assert (reply.kind, reply.connection) == (Kind.ESTABLISHING, Connection(0, 1))
        assert driver.claim(2).kind is Kind.JOB
        assert driver.job_address(reply.connection) == "a:27017"
        with pytest.raises(NoEntry):
            driver.job_address(Connection(0, 2))
        assert driver.established(3, reply.connection, wire=21).kind is Kind.DONE
        assert [fact.event for fact in driver.facts()] == [Event.CONNECTION_READY, Event.CHECKED_OUT]
        assert driver.collect(3, 1).kind is Kind.POOLED
        assert driver.return_(4, 1).kind is Kind.DONE
        (fact,) = driver.facts()
        assert (fact.kind, fact.event, fact.pool, fact.id) == (FactKind.POOL, Event.CHECKED_IN, 0, 1)
        assert fact.text == "Pool 0 ConnectionCheckedIn a:27017 1"


def test_refusals():
    with opened() as driver:
        assert driver.request(2, 1, "b:1").refusal is Why.UNKNOWN_SERVER
        assert driver.facts() == []
        assert driver.return_(2, 1, Use.ERRORED).refusal is Why.NOT_HOLDER
        reply = driver.claim(0)
        assert (reply.refusal, reply.number) == (Why.TIME_BACK, 1)


def test_waiting_callers_end():
    with opened() as driver:
        for party in range(1, 4):
            reply = driver.request(2, party, "a:27017")
        assert reply.kind is Kind.WAITING
        assert driver.expire(7, "a:27017").kind is Kind.DONE
        ended = [fact for fact in driver.facts() if fact.kind is FactKind.ENDED]
        assert [(fact.party, End(fact.why)) for fact in ended] == [(3, End.TIMED_OUT)]
        assert driver.collect(7, 3).end is End.TIMED_OUT


def test_what_is_known():
    with opened() as driver:
        assert driver.last_moment() == 1
        assert driver.published() == 2
        assert driver.open_pool("A") == 0
        with pytest.raises(NoEntry):
            driver.open_pool("b:1")
        with pytest.raises(Malformed):
            driver.open_pool("b:0")
        assert driver.stop(9).kind is Kind.DONE
        assert driver.last_moment() == 9
        with pytest.raises(NoEntry):
            driver.open_pool("a:27017")


FIELDS = (
    "isWritablePrimary=true hosts=a:1,c:3 passives=d:4 me=a:1 setVersion=7 setName=rs logicalSessionTimeoutMinutes=30 minWireVersion=6 maxWireVersion=21"
    " electionId=0102030405060708090a0b0c"
)


def test_servers_and_topology():
    with Driver("open seeds=a:1,b:2") as driver:
        before = driver.topology()
        assert (before.kind, before.servers, before.set_name, before.max_set_version, before.cluster_time) == (TopologyKind.UNKNOWN, 2, None, None, None)
        assert [(it.address, it.kind, it.round_trip, it.updated, it.hosts, it.reply) for it in driver.servers()] == [
            ("a:1", ServerKind.UNKNOWN, None, None, (), None), ("b:2", ServerKind.UNKNOWN, None, None, (), None),
        ]
        assert driver.hello(3, "a:1", 0, "ok rtt=9 " + FIELDS).number == 1
        topology = driver.topology()
        assert (topology.kind, topology.servers, topology.set_name, topology.max_set_version) == (TopologyKind.REPLICA_SET_WITH_PRIMARY, 3, "rs", 7)
        assert (topology.max_election_id, topology.session_minutes, topology.compatible, topology.error) == ("0102030405060708090a0b0c", 30, True, None)
        primary = driver.server("A:1")
        assert (primary.kind, primary.round_trip, primary.updated, primary.min_wire, primary.max_wire) == (ServerKind.RS_PRIMARY, 9, 3, 6, 21)
        assert (primary.set_name, primary.set_version, primary.hosts, primary.passives, primary.me) == ("rs", 7, ("a:1", "c:3"), ("d:4",), "a:1")
        assert (primary.election_id, primary.primary, primary.error, primary.reply) == ("0102030405060708090a0b0c", None, None, FIELDS)
        assert [it.address for it in driver.servers()] == ["a:1", "c:3", "d:4"]
        with pytest.raises(NoEntry):
            driver.server("b:2")
        with pytest.raises(Malformed):
            driver.server("b:0")
        driver.hello(4, "a:1", 0, "err network msg=reset")
        assert driver.server("a:1").error == "network msg=reset"
        assert driver.topology().kind is TopologyKind.REPLICA_SET_NO_PRIMARY


def test_incompatible_servers():
    with Driver("open seeds=a:1") as driver:
        driver.hello(1, "a:1", 0, "ok rtt=1 isWritablePrimary=true maxWireVersion=5")
        topology = driver.topology()
        assert (topology.compatible, topology.error) == (False, "server a:1 reports wire version 5, this driver needs at least 8")


def test_facts_name_addresses_and_types():
    with Driver("open seeds=a:1,b:2") as driver:
        assert {fact.address for fact in driver.facts() if fact.kind is FactKind.OPENED} == {"a:1", "b:2"}
        driver.hello(3, "a:1", 0, "ok rtt=9 " + FIELDS)
        facts = driver.facts()
        assert [(it.address, it.before, it.after) for it in facts if it.event is Event.SERVER_CHANGED] == [("a:1", ServerKind.UNKNOWN, ServerKind.RS_PRIMARY)]
        assert [(it.address, it.before, it.after) for it in facts if it.event is Event.TOPOLOGY_CHANGED] == [
            (None, TopologyKind.UNKNOWN, TopologyKind.REPLICA_SET_WITH_PRIMARY),
        ]
        for fact in facts:
            assert fact.address is None or f" {fact.address}" in fact.text


def test_round_trips_hosts_and_the_cluster_time():
    with Driver("open seeds=a:1") as driver:
        driver.beat(1, "a:1", 0)
        driver.beaten(1, "a:1", 0, "800 ok msg=isdbgrid maxWireVersion=21")
        reply = driver.rtt(2, "a:1", 0, 1800)
        assert (reply.kind, reply.number) == (Kind.COUNT, 1000)
        assert driver.cluster_time(3, 5).kind is Kind.DONE
        assert driver.topology().cluster_time == 5
        assert driver.hosts(4, "b:2,c:3").kind is Kind.CHANGED
        assert [it.address for it in driver.servers()] == ["b:2", "c:3"]
        for hosts in ("", "b", "b:2,b:2", "B:2"):
            with pytest.raises(Malformed):
                driver.hosts(5, hosts)


def test_closed():
    driver = opened()
    driver.close()
    driver.close()
    for call in (lambda: driver.claim(1), lambda: driver.line("claim 1"), driver.entry_text, driver.facts, driver.last_moment, lambda: driver.open_pool("a:1"), driver.topology, driver.servers, lambda: driver.server("a:1"), lambda: driver.job_address(Connection(0, 1))):
        with pytest.raises(Closed):
            call()


@pytest.mark.parametrize("line", ["", "open", "open seeds=", "open seeds=a:1,a:1", "open seeds=a:1 direct lb", "claim 0", "open seeds=a:1\n", "open seeds=\xe9:1"])
def test_malformed_openings(line):
    with pytest.raises(Malformed):
        Driver(line)


@pytest.mark.parametrize("address", ["", "a:0", "a:65536", "a b", "[::1", "\xe9", "a\x00"])
def test_malformed_addresses(address):
    with opened() as driver:
        before = driver.entry_text()
        for call in (lambda: driver.hello(2, address, 0, "ok rtt=5"), lambda: driver.request(2, 1, address), lambda: driver.maintain(2, address), lambda: driver.beat(2, address, 0)):
            with pytest.raises(Malformed):
                call()
        assert driver.entry_text() == before


@pytest.mark.parametrize("outcome", ["", "network", "network msg=a|b", "network msg=\n", "network msg=\xe9", "ok", "ok rtt=01", "err other"])
def test_malformed_outcomes(outcome):
    with opened() as driver:
        before = driver.entry_text()
        for call in (
            lambda: driver.error(2, 1, outcome),
            lambda: driver.failed(2, Connection(0, 1), outcome),
            lambda: driver.hello(2, "a:27017", 0, outcome),
            lambda: driver.beaten(2, "a:27017", 0, outcome),
        ):
            with pytest.raises(Malformed):
                call()
        assert driver.entry_text() == before


def test_errors_and_outcomes():
    with opened() as driver:
        reply = driver.request(2, 1, "a:27017")
        assert driver.failed(2, reply.connection, "pre network msg=refused").kind is Kind.DONE
        assert driver.collect(2, 1).end is End.FAILED
        assert driver.hello(3, "a:27017", 0, "err network msg=x").number == 1
        assert driver.beat(4, "a:27017", 0).kind is Kind.DONE
        assert driver.beaten(5, "a:27017", 0, "900000 ok minWireVersion=0 maxWireVersion=21").kind is Kind.CHANGED
        assert driver.error(6, 1, "network msg=late").refusal is Why.NOT_HOLDER


def test_checks_are_told_beforehand():
    news = "9 ok isWritablePrimary=true helloOk=true maxWireVersion=21 topologyVersion=0102030405060708090a0b0c.7"
    with Driver("open seeds=a:1 connect=5000") as driver:
        check = driver.next_check("A:1")
        assert (check.action, check.timeout, check.awaited, check.legacy, check.asks) == (Action.CONNECT, 5000, None, True, True)
        driver.beat(1, "a:1", 0)
        (started,) = driver.facts()
        assert (started.event, started.id) == (Event.HEARTBEAT_STARTED, check.connection)
        assert driver.next_after("a:1", 0, news) is Next.CONTINUE
        driver.beaten(1, "a:1", 0, news)
        check = driver.next_check("a:1")
        assert (check.action, check.timeout, check.legacy, check.asks) == (Action.HELLO, 15000, False, False)
        assert check.awaited == Awaited(bytes(range(1, 13)), 7, 10000)
        driver.beat(2, "a:1", 0)
        assert driver.next_after("a:1", 0, "9 cancelled network msg=x") is Next.SLEEP
        assert driver.next_after("a:1", 0, "9 err network msg=x") is Next.RETRY
        driver.beaten(2, "a:1", 0, news + " more")
        assert driver.next_check("a:1").action is Action.READ
        for call in (lambda: driver.next_check("b:1"), lambda: driver.next_after("b:1", 0, news)):
            with pytest.raises(NoEntry):
                call()
        with pytest.raises(Malformed):
            driver.next_after("a:1", 0, "ok")


def test_numbers_that_do_not_fit():
    with opened() as driver:
        for call in (lambda: driver.claim(-1), lambda: driver.claim(1 << 64), lambda: driver.collect(2, 1 << 32), lambda: driver.claim(2, seat=-1)):
            with pytest.raises(OverflowError):
                call()
        with pytest.raises(Malformed):
            driver.return_(2, 1, 4)
        with pytest.raises(Malformed):
            driver.established(2, Connection(0, 1), 21, service="0102")


def test_long_texts():
    seeds = ",".join(f"h{n}:1" for n in range(128))
    with Driver(f"open seeds={seeds}") as driver:
        text = driver.entry_text()
        assert len(text) > 8192 and text.startswith(f"open seeds={seeds} | Done | ") and text.endswith("\n")
        assert len(driver.facts()) == text.count(" | ") - 1


def test_threads_share_a_driver():
    driver, rounds = opened(), 200
    faults = []

    def work(seat):
        try:
            for n in range(rounds):
                party = 1 + seat * rounds + n
                with driver.lock:
                    reply = driver.request(5, party, "a:27017", seat)
                    if reply.kind is Kind.ESTABLISHING:
                        driver.established(5, reply.connection, 21)
                        assert driver.collect(5, party).kind is Kind.POOLED
                    else:
                        assert reply.kind is Kind.POOLED
                    assert driver.return_(5, party, seat=seat).kind is Kind.DONE
        except BaseException as fault:
            faults.append(fault)

    crew = [threading.Thread(target=work, args=(seat,)) for seat in range(4)]
    for one in crew:
        one.start()
    for one in crew:
        one.join()
    driver.close()
    assert not faults


def test_version():
    assert mdb.__version__ == "0.3.0"


def test_a_call_within_a_call_keeps_its_own_reply():
    """A signal handler, a finalizer or a trace function may call the driver between the library's answer and its reading."""
    with opened() as driver:
        inner = []

        def traced(frame, event, _argument):
            if frame.f_code.co_name in ("request", "step", "_done", "reply_of", "fact_of") and event in ("line", "return"):
                inner.append(driver.return_(2, 99).refusal)
            return traced

        sys.settrace(traced)
        try:
            reply = driver.request(2, 1, "a:27017")
        finally:
            sys.settrace(None)
        assert (reply.kind, reply.connection) == (Kind.ESTABLISHING, Connection(0, 1))
        assert len(inner) > 2 and set(inner) == {Why.NOT_HOLDER}


def test_a_driver_is_not_copied():
    with opened() as driver:
        for copied in (copy.copy, copy.deepcopy):
            with pytest.raises(TypeError):
                copied(driver)
        assert driver.request(2, 1, "a:27017").kind is Kind.ESTABLISHING
