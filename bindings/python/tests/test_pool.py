"""A pool that stands alone. What is wanted is by CMAP; and it does what the pool of a driver behind a load balancer does."""

import random
import threading

import pytest

from mdb import Cause, Closed, CloseReason, Connection, Driver, End, Event, FactKind, Kind, Malformed, NoEntry, Pool, PoolState, Use, Why

SERVICE = "0102030405060708090a0b0c"


def events(reply):
    return [fact.event for fact in reply.facts if fact.kind is FactKind.POOL]


def with_one():
    """A ready pool with one connection, which party 1 has."""
    pool = Pool(max_size=2, max_wait=5, number=7)
    pool.ready(1)
    reply = pool.request(2, 1)
    assert (reply.kind, reply.connection) == (Kind.ESTABLISHING, Connection(7, 1))
    assert pool.claim(2).connection == Connection(7, 1)
    pool.established(3, 1)
    assert pool.collect(3, 1).kind is Kind.POOLED
    return pool


def test_a_new_pool_is_paused_until_it_is_ready():
    with Pool() as pool:
        assert pool.counts().state is PoolState.NEW
        reply = pool.request(1, 1)
        assert (reply.kind, reply.end) == (Kind.ENDED, End.CLEARED)
        assert events(reply) == [Event.CHECKOUT_STARTED, Event.CHECKOUT_FAILED]
        assert events(pool.ready(2)) == [Event.POOL_READY]
        assert pool.counts().state is PoolState.READY


def test_a_connection_of_before_a_clear_is_closed_as_it_comes_back():
    with with_one() as pool:
        reply = pool.clear(4, Cause.NETWORK)
        assert events(reply) == [Event.POOL_CLEARED]
        assert (pool.counts().state, pool.counts().generation, pool.generation()) == (PoolState.PAUSED, 1, 1)
        reply = pool.return_(5, 1)
        closed = reply.facts[-1]
        assert events(reply) == [Event.CHECKED_IN, Event.CONNECTION_CLOSED]
        assert (closed.pool, closed.id, closed.why, type(closed.why)) == (7, 1, CloseReason.STALE, CloseReason)
        assert pool.facts() == reply.facts


def test_callers_wait_and_end():
    with with_one() as pool:
        assert pool.request(3, 2).kind is Kind.ESTABLISHING
        assert pool.request(3, 3).kind is Kind.WAITING
        ended = [fact for fact in pool.expire(8).facts if fact.kind is FactKind.ENDED]
        assert [(fact.party, fact.why) for fact in ended] == [(3, End.TIMED_OUT)]
        assert pool.give_up(8, 2).kind is Kind.DONE
        granted = [fact.party for fact in pool.return_(9, 1, Use.ERRORED).facts if fact.kind is FactKind.GRANTED]
        assert granted == [] and pool.counts().available == 0


def test_a_closed_pool_ends_what_waits():
    with with_one() as pool:
        pool.request(3, 2)
        reply = pool.close(4)
        assert [fact.why for fact in reply.facts if fact.kind is FactKind.ENDED] == [End.CLOSED]
        assert events(reply)[-1] is Event.POOL_CLOSED and pool.counts().state is PoolState.CLOSED
    with pytest.raises(Closed):
        pool.claim(5)


def test_pins():
    with Pool(load_balanced=True) as pool:
        pool.request(1, 1)
        pool.established(1, 1, SERVICE)
        pool.collect(1, 1)
        kinds = [it.kind for it in (pool.pin(2, 1), pool.replicate(2, 1), pool.return_(2, 1), pool.unpin(2, 1), pool.take(2, 2, 1))]
        assert kinds == [Kind.DONE, Kind.DONE, Kind.DONE, Kind.DONE, Kind.POOLED]
        assert pool.unpin(3, 9).refusal is Why.UNPINNED
        assert pool.clear(3, Cause.OTHER).refusal is Why.WRONG_MODE
        raised = [fact.service for fact in pool.clear(3, Cause.NETWORK_TIMEOUT, SERVICE).facts if fact.kind is FactKind.RAISED]
        assert raised == [SERVICE] and pool.generation(SERVICE) == 1 and pool.generation() == 0


@pytest.mark.parametrize("options", [{"max_size": 0}, {"max_size": 65536}, {"min_size": 65536}, {"max_connecting": 0}])
def test_sizes_beyond_their_limits(options):
    with pytest.raises(Malformed):
        Pool(**options)


def test_numbers_and_services_that_mean_nothing():
    with with_one() as pool:
        for step in (lambda: pool.claim(-1), lambda: pool.claim(1 << 64), lambda: pool.request(4, 1 << 32), lambda: pool.return_(4, 1, -1)):
            with pytest.raises(OverflowError):
                step()
        for step in (lambda: pool.claim("4"), lambda: pool.request(4, 1.5), lambda: pool.established(4, 1, 3), lambda: pool.request(4, None)):
            with pytest.raises(TypeError):
                step()
        for step in (lambda: pool.clear(4, 3), lambda: pool.established(4, 1, "01"), lambda: pool.return_(4, 1, 4), lambda: pool.generation("01")):
            with pytest.raises(Malformed):
                step()
        assert pool.return_(4, 1).kind is Kind.DONE


@pytest.mark.parametrize("seed", range(20))
def test_it_does_what_the_pool_of_a_driver_does(seed):
    chance, party = random.Random(seed), 0
    size, idle = chance.randint(1, 3), chance.choice([0, 4])
    line = f"open seeds=a:1 lb max={size}" + (f" idle={idle}" if idle else "") + " wait=3"
    with Driver(line) as driver, Pool(max_size=size, max_wait=3, max_idle=idle, load_balanced=True) as pool:
        for moment in range(150):
            old, number = chance.randint(1, party + 1), chance.randint(1, 1 + party)
            step = chance.choice(
                ["request", "request", "established", "established", "return_", "return_", "collect", "claim", "give_up", "maintain", "expire", "pin", "unpin"]
            )
            party += step == "request"
            ours, theirs = {
                "request": ((party,), (party, "a:1")),
                "established": ((number, SERVICE), (Connection(0, number), 21, SERVICE)),
                "return_": ((old,), (old,)),
                "collect": ((old,), (old,)),
                "claim": ((), ()),
                "give_up": ((old,), (old,)),
                "maintain": ((), ("a:1",)),
                "expire": ((), ("a:1",)),
                "pin": ((old,), (old,)),
                "unpin": ((number,), (Connection(0, number),)),
            }[step]
            assert getattr(pool, step)(moment, *ours) == getattr(driver, step)(moment, *theirs), (seed, moment, step)


def test_threads_share_a_pool():
    pool, ended = Pool(max_size=4), []
    pool.ready(0)
    turns = iter(range(1, 1 << 20))

    def work():
        for _ in range(300):
            with pool.lock:
                party = next(turns)
                reply = pool.request(1, party)
            if reply.kind is Kind.ESTABLISHING:
                pool.established(1, reply.id)
                reply = pool.collect(1, party)
            if reply.kind is Kind.POOLED:
                reply = pool.return_(1, party)
                assert reply.facts[0].event is Event.CHECKED_IN
            elif pool.give_up(1, party).kind is Kind.DONE:
                pool.collect(1, party)
            ended.append(party)

    crew = [threading.Thread(target=work) for _ in range(4)]
    for one in crew:
        one.start()
    for one in crew:
        one.join()
    assert sorted(ended) == list(range(1, 1201))


def test_counts_and_dues():
    """By CMAP: what is created is pending, then in use, then available; a caller waits for `max_wait`, and what is available for `max_idle`."""
    with Pool(number=3, max_size=1, max_wait=100, max_idle=50) as pool:
        pool.ready(1)
        assert pool.next_due(1) is None
        pool.request(2, 1)
        assert (pool.counts().pending, pool.counts().in_use, pool.counts().waiting) == (1, 0, 0)
        pool.established(3, 1)
        pool.request(4, 2)
        assert (pool.counts().pending, pool.counts().in_use, pool.counts().waiting) == (0, 1, 1)
        assert pool.next_due(5) == 104
        with pytest.raises(NoEntry):
            pool.tick(103)
        assert [it.kind for it in pool.tick(104).facts if it.party == 2] == [FactKind.ENDED]
        pool.return_(110, 1)
        assert (pool.counts().available, pool.counts().in_use, pool.next_due(110)) == (1, 0, 160)
