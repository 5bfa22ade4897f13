"""A machine of the library, a pool alone or a driver, as its users share it: its clock, its parties, and who is told of the facts of a step."""

import collections
import itertools
import threading
import time

from mdb import Connection, Event, FactKind, Kind

# What is told of a server comes with its address, which costs a call more.
_ADDRESSED_EVENTS = frozenset((Event.SERVER_OPENING, Event.SERVER_CLOSED, Event.SERVER_CHANGED))
_ADDRESSED_KINDS = frozenset((FactKind.CHECK_NOW, FactKind.CANCEL))


class Machine:
    """One machine. Its lock is held for a step and for what its facts change in memory; sockets are closed and listeners called after it."""

    def __init__(self, core):
        self.core, self.lock = core, core.lock
        self._began, self._parties = time.monotonic(), itertools.count(1)
        self.pools, self.waiters = {}, {}
        self._later, self._telling = collections.deque(), threading.Lock()

    def party(self):
        return next(self._parties)

    def step(self, call, *given):
        with self.lock:
            reply = call(int((time.monotonic() - self._began) * 1000), *given)
            if any(it.kind in _ADDRESSED_KINDS or it.event in _ADDRESSED_EVENTS for it in reply.facts):
                reply = reply._replace(facts=tuple(self.core.facts()))
            for fact in reply.facts:
                self._heard(fact)
        self._tell()
        return reply

    def _heard(self, fact):
        if fact.party:
            waiter = self.waiters.get(fact.party)
            if waiter:
                waiter.wake()
        owner = self.pools.get(fact.pool) if fact.has_pool else None
        if owner:
            self._later.extend(owner.heard(fact))

    def _tell(self):
        """What is to be done outside of the lock, in the order of the facts: by one thread at a time."""
        while self._later and self._telling.acquire(False):
            try:
                while self._later:
                    action, *given = self._later.popleft()
                    action(*given)
            finally:
                self._telling.release()


class Waiter:
    """A party that waits. It is woken when it is granted a connection, has it, or has ended."""

    def __init__(self):
        self._lock = threading.Lock()
        self._lock.acquire()
        self.error = None

    def wake(self):
        if self._lock.locked():
            self._lock.release()

    def wait(self, seconds):
        self._lock.acquire(True, -1 if seconds is None else max(seconds, 0))


class Alone:
    """The steps of a pool alone."""

    def __init__(self, machine):
        self.machine, core = machine, machine.core
        self.number = core.counts().number
        self.request, self.claim, self.maintain, self.expire, self.warm = core.request, core.claim, core.maintain, core.expire, None

    def established(self, moment, id, wire):
        return self.machine.core.established(moment, id)

    def failed(self, moment, id, outcome):
        return self.machine.core.failed(moment, id)

    def error(self, moment, party, error):
        return None

    def state(self):
        return self.machine.core.counts()


class Shared:
    """The steps of one pool of a driver."""

    def __init__(self, machine, name):
        self.machine, self.name, self.number = machine, name, machine.core.open_pool(name)
        self.claim = machine.core.claim

    def request(self, moment, party):
        return self.machine.core.request(moment, party, self.name)

    def warm(self, moment, party):
        return self.machine.core.warm(moment, party, self.name)

    def maintain(self, moment):
        return self.machine.core.maintain(moment, self.name)

    def expire(self, moment):
        return self.machine.core.expire(moment, self.name)

    def established(self, moment, id, wire):
        return self.machine.core.established(moment, Connection(self.number, id), wire)

    def failed(self, moment, id, outcome):
        return self.machine.core.failed(moment, Connection(self.number, id), outcome)

    def error(self, moment, party, error):
        return self.machine.core.error(moment, party, error)

    def state(self):
        return self.machine.core.pool(self.number)


def is_open(reply):
    """Whether the request has neither a connection nor an end."""
    return reply.kind in (Kind.WAITING, Kind.ESTABLISHING)
