"""A pool of pymongo over a proved one: the interface of pymongo.pool.Pool, where its users look at it."""

import contextlib
import itertools

import mdb
from mdb import CloseReason, End, Event, FactKind, FailReason, Kind, Use
from pymongo import pool as stock
from pymongo.errors import AutoReconnect, ConnectionFailure
from pymongo.monitoring import ConnectionCheckOutFailedReason, ConnectionClosedReason

from .machine import Alone, Machine, Waiter, is_open
from .words import error_of

_CLOSED = {
    CloseReason.STALE: ConnectionClosedReason.STALE,
    CloseReason.IDLE: ConnectionClosedReason.IDLE,
    CloseReason.ERROR: ConnectionClosedReason.ERROR,
    CloseReason.DROPPED: ConnectionClosedReason.ERROR,
    CloseReason.POOL_CLOSED: ConnectionClosedReason.POOL_CLOSED,
}
_FAILED = {FailReason.TIMEOUT: ConnectionCheckOutFailedReason.TIMEOUT, FailReason.CONNECTION_ERROR: ConnectionCheckOutFailedReason.CONN_ERROR}
_PUBLISH = {
    Event.POOL_READY: "publish_pool_ready",
    Event.POOL_CLEARED: "publish_pool_cleared",
    Event.POOL_CLOSED: "publish_pool_closed",
    Event.CONNECTION_CREATED: "publish_connection_created",
    Event.CONNECTION_READY: "publish_connection_ready",
    Event.CONNECTION_CLOSED: "publish_connection_closed",
    Event.CHECKOUT_STARTED: "publish_connection_check_out_started",
    Event.CHECKOUT_FAILED: "publish_connection_check_out_failed",
    Event.CHECKED_OUT: "publish_connection_checked_out",
    Event.CHECKED_IN: "publish_connection_checked_in",
}
_NAMES_CONNECTION = {Event.CONNECTION_CREATED, Event.CONNECTION_READY, Event.CONNECTION_CLOSED, Event.CHECKED_OUT, Event.CHECKED_IN}
_numbers = itertools.count()


def pool(address, options, handshake=True):
    """Makes a pool as `_pool_class` does: a monitor's one connection, which has no handshake, stays pymongo's."""
    return Pool(address, options) if handshake else stock.Pool(address, options, handshake=False)


def sizes_of(options):
    """The options of a proved pool. pymongo 3.11 has no maxConnecting, and no limit is the greatest there is."""
    most = min(options.max_pool_size or 65535, 65535)
    idle, wait = options.max_idle_time_seconds, options.wait_queue_timeout
    connecting = getattr(options, "max_connecting", None) or most
    return {"max_size": most, "min_size": options.min_pool_size, "max_connecting": connecting, "max_idle": _millis(idle), "max_wait": _millis(wait)}


def _millis(seconds):
    return 0 if seconds is None else max(int(seconds * 1000), 1)


class Pool:
    """One pool: a pool alone, or where `steps` is handed in one of a driver. `paused` pools wait for `ready`, as newer drivers' do; 3.11 has no such call."""

    def __init__(self, address, options, steps=None, paused=False, learned=None):
        self.address, self.opts, self.handshake = address, options, True
        # pymongo's sockets publish nothing: the events are facts
        self.enabled_for_cmap, self.is_writable = False, None
        listeners = options.event_listeners
        self._listeners = listeners if listeners is not None and listeners.enabled_for_cmap else None
        self._sockets, self._granted, self._paused, self._learned = {}, {}, paused, learned
        self._steps = steps or Alone(Machine(mdb.Pool(number=next(_numbers), **sizes_of(options))))
        self._machine = self._steps.machine
        self._machine.pools[self._steps.number] = self
        if self._listeners:
            self._listeners.publish_pool_created(address, options.non_default_options)
        if not steps and not paused:
            self.ready()

    # ---- what pymongo calls

    @property
    def generation(self):
        return self._steps.state().generation

    @property
    def closed(self):
        try:
            return self._steps.state().state is mdb.PoolState.CLOSED
        except mdb.NoEntry:
            return True

    @contextlib.contextmanager
    def get_socket(self, all_credentials, checkout=False):
        info = self._checked_out(all_credentials)
        try:
            yield info
        except BaseException as error:
            self._met(info, error)
            self.return_socket(info)
            raise
        else:
            if not checkout:
                self.return_socket(info)

    def return_socket(self, info):
        info.update_last_checkin_time()
        info.update_is_writable(self.is_writable)
        self._machine.step(self._machine.core.return_, info.party, Use.ERRORED if info.closed else Use.OK)

    def reset(self):
        """All connections become stale. A pool of a driver is cleared and closed by the driver alone."""
        if isinstance(self._steps, Alone):
            self._machine.step(self._machine.core.clear, mdb.Cause.NETWORK)
            if not self._paused:
                self.ready()

    def ready(self):
        self._machine.step(self._machine.core.ready)

    def close(self):
        if isinstance(self._steps, Alone):
            self._machine.step(self._machine.core.close)

    def remove_stale_sockets(self, reference_generation, all_credentials):
        """The background work of CMAP: stale and idle connections are closed, and new ones made up to the minimum."""
        self._machine.step(self._steps.maintain)
        while self.opts.min_pool_size:
            if self._steps.warm:
                self._machine.step(self._steps.warm, self._machine.party())
            if not self._worked(all_credentials):
                return
            if not self._steps.warm:
                self._machine.step(self._steps.maintain)

    def update_is_writable(self, is_writable):
        self.is_writable = is_writable
        with self._machine.lock:
            for info in self._sockets.values():
                info.update_is_writable(is_writable)

    # ---- check-out

    def _checked_out(self, all_credentials):
        while True:
            info = self._granted_to(self._machine.party(), all_credentials)
            if info.idle_time_seconds() > 1 and info.socket_closed():
                info.close_socket(None)
                self.return_socket(info)
                continue
            try:
                info.check_auth(all_credentials)
                return info
            except BaseException as error:
                info.close_socket(None)
                self._met(info, error)
                self.return_socket(info)
                raise

    def _granted_to(self, party, all_credentials):
        reply = self._machine.step(self._steps.request, party)
        if is_open(reply):
            reply = self._waited(party, all_credentials)
        if reply.kind is not Kind.POOLED:
            raise self._ended(reply)
        info = self._sockets[reply.id]
        info.party = party
        return info

    def _waited(self, party, all_credentials):
        """The reply of a request that is open, once it has a connection or an end. Who is granted a connection that is pending establishes one."""
        waiter = self._machine.waiters[party] = Waiter()
        wait = self.opts.wait_queue_timeout
        try:
            while True:
                reply = self._machine.step(self._machine.core.collect, party)
                if not is_open(reply):
                    break
                if reply.kind is Kind.ESTABLISHING and self._worked(all_credentials):
                    continue
                waiter.wait(wait if reply.kind is Kind.WAITING else None)
                if wait is not None and reply.kind is Kind.WAITING:
                    self._machine.step(self._steps.expire)
                    wait = 0.002
        finally:
            del self._machine.waiters[party]
        if waiter.error is not None:
            raise waiter.error
        return reply

    def _ended(self, reply):
        if reply.kind is Kind.ENDED and reply.end is End.TIMED_OUT:
            wait, most = self.opts.wait_queue_timeout, self.opts.max_pool_size
            return ConnectionFailure(f"Timed out while checking out a connection from connection pool with max_size {most} and wait_queue_timeout {wait}")
        if self.closed:
            if reply.kind is Kind.REFUSED:
                self._refused_events()
            return stock._PoolClosedError("Attempted to check out a connection from closed connection pool")
        return AutoReconnect(f"{self.address[0]}:{self.address[1]}: connection pool paused")

    def _refused_events(self):
        """A closed pool refuses a request, and a refusal has no fact; CMAP has two events of it."""
        if self._listeners:
            self._listeners.publish_connection_check_out_started(self.address)
            self._listeners.publish_connection_check_out_failed(self.address, ConnectionCheckOutFailedReason.POOL_CLOSED)

    # ---- establishing

    def _worked(self, all_credentials):
        """Establishes a pending connection, of whichever pool of the machine. False where there is none to be claimed."""
        job = self._machine.step(self._steps.claim)
        if job.kind is not Kind.JOB:
            return False
        self._machine.pools[job.pool]._establish(job.id, all_credentials)
        return True

    def _establish(self, id, all_credentials):
        try:
            info = self._connected(id, all_credentials)
        except Exception as error:
            waiter = self._machine.waiters.get(self._granted.get(id))
            if waiter:
                waiter.error = error
            reply = self._machine.step(self._steps.failed, id, f"pre {error_of(error)}")
            self._tell_topology(reply, error)
            return
        self._sockets[id] = info
        self._machine.step(self._steps.established, id, info.max_wire_version)

    def _connected(self, id, all_credentials):
        try:
            sock = stock._configured_socket(self.address, self.opts)
        except (OSError, stock._SSLError) as error:
            stock._raise_connection_failure(self.address, error)
        info = stock.SocketInfo(sock, self, self.address, id)
        try:
            info.ismaster(all_credentials)
            info.check_auth(all_credentials)
        except BaseException:
            info.close_socket(None)
            raise
        self.is_writable = info.is_writable
        return info

    # ---- errors and facts

    def _met(self, info, error):
        """An operation met an error while the connection was held. A pool alone leaves it to pymongo's topology."""
        if isinstance(error, Exception) and not isinstance(self._steps, Alone):
            reply = self._machine.step(self._steps.error, info.party, error_of(error))
            self._tell_topology(reply, error)

    def _tell_topology(self, reply, error):
        if self._learned:
            self._learned(reply.facts, self.address, error)

    def heard(self, fact):
        """What is to be done of a fact of this pool, outside of the lock."""
        if fact.kind is FactKind.GRANTED:
            self._granted[fact.id] = fact.party
            return
        if fact.event is Event.CHECKED_OUT:
            waiter = self._machine.waiters.get(self._granted.pop(fact.id, None))
            if waiter:
                waiter.wake()
        if fact.event is Event.CONNECTION_CLOSED:
            self._granted.pop(fact.id, None)
            info = self._sockets.pop(fact.id, None)
            if info:
                yield info.close_socket, None
        publish = getattr(self._listeners, _PUBLISH.get(fact.event, ""), None)
        if publish:
            yield (publish, self.address, *self._told_of(fact))

    @staticmethod
    def _told_of(fact):
        if fact.event is Event.CHECKOUT_FAILED:
            return (_FAILED[fact.why],)
        if fact.event is Event.CONNECTION_CLOSED:
            return fact.id, _CLOSED[fact.why]
        return (fact.id,) if fact.event in _NAMES_CONNECTION else ()
