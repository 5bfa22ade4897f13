"""A pool that stands alone, for a driver that watches its servers by itself."""

from __future__ import annotations

from ctypes import byref, c_uint64

from ._held import Held
from ._library import LIBRARY, PoolOptionsNumbers, PoolStateNumbers
from ._steps import pool_steps
from .errors import NoEntry, check
from .numbers import number as fitting
from .values import Cause, Fact, PoolCounts, PoolState, Reply, Use


class Pool(Held):
    """One connection pool, which its user readies, clears and closes (CMAP). It knows no server.

    Each step answers a Reply with the facts that became true by it. Moments are in milliseconds and never go back; parties are new numbers for each request,
    warm request and take. Any number of threads may share one: `lock` gives it to one call at a time. A number that does not fit the library's raises
    OverflowError, and the library is not asked. A pool is not copied.
    """

    def __init__(
        self,
        *,
        max_size: int = 10,
        min_size: int = 0,
        max_connecting: int = 2,
        max_idle: int = 0,
        max_wait: int = 0,
        load_balanced: bool = False,
        number: int = 0,
    ) -> None:
        """Opens a pool, which is new, or ready behind a load balancer (CMAP, "Connection Pool Options").

        Sizes are up to 65535; `max_idle` is after how many milliseconds an available connection is closed and `max_wait` for how many a caller may wait,
        0 for no limit; `number` is what replies and facts have as the pool's number. Raises Malformed where a size is beyond its limits.
        """
        super().__init__(LIBRARY.mdb_pool_free)
        self._steps = pool_steps(self._slot)
        self._return = getattr(self._steps, "return")
        sizes = [fitting(it, 32) for it in (number, max_size, min_size, max_connecting)]
        options = PoolOptionsNumbers(fitting(max_idle, 64), fitting(max_wait, 64), *sizes, int(load_balanced))
        check(LIBRARY.mdb_pool_open(byref(self._slot), byref(options)), sizes)

    def free(self) -> None:
        """Frees the pool's memory, which is no step. Each later call raises Closed; a second `free` does nothing."""
        self._freed()

    # ---- steps of callers

    def request(self, moment: int, party: int, seat: int = 0) -> Reply:
        """A caller asks for a connection: POOLED, ESTABLISHING, WAITING, ENDED or REFUSED."""
        with self.lock:
            return self._steps.request(moment, seat, party)

    def warm(self, moment: int, party: int, seat: int = 0) -> Reply:
        """One connection more, where fewer live than the minimum."""
        with self.lock:
            return self._steps.warm(moment, seat, party)

    def collect(self, moment: int, party: int, seat: int = 0) -> Reply:
        """The caller of a request asks how it stands. That it ended is told once."""
        with self.lock:
            return self._steps.collect(moment, seat, party)

    def give_up(self, moment: int, party: int, seat: int = 0) -> Reply:
        """The caller of a request no longer wants its connection."""
        with self.lock:
            return self._steps.give_up(moment, seat, party)

    def return_(self, moment: int, party: int, used: Use = Use.OK, seat: int = 0) -> Reply:
        """A party returns its connection (CMAP, "Checking In a Connection")."""
        with self.lock:
            return self._return(moment, seat, party, used)

    # ---- steps of workers

    def claim(self, moment: int, seat: int = 0) -> Reply:
        """A worker asks for a connection to establish: JOB or NO_JOB."""
        with self.lock:
            return self._steps.claim(moment, seat)

    def established(self, moment: int, id: int, service: str = "", seat: int = 0) -> Reply:
        """The pending connection of this number was established. `service` is the service behind a load balancer, in 24 hex digits."""
        with self.lock:
            return self._steps.established(moment, seat, id, service)

    def failed(self, moment: int, id: int, service: str = "", seat: int = 0) -> Reply:
        """The pending connection of this number failed."""
        with self.lock:
            return self._steps.failed(moment, seat, id, service)

    # ---- pins

    def pin(self, moment: int, party: int, seat: int = 0) -> Reply:
        """A party pins its connection, so that it stays with its session when it comes back."""
        with self.lock:
            return self._steps.pin(moment, seat, party)

    def replicate(self, moment: int, id: int, seat: int = 0) -> Reply:
        """One pin more of a pinned connection."""
        with self.lock:
            return self._steps.replicate(moment, seat, id)

    def take(self, moment: int, party: int, id: int, seat: int = 0) -> Reply:
        """A new party takes a pinned connection."""
        with self.lock:
            return self._steps.take(moment, seat, party, id)

    def unpin(self, moment: int, id: int, seat: int = 0) -> Reply:
        """One pin less of a pinned connection."""
        with self.lock:
            return self._steps.unpin(moment, seat, id)

    # ---- the pool as a whole

    def ready(self, moment: int, seat: int = 0) -> Reply:
        """The pool may be used from now on (CMAP, "Marking a Connection Pool as Ready"). A closed one stays closed."""
        with self.lock:
            return self._steps.ready(moment, seat)

    def clear(self, moment: int, cause: Cause, service: str = "", seat: int = 0) -> Reply:
        """All connections become stale, and the pool is paused (CMAP, "Clearing a Connection Pool"); behind a load balancer those of a service alone."""
        with self.lock:
            return self._steps.clear(moment, seat, cause, service)

    def maintain(self, moment: int, seat: int = 0) -> Reply:
        """The timer that closes stale and idle connections (CMAP, "Background Thread")."""
        with self.lock:
            return self._steps.maintain(moment, seat)

    def expire(self, moment: int, seat: int = 0) -> Reply:
        """The timer by which callers end that waited for `max_wait` (CMAP, "waitQueueTimeoutMS")."""
        with self.lock:
            return self._steps.expire(moment, seat)

    def tick(self, moment: int, seat: int = 0) -> Reply:
        """The step of the timer that changes something at the moment, the expiry before the maintenance. Raises NoEntry where neither does."""
        with self.lock:
            return self._steps.tick(moment, seat)

    def close(self, moment: int, seat: int = 0) -> Reply:
        """The pool is closed for good (CMAP, "Closing a Connection Pool"): what waits ends, and what is in use is closed as it comes back."""
        with self.lock:
            return self._steps.close(moment, seat)

    # ---- what is known; no steps

    def facts(self) -> tuple[Fact, ...]:
        """The facts of the last step, as its reply has them."""
        with self.lock:
            return self._steps.facts()

    def counts(self) -> PoolCounts:
        """What the pool has."""
        told = PoolStateNumbers()
        with self.lock:
            check(LIBRARY.mdb_pool_get(byref(self._slot), byref(told)))
        return PoolCounts(told.number, PoolState(told.state), told.generation, told.available, None, told.in_use, told.pending, told.waiting)

    def next_due(self, moment: int) -> int | None:
        """The first moment from the given one on at which a timer changes something, unless another step comes before; None where no time brings it to that."""
        due = c_uint64()
        try:
            with self.lock:
                check(LIBRARY.mdb_pool_next_due(byref(self._slot), fitting(moment, 64), byref(due)))
        except NoEntry:
            return None
        return due.value

    def generation(self, service: str = "") -> int:
        """How often the pool was cleared for a service, or as a whole for no text. Raises Malformed where it is no service."""
        text, found = service.encode(), c_uint64()
        with self.lock:
            check(LIBRARY.mdb_pool_generation(byref(self._slot), text, len(text), byref(found)), service)
            return found.value
