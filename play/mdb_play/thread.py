"""Servers in a thread of a test's own process, for a client in that process."""

from __future__ import annotations

import asyncio
import threading
from typing import Awaitable, Callable, TypeVar

from .picture import picture
from .plan import Plan, action, parse
from .running import ClientEnd, Run
from .verdicts import Verdict, failed, judge
from .world import World

Value = TypeVar("Value")
SECONDS = 30.0


class Verdicts:
    """The verdicts of a test, and the numbers that a test asks for most."""

    def __init__(self, made: list[Verdict], shown: str) -> None:
        self.all = {it.name: it for it in made}
        self._shown = shown

    @property
    def failed(self) -> list[str]:
        """The names of those that fail."""
        return [it.name for it in failed(self.all.values())]

    @property
    def lost_writes(self) -> int:
        """How many acknowledged writes are gone."""
        return self._count("lost-writes")

    @property
    def double_writes(self) -> int:
        """How many writes were stored twice."""
        return self._count("double-writes")

    @property
    def recovery(self) -> float | None:
        """The longest time from an election to the first write after it, in seconds; None where there was none."""
        return self.all["recovery"].numbers.get("slowest")

    def __str__(self) -> str:
        return "\n".join([*(str(it) for it in self.all.values()), self._shown])

    def _count(self, name: str) -> int:
        return int(self.all[name].numbers.get("count", 0))


class Played:
    """What a test has: `plan` first, then `uri` for its client, and `verdict` at its end.

    Without a plan there are three members, and member 0 is the primary.
    """

    def __init__(self) -> None:
        self._loop: asyncio.AbstractEventLoop | None = None
        self._world: World | None = None
        self._thread: threading.Thread | None = None
        self._verdict: Verdicts | None = None

    def plan(self, text: str) -> None:
        """Starts the servers of a plan. Raises PlanError, and RuntimeError where they were started."""
        if self._world is not None:
            raise RuntimeError("the servers run already")
        plan = parse(text)
        self._loop = asyncio.new_event_loop()
        self._thread = threading.Thread(target=self._loop.run_forever, name="mdb_play", daemon=True)
        self._thread.start()
        self._world = self._call(lambda: self._open(plan))

    @property
    def uri(self) -> str:
        """The connection string."""
        return self._playing().uri

    @property
    def world(self) -> World:
        """The servers, of which a test may look at what was seen; its methods belong to another thread."""
        return self._playing()

    def do(self, text: str) -> None:
        """Does an action now, as `elect 1`. Raises ValueError."""
        world, made = self._playing(), action(text.split())
        self._call(lambda: self._do(world, made))

    @property
    def verdict(self) -> Verdicts:
        """The verdicts; the servers end, and the client's process is taken as ended well."""
        if self._verdict is None:
            world = self._playing()
            seconds = self._call(lambda: self._end(world))
            run = Run(world, seconds, ClientEnd(0))
            self._verdict = Verdicts(judge(run), picture(world.watch, seconds))
        return self._verdict

    def close(self) -> None:
        """Ends the servers and their thread."""
        if self._world is not None and self._verdict is None:
            world = self._world
            self._call(lambda: self._end(world))
        if self._loop is not None and self._thread is not None:
            self._loop.call_soon_threadsafe(self._loop.stop)
            self._thread.join(SECONDS)
            self._loop.close()
            self._loop = None

    def _playing(self) -> World:
        if self._world is None:
            self.plan("")
        assert self._world is not None
        return self._world

    def _call(self, made: Callable[[], Awaitable[Value]]) -> Value:
        assert self._loop is not None

        async def called() -> Value:
            return await made()

        return asyncio.run_coroutine_threadsafe(called(), self._loop).result(SECONDS)

    @staticmethod
    async def _open(plan: Plan) -> World:
        world = World(plan)
        await world.open()
        world.begin()
        return world

    @staticmethod
    async def _do(world: World, made: object) -> None:
        world.do(made)  # type: ignore[arg-type]
        await world.settle()

    @staticmethod
    async def _end(world: World) -> float:
        seconds = world.now()
        await world.close()
        return seconds
