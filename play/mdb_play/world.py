"""The servers of a plan together: who is there, their documents, and what is done to them."""

from __future__ import annotations

import asyncio
import ssl
from typing import Any, Callable

from bson import ObjectId

from .conversation import Conversation
from .deeds import act
from .fleet import Fleet
from .member import Member, Reader
from .names import Names, listening
from .plan import Action, Later, Nth, Plan, Start
from .points import Decider, Decision, Planned, Point, chance
from .store import Store
from .transcript import Transcript
from .watch import Deed, Link, States, Watch
from .wire import Budget

# Bytes of large requests that all connections hold at once.
LARGE_BYTES = 256_000_000
CONNECTIONS = 5_000
_BEAT = 0.05


class World:
    """All servers. Everything of it happens in one event loop."""

    def __init__(self, plan: Plan, decider: Decider | None = None, tls: ssl.SSLContext | None = None) -> None:
        self.plan, self.fleet, self.store = plan, Fleet(plan.count), Store()
        self.decider = decider or Planned(plan)
        self.transcript, self.watch = Transcript(plan), Watch()
        self.members = [Member(self, number, "member" if plan.kind == "replica" else plan.kind) for number in range(plan.count)]
        self.configured = list(range(plan.count))
        self.named = list(plan.names or ())
        self.names: Names | None = None
        # Changes of the configuration that no primary has made yet.
        self.changes, self.connections, self.replies = 0, 0, 0
        self.budget, self._tls = Budget(LARGE_BYTES), tls
        self.spread: tuple[float, float] = (0.0, 0.0)
        self._began: float | None = None
        self._timers: list[asyncio.TimerHandle] = []
        self._tasks: set[asyncio.Task[None]] = set()
        self._measuring: asyncio.Task[None] | None = None

    @property
    def elections(self) -> int:
        """How many elections there were."""
        return self.fleet.elections

    def now(self) -> float:
        """Seconds since the client began; 0 before."""
        return 0.0 if self._began is None else asyncio.get_running_loop().time() - self._began

    async def open(self) -> None:
        """The members listen, and what the plan has before the client's start is done."""
        asyncio.get_running_loop().set_exception_handler(_quiet)
        for member in self.members:
            await self.listen(member)
        if self.plan.names is not None:
            self.names = await listening(lambda: {it: self.members[it].port for it in self.named}, self.plan.text, self.plan.port)
        for rule in self.plan.rules:
            if isinstance(rule.when, Start):
                self.do(rule.action, rule.number)
        await self.settle()

    async def settle(self) -> None:
        """Waits for members that were told to listen."""
        while self._tasks:
            await asyncio.gather(*self._tasks)

    def begin(self) -> None:
        """The client begins."""
        self._began = asyncio.get_running_loop().time()
        self._measuring = asyncio.get_running_loop().create_task(self._measure())
        timed = [rule for rule in self.plan.rules if isinstance(rule.when, (Start, Later, Nth))]
        if all(isinstance(rule.when, Later) for rule in timed[:1]) and timed:
            self._after(timed[0].number)
        for rule in timed:
            if isinstance(rule.when, Start):
                self._follow(rule.number)

    async def _measure(self) -> None:
        """Notes how late the timers of the servers come."""
        loop = asyncio.get_running_loop()
        while True:
            due = loop.time() + _BEAT
            await asyncio.sleep(_BEAT)
            self.watch.lag = max(self.watch.lag, loop.time() - due)

    async def close(self) -> None:
        """All ends."""
        if self._measuring:
            self._measuring.cancel()
        for timer in self._timers:
            timer.cancel()
        for member in self.members:
            member.kill()
        if self.names is not None:
            self.names.close()
        await self.settle()

    @property
    def uri(self) -> str:
        """The connection string."""
        chosen = self.plan.seeds or range(len(self.members))
        scheme, hosts = "mongodb", ",".join(self.members[it].address for it in chosen)
        options = list(self.plan.options)
        told = {it.split("=")[0] for it in (*options, *self.plan.text.split("&"))}
        if self.plan.kind == "replica" and not told & {"replicaSet", "directConnection"}:
            options.insert(0, f"replicaSet={self.plan.name}")
        if self.plan.kind == "balancer" and "loadBalanced" not in told:
            options.insert(0, "loadBalanced=true")
        if self.names is not None:
            # connections by a seed list are TLS, where nothing else is said; pymongo 3.11 knows no `tls=false` here
            scheme, hosts = "mongodb+srv", self.names.host
            options += [] if told & {"tls", "ssl"} else ["ssl=false"]
        return f"{scheme}://{hosts}/" + ("?" + "&".join(options) if options else "")

    async def listen(self, member: Member) -> None:
        """It begins to listen."""
        await member.start(self._serve, self._tls)
        self.note()

    def begin_to_listen(self, member: Member) -> None:
        """It begins to listen, as soon as the loop comes to it."""
        task = asyncio.get_running_loop().create_task(self.listen(member))
        self._tasks.add(task)
        task.add_done_callback(self._tasks.discard)

    def service(self, connection: int) -> ObjectId:
        """The service behind a load balancer that a connection meets."""
        return ObjectId(f"{0xA0 + connection % 2:024x}")

    async def _serve(self, member: Member, reader: asyncio.StreamReader, writer: asyncio.StreamWriter) -> None:
        if sum(len(it.links) for it in self.members) >= CONNECTIONS:
            writer.close()
            return
        self.connections += 1
        conversation = Conversation(self, member, reader, writer)
        if isinstance(reader, Reader):
            reader.told = conversation.leave
        await conversation.run()

    def next_reply(self) -> int:
        """The number of the next reply."""
        self.replies = self.replies % 0x7FFFFFFF + 1
        return self.replies

    def amount(self, link: Link, message: int, least: float, most: float) -> float:
        """An amount of a range that hangs on the seed and the message alone."""
        point = Point(link.member, link.kind, link.ordinal, message, "late")
        return least + (most - least) * chance(self.plan.seed, "slow", point)

    # ---- decisions

    def decide(self, point: Point) -> list[Decision]:
        """What is done at a point; the transcript has it."""
        decisions = self.decider.decide(point)
        self.transcript.point(self.now(), point, decisions)
        return decisions

    def done(self, decision: Decision) -> None:
        """Something was done to a message."""
        self.watch.deeds.append(Deed(self.now(), decision.rule, str(decision.action)))
        self._follow(decision.rule)

    def _follow(self, number: int) -> None:
        """The line of this number was done: the line behind it may wait for it."""
        numbers = [rule.number for rule in self.plan.rules if isinstance(rule.when, (Start, Later, Nth))]
        behind = numbers[numbers.index(number) + 1 :] if number in numbers else []
        if behind:
            self._after(behind[0])

    def _after(self, number: int) -> None:
        """The line of this number is done when its time has passed, if it has one."""
        rule = next(it for it in self.plan.rules if it.number == number)
        if isinstance(rule.when, Later) and self._began is not None:
            self.later(rule.when.milliseconds, lambda: self.do(rule.action, rule.number))

    def later(self, milliseconds: float, then: Callable[[], None]) -> None:
        """Does something when so much time has passed."""
        self._timers.append(asyncio.get_running_loop().call_later(milliseconds / 1000, then))

    # ---- what is done

    def do(self, action: Action, rule: int = 0) -> None:
        """Does something to the servers. Raises ValueError for what is done to a message alone."""
        if action.of_message:
            raise ValueError(f"{action.word} needs a message")
        self.transcript.deed(self.now(), rule, str(action))
        self.watch.deeds.append(Deed(self.now(), rule, str(action)))
        act(self, action)
        self.note()
        self._follow(rule)

    def note(self) -> None:
        """Notes how the members are, where that changed."""
        letters = "".join(it.letter for it in self.members)
        if not self.watch.states or self.watch.states[-1].letters != letters:
            self.watch.states.append(States(self.now(), letters))

    def tell(self) -> None:
        """Whoever waits for news is answered, of all members."""
        for member in self.members:
            member.tell()

    def dropped(self, member: Member, kept: bool) -> None:
        """What a member wrote apart from its set was kept by the set, or is gone."""
        for command in self.watch.commands:
            if command.branch and command.link.member == member.number:
                command.branch, command.dropped = False, not kept


def _quiet(loop: asyncio.AbstractEventLoop, context: dict[str, Any]) -> None:
    """A connection that ends by an error is nothing to tell of."""
    if not isinstance(context.get("exception"), ConnectionError):
        loop.default_exception_handler(context)
