"""A connection: its requests, one after the other, and what the plan makes of each."""

from __future__ import annotations

import asyncio
import struct
from dataclasses import dataclass
from typing import TYPE_CHECKING

from .commands import namespace
from .damage import DAMAGES, After
from .plan import duration
from .points import HELLOS, Decision, Point
from .service import Served, refused, serve, writes
from .sessions import in_transaction, operation_of
from .view import spelled
from .watch import Command, End, Link, Outcome, Told, describe, version_of
from .wire import MORE_TO_COME, Document, Malformed, Request, packed, read_request
from .wording import failure

if TYPE_CHECKING:
    from .member import Member
    from .world import World

# A request that was begun is to be whole within so many seconds.
WHOLE = 60.0
_HALF_OPEN = 0.05


class Gone(Exception):
    """The connection has ended."""


@dataclass
class Fate:
    """What becomes of one message."""

    lost: bool = False
    unanswered: bool = False
    code: int | None = None
    damage: str = "none"


class Conversation:
    """One connection of a member."""

    def __init__(self, world: "World", member: "Member", reader: asyncio.StreamReader, writer: asyncio.StreamWriter) -> None:
        self._world, self._member, self._reader, self._writer = world, member, reader, writer
        self._number, self._messages = world.connections, 0
        self.link = world.watch.open_link(member.number, world.now())
        self._running: Command | None = None
        self._ended, self._left, self._asked = False, asyncio.Event(), 0.0

    def cut(self) -> None:
        """The server resets it."""
        self._end(End.SERVER)
        self._writer.transport.abort()

    def leave(self) -> None:
        """The client has ended it; what it sent before may still be there to be read."""
        if self.link.closed is None:
            self.link.closed = self._world.now()
        self._left.set()

    async def run(self) -> None:
        """Answers until one side ends it."""
        self._member.links.add(self)
        try:
            while True:
                request = await read_request(self._reader, self._world.budget, WHOLE)
                await self._handle(request)
        except (ConnectionError, asyncio.IncompleteReadError, asyncio.TimeoutError, Gone, OSError):
            self._end(End.CLIENT)
        except Malformed:
            self._end(End.SERVER)
        finally:
            self._member.links.discard(self)
            self._writer.close()

    def _end(self, who: End) -> None:
        if self._ended:
            return
        self._ended = True
        link = self.link
        link.end = who
        link.closed = self._world.now() if link.closed is None else link.closed
        link.cut_busy = self._running is not None and who is End.SERVER
        if self._running is not None:
            self._running.outcome = Outcome.UNANSWERED
            self._running.answered = link.closed

    def _check(self) -> None:
        if self._ended:
            raise Gone

    async def _until(self, event: asyncio.Event, seconds: float | None = None) -> bool:
        """Waits for the event; false where the time is up. Raises Gone where the connection ended."""
        if not event.is_set():
            waits = {asyncio.ensure_future(it.wait()) for it in (event, self._left)}
            try:
                await asyncio.wait(waits, timeout=seconds, return_when=asyncio.FIRST_COMPLETED)
            finally:
                for it in waits:
                    it.cancel()
            if self._left.is_set() and not event.is_set():
                raise Gone
        self._check()
        return event.is_set()

    # ---- a message

    async def _handle(self, request: Request) -> None:
        self.link.last = self._world.now()
        if request.name.lower() in HELLOS:
            await self._hello(request)
        else:
            await self._command(request)

    def _point(self, name: str, kind: str) -> Point:
        """The next point of the connection, whose kind this message may tell."""
        link = self.link
        if kind != link.kind and not (kind == "poll" and link.kind in ("application", "monitor")):
            self._world.watch.turn(link, kind)
        self._messages += 1
        return Point(link.member, link.kind, link.ordinal, self._messages, name)

    async def _phase(self, decisions: list[Decision], phase: str, fate: Fate) -> None:
        for decision in decisions:
            if decision.phase == phase:
                await self._act(decision, fate)
        self._check()

    async def _act(self, decision: Decision, fate: Fate) -> None:
        action = decision.action
        if not action.of_message:
            self._world.do(action, decision.rule)
            return
        self._world.done(decision)
        word = action.word
        if word == "delay":
            await asyncio.sleep(duration(action.words[0]) / 1000)
        elif word in ("close", "reset"):
            self._end(End.SERVER)
            (self._writer.close if word == "close" else self._writer.transport.abort)()
        elif word == "damage":
            fate.damage = action.words[0]
        elif word == "error":
            fate.code = int(action.words[0])
        elif word == "lose":
            fate.lost = True
        else:
            fate.unanswered = True

    async def _pause(self) -> None:
        """A slow member answers late, and a frozen one not before it thaws."""
        least, most = self._member.late
        if most:
            await asyncio.sleep(self._world.amount(self.link, self._messages, least, most) / 1000)
        await self._until(self._member.thawed)

    async def _send(self, whole: bytes, damage: str) -> None:
        self._check()
        made = DAMAGES.get(damage)
        self._writer.write(made.spoil(whole) if made else whole)
        if made and made.after is After.RESET:
            await asyncio.sleep(_HALF_OPEN)
            self.cut()
        await self._writer.drain()
        self._check()

    # ---- hellos

    async def _hello(self, request: Request) -> None:
        first = self._messages == 0
        known, most = request.command.get("topologyVersion"), request.command.get("maxAwaitTimeMS")
        self.link.modern = self.link.modern or bool(request.command.get("helloOk")) or request.name == "hello"
        kind = "new" if first else "monitor" if known is not None else "poll"
        answers: int | None = None
        while True:
            self._asked = self._world.now()
            if known is not None and most is not None and known == self._member.version():
                await self._until(self._member.changed, int(most) / 1000)
            await self._pause()
            number, more = self._world.next_reply(), request.exhaust and known is not None
            await self._say(request, answers, number, more, kind)
            if not more:
                return
            answers, known = number, self._member.version()

    async def _say(self, request: Request, answers: int | None, number: int, more: bool, kind: str) -> None:
        fate, member = Fate(damage=self._member.damage), self._member
        decisions = self._world.decide(self._point("handshake" if kind == "new" else "check", kind))
        await self._phase(decisions, "before", fate)
        said = member.hello(request.command, self._number)
        await self._phase(decisions, "before-reply", fate)
        if fate.code is not None:
            said = failure(fate.code, self.link.modern)
        if not fate.lost and not fate.unanswered:
            whole = packed(request, said, number, answers, MORE_TO_COME if more else 0)
            self._note_wrong(fate.damage)
            await self._send(whole, fate.damage)
            if fate.damage != "none":
                self._world.watch.faults.append((self._world.now(), member.number))
            elif fate.code is None:
                self._world.watch.told.append(_told(self._world.now(), self._asked, self.link, said))
        await self._phase(decisions, "after-reply", fate)

    def _note_wrong(self, damage: str) -> None:
        if damage == "answers" and self.link.wrong is None:
            self.link.wrong = self._world.now()

    # ---- commands

    async def _command(self, request: Request) -> None:
        name, member = request.name.lower(), self._member
        point = self._point(name, "application")
        command = self._note(request, name)
        self._running = None if request.silent else command
        decisions, fate = self._world.decide(point), Fate(damage=member.spoil)
        await self._phase(decisions, "before", fate)
        if fate.lost:
            self._finish(command, Outcome.UNANSWERED)
            return
        await self._pause()
        if fate.code is not None:
            served = Served(refused(member, request, fate.code, self.link.modern))
            fate.code = None
        else:
            served = serve(member, request, self.link.modern)
        command.executed, command.again, command.branch = served.executed, served.again, member.branch is not None and served.executed
        said = await self._concern(request, served)
        await self._phase(decisions, "before-reply", fate)
        if fate.code is not None:
            said = refused(member, request, fate.code, self.link.modern)
        await self._answer(request, command, said, fate)
        await self._phase(decisions, "after-reply", fate)

    async def _answer(self, request: Request, command: Command, said: Document, fate: Fate) -> None:
        if request.silent or fate.unanswered or fate.lost:
            self._finish(command, Outcome.UNANSWERED)
            return
        self._note_wrong(fate.damage)
        await self._send(packed(request, said, self._world.next_reply()), fate.damage)
        fine = said["ok"] == 1.0 and "writeErrors" not in said and "writeConcernError" not in said
        command.code, command.version = (None, None) if fine else (_code(said), version_of(said))
        unseen = fate.damage not in ("none", "nothing")
        self._finish(command, Outcome.UNANSWERED if unseen else Outcome.ACKNOWLEDGED if fine else Outcome.FAILED)

    def _note(self, request: Request, name: str) -> Command:
        document = request.command
        command = Command(self._world.now(), self.link, name, writes(document, name), operation_of(document), in_transaction(document))
        command.namespace = namespace(document)
        if command.writes:
            try:
                describe(command, document)
            except (AttributeError, TypeError, ValueError, struct.error):
                command.print = b""
        self._world.watch.commands.append(command)
        return command

    def _finish(self, command: Command, outcome: Outcome) -> None:
        command.outcome, command.answered = outcome, self._world.now()
        self._running = None

    async def _concern(self, request: Request, served: Served) -> Document:
        """The answer to a write that asks for a majority: of a member apart from its set it comes when that is over, or when the time is up."""
        wanted, member = request.command.get("writeConcern") or {}, self._member
        said = served.document
        if isinstance(wanted.get("w"), int) and wanted["w"] > len(self._world.configured) and self._world.plan.kind == "replica":
            return {**said, "writeConcernError": {"code": 100, "codeName": "UnsatisfiableWriteConcern", "errmsg": "Not enough data-bearing nodes"}}
        if member.branch is None or not served.executed or wanted.get("w", 1) in (0, 1):
            return said
        limit = int(wanted.get("wtimeout") or 0)
        branched = member.branched_at
        if not await self._until(member.healed, limit / 1000 if limit else None):
            return {**said, "writeConcernError": {"code": 64, "codeName": "WriteConcernFailed", "errmsg": "waiting for replication timed out"}}
        return said if branched == self._world.elections else refused(member, request, 189, self.link.modern)


def _told(at: float, asked: float, link: Link, said: Document) -> Told:
    """What a hello said of who is primary."""
    election = said.get("electionId")
    writable = bool(said.get("isWritablePrimary", said.get("ismaster")))
    return Told(at, link, writable, 0 if election is None else int(str(election), 16), spelled(said), asked, version_of(said))


def _code(said: Document) -> int:
    """The code of the first error that an answer tells."""
    if "code" in said:
        return int(said["code"])
    first = said.get("writeErrors") or [said.get("writeConcernError", {})]
    return int(first[0].get("code", 0))
