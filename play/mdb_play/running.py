"""A run: the servers, a client's process beside them, and how that ended."""

from __future__ import annotations

import asyncio
import os
import signal
import ssl
from dataclasses import dataclass

from .plan import Plan
from .points import Decider
from .world import World

# A client that is told to end has so many seconds for it.
GRACE = 5.0


@dataclass
class ClientEnd:
    """How the client's process ended: its status (below 0 the signal's number), whether it was told to end, and whether it had to be killed."""

    status: int
    told: bool = False
    hung: bool = False


@dataclass
class Run:
    """What there is to judge of a run: the servers, and the client's end where there was a process."""

    world: World
    seconds: float
    client: ClientEnd | None = None
    recording: str | None = None
    standard: str | None = None


def environment(world: World, recording: str | None) -> dict[str, str]:
    """What a client is told: MDB_URI, MDB_HOSTS, MDB_SET, where names are asked for MDB_DNS, and where its events are to be recorded MDB_RECORD."""
    told = {"MDB_URI": world.uri, "MDB_HOSTS": ",".join(it.address for it in world.members), "MDB_SET": world.plan.name if world.plan.kind == "replica" else ""}
    told |= {"MDB_DNS": world.names.address} if world.names else {}
    return {**told, **({"MDB_RECORD": recording} if recording else {})}


def filled(words: list[str], told: dict[str, str]) -> list[str]:
    """The client's words with what stands for `$MDB_URI` and so on in its place."""
    made = []
    for word in words:
        for name, value in told.items():
            word = word.replace("$" + name, value)
        made.append(word)
    return made


async def run(plan: Plan, words: list[str], decider: Decider | None = None, tls: ssl.SSLContext | None = None, recording: str | None = None) -> Run:
    """Plays a plan to a client's process. Raises OSError where that cannot be started."""
    world = World(plan, decider, tls)
    await world.open()
    try:
        told = environment(world, recording)
        world.begin()
        process = await asyncio.create_subprocess_exec(*filled(words, told), env={**os.environ, **told}, start_new_session=True)
        end = await _wait(process, plan)
        return Run(world, world.now(), end, recording)
    finally:
        await world.close()


async def _wait(process: asyncio.subprocess.Process, plan: Plan) -> ClientEnd:
    try:
        status = await asyncio.wait_for(process.wait(), plan.end if plan.until is None else plan.until)
        return ClientEnd(status)
    except asyncio.TimeoutError:
        end = ClientEnd(0, told=plan.until is not None, hung=plan.until is None)
    if end.told:
        process.terminate()
        try:
            end.status = await asyncio.wait_for(process.wait(), GRACE)
            return end
        except asyncio.TimeoutError:
            end.hung = True
    _kill(process.pid)
    end.status = await process.wait()
    return end


def _kill(group: int) -> None:
    """The client's process and those that it started end."""
    try:
        os.killpg(group, signal.SIGKILL)
    except ProcessLookupError:
        pass
