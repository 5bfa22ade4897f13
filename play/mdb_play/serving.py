"""Servers that are told by lines: `serve` writes `ready URI`, with the server of names behind it where there is one, and answers each line of its standard input with one line.

A line is an action, as `elect 1`; `after 200ms ACTION`; `verdicts`, answered with one line of JSON; `picture`, with its lines and an empty one; or `quit`.
"""

from __future__ import annotations

import asyncio
import json
import ssl
import sys

from .picture import picture
from .plan import Plan, action, duration
from .running import Run
from .verdicts import as_json, judge
from .world import World


async def serve(plan: Plan, tls: ssl.SSLContext | None = None) -> int:
    """Plays until the input ends."""
    world = World(plan, None, tls)
    await world.open()
    world.begin()
    print(" ".join(["ready", world.uri, *([world.names.address] if world.names else [])]), flush=True)
    reader = asyncio.StreamReader()
    await asyncio.get_running_loop().connect_read_pipe(lambda: asyncio.StreamReaderProtocol(reader), sys.stdin)
    try:
        while True:
            line = (await reader.readline()).decode("utf-8", "replace").strip()
            if line in ("", "quit"):
                return 0
            print(await _answer(world, line), flush=True)
    finally:
        await world.close()


async def _answer(world: World, line: str) -> str:
    words = line.split()
    if words[0] == "verdicts":
        done = Run(world, world.now())
        verdicts = await asyncio.get_running_loop().run_in_executor(None, judge, done)
        return json.dumps(json.loads(as_json(done, verdicts)))
    if words[0] == "picture":
        return picture(world.watch, world.now()) + "\n"
    try:
        if words[0] == "after":
            made, wait = action(words[2:]), duration(words[1])
            asyncio.get_running_loop().call_later(wait / 1000, world.do, made)
        else:
            world.do(action(words))
            await world.settle()
        return f"done {line}"
    except (ValueError, IndexError) as why:
        return f"failed {line}: {why}"
