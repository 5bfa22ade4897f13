"""The view that the library's own driver has after the same hellos, beside the one that the client told."""

from __future__ import annotations

import json
from typing import TYPE_CHECKING, Any, Iterable

from .watch import End, Link
from .wire import Document

if TYPE_CHECKING:
    from .running import Run

_FLAGS_FIRST = ("isWritablePrimary", "ismaster", "helloOk")
_FLAGS = ("hidden", "secondary", "arbiterOnly", "isreplicaset")
_NUMBERS = ("logicalSessionTimeoutMinutes", "minWireVersion", "maxWireVersion")


def spelled(said: Document) -> str:
    """The fields of a hello as a line of a script has them."""
    words: list[tuple[str, Any]] = [(name, said.get(name)) for name in _FLAGS_FIRST]
    words += [(name, ",".join(said[name]) if said.get(name) else None) for name in ("hosts", "passives", "arbiters")]
    words += [(name, said.get(name)) for name in ("msg", "me", "setVersion", "setName", *_FLAGS, *_NUMBERS)]
    words += [("electionId", said.get("electionId")), ("primary", said.get("primary"))]
    version = said.get("topologyVersion")
    words += [("topologyVersion", f"{version['processId']}.{version['counter']}" if version else None), ("connectionId", said.get("connectionId"))]
    return " ".join(f"{name}={_value(value)}" for name, value in words if value is not None)


def _value(value: Any) -> str:
    return str(value).lower() if isinstance(value, bool) else str(value)


def of_client(recording: str) -> dict[str, str]:
    """The kind of each server that the client's listeners told last, before its client was closed."""
    kinds: dict[str, str] = {}
    with open(recording, encoding="utf-8") as file:
        for line in file:
            told = json.loads(line)
            if told.get("event") in ("ServerClosed", "TopologyClosed"):
                break
            if told.get("event") == "ServerDescriptionChanged" and "to" in told:
                kinds[_bracketed(told["address"])] = told["to"]
    return kinds


def _bracketed(address: str) -> str:
    """An address of IPv6 in brackets, as the library spells it."""
    host, _, port = address.rpartition(":")
    return f"[{host}]:{port}" if ":" in host and not host.startswith("[") else address


def of_library(run: "Run") -> dict[str, str]:
    """The kind of each server for a driver of the library that got the hellos of the client's monitors. Raises ImportError and OSError where it isn't there."""
    import mdb

    world = run.world
    option = "" if not any(it.startswith("directConnection=true") for it in world.plan.options) else " direct"
    name = f" set={world.plan.name}" if world.plan.kind == "replica" else ""
    seeds = ",".join(world.members[it].address for it in world.plan.seeds or range(len(world.members)))
    try:
        with mdb.Driver(f"open seeds={seeds}{name}{option}") as driver:
            for number, (member, outcome) in enumerate(_news(run)):
                _hear(driver, number, world.members[member].address, outcome)
            return {it.address: _NAMES.get(it.kind.name, it.kind.name) for it in driver.servers()}
    except mdb.MdbError as why:
        raise ValueError(str(why)) from why


def _hear(driver: Any, moment: int, address: str, outcome: str) -> None:
    """The driver gets a hello of a server, if it knows that."""
    if any(it.address == address for it in driver.servers()):
        driver.hello(moment, address, driver.open_pool(address), outcome)


# The library spells kinds by its own names.
_NAMES = {"STANDALONE": "Standalone", "MONGOS": "Mongos", "RS_PRIMARY": "RSPrimary", "RS_SECONDARY": "RSSecondary", "RS_ARBITER": "RSArbiter"}
_NAMES.update({"RS_OTHER": "RSOther", "RS_GHOST": "RSGhost", "UNKNOWN": "Unknown", "LOAD_BALANCER": "LoadBalancer"})


def _news(run: "Run") -> Iterable[tuple[int, str]]:
    """What the client's monitors met, in the order of time: hellos, connections that ended, and answers that were damaged.

    A connection that the client ended counts where another one to the member followed: the client had given it up, as after its own time-out. The others are its end.
    """
    watch = run.world.watch
    watching = _watching(run)
    numbers = {it.number for it in watching}
    news = [(it.at, it.link.member, "ok rtt=1 " + it.line) for it in watch.told if it.link.number in numbers]
    newest = {link.member: link.opened for link in watch.links}
    given_up = [it for it in watch.links if it.kind == "new"] + watching
    lost = [(it.closed, it.member) for it in given_up if it.closed is not None and (it.end is End.SERVER or newest[it.member] > it.closed)]
    news += [(at, member, "err network msg=lost") for at, member in [*lost, *watch.faults]]
    return [(member, outcome) for _, member, outcome in sorted(news, key=lambda it: it[0])]


def _watching(run: "Run") -> list[Link]:
    """The connections of the client's monitors; of a driver without awaited hellos any may be one."""
    links = run.world.watch.links
    streams = any(it.kind == "monitor" for it in links)
    return [it for it in links if it.kind == "monitor" or not streams]


def late_news(run: "Run", seconds: float) -> bool:
    """Something happened so shortly before the end that the client may not have seen it, or a member was not watched by then."""
    watch, since = run.world.watch, run.seconds - seconds
    changes = [it.at for it in watch.states] + [at for at, _ in watch.faults] + [it.closed for it in watch.links if it.end is End.SERVER and it.closed is not None]
    watched = {it.member for it in _watching(run) if it.opened < since and (it.closed is None or it.closed > since)}
    up = {member for member, letter in enumerate(watch.states[-1].letters) if letter in "Ps"}
    return any(at > since for at in changes) or not up <= watched
