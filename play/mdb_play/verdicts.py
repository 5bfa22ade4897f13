"""Verdicts: what a run says of its client, a line each."""

from __future__ import annotations

import json
import os
import signal
from collections import defaultdict
from dataclasses import dataclass, field
from typing import Callable, Iterable

from . import proved
from .running import Run
from .view import late_news, of_client, of_library
from .watch import Command, End, Link, Outcome, Told, Watch
from .wording import NOT_WRITABLE, RETRYABLE, SHUTTING_DOWN

# An answer and one that was sent so many seconds after it may be read the other way round.
ON_ITS_WAY = 0.02
# A thread of the client may have chosen its server and its connection so many seconds ago.
GRACE = 1.0
# A connection on which a wrong answer came may be closed so many seconds late.
WRONG_KEPT = 2.0
# A retry is due within so many seconds where there is a primary.
RETRY = 3.0
# For so many seconds a driver looks for a server, where its connection string says nothing else.
SELECTION = 30.0
# On a machine on which the servers came so many seconds late, a client's own time-outs make it lose servers that answer.
BUSY = 0.3
# What happens within so many seconds happens at once.
_SAME = 0.005
# On a busy machine all of these are longer, by so many times what the servers themselves came late.
LAGS = 4.0
OK, FAILS, ALLOWED, UNJUDGED = "ok", "FAILS", "allowed", "unjudged"
_REPEATS = frozenset({"insert", "update", "findandmodify"})


@dataclass(frozen=True)
class Verdict:
    """One verdict: its name, its state, what it says, and numbers of it."""

    name: str
    state: str
    text: str
    numbers: dict[str, float] = field(default_factory=dict)

    def __str__(self) -> str:
        return f"{self.name} {self.state}: {self.text}"


Judge = Callable[[Run], Verdict]


def judge(run: Run) -> list[Verdict]:
    """All verdicts of a run. What the plan allows doesn't fail."""
    allowed = run.world.plan.allowed
    made = [it(run) for it in JUDGES]
    return [Verdict(it.name, ALLOWED, it.text, it.numbers) if it.state == FAILS and it.name in allowed else it for it in made]


def failed(verdicts: Iterable[Verdict]) -> list[Verdict]:
    """Those that fail."""
    return [it for it in verdicts if it.state == FAILS]


def as_json(run: Run, verdicts: list[Verdict]) -> str:
    """The verdicts as one JSON document."""
    lag = round(run.world.watch.lag, 3)
    made = [{"name": it.name, "state": it.state, "text": it.text, "numbers": it.numbers} for it in verdicts]
    return json.dumps({"seed": run.world.plan.seed, "seconds": round(run.seconds, 3), "lag": lag, "failed": len(failed(verdicts)), "verdicts": made}, indent=1)


def _of(name: str, wrong: list[str], fine: str, numbers: dict[str, float] | None = None) -> Verdict:
    """Fails with the first that is wrong, and counts them."""
    told = {"count": float(len(wrong)), **(numbers or {})}
    if not wrong:
        return Verdict(name, OK, fine, told)
    return Verdict(name, FAILS, f"{len(wrong)}, the first {wrong[0]}", told)


def _many_clients(run: Run) -> bool:
    """More than one client monitors the servers, so that what one was told the other may not know."""
    for kind in ("monitor", "poll"):
        links = [it for it in run.world.watch.links if it.kind == kind]
        if links:
            return any(_most_at_once([it for it in links if it.member == member.number]) > 1 for member in run.world.members)
    return False


def _most_at_once(links: list[Link]) -> int:
    """How many were open at once. One that follows another within the grace is no second one."""
    return max((sum(it.opened <= at.opened and (it.closed is None or it.closed > at.opened + GRACE) for it in links) for at in links), default=0)


def _writes(run: Run) -> list[Command]:
    return [it for it in run.world.watch.commands if it.writes]


def _late(run: Run) -> float:
    """How much longer everything may take, in seconds."""
    return LAGS * run.world.watch.lag


# ---- what is stored


def lost_writes(run: Run) -> Verdict:
    """Acknowledged writes that are gone."""
    world, writes = run.world, _writes(run)
    kept = {key for it in writes if it.executed and not it.dropped for key in it.ids}
    for it in writes:
        member = world.members[it.link.member]
        if it.branch and member.branched_at != world.elections:
            it.dropped = True
    gone = [it for it in writes if it.dropped and it.outcome is Outcome.ACKNOWLEDGED and not (it.ids and all(key in kept for key in it.ids))]
    done = sum(it.outcome is Outcome.ACKNOWLEDGED for it in writes)
    return _of(
        "lost-writes",
        [f"a {it.name} that member {it.link.member} acknowledged at {it.answered:.3f}" for it in gone],
        f"none of {done} acknowledged writes is gone",
        {"acknowledged": done},
    )


def double_writes(run: Run) -> Verdict:
    """Writes that the client saw no answer to, and that were done again as others: what they write is the same, apart from an `_id`."""
    groups: dict[bytes, list[Command]] = defaultdict(list)
    for it in _writes(run):
        if it.executed and not it.dropped and it.print and it.name in _REPEATS:
            groups[it.print].append(it)
    twice = []
    for group in groups.values():
        unseen = [it for it in group if it.outcome is not Outcome.ACKNOWLEDGED]
        later = [it for it in group if unseen and unseen[0].answered is not None and it.at >= unseen[0].answered]
        if later and len(group) - len(unseen) <= 1:
            twice.append(f"a {group[0].name} at {group[0].at:.3f} and again at {later[0].at:.3f}")
    return _of("double-writes", twice, "no write that went unanswered was stored twice")


# ---- who is written to


def _possible_primaries(run: Run) -> list[tuple[float, frozenset[int]]]:
    """Whom the client could take for the primary, from which moments on.

    What only a monitor was told is certain: who is no primary, and that there was a later election. Any other connection may have told it who is one. A driver without
    awaited hellos may ask on any connection, and one of a single thread has no others than those of its commands.
    """
    watch = run.world.watch
    streams = any(it.kind == "monitor" for it in watch.links)
    news: list[tuple[float, Told | Command]] = [(it.at, it) for it in watch.told]
    news += [(it.answered, it) for it in watch.commands if it.answered is not None and it.code in NOT_WRITABLE]
    possible: frozenset[int] = frozenset()
    greatest = -1
    made: list[tuple[float, frozenset[int]]] = []
    for at, it in sorted(news, key=lambda pair: pair[0]):
        certain = isinstance(it, Command) or not streams or it.link.kind == "monitor"
        if isinstance(it, Told) and it.writable and it.election >= greatest:
            possible = frozenset({it.link.member}) | (frozenset() if certain else possible)
            greatest = it.election if certain else greatest
        elif certain:
            possible -= {it.link.member}
        if not made or made[-1][1] != possible:
            made.append((at, possible))
    return made


def old_primary(run: Run) -> Verdict:
    """Writes to a member of which the client had long been told that it is not the primary."""
    name, watch = "old-primary", run.world.watch
    monitored = {it.member for it in watch.links if it.kind in ("monitor", "poll")}
    if run.world.plan.kind != "replica" or len(monitored) < 2:
        return Verdict(name, UNJUDGED, "the client watches no replica set")
    if _many_clients(run):
        return Verdict(name, UNJUDGED, "there is more than one client")
    primaries = _possible_primaries(run)
    grace = GRACE + _late(run)
    wrong = [it for it in _writes(run) if it.at > grace and not _was_primary(primaries, it, grace)]
    return _of(name, [f"a {it.name} to member {it.link.member} at {it.at:.3f}" for it in wrong], "each write went to whom the client could take for the primary")


def _was_primary(primaries: list[tuple[float, frozenset[int]]], write: Command, grace: float) -> bool:
    """The client could take the member for the primary at some moment of the grace before the write, or nothing was known of any."""
    if not primaries or primaries[0][0] > write.at - grace:
        return True
    for (begin, possible), following in zip(primaries, [*primaries[1:], (write.at + 1, frozenset())]):
        if begin <= write.at and following[0] >= write.at - grace and write.link.member in possible:
            return True
    return False


# ---- connections


def stale_connections(run: Run) -> Verdict:
    """Commands on connections that are older than an error by which their pool was to be cleared."""
    name, watch = "stale-connections", run.world.watch
    if run.world.plan.kind == "balancer":
        return Verdict(name, UNJUDGED, "behind a load balancer a clear is of one service")
    if _many_clients(run):
        return Verdict(name, UNJUDGED, "there is more than one client")
    clears: dict[int, list[float]] = defaultdict(list)
    for link in watch.links:
        if link.cut_busy and link.kind == "application" and link.closed is not None:
            clears[link.member].append(link.closed)
    for it in watch.commands:
        if it.code in SHUTTING_DOWN and it.answered is not None and not _was_told(watch, it, it.answered):
            clears[it.link.member].append(it.answered)
    grace = GRACE + _late(run)
    stale = [(it, due) for it in watch.commands for due in clears[it.link.member][:64] if it.link.opened < due < it.at - grace]
    texts = [f"a {it.name} to member {it.link.member} at {it.at:.3f}, on a connection of before the error at {due:.3f}" for it, due in stale]
    return _of(name, texts, f"no connection of before {sum(map(len, clears.values()))} errors that clear a pool was used after them")


def _was_told(watch: Watch, error: Command, answered: float) -> bool:
    """A hello told the error's topology version, or a newer one, while the error was on its way: a client that read the hello first was not to heed the error."""
    for it in watch.told:
        if it.link.member == error.link.member and it.asked < answered and it.at < answered + ON_ITS_WAY and it.version and error.version:
            if it.version[0] == error.version[0] and it.version[1] >= error.version[1]:
                return True
    return False


def wrong_answers(run: Run) -> Verdict:
    """Connections that the client went on using after a reply that answers another request: it took the answer, or kept the connection all the same."""
    watch = run.world.watch
    spoiled = [it for it in watch.links if it.wrong is not None]
    if not spoiled:
        return Verdict("wrong-answers", UNJUDGED, "no reply had another responseTo")
    later = {it.link.number for it in watch.commands if it.link.wrong is not None and it.at > it.link.wrong}
    taken = [it for it in spoiled if it.number in later or it.kind == "poll" and it.last > (it.wrong or 0) or it.kind == "monitor" and _kept(run, it)]
    texts = [f"on a connection ({it.kind}) to member {it.member} at {it.wrong:.3f}" for it in taken]
    return _of("wrong-answers", texts, f"{len(spoiled)} connections with a wrong answer were not used again")


def _kept(run: Run, link: Link) -> bool:
    end = run.seconds if link.closed is None else link.closed
    return link.wrong is not None and end - link.wrong > WRONG_KEPT + _late(run)


# ---- retries and time


def retries(run: Run) -> Verdict:
    """Writes with a number that were not sent again where that was due, or more than once."""
    seen: dict[tuple[bytes, int], list[Command]] = defaultdict(list)
    for it in run.world.watch.commands:
        if it.operation and not it.transaction and it.writes:
            seen[it.operation].append(it)
    if not seen:
        return Verdict("retries", UNJUDGED, "no write had a session and a number")
    limited = any(it.lower().startswith("timeoutms=") for it in run.world.plan.options)
    often = [] if limited else [it for it in seen.values() if len(it) > 2]
    never = [it[0] for it in seen.values() if len(it) == 1 and _retry_missing(run, it[0])]
    texts = [f"a {it[0].name} at {it[0].at:.3f}, sent {len(it)} times" for it in often]
    texts += [f"a {it.name} at {it.at:.3f}, which failed by {'its connection' if it.code is None else f'error {it.code}'} and was not sent again" for it in never]
    again = sum(len(it) > 1 for it in seen.values())
    return _of("retries", texts, f"{again} of {len(seen)} writes were sent again, each once, and none that should have been was not", {"again": again})


def _retry_missing(run: Run, write: Command) -> bool:
    """The write failed so that it should have been sent again, and the client had a primary and time for that.

    It had where another write of it succeeded within half of the time for which it looks for a server. Where it ended by itself right after, with a status, it never looked.
    """
    cut = write.outcome is Outcome.UNANSWERED and write.link.end is End.SERVER and write.link.cut_busy
    if write.answered is None or not (cut or write.code in RETRYABLE):
        return False
    failed_at, due, window = write.answered, RETRY + _late(run), _selection(run) / 2
    if _disturbed(run, failed_at, failed_at + due):
        return False
    client = run.client
    if client is not None and not client.told and client.status != 0 and not client.hung and run.seconds - failed_at < min(due, window):
        return True
    fine = [it for it in _writes(run) if it.outcome is Outcome.ACKNOWLEDGED and it.at > failed_at and it.answered is not None]
    return any(it.answered is not None and it.answered < failed_at + window and run.seconds - it.answered > due for it in fine)


def _selection(run: Run) -> float:
    """For how many seconds the client looks for a server."""
    given = [it.split("=")[1] for it in run.world.plan.options if it.lower().startswith("serverselectiontimeoutms=")]
    return float(given[0]) / 1000 if given else SELECTION


def _disturbed(run: Run, begin: float, end: float) -> bool:
    """A member went down or a connection ended in its handshake meanwhile, so that a retry may have met that and never have come."""
    watch = run.world.watch
    # Behind a load balancer nobody waits for a server: a retry meets at once what ended the first attempt.
    after = begin - _SAME if run.world.plan.kind == "balancer" else begin + _SAME
    down = any(after < it.at <= end and it.text.startswith(("kill ", "restart ", "clog ", "reset ")) for it in watch.deeds)
    return down or any(it.kind == "new" and it.end is End.SERVER and it.closed is not None and begin <= it.closed <= end for it in watch.links)


def recovery(run: Run) -> Verdict:
    """The time from each election to the first success after it, and the longest time without one."""
    watch, limit = run.world.watch, run.world.plan.recover + _late(run)
    elections = [it.at for it in watch.deeds if it.text.split(" ")[0] in ("elect", "crown") and it.at > 0]
    fine = [it for it in watch.commands if it.outcome is Outcome.ACKNOWLEDGED and it.answered is not None]
    ends = [0.0, *(it.answered or 0.0 for it in fine)]
    gap = max((later - sooner for sooner, later in zip(ends, ends[1:])), default=0.0)
    times: list[float] = []
    for at, until in zip(elections, [*elections[1:], run.seconds]):
        found = next((it.answered - at for it in fine if it.answered is not None and it.answered > at and it.writes), None)
        if found is not None:
            times.append(found)
        elif until - at > limit and any(it.at > at for it in watch.commands):
            times.append(until - at)
    numbers = {"longest_gap": round(gap, 3), **({"slowest": round(max(times), 3)} if times else {})}
    if not times:
        return Verdict("recovery", UNJUDGED, f"no write came after an election; {gap:.3f} s was the longest time without a success", numbers)
    slow = [f"{it:.3f} s from an election to the first write" for it in times if it > limit]
    return _of("recovery", slow, f"at most {max(times):.3f} s from an election to the first write, {gap:.3f} s without a success", numbers)


def client(run: Run) -> Verdict:
    """How the client's process ended."""
    end = run.client
    if end is None:
        return Verdict("client", UNJUDGED, "no process of its own")
    if end.hung:
        return Verdict("client", FAILS, "hung: it did not end, and was killed", {"status": end.status})
    if end.status == 0 or end.told and end.status in (-signal.SIGTERM, 128 + signal.SIGTERM):
        return Verdict("client", OK, "ended when it was told to" if end.told else "ended with status 0", {"status": end.status})
    if end.status < 0:
        return Verdict("client", FAILS, f"died by {signal.Signals(-end.status).name}", {"status": end.status})
    return Verdict("client", FAILS, f"ended with status {end.status}", {"status": end.status})


# ---- the proved programs


def fleet(run: Run) -> Verdict:
    """Each hello of a member beside what the proved fleet says after the same events."""
    path = proved.program("mdb_fleet")
    if run.world.plan.kind != "replica" or path is None:
        return Verdict("fleet", UNJUDGED, "no program mdb_fleet" if path is None else "no replica set")
    try:
        told = proved.agreement(run.world.fleet, path)
    except (OSError, ValueError) as why:
        return Verdict("fleet", UNJUDGED, f"{path}: {why}")
    if told.difference:
        return Verdict("fleet", FAILS, f"differs: {told.difference}")
    return Verdict("fleet", OK, f"agrees on {told.replies} hellos of {told.states} states", {"replies": told.replies, "states": told.states})


def recorded(run: Run) -> Verdict:
    """What `mdb_recorded` says of the client's own events."""
    path = proved.program("mdb_recorded")
    if run.recording is None or path is None or not os.path.exists(run.recording) or not os.path.getsize(run.recording):
        return Verdict("recorded", UNJUDGED, "no program mdb_recorded" if run.recording and path is None else "the client recorded nothing")
    try:
        status, text = proved.recorded(path, run.recording, run.standard)
    except (OSError, ValueError) as why:
        return Verdict("recorded", UNJUDGED, f"{path}: {why}")
    return Verdict("recorded", {0: OK, 8: UNJUDGED}.get(status, FAILS), text, {"status": status})


def view(run: Run) -> Verdict:
    """The client's last view of the servers beside that of a driver of the library after the same hellos."""
    if run.recording is None or not os.path.exists(run.recording) or not os.path.getsize(run.recording):
        return Verdict("view", UNJUDGED, "the client recorded nothing")
    if run.world.plan.names is not None:
        return Verdict("view", UNJUDGED, "no server sees when a client asks for names")
    if run.world.watch.lag > BUSY:
        return Verdict("view", UNJUDGED, "the machine is so busy that the client's own time-outs count")
    if late_news(run, GRACE + _late(run)):
        return Verdict("view", UNJUDGED, "something happened right before the end, or a member was not watched then")
    try:
        own, library = of_client(run.recording), of_library(run)
    except (ImportError, OSError, ValueError, KeyError) as why:
        return Verdict("view", UNJUDGED, f"no driver of the library: {why}")
    if not own:
        return Verdict("view", UNJUDGED, "the client told of no servers")
    texts = [f"{address} is {own.get(address, 'not known')} for the client, and {kind} for the library" for address, kind in library.items() if own.get(address) != kind]
    return _of("view", texts, f"the client and the library see the same {len(library)} servers")


JUDGES: list[Judge] = [lost_writes, double_writes, old_primary, stale_connections, wrong_answers, retries, recovery, client, fleet, recorded, view]
