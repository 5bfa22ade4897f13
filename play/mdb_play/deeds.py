"""What is done to the servers, by the words of a plan."""

from __future__ import annotations

from typing import TYPE_CHECKING, Any, Callable

from .plan import Action, duration
from .points import Point, chance

if TYPE_CHECKING:
    from .member import Member
    from .world import World


def act(world: "World", action: Action) -> None:
    """Does it; the first word behind an action of one member is the member's number."""
    words: list[Any] = list(action.words)
    if words and words[0].isdigit() and action.word not in ("reconfigure", "names"):
        words[0] = world.members[int(words[0])]
    _DEEDS[action.word](world, *words)


# ---- who is primary


def _nobody(_world: "World") -> None:
    """No primary at the beginning."""


def _spread(world: "World", words: str) -> None:
    world.spread = _range(words)


def _elect(world: "World", member: "Member") -> None:
    """It wins an election. The primary before it learns of it at once, or after its part of the `spread`."""
    if not member.up:
        return
    least, most = world.spread
    if most == 0:
        for other in world.members:
            if other is not member and other.believes:
                _step_down(world, other)
                other.rejoin(False)
    _crown(world, member)
    for other in world.members:
        if most == 0:
            _learn(world, other, member.number, world.elections)
        else:
            part = chance(world.plan.seed, f"spread {world.elections}", Point(other.number, "new", 0, 0, "elect"))
            world.later(least + (most - least) * part, _learning(world, other, member.number, world.elections))


def _learning(world: "World", other: "Member", primary: int, election: int) -> Callable[[], None]:
    return lambda: _learn(world, other, primary, election)


def _learn(world: "World", member: "Member", primary: int, election: int) -> None:
    """It hears who won an election, unless it has heard of a later one; an earlier primary steps down."""
    if election < member.heard:
        return
    member.heard, member.primary = election, primary
    if member.number != primary:
        _step_down(world, member)
        member.rejoin(False)
        member.primary = primary
    member.tell()
    world.note()


def _crown(world: "World", member: "Member") -> None:
    """An election that the primary before does not hear of: from now on that one writes to documents of its own."""
    if not member.up:
        return
    keeps = member.branch is not None and member.branched_at == world.elections
    if not keeps:
        for other in world.members:
            if other is not member and other.believes:
                other.leave()
    member.rejoin(keeps)
    world.fleet.elect(member.number)
    _reconfigure_by(world, [member])
    member.heard, member.primary = world.elections, member.number
    member.tell(False)


def _step_down(world: "World", member: "Member") -> None:
    if world.fleet.demote(member.number):
        member.sessions.clear()
        member.primary = None
        member.tell(False)


def _stepdown(world: "World") -> None:
    for member in world.members:
        member.primary = None
        _step_down(world, member)
        member.tell()


def _part(_world: "World", member: "Member") -> None:
    member.leave()


def _heal(world: "World") -> None:
    """All hear each other again: who was left behind by an election steps down, and what it wrote is gone."""
    for member in world.members:
        if member.branch is not None and member.branched_at != world.elections:
            _step_down(world, member)
        member.rejoin(member.branched_at == world.elections)


# ---- processes and connections


def _kill(world: "World", member: "Member") -> None:
    _end(world, member)
    member.kill()


def _end(world: "World", member: "Member") -> None:
    """It believes no longer that it is the primary, and nothing of its own is left."""
    if world.fleet.demote(member.number):
        member.primary = None
    member.rejoin(False)


def _start(world: "World", member: "Member") -> None:
    world.begin_to_listen(member)


def _restart(world: "World", member: "Member") -> None:
    _kill(world, member)
    _start(world, member)


def _clog(world: "World", member: "Member") -> None:
    _end(world, member)
    member.clog()


def _freeze(_world: "World", member: "Member") -> None:
    member.thawed.clear()


def _thaw(_world: "World", member: "Member") -> None:
    member.thawed.set()


def _reset(_world: "World", member: "Member") -> None:
    member.reset()


# ---- answers


def _slow(_world: "World", member: "Member", words: str) -> None:
    member.late = _range(words)


def _fail(_world: "World", member: "Member", code: str, count: str) -> None:
    member.errors = [int(code)] * int(count)


def _damage(_world: "World", member: "Member", kind: str) -> None:
    member.damage = kind
    member.tell()


def _spoil(_world: "World", member: "Member", kind: str) -> None:
    member.spoil = kind


# ---- the configuration


def _hide(world: "World", member: "Member") -> None:
    member.hidden = True
    _configure(world)


def _show(world: "World", member: "Member") -> None:
    member.hidden = False
    _configure(world)


def _rename(_world: "World", member: "Member", name: str) -> None:
    member.name = name
    member.tell()


def _wire(_world: "World", member: "Member", least: str, most: str) -> None:
    member.wires = int(least), int(most)
    member.tell()


def _role(world: "World", member: "Member", role: str) -> None:
    _end(world, member)
    member.role = role
    world.tell()


def _reconfigure(world: "World", numbers: str) -> None:
    world.configured = [int(it) for it in numbers.split(",")]
    _configure(world)


def _names(world: "World", numbers: str) -> None:
    """Who asks for the seed list from now on gets these."""
    world.named = [world.members[int(it)].number for it in numbers.split(",")]


def _configure(world: "World") -> None:
    """The set's version rises: by who believes to be the primary, or by the winner of the next election."""
    world.changes += 1
    _reconfigure_by(world, [it for it in world.members if it.believes])
    world.tell()


def _reconfigure_by(world: "World", primaries: list["Member"]) -> None:
    """They make the changes of the configuration that are still to be made."""
    for member in primaries:
        for _ in range(world.changes):
            world.fleet.reconfigure(member.number)
    world.changes = 0 if primaries else world.changes


def _range(words: str) -> tuple[float, float]:
    """Milliseconds, least and most, of `5ms..20ms` or `5ms`."""
    least, _, most = words.partition("..")
    return duration(least), duration(most or least)


_DEEDS: dict[str, Callable[..., None]] = {
    "nobody": _nobody,
    "spread": _spread,
    "elect": _elect,
    "crown": _crown,
    "stepdown": _stepdown,
    "part": _part,
    "heal": _heal,
    "kill": _kill,
    "start": _start,
    "restart": _restart,
    "clog": _clog,
    "freeze": _freeze,
    "thaw": _thaw,
    "reset": _reset,
    "slow": _slow,
    "fail": _fail,
    "damage": _damage,
    "spoil": _spoil,
    "hide": _hide,
    "show": _show,
    "rename": _rename,
    "wire": _wire,
    "role": _role,
    "reconfigure": _reconfigure,
    "names": _names,
}
