"""Random scripts that keep the grammar, with steps that are accepted and steps that are refused."""

from __future__ import annotations

import random

_ERRORS = ("network msg=reset", "timeout msg=slow", "auth msg=no", "command.91 labels=A msg=shutting down", "other msg=")
_OK = "isWritablePrimary=true maxWireVersion=21"


def script(seed: int, length: int) -> list[str]:
    """A script of this many lines; the same seed gives the same script."""
    chance = random.Random(seed)
    balanced = chance.random() < 0.4
    seeds = ["a:1"] if balanced else ["a:1", "b:2", "c:3"][: chance.randint(1, 3)]
    options = (" lb" if balanced else "") + chance.choice(["", " max=1", " max=3 min=1"]) + chance.choice(["", " idle=4"]) + chance.choice(["", " wait=3"])
    lines, moment, party = [f"open seeds={','.join(seeds)}{options}"], 0, 0
    service = " sid=0102030405060708090a0b0c" if balanced else ""
    while len(lines) < length:
        moment = max(0, moment + chance.choice([0, 0, 1, 1, 2, -1]))
        address, old = chance.choice([*seeds, "z:9"] if chance.random() < 0.05 else seeds), chance.randint(1, party + 1)
        pool, number = chance.randint(0, len(seeds) - 1), chance.randint(1, 1 + party // 2)
        error = chance.choice(_ERRORS)
        kind = chance.choices(
            ["request", "return", "established", "collect", "claim", "giveup", "warm", "failed", "error", "maintain", "expire", "hello", "err", "beat", "beaten", "pin", "take", "unpin", "want", "ctime", "rtt", "stop"],
            [9, 8, 9, 3, 2, 1, 1, 1, 1, 2, 1, 3, 1, 1, 1, 1, 1, 1, 1, 1, 1, 0.05],
        )[0]
        if kind in ("request", "warm"):
            party += 1
        lines.append({
            "request": f"request {moment} {party} {address}", "warm": f"warm {moment} {party} {address}",
            "return": f"return {moment} {old} {chance.choice(['ok', 'ok', 'ok', 'errored', 'dropped', 'streaming'])}",
            "established": f"established {moment} {pool} {number} wire=21{service}", "collect": f"collect {moment} {old}", "claim": f"claim {moment}",
            "giveup": f"giveup {moment} {old}", "failed": f"failed {moment} {pool} {number} {chance.choice(['pre', 'post'])} {error}",
            "error": f"error {moment} {old} {error}", "maintain": f"maintain {moment} {address}", "expire": f"expire {moment} {address}",
            "hello": f"hello {moment} {address} {pool} ok rtt=5 {_OK}", "err": f"hello {moment} {address} {pool} err {error}",
            "beat": f"beat {moment} {address} {pool}", "beaten": f"beaten {moment} {address} {pool} 7 {chance.choice(['ok ' + _OK, 'err ' + error, 'cancelled ' + error])}",
            "pin": f"pin {moment} {old}", "take": f"take {moment} {party + 1} {pool} {number}", "unpin": f"unpin {moment} {pool} {number}",
            "want": f"want {moment} {old}", "ctime": f"ctime {moment} {old}", "rtt": f"rtt {moment} {address} {pool} 9", "stop": f"stop {moment}",
        }[kind])
        if kind == "take":
            party += 1
    return lines
