"""A line of a script, any but `open`, said as a call."""

from __future__ import annotations

from mdb import Connection, Driver, Reply, Use

_USES = {"ok": Use.OK, "errored": Use.ERRORED, "dropped": Use.DROPPED, "streaming": Use.STREAMING}


def by_call(driver: Driver, line: str) -> Reply:
    """The reply of the call that makes the step of the line."""
    word, *words = line.split(" ")
    moment, *words = [int(words[0]), *words[1:]]
    if word in ("request", "warm"):
        return getattr(driver, word)(moment, int(words[0]), words[1])
    if word in ("collect", "pin", "want", "unwant"):
        return getattr(driver, word)(moment, int(words[0]))
    if word == "giveup":
        return driver.give_up(moment, int(words[0]))
    if word == "return":
        return driver.return_(moment, int(words[0]), _USES[words[1]])
    if word in ("claim", "stop"):
        return getattr(driver, word)(moment)
    if word == "established":
        named = dict(it.split("=") for it in words[2:])
        server = int(named["server"]) if "server" in named else None
        return driver.established(moment, Connection(int(words[0]), int(words[1])), int(named["wire"]), named.get("sid", ""), server)
    if word in ("replicate", "unpin"):
        return getattr(driver, word)(moment, Connection(int(words[0]), int(words[1])))
    if word == "take":
        return driver.take(moment, int(words[0]), Connection(int(words[1]), int(words[2])))
    if word in ("maintain", "expire"):
        return getattr(driver, word)(moment, words[0])
    if word == "error":
        return driver.error(moment, int(words[0]), " ".join(words[1:]))
    if word == "failed":
        return driver.failed(moment, Connection(int(words[0]), int(words[1])), " ".join(words[2:]))
    if word in ("hello", "beaten"):
        return getattr(driver, word)(moment, words[0], int(words[1]), " ".join(words[2:]))
    if word == "rtt":
        return driver.rtt(moment, words[0], int(words[1]), int(words[2]))
    if word == "hosts":
        return driver.hosts(moment, words[0])
    if word == "ctime":
        return driver.cluster_time(moment, int(words[0]))
    if word == "beat":
        return driver.beat(moment, words[0], int(words[1]))
    raise AssertionError(line)
