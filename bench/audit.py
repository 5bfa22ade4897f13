#!/usr/bin/env python3
"""Times the auditor on logs of its own: of 1, 4 and 8 MiB, on pools of three sizes; and on texts that no core writes.

usage: audit.py AUDITOR [MIB [KIND]]

It builds nothing but `bench/colliding.c`, by cc. Of the texts only those are run whose names have KIND, where it is given. Each log is legal: all connections of a pool are held, and then one party after another asks and waits, an
earlier one returns its connection, and the next is granted it. The other texts, of 8 MiB or of MIB, are legal too, but nobody's
logs: much of what they say concerns all that was said before, as when a party that took thousands of connections pins them, gives
up, or ends again and again; or whose numbers collide in a table that hashes with a fixed seed. Each run is made three times, and the best is taken; the time is of the whole run, with the start of
the process.
"""
import os
import subprocess
import sys
import tempfile
sys.dont_write_bytecode = True
sys.path.insert(0, os.path.dirname(os.path.abspath(__file__)))
from bench import SERVICE, timed

MIB = (1, 4, 8)
SIZES = (1, 100, 1000)
REPEATS = 3
OPENING = ("open seeds=a:1 lb max={0} connecting={0} | Done | Sdam TopologyOpening | Sdam TopologyDescriptionChanged Unknown/0 LoadBalanced/1 | Opened 0 a:1"
           " | Pool 0 PoolCreated a:1 max={0} min=- idle=- | Sdam ServerOpening a:1 | Sdam ServerDescriptionChanged a:1 Unknown LoadBalancer"
           " | Sdam TopologyDescriptionChanged LoadBalanced/1 LoadBalanced/1\n")


def rounds(most):
    """The entries of a log without end, a few at a time."""
    yield OPENING.format(most)
    for party in range(1, most + 1):
        yield (f"request 0 {party} a:1 | Establishing 0.{party} | Pool 0 ConnectionCheckoutStarted a:1 | Pool 0 ConnectionCreated a:1 {party} | Granted {party} 0.{party}\n"
               f"established 0 0 {party} wire=21 sid={SERVICE} | Done | Pool 0 ConnectionReady a:1 {party} 0 | Pool 0 ConnectionCheckedOut a:1 {party} 0\n")
    party = most
    while True:
        party += 1
        held = (party - 1) % most + 1
        yield (f"request 1 {party} a:1 | Waiting | Pool 0 ConnectionCheckoutStarted a:1\n"
               f"return 1 {party - most} ok | Done | Pool 0 ConnectionCheckedIn a:1 {held} | Granted {party} 0.{held} | Pool 0 ConnectionCheckedOut a:1 {held} 0\n"
               f"collect 1 {party} | Pooled 0.{held}\n")


def log(most, size):
    """A legal log of at most so many bytes."""
    pieces, length = [], 0
    for piece in rounds(most):
        length += len(piece)
        if length > size:
            return "".join(pieces).encode()
        pieces.append(piece)


SHORT = "open seeds=a:1 lb | Done | Opened 0 a:1 | Pool 0 PoolCreated a:1 -\n"
IDLE = "claim 1 | NoJob"


def pieces(size, first, second):
    """The opening, first(1), first(2) .. for half of the size, and then second(1, n), second(2, n) .., where n is how many came first."""
    length, count = len(SHORT), 0
    yield SHORT
    while length < size // 2:
        count += 1
        piece = first(count)
        length += len(piece)
        yield piece
    turn = 0
    while True:
        turn += 1
        piece = second(turn, count)
        length += len(piece)
        if length > size:
            return
        yield piece


def lines(size, first, second):
    """A text of lines of two kinds."""
    return "".join(pieces(size, first, second))


def facts(size, first, second):
    """Lines of the first kind, and then facts of one entry."""
    text = list(pieces(size - len(IDLE) - 1, first, second))
    begun = next(n for n, piece in enumerate(text) if piece.startswith(" |"))
    return "".join(text[:begun] + [IDLE] + text[begun:] + ["\n"])


def openings(size, fact, second):
    """Pools that one entry opens, and then lines."""
    text = list(pieces(size - len(IDLE) - 1, fact, second))
    begun = next(n for n, piece in enumerate(text) if n and not piece.startswith(" |"))
    return "".join([SHORT, IDLE] + text[1:begun] + ["\n"] + text[begun:])


def grid(size):
    """Parties that take the same connections, and then pins of one and unpins of another."""
    side = int((size / 50) ** 0.5)
    return lines(size, lambda n: f"take 1 {n // side + 1} 0 {n % side + 1} | Done\n", lambda n, m: f"pin 1 {n % side + 1} | Done\nunpin 1 0 {n * 7 % side + 1} | Done\n")


def taken(n):
    return f"take 1 1 0 {n} | Done\n"


def kept(n):
    return taken(n) + f"failed 1 0 {n} pre network msg= | Done | Pool 0 ConnectionCreated a:1 {n}\n"


def weighed(size):
    """Created connections of one party, each unpinned so often, and then as many of its pins, each with a give-up."""
    side = int((size / 22) ** 0.5)
    unpins = [f"unpin 1 0 {n} | Done\n" * side for n in range(1, side + 1)]
    return "".join([SHORT] + [kept(n) for n in range(1, side + 1)] + unpins + ["pin 1 1 | Done\ngiveup 1 1 | Done\n" * side])[:size].rsplit("\n", 1)[0] + "\n"


def colliding(size):
    """A party that takes connections whose keys begin at one place of a table, 120,000 of them in 8 MiB, and then unpins of the last."""
    count = size * 120_000 // (8 * 1_048_576)
    with tempfile.TemporaryDirectory() as folder:
        finder = os.path.join(folder, "colliding")
        subprocess.run(["cc", "-O2", "-o", finder, os.path.join(os.path.dirname(os.path.abspath(__file__)), "colliding.c")], check=True)
        ids = subprocess.run([finder, str(count)], check=True, capture_output=True, text=True).stdout.split()
    takes = SHORT + "".join(f"take 1 1 0 {n} | Done\n" for n in ids)
    unpin = f"unpin 1 0 {ids[-1]} | Done\n"
    return takes + unpin * ((size - len(takes)) // len(unpin))


def plain(size):
    """The same with the ids from 1 on."""
    count = size * 120_000 // (8 * 1_048_576)
    takes = SHORT + "".join(f"take 1 1 0 {n} | Done\n" for n in range(1, count + 1))
    unpin = f"unpin 1 0 {count} | Done\n"
    return takes + unpin * ((size - len(takes)) // len(unpin))


def shared(n):
    return f"take 1 {n} 0 1 | Done\n"


KINDS = (
    ("connections of one party, its ends in one entry", lambda size: facts(size, taken, lambda n, m: " | Ended 1 Closed")),
    ("connections of one party, its pins", lambda size: lines(size, taken, lambda n, m: "pin 1 1 | Done\n")),
    ("connections of one party, its give-ups", lambda size: lines(size, taken, lambda n, m: "giveup 1 1 | Done\n")),
    ("connections of one party, its pins and give-ups", lambda size: lines(size, taken, lambda n, m: "pin 1 1 | Done\ngiveup 1 1 | Done\n")),
    ("connections of one party, its returns", lambda size: lines(size, taken, lambda n, m: "return 1 1 ok | Done\n")),
    ("one connection of many parties, unpins", lambda size: lines(size, shared, lambda n, m: "unpin 1 0 1 | Done\n")),
    ("one connection of many parties, returns", lambda size: lines(size, shared, lambda n, m: f"return 1 {n % m + 1} ok | Done\n")),
    ("many connections of many parties, pins and unpins", grid),
    ("created connections of one party, its pins", lambda size: lines(size, kept, lambda n, m: "pin 1 1 | Done\n")),
    ("created connections of one party, its give-ups", lambda size: lines(size, kept, lambda n, m: "giveup 1 1 | Done\n")),
    ("created connections of one party, one pinned, give-ups", lambda size: lines(size, kept, lambda n, m: "unpin 1 0 1 | Done\nreplicate 1 0 1 | Done\ngiveup 1 1 | Done\n")),
    ("created connections of one party, each pinned, give-ups", lambda size: lines(size, kept, lambda n, m: f"unpin 1 0 {n % m + 1} | Done\nreplicate 1 0 {n % m + 1} | Done\ngiveup 1 1 | Done\n")),
    ("created connections of one party, as many unpins as pins", weighed),
    ("created connections of one that returned, pins, give-ups", lambda size: lines(size, kept, lambda n, m: "return 1 1 ok | Done" + "".join(f" | Pool 0 ConnectionCheckedIn a:1 {k}" for k in range(1, m + 1)) + "\n" if n == 1 else "pin 1 1 | Done\ngiveup 1 1 | Done\n")),
    ("openings, requests", lambda size: openings(size, lambda n: f" | Opened {n} a:{n % 65535 + 1}", lambda n, m: f"request 1 {n} a:{n % 65535 + 1} | Waiting\n")),
    ("openings, closings", lambda size: openings(size, lambda n: f" | Opened {n} b{n}:1", lambda n, m: f"{IDLE} | Pool {n % m + 1} PoolClosed a:1\n")),
    ("openings of one number, its closings", lambda size: openings(size, lambda n: f" | Opened 1 b{n}:1", lambda n, m: f"{IDLE} | Pool 1 PoolClosed a:1\n")),
    ("requests at no pool, their ends", lambda size: lines(size, lambda n: f"request 1 {n} b:1 | Waiting\n", lambda n, m: f"{IDLE} | Ended {n % m + 1} Closed\n")),
    ("one entry of facts", lambda size: facts(size, lambda n: IDLE + "\n", lambda n, m: " | CheckNow a:1")),
    ("connections that collide where a seed is fixed", colliding),
    ("the same with other ids", plain),
    ("short lines", lambda size: lines(size, lambda n: IDLE + "\n", lambda n, m: "stop 1 | Done\n")),
)


def measured(program, text):
    """How many entries the legal text has, the least seconds of its runs, and the greatest size."""
    runs = [timed([program], text) for _ in range(REPEATS)]
    entries = text.count(b"\n")
    if runs[0][2] != f"legal entries={entries}\n".encode():
        raise SystemExit(f"the auditor says {runs[0][2]!r}")
    return entries, min(it[0] for it in runs), max(it[1] for it in runs)


def main():
    if len(sys.argv) not in (2, 3, 4) or sys.argv[1].startswith("-"):
        raise SystemExit(__doc__)
    program = os.path.abspath(sys.argv[1])
    most_bytes = int(sys.argv[2]) if len(sys.argv) > 2 else max(MIB)
    kind = sys.argv[3] if len(sys.argv) > 3 else None
    if kind is None:
        of_logs(program)
    print(f"{'a text of ' + str(most_bytes) + ' MiB':<58} {'entries':>8} {'seconds':>8} {'MB':>7}")
    for name, make in KINDS:
        if kind is None or kind in name:
            entries, seconds, most_size = measured(program, make(most_bytes * 1_048_576).encode())
            print(f"{name:<58} {entries:>8} {seconds:>8.2f} {most_size:>7.1f}", flush=True)


def of_logs(program):
    """Prints the lines of legal logs, of pools of three sizes."""
    print(f"{'max':>5} {'MiB':>4} {'entries':>8} {'seconds':>8} {'entries/s':>10} {'MB':>7}")
    for most in SIZES:
        for size in MIB:
            text = log(most, size * 1_048_576)
            entries, seconds, most_size = measured(program, text)
            print(f"{most:>5} {size:>4} {entries:>8} {seconds:>8.2f} {entries / seconds:>10.0f} {most_size:>7.1f}")


if __name__ == "__main__":
    main()
