#!/usr/bin/env python3
"""Times a built program on generated scripts and on long scripts of its own.

usage: bench.py PROGRAM

It builds nothing. For each n it runs `PROGRAM make n` five times and takes the best; then it runs scripts of almost
131,072 bytes on pools of three sizes. These times are of whole runs, with the start of the process. At last it times the
replies of hellos in replica sets of two sizes: what a script of them takes more than its first lines alone.
"""
import os
import subprocess
import sys
import tempfile
import time

ROUNDS = (125, 250, 500, 1000, 2000)
SIZES = (10, 100, 1000)
MEMBERS = (3, 50)
REPEATS = 5
MAX_INPUT = 131072
SERVICE = "0102030405060708090a0b0c"


def timed(command, text):
    """The seconds of a run, its greatest resident size in MB, and the bytes that it wrote."""
    reading, writing = os.pipe()
    with tempfile.TemporaryFile() as script:
        script.write(text)
        script.seek(0)
        begun = time.perf_counter()
        process = subprocess.Popen(command, stdin=script, stdout=writing)
        os.close(writing)
        with os.fdopen(reading, "rb") as output:
            written = output.read()
        _, status, usage = os.wait4(process.pid, 0)
        seconds = time.perf_counter() - begun
    if status != 0:
        raise SystemExit(f"{' '.join(command)} ended with status {os.waitstatus_to_exitcode(status)}")
    return seconds, usage.ru_maxrss / 1024, written


def best(command, text):
    """The fastest of some runs, with the greatest size of all."""
    runs = [timed(command, text) for _ in range(REPEATS)]
    seconds = min(taken for taken, _, _ in runs)
    return seconds, max(size for _, size, _ in runs), runs[0][2]


def generated(program):
    """Steps of the generated scripts."""
    print(f"{'n':>5} {'steps':>6} {'steps/s':>10} {'us/step':>9} {'MB':>7}")
    times = []
    for n in ROUNDS:
        seconds, size, written = best([program, "make", str(n)], b"")
        steps = int(written.split()[0].removeprefix(b"lines="))
        times.append(seconds / steps)
        print(f"{n:>5} {steps:>6} {steps / seconds:>10.0f} {1e6 * seconds / steps:>9.2f} {size:>7.1f}")
    print(f"a step at n = {ROUNDS[-1]} takes {times[-1] / times[0]:.2f} times a step at n = {ROUNDS[0]}")


def long_script(most):
    """Almost as many bytes as a script may have. All connections are held; then one party after another asks, an earlier one
    returns its connection, and the request that is granted is told so."""
    lines = [f"open seeds=a:1 lb max={most} connecting={most}"]
    for party in range(1, most + 1):
        lines += [f"request 0 {party} a:1", f"established 0 0 {party} wire=21 sid={SERVICE}"]
    length = sum(len(line) + 1 for line in lines)
    party = most
    while True:
        party += 1
        more = [f"request 1 {party} a:1", f"return 1 {party - most} ok", f"collect 1 {party}"]
        length += sum(len(line) + 1 for line in more)
        if length > MAX_INPUT:
            return "".join(line + "\n" for line in lines).encode()
        lines += more


def long_scripts(program):
    """Entries of scripts of almost the greatest length."""
    print(f"{'max':>5} {'entries':>8} {'entries/s':>10} {'log MB/s':>9} {'MB':>7}")
    for most in SIZES:
        script = long_script(most)
        seconds, size, written = best([program], script)
        entries = script.count(b"\n")
        if written.count(b"\n") != entries or b" | Refused" in written:
            raise SystemExit("the log is not that of the script")
        print(f"{most:>5} {entries:>8} {entries / seconds:>10.0f} {len(written) / seconds / 1e6:>9.2f} {size:>7.1f}")


def greeting(members, member, wire):
    """The reply of a member of a replica set, of which the first is the primary."""
    hosts = ",".join(f"m{i:02}:1" for i in range(members))
    if member == 0:
        return f"hello 1 m00:1 0 ok rtt=5 isWritablePrimary=true hosts={hosts} setName=rs minWireVersion=0 maxWireVersion={wire}"
    return f"hello 1 m{member:02}:1 {member} ok rtt=5 hosts={hosts} setName=rs secondary=true minWireVersion=0 maxWireVersion={wire}"


def hellos(program):
    """Replies of hellos that change nothing, and replies that change their server."""
    print(f"{'members':>7} {'replies':>9} {'replies/s':>10} {'us/reply':>9}")
    for members in MEMBERS:
        first = ["open seeds=" + ",".join(f"m{i:02}:1" for i in range(members)) + " set=rs"]
        first += [greeting(members, member, 21) for member in range(members)]
        start = "".join(line + "\n" for line in first).encode()
        before, _, _ = best([program], start)
        for name, wires in (("same", (21, 21)), ("changed", (20, 21))):
            count = (MAX_INPUT - len(start)) // (len(greeting(members, members - 1, 21)) + 1)
            more = [greeting(members, 1 + i // 2 % (members - 1), wires[i % 2]) for i in range(count)]
            seconds, _, written = best([program], start + "".join(line + "\n" for line in more).encode())
            if written.count(b" | Changed true") != members + (count if name == "changed" else 0):
                raise SystemExit("the log is not that of the script")
            print(f"{members:>7} {name:>9} {count / (seconds - before):>10.0f} {1e6 * (seconds - before) / count:>9.2f}")


def main():
    if len(sys.argv) != 2:
        raise SystemExit(__doc__)
    program = os.path.abspath(sys.argv[1])
    generated(program)
    print()
    long_scripts(program)
    print()
    hellos(program)


if __name__ == "__main__":
    main()
