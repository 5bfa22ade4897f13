#!/usr/bin/env python3
"""Times rounds of one pool on the built program of crates/mdb_bench.

usage: pool.py PROGRAM

It builds nothing but a loop of additions by gcc. A round of `available` is a request, which gets the connection that came back last, and its return. A
round of `waiting` is a return, a collect by the caller that waits longest, who has the connection now, and the request of a new caller,
who comes last. The program does the rounds twice, each time on a pool of its own, and says when the pool is opened and when the rounds are
done: a round takes what passes between the two, over the number of rounds. So the start of the process, the opening of the pool and the
giving back of the log's memory are left out, and the making of the log is not. The first time the memory is fresh from the system,
the second time it is what the process had before, as far as the C library kept it. All kinds and sizes are run one after another, nine times over.
There are so many rounds that the tables of all requests grow as often for each size.

A virtual machine gives a process a changing part of its processor: the same additions, one a cycle, were seen to run at 1.1 to 3.0 GHz within minutes. So
they are timed before and after each run, and a run counts where the two agree to a tenth. Its cycles are the time that passed by the mean of the two
clocks. Told are the least time as it passed, and the median of the cycles as the time that they take at 2.5 GHz. While the machine is slow, the least
times are not those of its full clock; while its clock changes much, few runs count for the medians. So sizes are compared by both.

Bytes a round are those by which the greatest resident size of a run exceeds that of one without rounds: of the log, and of what the pool
keeps. A size is at least that of this script, some 15 MB, so that where the opened pool is smaller they are up to 300 too few.
"""
import math
import os
import statistics
import subprocess
import sys
import tempfile
import time

STEPS = {"available": 2, "waiting": 3}
SIZES = (1, 10, 100, 1000, 10000)
COMPARED = (10, 10000)
ROUNDS = 100000
REPEATS = 9
PASSES = 2
CLOCK = 2.5
ADDITIONS = r"""
#include <stdio.h>
#include <time.h>
int main(void)
{
    struct timespec begun, done;
    unsigned long sum = 0;
    clock_gettime(CLOCK_MONOTONIC, &begun);
    for (long i = 0; i < 50000000; i++)
        __asm__ volatile("add $1, %0" : "+r"(sum));
    clock_gettime(CLOCK_MONOTONIC, &done);
    printf("%f\n", sum / ((done.tv_sec - begun.tv_sec) * 1e9 + (done.tv_nsec - begun.tv_nsec)));
    return 0;
}
"""


def built(folder):
    """The program that tells its clock in GHz."""
    program = os.path.join(folder, "clock")
    subprocess.run(["gcc", "-O2", "-x", "c", "-o", program, "-"], input=ADDITIONS, text=True, check=True)
    return program


def clock_of(program):
    return float(subprocess.run([program], stdout=subprocess.PIPE, text=True, check=True).stdout)


def wanted(kind, connections, rounds):
    """The line of a run: three steps opened the pool for each connection. Freed slots are used again, so that there is one for each
    connection that nobody has."""
    entries = 3 * connections + STEPS[kind] * rounds
    slots = connections if kind == "available" else 0
    return f"connections={connections} rounds={rounds} entries={entries} granted={connections + rounds} slots={slots}"


def marked(process, line):
    """When the process wrote this line."""
    written = process.stdout.readline()
    moment = time.perf_counter_ns()
    if written != line + "\n":
        raise SystemExit(f"{process.args} wrote {written!r}")
    return moment


def timed(program, kind, connections, rounds):
    """The nanoseconds of the rounds of each pass, and the greatest resident size in bytes."""
    command = [program] + [kind, str(rounds), "1", "1", str(connections)] * PASSES
    process = subprocess.Popen(command, stdin=subprocess.DEVNULL, stdout=subprocess.PIPE, text=True)
    passes = []
    for _ in range(PASSES):
        begun = marked(process, "opened")
        passes.append(marked(process, "done") - begun)
        marked(process, wanted(kind, connections, rounds))
    _, status, usage = os.wait4(process.pid, 0)
    process.returncode = os.waitstatus_to_exitcode(status)
    if process.returncode != 0:
        raise SystemExit(f"{' '.join(command)} ended with status {process.returncode}")
    return passes, usage.ru_maxrss * 1024


def clocked(program, clock, kind, connections):
    """The nanoseconds of each pass of a run, its greatest resident size, and the clock that it had: None where that changed."""
    before = clock_of(clock)
    passes, size = timed(program, kind, connections, ROUNDS)
    after = clock_of(clock)
    steady = abs(before - after) <= 0.1 * max(before, after)
    return passes, size, (before + after) / 2 if steady else None


def least(runs, which):
    """The least nanoseconds of a round in this pass."""
    return min(passes[which] for passes, _, _ in runs) / ROUNDS


def at_clock(runs, which):
    """The median of the nanoseconds that a round in this pass takes at 2.5 GHz; nan where the clock changed in each run."""
    times = [passes[which] * clock / CLOCK for passes, _, clock in runs if clock is not None]
    return statistics.median(times) / ROUNDS if times else math.nan


def tell(kind, connections, empty, runs):
    """A line of all that was measured, where `empty` is the size of a run without rounds."""
    most = max(size for _, size, _ in runs)
    steady = sum(clock is not None for _, _, clock in runs)
    print(f"{kind:>9} {connections:>11} {least(runs, 0):>8.0f} {at_clock(runs, 0):>10.0f} {least(runs, 1):>8.0f} {at_clock(runs, 1):>10.0f} {steady:>6}"
          f" {empty / 1e6:>8.1f} {most / 1e6:>8.1f} {(most - empty) / ROUNDS:>11.0f}")


def compare(kind, few, many):
    """How much longer a round takes among many connections than among few: by the least times, and at 2.5 GHz."""
    told = [f"{of(many, which) / of(few, which):.2f}" for which in range(PASSES) for of in (least, at_clock)]
    print(f"{kind}: a round at {COMPARED[1]} takes {told[0]} times a round at {COMPARED[0]} ({told[1]} at {CLOCK} GHz), again {told[2]} ({told[3]})")


def main():
    if len(sys.argv) != 2:
        raise SystemExit(__doc__)
    program = os.path.abspath(sys.argv[1])
    kinds = [(kind, connections) for kind in STEPS for connections in SIZES]
    empty = {one: timed(program, *one, 0)[1] for one in kinds}
    runs = {one: [] for one in kinds}
    with tempfile.TemporaryDirectory() as folder:
        clock = built(folder)
        for _ in range(REPEATS):
            for one in kinds:
                runs[one].append(clocked(program, clock, *one))
    print(f"{'kind':>9} {'connections':>11} {'ns/round':>8} {'at 2.5 GHz':>10} {'ns again':>8} {'at 2.5 GHz':>10} {'steady':>6}"
          f" {'MB, none':>8} {'MB, all':>8} {'bytes/round':>11}")
    for kind in STEPS:
        for connections in SIZES:
            tell(kind, connections, empty[kind, connections], runs[kind, connections])
        compare(kind, *(runs[kind, connections] for connections in COMPARED))


if __name__ == "__main__":
    main()
