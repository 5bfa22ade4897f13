#!/usr/bin/env python3
"""Times check-outs of many threads that share one pool, by the built program of crates/mdb_bench.

usage: threads.py PROGRAM [ROUNDS]

It builds nothing. `PROGRAM kept ROUNDS THREADS 1 CONNECTIONS` opens a driver with a pool of so many connections and plays it out: each thread checks a connection
out and in, so many rounds, drops it each tenth time, and does nothing else with it, while one worker establishes what is needed. The program tells how
many check-outs that were, how many entries the log has, and the time that passed, with the start of the threads and without the end of the process.

1, 2, 4 and 8 threads run with as many connections, and with a quarter as many, at least one. Each runs five times, one kind after another. Told are the greatest
number of check-outs a second, the entries a check-out in that run, and the bytes a check-out: by how much the greatest resident size exceeds that of
a run of one round, over the check-outs. So the bytes are those of the log, and of what the pool keeps of each request. A process
takes some 14 MB whatever it does, so runs of fewer than some 20,000 check-outs tell no bytes.
"""
import os
import re
import subprocess
import sys

THREADS = (1, 2, 4, 8)
REPEATS = 5
ROUNDS = 20000
TOLD = re.compile(r'returned=(\d+) entries=(\d+) micros=(\d+)')


def run(program, threads, connections, rounds):
    """The check-outs, entries and microseconds of a run, and its greatest resident size in bytes."""
    child = subprocess.Popen([program, 'kept', str(rounds), str(threads), '1', str(connections)], stdout=subprocess.PIPE, text=True)
    told = child.stdout.read()
    _, status, usage = os.wait4(child.pid, 0)
    found = TOLD.search(told)
    if status != 0 or not found:
        sys.exit('%d threads, %d connections: status %d, told %r' % (threads, connections, status, told))
    check_outs, entries, micros = (int(number) for number in found.groups())
    return check_outs, entries, micros, usage.ru_maxrss * 1024


def best(program, threads, connections, rounds):
    """The line of the fastest of some runs."""
    base = min(run(program, threads, connections, 1)[3] for _ in range(2))
    runs = [run(program, threads, connections, rounds) for _ in range(REPEATS)]
    check_outs, entries, micros, size = min(runs, key=lambda it: it[2])
    return '%7d %11d %14.0f %12.2f %9.0f' % (threads, connections, check_outs / micros * 1e6, entries / check_outs, (size - base) / check_outs)


def main():
    """Prints a table of all kinds."""
    if len(sys.argv) not in (2, 3):
        sys.exit(__doc__)
    program, rounds = os.path.abspath(sys.argv[1]), int(sys.argv[2]) if len(sys.argv) == 3 else ROUNDS
    print('threads connections  check-outs a s  entries each bytes each')
    for threads in THREADS:
        for connections in sorted({threads, max(1, threads // 4)}, reverse=True):
            print(best(program, threads, connections, rounds), flush=True)


if __name__ == '__main__':
    main()
