#!/usr/bin/env python3
"""Times rounds of a whole driver, by the built program of crates/mdb_bench.

usage: driver.py PROGRAM [ROUNDS]

It builds nothing. A round is a request of a server's pool that is answered with a connection, and its return: two steps, each with its entry in the log. `PROGRAM calm ROUNDS 1
SERVERS CONNECTIONS` opens a driver, has each server greet, establishes all connections, and does the rounds in one thread, at one server after the other; each 1,000 entries the
log lets them go. It writes a line after each tenth of the rounds, and the time from one line to the next is that of a tenth. Told are the least and the median microseconds a round
over the tenths but the first.

`PROGRAM taken ROUNDS THREADS SERVERS CONNECTIONS` does the rounds in each of so many threads at a shared driver, while one more thread establishes connections and one takes the entries.
Told are the rounds a second of all threads, over the whole run of the process; the best of three runs.
"""
import subprocess
import sys
import time
from statistics import median

ROUNDS = 1_000_000
FLEETS = ((1, 1), (1, 10), (1, 100), (1, 1_000), (1, 10_000), (10, 1), (10, 100), (10, 1_000), (128, 1), (128, 78))
THREADS = (1, 2, 4)
SHARED = ((1, 4), (8, 4))
REPEATS = 3


def tenths(program, rounds, servers, connections):
    """The seconds of each tenth of the rounds of one thread."""
    child = subprocess.Popen([program, 'calm', str(rounds), '1', str(servers), str(connections)], stdout=subprocess.PIPE, text=True)
    times = []
    for line in child.stdout:
        if not line.startswith('returned='):
            sys.exit('told %r' % line)
        times.append(time.perf_counter())
    if child.wait() != 0 or len(times) != 10:
        sys.exit('%d servers, %d connections: status %d, %d lines' % (servers, connections, child.returncode, len(times)))
    return [after - before for before, after in zip(times, times[1:])]


def shared(program, rounds, threads, servers, connections):
    """The rounds a second of all threads."""
    begun = time.perf_counter()
    told = subprocess.run([program, 'taken', str(rounds), str(threads), str(servers), str(connections)], stdout=subprocess.PIPE, text=True)
    seconds = time.perf_counter() - begun
    if told.returncode != 0 or not told.stdout.startswith('returned=%d ' % (rounds * threads)):
        sys.exit('%d threads: status %d, told %r' % (threads, told.returncode, told.stdout))
    return rounds * threads / seconds


def main():
    program, rounds = sys.argv[1], int(sys.argv[2]) if len(sys.argv) > 2 else ROUNDS
    print('servers  connections of each  us a round, least  median')
    for servers, connections in FLEETS:
        times = tenths(program, rounds, servers, connections)
        print('%7d %20d %18.2f %7.2f' % (servers, connections, min(times) / rounds * 1e7, median(times) / rounds * 1e7), flush=True)
    print('threads  servers  rounds a second')
    for servers, connections in SHARED:
        for threads in THREADS:
            best = max(shared(program, rounds // threads, threads, servers, connections) for _ in range(REPEATS))
            print('%7d %8d %16.0f' % (threads, servers, best), flush=True)


main()
