#!/usr/bin/env python3
"""Shows that a driver that runs for long keeps no more memory and gets no slower, by the built program of crates/mdb_bench.

usage: endure.py PROGRAM [ROUNDS [THREADS]]

It builds nothing. `PROGRAM lasting ROUNDS 1 3 4` does rounds of one thread over a driver of three servers: a connection out and in, at one server after the other, with the
entries of the log let go each 1,000 entries, a pool cleared each 1,000 rounds, and a server that goes and comes each 10,000. It writes a line after each
tenth of the rounds. At each line the resident size of the process is read, and the time since the line before. Told are both for each tenth, and whether
the last tenth keeps within 2 % of the memory of the first, and takes no more than 5 % longer. 10,000,000 rounds unless it is said otherwise.

With THREADS, `PROGRAM taken ROUNDS THREADS 3 4` does so many rounds in each of so many threads at a shared driver, while another thread takes the entries. Then the
resident size is read twenty times a second, and told is whether the median of the ninth tenth of the time is within 2 % of that of the second: a size
has the entries that wait to be taken just then. In the last tenth threads end one after another.

The program runs with one heap, without the C library's cache of freed pieces, and gives back what is free at the heap's end. The cache fills by some 200 KB over millions of rounds, a tenth of what the process has, and a heap for each thread keeps the room of the
most that ever waited to be taken, while the memory in use stays the same. Other work on the machine lets the thread that takes the entries come late, and shows in the sizes.
"""
import os
import re
import subprocess
import sys
import time
from statistics import median

ROUNDS = 10_000_000
ENVIRONMENT = dict(os.environ, GLIBC_TUNABLES='glibc.malloc.tcache_count=0:glibc.malloc.arena_max=1:glibc.malloc.trim_threshold=16384')
TOLD = re.compile(r'returned=(\d+) entries=(\d+)')
MORE_MEMORY = 1.02
MORE_TIME = 1.05


def resident(pid):
    """The resident size of the process in KiB, None once it has ended."""
    try:
        with open('/proc/%d/status' % pid) as status:
            for line in status:
                if line.startswith('VmRSS:'):
                    return int(line.split()[1])
    except OSError:
        pass
    return None


def judge(what, first, last, most):
    """Says whether the last is no more than so many times the first."""
    good = last <= first * most
    print('%s: %.1f at first, %.1f at last, %+.1f %%: %s' % (what, first, last, (last / first - 1) * 100, 'holds' if good else 'DOES NOT HOLD'))
    return good


def alone(program, rounds):
    """One thread: a line for each tenth of the rounds."""
    child = subprocess.Popen([program, 'lasting', str(rounds), '1', '3', '4'], stdout=subprocess.PIPE, text=True, env=ENVIRONMENT)
    before, done, parts = time.monotonic(), 0, []
    print('    rounds   KiB   us a round  entries')
    for line in child.stdout:
        now, size = time.monotonic(), resident(child.pid)
        found = TOLD.search(line)
        if not found:
            sys.exit('told %r' % line)
        returned, entries = int(found[1]), int(found[2])
        each = (now - before) / max(1, returned - done) * 1e6
        if size is not None:
            parts.append((size, each))
            print('%10d %6d %10.2f %10d' % (returned, size, each, entries), flush=True)
        before, done = now, returned
    if child.wait() != 0 or len(parts) < 2:
        sys.exit('status %d' % child.returncode)
    memory = judge('memory, KiB', parts[0][0], parts[-1][0], MORE_MEMORY)
    return judge('time, us a round', parts[0][1], parts[-1][1], MORE_TIME) and memory


def shared(program, rounds, threads):
    """Many threads: the resident size from time to time."""
    child = subprocess.Popen([program, 'taken', str(rounds), str(threads), '3', '4'], stdout=subprocess.PIPE, text=True, env=ENVIRONMENT)
    begun, sizes = time.monotonic(), []
    while child.poll() is None:
        size = resident(child.pid)
        if size is not None:
            sizes.append(size)
        time.sleep(0.05)
    passed = time.monotonic() - begun
    told = child.stdout.read().strip()
    if child.returncode != 0 or len(sizes) < 30 or not told.endswith('taken_all=true'):
        sys.exit('status %d, %d sizes, told %r' % (child.returncode, len(sizes), told))
    print('%s, %.2f us a round' % (told, passed / (rounds * threads) * 1e6))
    tenth = len(sizes) // 10
    return judge('memory, KiB', median(sizes[tenth:2 * tenth]), median(sizes[8 * tenth:9 * tenth]), MORE_MEMORY)


def main():
    """Runs the program once."""
    if len(sys.argv) not in (2, 3, 4):
        sys.exit(__doc__)
    program = os.path.abspath(sys.argv[1])
    rounds = int(sys.argv[2]) if len(sys.argv) > 2 else ROUNDS
    good = shared(program, rounds, int(sys.argv[3])) if len(sys.argv) == 4 else alone(program, rounds)
    sys.exit(0 if good else 1)


if __name__ == '__main__':
    main()
