#!/usr/bin/env python3
"""Blows, one after the other, under a load: members are killed, frozen, reset, cut off by full queues, step down, lose elections, answer with errors or with bytes that
are none. After each one inserts are to go on.

usage: checks/live/soak.py [--program MDB_LIVE] [--seconds N] [--threads N] [--seed N] [--python PYTHON] [--patience SECONDS]

Writes a line a minute, with what mdb_live has of the heap in use (heap.c) and what is resident, and its counts at the end. Status 0 where inserts went on within PATIENCE (15) seconds after each blow, and mdb_live
ended well.
"""
import argparse
import os
import random
import signal
import subprocess
import sys
import tempfile
import time

sys.dont_write_bytecode = True
from run import HERE, TOP, Servers

BLOWS = {
    'kill': (['kill 0', 'elect 1'], ['start 0']), 'kill-and-back': (['kill 0', 'start 0'], []), 'freeze': (['freeze 0', 'elect 2'], ['thaw 0']),
    'reset': (['reset 0', 'reset 1', 'reset 2'], []), 'step-down': (['stepdown'], []), 'election': (['elect 1'], []), 'split': (['crown 1'], []),
    'full-queue': (['clog 0', 'elect 1'], ['start 0']), 'slow': (['slow 0 100'], ['slow 0 0']), 'silent': (['silent 0', 'elect 1'], ['tells 0']),
    'shutdown': (['fail 0 11600 3'], []), 'not-primary': (['fail 0 10107 20'], []), 'unknown-code': (['fail 0 112 20'], []),
    **{'bytes-' + kind: (['break 0 ' + kind], ['break 0 none']) for kind in ('short', 'answers', 'half', 'garbage', 'overlong', 'nothing', 'deep')},
    **{'hellos-' + kind: (['damage 0 ' + kind], ['damage 0 none']) for kind in ('huge', 'half', 'garbage', 'field', 'wide')},
}


# One arena, and nothing that threads keep for themselves: what is in use is what was asked for.
PLAIN = {'MALLOC_ARENA_MAX': '1', 'GLIBC_TUNABLES': 'glibc.malloc.tcache_count=0'}


def memory(pid):
    """Kilobytes that are resident."""
    with open('/proc/%d/status' % pid) as file:
        return int(next(it for it in file if it.startswith('VmRSS')).split()[1])


def in_use(folder):
    """Kilobytes of the heap that are in use, as heap.c has written."""
    try:
        with open(os.path.join(folder, 'heap')) as file:
            return int(file.read()) // 1024
    except (OSError, ValueError):
        return 0


def recovered(servers, since, patience):
    """Seconds until ten more inserts were taken, None where that took too long."""
    began, before = time.monotonic(), sum(int(it) for it in servers.ask('inserts'))
    while time.monotonic() < began + patience:
        if sum(int(it) for it in servers.ask('inserts')) >= before + 10:
            return time.monotonic() - since
        time.sleep(0.01)
    return None


def main():
    parser = argparse.ArgumentParser(description=__doc__, formatter_class=argparse.RawDescriptionHelpFormatter)
    parser.add_argument('--program', default=os.path.join(TOP, 'examples', 'live', 'out', 'mdb_live'))
    parser.add_argument('--python', default='/usr/bin/python3')
    parser.add_argument('--seconds', type=int, default=600)
    parser.add_argument('--threads', type=int, default=32)
    parser.add_argument('--seed', type=int, default=1)
    parser.add_argument('--patience', type=float, default=15)
    given = parser.parse_args()
    chance, servers = random.Random(given.seed), Servers(given.python, 'replica', 3, given.seconds + 120)
    servers.do('elect 0')
    uri = 'mongodb://%s/?replicaSet=rs&heartbeatFrequencyMS=500&connectTimeoutMS=1000&maxPoolSize=20&waitQueueTimeoutMS=2000&socketTimeoutMS=3000' % ','.join(servers.addresses)
    words = [given.program, uri, str(given.seconds + 100), '--load', str(given.threads), '--pace', '5']
    folder, written = tempfile.TemporaryDirectory(), tempfile.TemporaryFile('w+')
    heap = os.path.join(folder.name, 'heap.so')
    subprocess.run(['cc', '-O1', '-shared', '-fPIC', os.path.join(HERE, 'heap.c'), '-o', heap, '-lpthread'], check=True)
    env = {**os.environ, **PLAIN, 'LD_PRELOAD': heap, 'HEAP_FILE': os.path.join(folder.name, 'heap')}
    live = subprocess.Popen(words, stdout=written, stderr=subprocess.STDOUT, env=env)
    began, told, took, late = time.monotonic(), 60.0, [], []
    while time.monotonic() < began + given.seconds and live.poll() is None:
        name = chance.choice(sorted(BLOWS))
        blow, after = BLOWS[name]
        for command in blow:
            servers.do(command)
        time.sleep(chance.uniform(0, 1.5))
        for command in after:
            servers.do(command)
        since = time.monotonic()
        servers.do('elect 0')
        seconds = recovered(servers, since, given.patience)
        took.append(seconds if seconds is not None else given.patience)
        late += [name] if seconds is None else []
        if time.monotonic() - began > told:
            told += 60
            print('%4d s: %d blows, %d KB in use, %d KB resident' % (time.monotonic() - began, len(took), in_use(folder.name), memory(live.pid)), flush=True)
    size, used = memory(live.pid) if live.poll() is None else 0, in_use(folder.name)
    live.send_signal(signal.SIGTERM)
    live.wait(60)
    servers.close()
    written.seek(0)
    wrote = written.read()
    print('\n'.join(it for it in wrote.splitlines() if not it[:1].isdigit()))
    took.sort()
    print('%d blows, recovered after %.3f s in the middle and %.3f s at most, late %s; %d KB in use and %d KB resident at the end, status %s' % (
        len(took), took[len(took) // 2], took[-1], late or 'never', used, size, live.returncode))
    return 0 if live.returncode == 0 and not late else 1


if __name__ == '__main__':
    sys.exit(main())
