#!/usr/bin/env python3
"""Recovery beside other drivers: mdb_live, pymongo, the Go driver and libmongoc insert into the same three members of a replica set at the default heartbeat, and
elections, kills and returns are played to all of them at once.

usage: checks/live/beside.py [--program MDB_LIVE] [--rounds N] [--threads N] [--python PYTHON]

Writes for each play and driver after how many milliseconds its first insert was taken by the new primary: in the middle and at most. Drivers that are not installed are
left out. Status 0 where mdb_live was never later than the latest of the others by more than a second.
"""
import argparse
import os
import subprocess
import sys
import tempfile
import time

sys.dont_write_bytecode = True
from run import HERE, TOP, Servers

# What happens, how many seconds pass, what is timed, and what puts all back.
PLAYS = {
    'election': (['stepdown'], 1, 'elect 1', ['elect 0']),
    'election, no news told': (['silent 0', 'silent 1', 'silent 2', 'stepdown'], 1, 'elect 1', ['tells 0', 'tells 1', 'tells 2', 'elect 0']),
    'kill': (['kill 0'], 1, 'elect 1', ['start 0', 'elect 0']),
    'kill and return': (['kill 0', 'start 0'], 1, 'elect 0', []),
    'freeze': (['freeze 0'], 1, 'elect 1', ['thaw 0', 'elect 0']),
}


def drivers(given, folder):
    """The programs that insert, by the names of their databases."""
    found = {'mdb_live': [given.program]}
    if subprocess.run([given.python, '-c', 'import pymongo'], stderr=subprocess.DEVNULL).returncode == 0:
        found['pymongo'] = [given.python, os.path.join(HERE, 'witness', 'inserts_pymongo.py')]
    by_go, by_c = os.path.join(folder, 'go'), os.path.join(folder, 'mongoc')
    env = {**os.environ, 'GO111MODULE': 'off', 'GOPATH': '/usr/share/gocode'}
    flags = subprocess.run(['pkg-config', '--cflags', '--libs', 'libmongoc-1.0'], stdout=subprocess.PIPE, stderr=subprocess.DEVNULL, text=True).stdout.split()
    for name, out, words in (('go', by_go, ['go', 'build', '-o', by_go, os.path.join(HERE, 'witness', 'inserts_go.go')]),
                             ('libmongoc', by_c, ['cc', '-O1', os.path.join(HERE, 'witness', 'inserts_mongoc.c'), '-o', by_c, *flags, '-lpthread'])):
        try:
            if subprocess.run(words, env=env, stderr=subprocess.DEVNULL).returncode == 0:
                found[name] = [out]
        except FileNotFoundError:
            pass
    return found


def firsts(servers, names, limit):
    """Milliseconds of the first inserts of all, or of those that came in time."""
    until = time.monotonic() + limit
    while time.monotonic() < until:
        told = dict(it.split('=') for it in servers.ask('firsts'))
        if all(it in told for it in names):
            break
        time.sleep(0.02)
    return {name: int(told.get(name, 1000 * limit)) for name in names}


def main():
    parser = argparse.ArgumentParser(description=__doc__, formatter_class=argparse.RawDescriptionHelpFormatter)
    parser.add_argument('--program', default=os.path.join(TOP, 'examples', 'live', 'out', 'mdb_live'))
    parser.add_argument('--rounds', type=int, default=5)
    parser.add_argument('--threads', type=int, default=4)
    parser.add_argument('--python', default='/usr/bin/python3')
    given = parser.parse_args()
    servers = Servers(given.python, 'replica', 3, 3600)
    servers.do('elect 0')
    uri, worst = 'mongodb://%s/?replicaSet=rs' % ','.join(servers.addresses), 0
    with tempfile.TemporaryDirectory() as folder:
        found, running = drivers(given, folder), []
        for name, words in found.items():
            load = ['3600', '--load', str(given.threads), '--pace', '20'] if name == 'mdb_live' else ['3600', str(given.threads)]
            running.append(subprocess.Popen([*words, uri, *load], stdout=subprocess.DEVNULL, stderr=subprocess.DEVNULL))
        firsts(servers, found, 60)
        for play, (before, wait, timed, after) in PLAYS.items():
            took = {name: [] for name in found}
            for _ in range(given.rounds):
                for command in before:
                    servers.do(command)
                time.sleep(wait)
                servers.do(timed)
                for name, milliseconds in firsts(servers, found, 40).items():
                    took[name].append(milliseconds)
                for command in after:
                    servers.do(command)
                servers.do('elect 0')
                firsts(servers, found, 40)
                time.sleep(1)
            print('%s: %s' % (play, ', '.join('%s %d and %d ms' % (name, sorted(it)[len(it) // 2], max(it)) for name, it in took.items())), flush=True)
            others = [max(it) for name, it in took.items() if name != 'mdb_live']
            worst = max(worst, max(took['mdb_live']) - max(others, default=0))
        for program in running:
            program.kill()
            program.wait()
    servers.close()
    return 0 if worst <= 1000 else 1


if __name__ == '__main__':
    sys.exit(main())
