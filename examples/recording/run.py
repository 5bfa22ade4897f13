#!/usr/bin/env python3
"""Records drivers of Debian under load and through a failover, and judges what they recorded.

usage: examples/recording/run.py [--judge PROGRAM] [--seconds N] [--keep FOLDER] [DRIVER ..]

DRIVER is pymongo, go, node or ruby; all where none is named.

The servers are those of checks/live/servers.py: a replica set of three on loopback. While the load runs the primary steps down, a member
is killed and comes back, connections are reset and a member is frozen. PROGRAM is mdb_recorded, as `rt run` leaves it in
crates/mdb_recorded/out/mdb_recorded; without it nothing is judged.
"""
import argparse
import os
import shutil
import subprocess
import sys
import tempfile
import time

HERE = os.path.dirname(os.path.abspath(__file__))
TOP = os.path.dirname(os.path.dirname(HERE))
PYTHON = '/usr/bin/python3'
# The CMAP of each driver's age: pymongo 3.11, version 1.8 of the Go driver and 3.6 of Node's know no paused pools. Ruby's 2.5 tells nothing of pools.
DRIVERS = {'pymongo': '2020', 'go': '2020', 'node': '2020', 'ruby': '2020'}
PLAY = ['stepdown', 'elect 1', 'reset 1', 'kill 1', 'elect 2', 'start 1', 'freeze 2', 'thaw 2', 'elect 0', 'fail 0 11600 5', 'reset 0', 'elect 1']


def program(driver, folder):
    """The command that records with a driver."""
    if driver == 'pymongo':
        return [PYTHON, os.path.join(HERE, 'record_pymongo.py')]
    if driver == 'node':
        return ['env', 'NODE_PATH=/usr/share/nodejs', 'node', os.path.join(HERE, 'record_node.js')]
    if driver == 'ruby':
        return ['ruby', os.path.join(HERE, 'record_ruby.rb')]
    out = os.path.join(folder, 'record_go')
    env = {**os.environ, 'GO111MODULE': 'off', 'GOPATH': '/usr/share/gocode', 'GOCACHE': os.path.join(folder, 'cache')}
    subprocess.run(['go', 'build', '-o', out, os.path.join(HERE, 'record_go.go')], env=env, check=True)
    return [out]


def record(driver, folder, seconds, servers):
    """One recording, through the play."""
    command = program(driver, folder)
    fleet = subprocess.Popen([PYTHON, servers, 'replica', '3', '--seconds', str(int(seconds) + 60)], stdin=subprocess.PIPE, stdout=subprocess.PIPE, text=True)
    try:
        hosts = fleet.stdout.readline().split()[1]

        def tell(line):
            fleet.stdin.write(line + '\n')
            fleet.stdin.flush()
            return fleet.stdout.readline()

        tell('elect 0')
        uri = 'mongodb://%s/?replicaSet=rs&maxPoolSize=5&maxIdleTimeMS=2000&heartbeatFrequencyMS=1000&serverSelectionTimeoutMS=2000&socketTimeoutMS=1500&connectTimeoutMS=1500&waitQueueTimeoutMS=500' % hosts
        path = os.path.join(folder, driver + '.jsonl')
        with open(path, 'w') as file:
            load = subprocess.Popen(command + [uri, str(seconds), '12'], stdout=file)
            for line in PLAY:
                time.sleep(seconds / (len(PLAY) + 1))
                tell(line)
            load.wait(timeout=seconds + 60)
        tell('quit')
    finally:
        fleet.kill()
        fleet.wait()
    return path


def main():
    parser = argparse.ArgumentParser(description=__doc__.split('\n')[0])
    parser.add_argument('drivers', nargs='*', metavar='DRIVER', default=[])
    parser.add_argument('--judge')
    parser.add_argument('--seconds', type=float, default=12)
    parser.add_argument('--keep')
    parser.add_argument('--servers', default=os.path.join(TOP, 'checks', 'live', 'servers.py'))
    args = parser.parse_args()
    folder = args.keep or tempfile.mkdtemp()
    os.makedirs(folder, exist_ok=True)
    for driver in args.drivers or DRIVERS:
        path = record(driver, folder, args.seconds, args.servers)
        print('%s: %d lines' % (path, sum(1 for _ in open(path))))
        if args.judge:
            answer = subprocess.run([args.judge, '--cmap', DRIVERS[driver]], stdin=open(path), capture_output=True, text=True)
            lines = answer.stdout.splitlines()
            sys.stdout.write('\n'.join(lines[:20] + (['..'] if len(lines) > 40 else []) + lines[20:][-20:]) + '\n')
            print('status %d' % answer.returncode)
    if not args.keep:
        shutil.rmtree(folder)


if __name__ == '__main__':
    main()
