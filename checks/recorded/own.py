#!/usr/bin/env python3
"""What mdb_recorded says of this project's own driver: logs of mdb_script, told as recordings.

usage: checks/recorded/own.py PROGRAM SCRIPT [COUNT] [--seed N]

PROGRAM is mdb_recorded and SCRIPT mdb_script. The scripts are those of mdb_checks_top, and COUNT (300) that are made at random. Each finding must be one of EXPLAINED.
"""
import argparse
import collections
import importlib.util
import json
import os
import random
import subprocess
import sys

CHECKS = os.path.dirname(os.path.dirname(os.path.abspath(__file__)))
sys.dont_write_bytecode = True  # the repository is left as it is
sys.path.insert(0, CHECKS)
from faults import scripts

# What the driver that is ported does, and CMAP does not: a finding is right.
EXPLAINED = {
    'not-checked-out': 'a connection that nobody waits for any more, or that fills the pool, is told to be checked in',
    'too-many': 'a pool whose minimum is above its maximum is filled up to the minimum',
    'no-reason': 'callers of a pool that is being closed are told a connection error',
}
NAMES = {
    'PoolCreated': 'ConnectionPoolCreated', 'PoolReady': 'ConnectionPoolReady', 'PoolCleared': 'ConnectionPoolCleared', 'PoolClosed': 'ConnectionPoolClosed',
    'ConnectionCheckoutStarted': 'ConnectionCheckOutStarted', 'ConnectionCheckoutFailed': 'ConnectionCheckOutFailed',
}
CLOSED = {'Idle': 'idle', 'Stale': 'stale', 'Error': 'error', 'PoolClosed': 'poolClosed', 'Dropped': 'error'}
FAILED = {'Timeout': 'timeout', 'ConnectionError': 'connectionError'}


def options(words):
    return {key: value for key, _, value in (word.partition('=') for word in words) if value != '-'}


def pool_event(words, is_balanced):
    """A fact of a pool, without its first two words."""
    name, address, *rest = words
    told = {'kind': 'pool', 'event': NAMES.get(name, name), 'address': address}
    if name == 'PoolCreated':
        told.update({'loadBalanced': True} if is_balanced else {}, **({'maxPoolSize': int(options(rest)['max'])} if 'max' in options(rest) else {}))
    elif name == 'PoolCleared':
        told.update({'serviceId': options(rest)['service']} if 'service' in options(rest) else {})
    elif name == 'ConnectionCheckoutFailed':
        told['reason'] = FAILED[rest[0]]
    elif name in ('ConnectionCreated', 'ConnectionReady', 'ConnectionClosed', 'ConnectionCheckedOut', 'ConnectionCheckedIn'):
        told['connectionId'] = int(rest[0])
        told.update({'reason': CLOSED[rest[1]]} if name == 'ConnectionClosed' else {})
    return told


def server_event(words):
    """A fact of servers or of the topology, without its first word."""
    name, *rest = words
    told = {'kind': 'beat' if name.startswith('ServerHeartbeat') else 'sdam', 'event': name}
    if name.startswith('Server'):
        told['address'] = rest[0]
    if name == 'ServerDescriptionChanged':
        told['from'], told['to'] = (kind.replace('Rs', 'RS') for kind in rest[1:3])
    return told


def recording(log):
    """The events of a printed log."""
    is_balanced = 'lb' in log.split(' | ', 1)[0].split(' ')
    for line in log.splitlines():
        for fact in line.split(' | ')[1:]:
            kind, *words = fact.split(' ')
            if kind == 'Pool':
                yield pool_event(words[1:], is_balanced)
            elif kind == 'Sdam':
                yield server_event(words)


def made(count, seed):
    """Scripts at random, by checks/audit/mutants.py."""
    spec = importlib.util.spec_from_file_location('audit_mutants', os.path.join(CHECKS, 'audit/mutants.py'))
    module = importlib.util.module_from_spec(spec)
    spec.loader.exec_module(module)
    chance = random.Random(seed)
    return [module.made(chance) for _ in range(count)]


def main():
    parser = argparse.ArgumentParser(description=__doc__.split('\n')[0])
    parser.add_argument('program')
    parser.add_argument('script')
    parser.add_argument('count', nargs='?', type=int, default=300)
    parser.add_argument('--seed', type=int, default=1)
    args = parser.parse_args()
    found, events = collections.Counter(), 0
    for lines in [it[1] for it in scripts()] + made(args.count, args.seed):
        ran = subprocess.run([args.script], input='\n'.join(lines) + '\n', capture_output=True, text=True, check=False)
        told = [json.dumps(it) + '\n' for it in recording(ran.stdout)]
        answer = subprocess.run([args.program], input=''.join(told), capture_output=True, text=True, check=False)
        events += len(told)
        for finding in (it for it in answer.stdout.splitlines() if it.startswith(('event ', 'line '))):
            word = finding.split(' ')[2]
            found[word] += 1
            if word not in EXPLAINED:
                sys.exit('%s\nof the script\n%s' % (finding, '\n'.join(lines)))
    print('%d events; findings, all explained: %s' % (events, ', '.join('%s %d' % it for it in sorted(found.items()))))


if __name__ == '__main__':
    main()
