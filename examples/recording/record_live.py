#!/usr/bin/env python3
"""Records what mdb_live tells of its pools, its servers and its topology, as mdb_recorded reads it.

usage: record_live.py FILE MDB_LIVE URI SECONDS [WORD ..]      FILE is - for $MDB_RECORD; MDB_LIVE is run with --events and these words

Its other lines go to the standard output, and its status is this program's.
"""
import json
import os
import signal
import subprocess
import sys

POOL = {'PoolCreated': 'ConnectionPoolCreated', 'PoolReady': 'ConnectionPoolReady', 'PoolCleared': 'ConnectionPoolCleared', 'PoolClosed': 'ConnectionPoolClosed',
        'ConnectionCheckoutStarted': 'ConnectionCheckOutStarted', 'ConnectionCheckoutFailed': 'ConnectionCheckOutFailed'}
SIZES = {'max': 'maxPoolSize', 'idle': 'maxIdleTimeMS'}


def word_of(name):
    """`PoolClosed` as `poolClosed`."""
    return name[0].lower() + name[1:]


def of_pool(name, address, rest):
    """The members of an event of a pool."""
    told = {'kind': 'pool', 'event': POOL.get(name, name), 'address': address}
    if name == 'PoolCreated':
        told.update({SIZES[key]: int(value) for key, value in (it.split('=') for it in rest) if key in SIZES and value != '-'})
    elif name == 'PoolCleared':
        service = rest[0].partition('=')[2]
        told.update({'serviceId': service} if service != '-' else {})
    elif name == 'ConnectionCheckoutFailed':
        told['reason'] = word_of(rest[0])
    elif rest:
        told['connectionId'] = int(rest[0])
    if name == 'ConnectionClosed':
        told['reason'] = {'dropped': 'error'}.get(word_of(rest[1]), word_of(rest[1]))
    return told


def of_server(name, rest):
    """The members of an event of the topology or of one server."""
    told = {'kind': 'beat' if 'Heartbeat' in name else 'sdam', 'event': name}
    if name.startswith('Server'):
        told['address'] = rest[0]
    if name == 'ServerDescriptionChanged':
        told.update({'from': rest[1].replace('Rs', 'RS'), 'to': rest[2].replace('Rs', 'RS')})
    return told


def event_of(line):
    """The event that a line tells, None where it tells none."""
    words = line.split()
    if len(words) < 4 or words[1] != 'event':
        return None
    pool = words[2] == 'Pool'
    told = of_pool(words[4], words[5], words[6:]) if pool else of_server(words[3], words[4:])
    return {'t': float(words[0]), **told}


def main():
    file, *words = sys.argv[1:]
    balanced = any('loadBalanced=true' in it for it in words)
    program = subprocess.Popen([*words, '--events'], stdout=subprocess.PIPE, text=True)
    signal.signal(signal.SIGTERM, lambda *_: program.terminate())
    with open(os.environ['MDB_RECORD'] if file == '-' else file, 'w', encoding='utf-8') as out:
        for line in program.stdout:
            event = event_of(line)
            if event:
                out.write(json.dumps(event) + '\n')
            if event and event['event'] == 'ConnectionPoolCreated' and balanced:
                out.write(json.dumps({**event, 'event': 'ConnectionPoolReady'}) + '\n')  # behind a load balancer it is ready at once, and no event says so
            elif ' event ' not in line:
                sys.stdout.write(line)
    return program.wait()


if __name__ == '__main__':
    sys.exit(main())
