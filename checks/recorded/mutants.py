#!/usr/bin/env python3
"""Changed recordings against plain definitions: mdb_recorded must say of each what checks/recorded/plain.py says.

usage: checks/recorded/mutants.py PROGRAM [COUNT] [--seed N] [FILE ..]

PROGRAM is mdb_recorded. Each mutant is a piece of a FILE, or of a recording that is made up here, with one to three changes: a line dropped, doubled or moved, two lines
swapped, a number, a reason, an address, a time or a member changed, a byte damaged. COUNT is 1000. It ends at the first that differs.
"""
import argparse
import json
import random
import subprocess
import sys

import plain


def made_up(chance):
    """A recording of two or three pools, most of it right."""
    lines, now = [], 0.0
    pools = {}

    def tell(address, event, kind='pool', **more):
        nonlocal now
        now += chance.choice((0, 0.0001, 0.01, 0.3, 1.5))
        where = {} if address is None else {'address': address}
        lines.append(json.dumps({'t': round(now, chance.choice((3, 6))), 'kind': kind, 'event': event, **where, **more}))

    for n in range(chance.randint(1, 3)):
        pools['h%d:1' % n] = None
    servers, left = {}, {}
    waiting = {address: [] for address in pools}

    def served(address):
        """Who is served, mostly the one that was started first."""
        queue = waiting[address]
        if not queue:
            return {}
        return queue.pop(0 if chance.random() < .8 else chance.randrange(len(queue)))

    def tell_server():
        address = chance.choice(list(pools))
        server = servers.get(address)
        if server is None:
            if not servers and chance.random() < .8:
                tell(None, 'TopologyOpening', 'sdam')
            tell(address, 'ServerOpening', 'sdam')
            servers[address] = {'kind': 'Unknown', 'checked': False}
        elif chance.random() < .4:
            tell(address, chance.choice(plain.BEATS[1:]) if server['checked'] else plain.BEATS[0], 'beat')
            server['checked'] = not server['checked']
        elif chance.random() < .1:
            tell(address, 'ServerClosed', 'sdam')
            servers[address] = None
        else:
            to = chance.choice(plain.KINDS)
            tell(address, 'ServerDescriptionChanged', 'sdam', **{'from': server['kind'], 'to': to})
            server['kind'] = to
            if chance.random() < .8:
                tell(None, 'TopologyDescriptionChanged', 'sdam')

    beside = chance.choice((0, 0, .3, .6))
    for _ in range(chance.randint(10, 60)):
        if chance.random() < beside:
            tell_server()
            continue
        address = chance.choice(list(pools))
        pool = pools[address]
        if pool is None:
            options = {key: value for key, value in (('maxPoolSize', chance.randint(0, 4)), ('maxConnecting', 2), ('maxIdleTimeMS', chance.choice((0, 100, 1000))), ('loadBalanced', chance.random() < .2)) if chance.random() < .7}
            tell(address, 'ConnectionPoolCreated', **options)
            first = 1 if chance.random() < .7 else 5
            pools[address] = {'next': first, 'idle': [], 'out': left.pop(address, []), 'pending': [], 'ready': False}
            continue
        act = chance.random()
        if act < .12:
            tell(address, 'ConnectionPoolReady')
            pool['ready'] = True
        elif act < .16:
            tell(address, 'ConnectionPoolCleared', **({'serviceId': '0'} if chance.random() < .2 else {}))
            pool['ready'] = False
        elif act < .18:
            tell(address, 'ConnectionPoolClosed')
            pools[address], left[address] = None, pool['out'] if chance.random() < .7 else []
        elif act < .36:
            callers = {'caller': chance.randint(1, 9)} if chance.random() < .8 else {}
            tell(address, 'ConnectionCheckOutStarted', **callers)
            if callers:
                waiting[address].append(callers)
            if chance.random() < .3:
                tell(address, 'ConnectionCheckOutFailed', reason=chance.choice(('timeout', 'connectionError', 'poolClosed', 'other')), **served(address))
        elif act < .5:
            tell(address, 'ConnectionCreated', connectionId=pool['next'], **(served(address) if chance.random() < .5 else {}))
            pool['pending'].append(pool['next'])
            pool['next'] += 1
        elif act < .64 and pool['pending']:
            tell(address, 'ConnectionReady', connectionId=pool['pending'][0])
            pool['idle'].append(pool['pending'].pop(0))
        elif act < .8 and pool['idle']:
            pool['out'].append(pool['idle'].pop())
            tell(address, 'ConnectionCheckedOut', connectionId=pool['out'][-1], **served(address))
        elif act < .92 and pool['out']:
            pool['idle'].append(pool['out'].pop(0))
            tell(address, 'ConnectionCheckedIn', connectionId=pool['idle'][-1])
        else:
            some = chance.choice(('idle', 'out', 'pending'))
            if pool[some]:
                tell(address, 'ConnectionClosed', connectionId=pool[some].pop(), reason=chance.choice(('idle', 'stale', 'error', 'poolClosed')))
    return lines


def changed(line, chance):
    """A line with a member changed."""
    try:
        thing = json.loads(line)
    except ValueError:
        return line
    if not isinstance(thing, dict) or not thing:
        return line
    key = chance.choice(list(thing))
    kind = chance.random()
    if kind < .15:
        del thing[key]
    elif key in ('from', 'to'):
        thing[key] = chance.choice(plain.KINDS + ('Other', '', 4, None))
    elif key == 'caller':
        thing[key] = chance.choice((0, 1, 2, 3, 4, 5, 2 ** 64, -1, 'one', None))
    elif key == 'connectionId':
        thing[key] = chance.choice((1, 2, 3, 0, 2 ** 64 - 1, 2 ** 64, -1, 1.5, 'one', None, thing[key]))
    elif key == 'event':
        thing[key] = chance.choice(plain.NEEDS_ID + plain.OTHERS + plain.SERVERS + plain.TOPOLOGIES + plain.BEATS + ('Other',))
    elif key == 'reason':
        thing[key] = chance.choice(('idle', 'stale', 'error', 'connectionError', 'timeout', 'poolClosed', '', 7))
    elif key == 't':
        thing[key] = chance.choice((0, 1, 1e30, -1, 3.25, 'now', thing[key]))
    elif key == 'address':
        thing[key] = chance.choice(('h0:1', 'h1:1', 'h:9', '', 'ä:1', 5))
    elif key == 'kind':
        thing[key] = chance.choice(('pool', 'sdam', 'beat', 3))
    else:
        thing[key] = chance.choice((0, 1, 2, 100, 'x', 2.0, None, True, False))
    return json.dumps(thing, ensure_ascii=chance.random() < .5)


def mutate(lines, chance):
    lines = list(lines)
    for _ in range(chance.randint(0, 3)):
        if not lines:
            break
        n, m = chance.randrange(len(lines)), chance.randrange(len(lines))
        kind = chance.random()
        if kind < .2:
            del lines[n]
        elif kind < .4:
            lines.insert(m, lines[n])
        elif kind < .6:
            lines[n], lines[m] = lines[m], lines[n]
        elif kind < .9:
            lines[n] = changed(lines[n], chance)
        elif kind < .95 and lines[n]:
            at = chance.randrange(len(lines[n]))
            lines[n] = lines[n][:at] + chance.choice('{}[],:"0 \\x') + lines[n][at + 1:]
        else:
            lines.insert(m, chance.choice(('', '{}', '[]', '7', 'null', '{"kind":"sdam"}', '{"kind":"pool"}', '{"kind":"sdam","event":"TopologyDescriptionChanged"}', ' {"kind": "beat"} ', 'nonsense')))
    return ('\n'.join(lines) + chance.choice(('\n', '\n', '\n', ''))).encode()


def main():
    parser = argparse.ArgumentParser()
    parser.add_argument('program')
    parser.add_argument('count', nargs='?', type=int, default=1000)
    parser.add_argument('files', nargs='*')
    parser.add_argument('--seed', type=int, default=1)
    args = parser.parse_args()
    chance = random.Random(args.seed)
    recorded = [open(name).read().splitlines() for name in args.files]
    told, findings, clean, malformed = {}, 0, 0, 0
    for n in range(args.count):
        if recorded and chance.random() < .3:
            whole = chance.choice(recorded)
            at = chance.choice((0, chance.randrange(len(whole))))
            lines = whole[at:at + chance.randint(5, 120)]
        else:
            lines = made_up(chance)
        data, year = mutate(lines, chance), chance.choice((0, 0, 2020, 2021))
        want, status = plain.report(data, year)
        answer = subprocess.run([args.program] + (['--cmap', str(year)] if year else []), input=data, capture_output=True)
        if (answer.stdout, answer.returncode) != (want, status):
            open('/tmp/mutant.jsonl', 'wb').write(data)
            sys.exit('mutant %d (year %d, kept in /tmp/mutant.jsonl) differs:\n%s\n%r\nwanted, %d:\n%s' % (n, year, answer.stdout.decode(), answer.returncode, status, want.decode()))
        clean += status == 0
        for line in want.decode().splitlines():
            if line.startswith('event '):
                told[line.split()[2]] = told.get(line.split()[2], 0) + 1
            malformed += line.endswith(': malformed')
    print('%d mutants, none differs: %d clean, %d malformed lines, findings %s' % (args.count, clean, malformed, ', '.join('%s %d' % it for it in sorted(told.items()))))


if __name__ == '__main__':
    main()
