#!/usr/bin/env python3
"""Small recordings, and what the standards say of each: which events break which rule, and the last line.

usage: checks/recorded/cases.py PROGRAM

PROGRAM is mdb_recorded. What is wanted is worked out from CMAP and SDAM and not from what the program says. checks/recorded/plain.py is asked the same.
"""
import collections
import json
import subprocess
import sys

import plain

# A line is `EVENT [CONNECTION] [KEY=VALUE ..]`: events by their short names below, the connection by its number, values as JSON or else as text.
EVENTS = {
    'pool': 'ConnectionPoolCreated', 'ready': 'ConnectionPoolReady', 'clear': 'ConnectionPoolCleared', 'close': 'ConnectionPoolClosed', 'start': 'ConnectionCheckOutStarted',
    'fail': 'ConnectionCheckOutFailed', 'create': 'ConnectionCreated', 'established': 'ConnectionReady', 'out': 'ConnectionCheckedOut', 'in': 'ConnectionCheckedIn', 'end': 'ConnectionClosed',
    'topology': 'TopologyOpening', 'change': 'TopologyDescriptionChanged', 'last': 'TopologyClosed', 'open': 'ServerOpening', 'server': 'ServerDescriptionChanged', 'gone': 'ServerClosed',
    'check': 'ServerHeartbeatStarted', 'good': 'ServerHeartbeatSucceeded', 'bad': 'ServerHeartbeatFailed',
}
Case = collections.namedtuple('Case', 'name lines findings status last', defaults=('',))
KEPT, BROKEN, NOTHING = 0, 7, 8

ONE = ['pool', 'ready', 'start', 'create 1', 'established 1', 'out 1']
SERVED = ['start', 'out 1', 'in 1']

CASES = [
    Case('one check-out', ONE + ['in 1'], [], KEPT, 'clean events=7 passed_over=0'),
    # CMAP, "Checking Out a Connection": the state of the pool is tested before a connection is established, and not behind that
    Case('a connection that was pending at a clear is handed out of a paused pool', ONE[:4] + ['clear', 'established 1', 'out 1'], [], KEPT),
    Case('it is handed out of the pool that is ready again', ONE[:4] + ['clear', 'ready', 'established 1', 'out 1'], [], KEPT),
    Case('it is handed out once, and stale behind that', ONE[:4] + ['clear', 'established 1', 'out 1', 'in 1', 'ready', 'start', 'out 1'], ['11 stale against=5'], BROKEN),
    Case('what was ready at a clear is not handed out', ONE[:5] + ['clear', 'out 1'], ['7 pool-not-ready against=6', '7 stale against=6'], BROKEN),
    Case('a pool is paused at first', ['pool', 'start', 'create 1', 'established 1', 'out 1'], ['3 created-while-paused against=1', '5 pool-not-ready against=1'], BROKEN),
    Case('what is pending when its pool is closed may be established and handed out', ONE[:4] + ['close', 'established 1', 'out 1', 'in 1', 'end 1 reason=poolClosed'], [], KEPT),
    Case('what was ready when its pool was closed is not handed out', ONE[:5] + ['close', 'out 1'], ['7 pool-is-closed against=6', '7 pool-not-ready against=6'], BROKEN),
    # behind a load balancer
    Case('a pool behind a load balancer is ready from its creation on', ['pool loadBalanced=true', 'start', 'create 1', 'established 1', 'out 1', 'in 1'], [], KEPT),
    Case('it is so behind a clear too', ['pool loadBalanced=true', 'start', 'create 1', 'established 1', 'clear serviceId=5f', 'out 1', 'in 1'], [], KEPT),
    Case('and ends as others do', ['pool loadBalanced=true', 'start', 'create 1', 'established 1', 'close', 'out 1'], ['6 pool-is-closed against=5', '6 pool-not-ready against=5'], BROKEN),
    # a pool that is made anew at its address
    Case('a connection comes back to a former pool', ONE + ['close', 'pool', 'ready', 'in 1', 'end 1 reason=poolClosed'], [], KEPT),
    Case('its successor has one with the same id', ONE + ['close'] + ONE + ['in 1', 'end 1 reason=poolClosed', 'in 1'] + SERVED, [], KEPT),
    Case('once it is closed the new pool is judged', ONE + ['close', 'pool', 'ready', 'in 1', 'end 1 reason=poolClosed', 'in 1'], ['12 not-created', '12 not-checked-out against=10', '12 is-closed against=11'], BROKEN),
    Case('a new pool starts with no connection of the former one', ONE + ['in 1', 'end 1 reason=poolClosed', 'close', 'pool', 'ready', 'start', 'out 1'], ['13 not-created', '13 not-ready'], BROKEN),
    Case('what a former pool leaves is not counted against the new one', ['pool maxPoolSize=1'] + ONE[1:] + ['close', 'pool maxPoolSize=1', 'ready', 'in 1', 'end 1', 'start', 'create 1', 'create 2'],
         ['14 too-many against=8'], BROKEN),
    Case('a waiter of a former pool is told of its end', ['pool', 'ready', 'start', 'close', 'pool', 'ready', 'fail reason=poolClosed'], [], KEPT),
    Case('an open pool is no reason', ['pool', 'ready', 'start', 'fail reason=poolClosed'], ['4 no-reason'], BROKEN),
    # CMAP, "Marking a Connection Pool as Ready", "Clearing a Connection Pool" and "Closing a Connection Pool"
    Case('a ready pool is not told ready again', ['pool', 'ready', 'ready'], ['3 pool-ready-twice against=2'], BROKEN),
    Case('a pool turns ready behind each clear', ['pool', 'ready', 'clear', 'ready'], [], KEPT),
    Case('a paused pool is not cleared', ['pool', 'clear', 'ready', 'clear', 'clear'], ['2 cleared-while-paused against=1', '5 cleared-while-paused against=4'], BROKEN),
    Case('a paused pool creates nothing', ONE + ['clear', 'create 2'], ['8 created-while-paused against=7'], BROKEN),
    Case('what lies in a pool is closed before it', ONE + ['in 1', 'close'], ['8 left-in-pool'], BROKEN),
    Case('so it is', ONE + ['in 1', 'end 1 reason=poolClosed', 'close'], [], KEPT),
    Case('what is out or pending at its end need not be', ONE + ['start', 'create 2', 'close', 'in 1', 'end 1 reason=poolClosed', 'end 2 reason=error', 'fail reason=connectionError'], [], KEPT),
    # check-outs
    Case('a check-out is started before it ends', ['pool', 'ready', 'fail reason=timeout'], ['3 not-started'], BROKEN),
    Case('a check-out ends once', ['pool', 'ready', 'start caller=1', 'start caller=2', 'fail reason=timeout caller=1', 'fail reason=timeout caller=1'], ['6 not-started against=5'], BROKEN),
    Case('a caller that got a connection may start another', ONE[:2] + ['start caller=1', 'create 1 caller=1', 'established 1', 'out 1 caller=1', 'in 1', 'start caller=1', 'out 1 caller=1'], [], KEPT),
    Case('a connection is created once, ready once and closed once', ONE + ['create 1', 'established 1', 'established 1', 'end 1', 'end 1'],
         ['7 created-twice against=4', '9 ready-twice against=8', '11 closed-twice against=10'], BROKEN),
    Case('one at a time has it, and who has it brings it back', ONE + ['start', 'out 1', 'in 1', 'in 1'], ['8 checked-out-twice against=6', '10 not-checked-out against=9'], BROKEN),
    Case('what lay too long is not handed out', ['pool maxIdleTimeMS=10'] + ONE[1:5] + ['out 1 t=1', 'in 1 t=2', 'start', 'out 1 t=2.011'], ['9 idle against=7'], BROKEN),
    Case('who waits longer is served first', ['pool', 'ready', 'start caller=1', 'start caller=2', 'create 1 caller=2', 'create 2 caller=1'], ['6 out-of-turn against=5'], BROKEN),
    # reasons of closes
    Case('stale is what was created before a clear', ONE + ['in 1', 'end 1 reason=stale'], ['8 not-cleared against=4'], BROKEN),
    Case('so it is', ONE + ['clear', 'in 1', 'end 1 reason=stale'], [], KEPT),
    Case('a clear of one service may be the cause', ['pool loadBalanced=true'] + ONE[2:] + ['clear serviceId=5f', 'in 1', 'end 1 reason=stale'], [], KEPT),
    Case('what is out is closed behind a clear alone', ONE + ['end 1 reason=error'], ['7 closed-while-out against=6'], BROKEN),
    Case('a clear may close what is out, and who had it checks it in', ONE + ['clear interruptInUseConnections=true', 'end 1 reason=stale', 'in 1'], [], KEPT),
    # options
    Case('how many may be pending is not assumed', ['pool', 'ready'] + ['start'] * 3 + ['create 1', 'create 2', 'create 3'], [], KEPT),
    Case('where it is told it is a limit', ['pool maxConnecting=2', 'ready'] + ['start'] * 3 + ['create 1', 'create 2', 'create 3'], ['8 too-many-pending against=1'], BROKEN),
    Case('a member that is null is not there', ['pool maxPoolSize=null maxConnecting=null maxIdleTimeMS=null loadBalanced=null', 'ready', 'start caller=null t=null'], [], KEPT),
    # SDAM
    Case('a host that is added explains the change that is told before', ['topology', 'change', 'open', 'server from=Unknown to=Mongos', 'change', 'change', 'open address=b:1', 'last'], [], KEPT),
    Case('a change that nothing explains is told with the next', ['topology', 'change', 'open', 'change', 'change', 'server', 'change'], ['7 no-cause against=5'], BROKEN),
    Case('or with the end', ['topology', 'change', 'open', 'change', 'change', 'last'], ['6 no-cause against=5'], BROKEN),
    Case('a check that began may end behind the end of its server', ['topology', 'open', 'check', 'gone', 'bad'], [], KEPT),
    Case('no check begins behind it', ['topology', 'open', 'gone', 'check'], ['4 server-not-open against=3'], BROKEN),
    Case('one check of a server runs at a time', ['topology', 'open', 'check', 'check'], ['4 checked-twice against=3'], BROKEN),
    Case('a server that comes back is checked while the last check of the one before runs', ['topology', 'open', 'check', 'gone', 'open', 'check', 'bad', 'good'], [], KEPT),
    Case('a check ends once', ['topology', 'open', 'check', 'good', 'bad'], ['5 no-check against=4'], BROKEN),
    Case('the topology is opened first', ['open', 'topology'], ['2 topology-opened-late against=1'], BROKEN),
    Case('and once', ['topology', 'topology'], ['2 topology-opened-late against=1'], BROKEN),
    Case('its end is the last', ['topology', 'open', 'last', 'gone', 'bad'], ['4 topology-is-closed against=3', '5 no-check'], BROKEN),
    Case('another client may come behind it', ['topology', 'last', 'topology', 'last'], [], KEPT),
    Case('a server is opened once', ['topology', 'open', 'open'], ['3 server-opened-twice against=2'], BROKEN),
    Case('a server changes from what it was', ['topology', 'open', 'server from=Unknown to=RSPrimary', 'server from=RSSecondary to=Unknown'], ['4 from-differs against=3'], BROKEN),
    # what is not understood
    Case('an empty file', [], [], NOTHING, 'nothing judged passed_over=0'),
    Case('another kind', ['{"kind":"command","event":"CommandStarted"}'] * 2, [], NOTHING, 'nothing judged passed_over=2'),
    Case('an event by another name', ['{"kind":"pool","event":"connectionCheckedOut","address":"a:1","connectionId":1}'], ['1 malformed'], BROKEN, 'findings=0 malformed=1 events=0 passed_over=0'),
    Case('a server event by another name', ['{"kind":"sdam","event":"serverOpening","address":"a:1"}'], ['1 malformed'], BROKEN),
    Case('a reason by another name', ONE + ['in 1', 'end 1 reason=ERROR'], ['8 malformed'], BROKEN),
    Case('a reason of a failure by another name', ['pool', 'ready', 'start', 'fail reason=TIMEOUT'], ['4 malformed'], BROKEN),
    Case('a kind of server by another name', ['topology', 'open', 'server from=Unknown to=REPLICA_SET_PRIMARY'], ['3 malformed'], BROKEN),
    Case('what is passed over is counted', ONE + ['in 1', '{"kind":"note"}'], [], KEPT, 'clean events=7 passed_over=1'),
]


def line(words):
    if words.startswith('{'):
        return words
    name, *rest = words.split(' ')
    event = EVENTS[name]
    told = {'kind': 'pool' if event.startswith('Connection') else 'beat' if 'Heartbeat' in event else 'sdam', 'event': event}
    if not event.startswith('Topology'):
        told['address'] = 'a:1'
    for word in rest:
        key, equals, value = word.partition('=')
        if not equals:
            told['connectionId'] = int(key)
            continue
        try:
            told[key] = json.loads(value)
        except ValueError:
            told[key] = value
    return json.dumps(told)


def findings(text):
    """The findings and malformed lines of a report, as `NUMBER RULE`, with the line of the event that a finding contradicts."""
    told = [it.replace(': ', ' ', 1).split(' ') for it in text.splitlines() if it.startswith(('event ', 'line '))]
    return [' '.join(words[1:3] + [word for word in words if word.startswith('against=')]) for words in told]


def main():
    program, wrong = sys.argv[1], 0
    for case in CASES:
        data = ''.join(line(it) + '\n' for it in case.lines).encode()
        answer = subprocess.run([program], input=data, capture_output=True, check=False)
        for who, text, status in ((program, answer.stdout, answer.returncode), ('plain.py',) + plain.report(data, 0)):
            text = text.decode()
            if (findings(text), status) != (case.findings, case.status) or case.last not in ('', text.splitlines()[-1]):
                wrong += 1
                print('%s: %s says, with status %d:\n%swanted, with status %d: %s %s' % (case.name, who, status, text, case.status, case.findings, case.last))
    if wrong:
        sys.exit('%d answers differ' % wrong)
    print('%d cases, none differs' % len(CASES))


if __name__ == '__main__':
    main()
