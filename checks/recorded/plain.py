#!/usr/bin/env python3
"""What mdb_recorded has to say of a recording, by plain definitions over the list of events: slow, and with no state from event to event.

usage: checks/recorded/plain.py [--cmap 2020|2021] < recording.jsonl
"""
import json
import sys

NEEDS_ID = ('ConnectionCreated', 'ConnectionReady', 'ConnectionClosed', 'ConnectionCheckedOut', 'ConnectionCheckedIn')
OTHERS = ('ConnectionPoolCreated', 'ConnectionPoolReady', 'ConnectionPoolCleared', 'ConnectionPoolClosed', 'ConnectionCheckOutStarted', 'ConnectionCheckOutFailed')
KINDS = ('Unknown', 'Standalone', 'Mongos', 'PossiblePrimary', 'RSPrimary', 'RSSecondary', 'RSArbiter', 'RSOther', 'RSGhost', 'LoadBalancer')
SERVERS, TOPOLOGIES = ('ServerOpening', 'ServerClosed', 'ServerDescriptionChanged'), ('TopologyOpening', 'TopologyClosed', 'TopologyDescriptionChanged')
BEATS = ('ServerHeartbeatStarted', 'ServerHeartbeatSucceeded', 'ServerHeartbeatFailed')
POOL_LIFE = ('ConnectionPoolReady', 'ConnectionPoolCleared', 'ConnectionPoolClosed', 'ConnectionCreated')
REASONS = {'ConnectionClosed': ('idle', 'stale', 'error', 'connectionError', 'poolClosed'), 'ConnectionCheckOutFailed': ('timeout', 'connectionError', 'poolClosed')}

# The rules of each section of the standards; that of closed-while-out is by the year.
SECTIONS = {
    'CMAP, Creating a Connection Pool': ('pool-created-twice', 'pool-not-created'),
    'CMAP, Closing a Connection Pool': ('pool-is-closed', 'left-in-pool'),
    'CMAP, Marking a Connection Pool as Ready': ('pool-ready-twice',),
    'CMAP, Clearing a Connection Pool': ('cleared-while-paused', 'not-cleared'),
    'CMAP, Checking Out a Connection': ('pool-not-ready', 'not-ready', 'checked-out-twice', 'stale', 'idle', 'not-started'),
    'CMAP, Connection Pool Members': ('created-while-paused',),
    'CMAP, Creating a Connection': ('created-twice', 'not-created'),
    'CMAP, Establishing a Connection': ('ready-twice',),
    'CMAP, Checking In a Connection': ('not-checked-out',),
    'CMAP, Closing a Connection': ('closed-twice', 'is-closed'),
    'CMAP, Connection Pool Options': ('too-many', 'too-many-pending'),
    'CMAP, Events': ('no-reason',),
    'CMAP, WaitQueue': ('out-of-turn',),
    'SDAM Monitoring, Events': ('server-opened-twice', 'server-not-open', 'from-differs', 'no-cause', 'topology-opened-late', 'topology-is-closed'),
    'SDAM Monitoring, Heartbeats': ('no-check', 'checked-twice'),
}
SECTION = {rule: section for section, rules in SECTIONS.items() for rule in rules}


class Malformed(Exception):
    pass


def plain_number(text):
    """A whole number: digits alone, of 64 bits. JSON's numbers are kept as their text."""
    if not text.isascii() or not text.isdigit() or int(text) >= 2 ** 64:
        raise Malformed
    return int(text)


class Number(str):
    pass


def loads(line):
    try:
        return json.loads(line.decode('utf-8'), parse_int=Number, parse_float=Number, parse_constant=lambda word: int('no'))
    except (ValueError, RecursionError):
        raise Malformed


def number(value):
    if not isinstance(value, Number):
        raise Malformed
    return plain_number(value)


def text(thing, key):
    value = thing.get(key)
    if not isinstance(value, str) or isinstance(value, Number):
        raise Malformed
    return value


def micros(value):
    """Seconds as microseconds: digits, and a point with digits of which six count."""
    if not isinstance(value, Number):
        raise Malformed
    whole, point, rest = value.partition('.')
    at = plain_number(whole) * 10 ** 6
    if point:
        plain_number(rest[6:] or '0')
        at += plain_number(rest[:6]) * 10 ** (6 - len(rest[:6]))
    if at >= 2 ** 64:
        raise Malformed
    return at


def word_of(thing, key, words):
    """One of the words, or None where the member is not there."""
    if thing.get(key) is None:
        return None
    if text(thing, key) not in words:
        raise Malformed
    return thing[key]


def event_of(line):
    """The event that a line tells; None where it is of a kind that is not judged. A member that is null is not there."""
    thing = loads(line)
    if not isinstance(thing, dict):
        raise Malformed
    kind = text(thing, 'kind')
    if kind not in ('pool', 'sdam', 'beat'):
        return None
    name = text(thing, 'event')
    if kind != 'pool':
        return server_event_of(thing, kind, name)
    if name not in NEEDS_ID and name not in OTHERS:
        raise Malformed
    event = {'kind': 'pool', 'event': name, 'address': text(thing, 'address'), 'id': None, 'at': None if thing.get('t') is None else micros(thing['t'])}
    event['caller'] = None if thing.get('caller') is None else number(thing['caller'])
    if name in NEEDS_ID:
        if 'connectionId' not in thing:
            raise Malformed
        event['id'] = number(thing['connectionId'])
    if name == 'ConnectionPoolCreated':
        for key, other in (('maxPoolSize', 100), ('maxConnecting', 0), ('maxIdleTimeMS', 0)):
            event[key] = other if thing.get(key) is None else number(thing[key])
        event['loadBalanced'] = thing.get('loadBalanced') or False
        if not isinstance(event['loadBalanced'], bool) or thing.get('loadBalanced') not in (None, True, False):
            raise Malformed
    if name == 'ConnectionPoolCleared':
        service = thing.get('serviceId')
        event['all'] = not isinstance(service, str) or isinstance(service, Number)
    event['reason'] = word_of(thing, 'reason', REASONS[name]) if name in REASONS else None
    return event


def server_event_of(thing, kind, name):
    if name not in (BEATS if kind == 'beat' else SERVERS + TOPOLOGIES):
        raise Malformed
    event = {'kind': kind, 'event': name, 'address': None if name in TOPOLOGIES else text(thing, 'address')}
    for key in ('from', 'to'):
        event[key] = word_of(thing, key, KINDS) if name == 'ServerDescriptionChanged' else None
    return event


def lives(events, address):
    """The events of each pool at an address, from those before the first creation on."""
    mine = [e for e in events if e['address'] == address]
    starts = [n for n, e in enumerate(mine) if e['event'] == 'ConnectionPoolCreated']
    return [mine[a:b] for a, b in zip([0] + starts, starts + [len(mine)])]


def ended(pool):
    """The closes of connections that the pool created."""
    return [(n, x) for n, x in enumerate(pool) if x['event'] == 'ConnectionClosed' and named(pool[:n], 'ConnectionCreated', x['id'])]


def live(pool):
    return max(0, len(named(pool, 'ConnectionCreated')) - len(ended(pool)))


def left(pools):
    """How many connections of the pools before the last are not closed."""
    count = 0
    for n, pool in enumerate(pools):
        for _ in range(len(named(pool, 'ConnectionClosed')) - len(ended(pool))):
            count = max(0, count - 1)
        if n < len(pools) - 1:
            count += live(pool)
    return count


def has(pool, me):
    """Somebody has the connection."""
    last = newest(since(pool, me), lambda x: x['id'] == me and x['event'] in ('ConnectionCheckedOut', 'ConnectionCheckedIn'))
    return last is not None and last['event'] == 'ConnectionCheckedOut'


def lies(pool, me):
    """The connection was handed out, came back, and lies in the pool."""
    own = since(pool, me)
    return bool(named(own, 'ConnectionCheckedOut', me)) and not has(pool, me) and not named(own, 'ConnectionClosed', me)


def lying(pool):
    return sum(1 for me in {x['id'] for x in pool if x['id'] is not None} if lies(pool, me))


def moved(pool, me):
    """The newest event by which somebody has the connection, or nobody."""
    return newest(pool, lambda x: x['id'] == me and x['event'] in ('ConnectionCreated', 'ConnectionCheckedOut', 'ConnectionCheckedIn'))


def waiting(pools):
    """How many check-outs of these pools did not end."""
    count = 0
    for pool in pools:
        count = max(0, count + len(named(pool, 'ConnectionCheckOutStarted')) - len(named(pool, 'ConnectionCheckedOut')) - len(named(pool, 'ConnectionCheckOutFailed')))
    return count


def is_checking_out(pool, caller):
    last = newest(pool, lambda x: x['caller'] == caller and x['event'] in ('ConnectionCheckOutStarted', 'ConnectionCheckedOut', 'ConnectionCheckOutFailed'))
    return last is not None and last['event'] == 'ConnectionCheckOutStarted'


def since(pool, me):
    """What came since the connection was created last."""
    made = [n for n, x in enumerate(pool) if x['event'] == 'ConnectionCreated' and x['id'] == me]
    return pool[made[-1]:] if made else pool


def pauses(pool):
    return [x for x in pool if x['event'] == 'ConnectionPoolClosed' or x['event'] == 'ConnectionPoolCleared' and x['all']]


def named(events, name, connection=None):
    return [e for e in events if e['event'] == name and (connection is None or e['id'] == connection)]


def newest(events, kinds):
    """The newest event that is of one of these kinds."""
    found = [e for e in events if kinds(e)]
    return found[-1] if found else None


def clears(events):
    return sum(1 for e in events if e['event'] == 'ConnectionPoolCleared' and e['all'])


def is_ready(pool):
    last = newest(pool, lambda e: e['event'] in ('ConnectionPoolReady', 'ConnectionPoolClosed') or e['event'] == 'ConnectionPoolCleared' and e['all'])
    return last is not None and last['event'] == 'ConnectionPoolReady'


def hands_out(pool):
    """It is ready, or behind a load balancer and not closed."""
    made = named(pool, 'ConnectionPoolCreated')
    return is_ready(pool) or bool(made and made[-1]['loadBalanced'] and not named(pool, 'ConnectionPoolClosed'))


ENDS_WAIT = ('ConnectionCheckedOut', 'ConnectionCreated', 'ConnectionCheckOutFailed')


def start(pool, at):
    """Where the check-out was started whose wait the event at this place of a pool's events ends; None where it ends none."""
    e = pool[at]
    if e['caller'] is None or e['event'] not in ENDS_WAIT:
        return None
    for n in range(at - 1, -1, -1):
        if pool[n]['caller'] == e['caller']:
            if pool[n]['event'] == 'ConnectionCheckOutStarted':
                return n
            if pool[n]['event'] in ENDS_WAIT:
                return None
    return None


def is_passed(pool, e):
    """It ends a wait, and a check-out that was started later was served before."""
    mine = start(pool + [e], len(pool))
    served = (start(pool, n) for n, x in enumerate(pool) if x['event'] in ENDS_WAIT[:2])
    return mine is not None and any(n is not None and mine < n for n in served)


def overtaker(pool):
    """The event that served the check-out that was started last, of all that waited and were served."""
    served = [(start(pool, n), x) for n, x in enumerate(pool) if x['event'] in ENDS_WAIT[:2]]
    return max(((n, x) for n, x in served if n is not None), key=lambda it: it[0], default=(None, None))[1]


def against(pool, e, rule):
    """The event of the pool that an event contradicts which breaks the rule."""
    me, own = e['id'], since(pool, e['id'])
    stops = [x for x in pool if x['event'] == 'ConnectionPoolCreated'] + pauses(pool)
    if rule in ('pool-created-twice', 'too-many', 'too-many-pending'):
        return newest(pool, lambda x: x['event'] == 'ConnectionPoolCreated')
    if rule == 'pool-is-closed':
        return newest(pool, lambda x: x['event'] == 'ConnectionPoolClosed')
    if rule == 'pool-ready-twice':
        return newest(pool, lambda x: x['event'] == 'ConnectionPoolReady')
    if rule in ('cleared-while-paused', 'pool-not-ready', 'created-while-paused'):
        return max(stops, key=lambda x: x['line'], default=None)
    if rule == 'stale':
        return newest(pool, lambda x: x['event'] == 'ConnectionPoolCleared' and x['all'])
    if rule in ('created-twice', 'not-ready', 'not-cleared'):
        return newest(pool, lambda x: x['event'] == 'ConnectionCreated' and x['id'] == me)
    if rule in ('checked-out-twice', 'not-checked-out', 'closed-while-out'):
        return moved(pool, me)
    if rule in ('ready-twice', 'idle', 'closed-twice', 'is-closed'):
        kinds = {'ready-twice': ('ConnectionReady',), 'idle': ('ConnectionReady', 'ConnectionCheckedIn')}.get(rule, ('ConnectionClosed',))
        return newest(own, lambda x: x['id'] == me and x['event'] in kinds)
    if rule == 'not-started' and e['caller'] is not None:
        return newest(pool, lambda x: x['caller'] == e['caller'] and x['event'] in ('ConnectionCheckedOut', 'ConnectionCheckOutFailed'))
    if rule == 'out-of-turn':
        return overtaker(pool)
    return None


def server_against(events, e, rule):
    """The event of its server or of the topology that an event contradicts which breaks the rule."""
    mine, begins = [x for x in events if x['address'] == e['address'] and e['address'] is not None], SERVERS + TOPOLOGIES[::2]
    kinds = {'server-opened-twice': SERVERS[:1], 'server-not-open': SERVERS[1:2], 'from-differs': SERVERS, 'no-check': BEATS[1:], 'checked-twice': BEATS[:1]}
    if rule in kinds:
        return newest(mine, lambda x: x['event'] in kinds[rule])
    kinds = {'no-cause': TOPOLOGIES[2:], 'topology-opened-late': begins, 'topology-is-closed': TOPOLOGIES[1:2]}
    return newest(events, lambda x: x['event'] in kinds[rule])


def ending(other, rule, year):
    """The line of the other event, and the section."""
    section = 'CMAP, Clearing a Connection Pool' if not year else 'CMAP, Closing a Connection'
    return '%s section=%s' % ('' if other is None else ' against=%d' % other['line'], section if rule == 'closed-while-out' else SECTION[rule])


def server_rules(events, e):
    """The rules that an event of a server or of the topology breaks after all these."""
    name, mine = e['event'], [x for x in events if x['address'] == e['address'] and e['address'] is not None]
    state = newest(mine, lambda x: x['event'] in ('ServerOpening', 'ServerClosed'))
    is_open = state is not None and state['event'] == 'ServerOpening'
    if name == 'ServerOpening' and is_open:
        yield 'server-opened-twice'
    told = any(x['kind'] == 'sdam' for x in events)
    if (name in ('ServerClosed', 'ServerDescriptionChanged') or name == BEATS[0] and told) and not is_open:
        yield 'server-not-open'
    if name == 'ServerDescriptionChanged':
        last = newest(mine, lambda x: x['event'] in SERVERS)
        was = None if last is None else {'ServerOpening': 'Unknown', 'ServerClosed': None}.get(last['event'], last['to'])
        if was is not None and e['from'] is not None and was != e['from']:
            yield 'from-differs'
    running = 0
    for x in mine:
        running = running + 1 if x['event'] == BEATS[0] else max(0, running - 1) if x['event'] in BEATS[1:] else running
    if name in BEATS[1:] and not running:
        yield 'no-check'
    beat = newest(mine, lambda x: x['event'] in BEATS + SERVERS[:1])
    if name == BEATS[0] and told and beat is not None and beat['event'] == BEATS[0]:
        yield 'checked-twice'
    changes = [n for n, x in enumerate(events) if x['event'] == 'TopologyDescriptionChanged']
    if name in ('TopologyDescriptionChanged', 'TopologyClosed') and changes:
        before = events[changes[-2] + 1 if len(changes) > 1 else 0:changes[-1]]
        caused = any(x['event'] in SERVERS + ('TopologyOpening',) for x in before)
        if not caused and not any(x['event'] in SERVERS[:2] for x in events[changes[-1]:]):
            yield 'no-cause'
    state = [x['event'] for x in events if x['kind'] == 'sdam']
    if name == 'TopologyOpening' and state and state[-1] != 'TopologyClosed':
        yield 'topology-opened-late'
    ends = [x for x in state if x in ('TopologyOpening', 'TopologyClosed')]
    if e['kind'] == 'sdam' and name != 'TopologyOpening' and ends and ends[-1] == 'TopologyClosed':
        yield 'topology-is-closed'


def pool_rules(pools, e, year):
    """The rules that an event breaks after these events of the pools at its address, in the order in which they are told."""
    uses = e['event'] in NEEDS_ID[1:] and 0 < left(pools)
    for rule in rules(pools, e, year):
        if not uses or rule in ('not-started', 'out-of-turn'):
            yield rule


def is_unstarted(pools, e):
    """It ends a check-out that is known not to be under way."""
    if e['event'] not in ('ConnectionCheckedOut', 'ConnectionCheckOutFailed') or not named(pools[-1], 'ConnectionPoolCreated'):
        return False
    return not waiting(pools) or e['caller'] is not None and not waiting(pools[:-1]) and not is_checking_out(pools[-1], e['caller'])


def rules(pools, e, year):
    """The rules that an event breaks, if it is of the last of these pools."""
    name, me, pool, was_closed = e['event'], e['id'], pools[-1], any(named(it, 'ConnectionPoolClosed') for it in pools[:-1])
    created_pool, closed_pool = bool(named(pool, 'ConnectionPoolCreated')), bool(named(pool, 'ConnectionPoolClosed'))
    options = named(pool, 'ConnectionPoolCreated')[-1] if created_pool else {'maxPoolSize': 0, 'maxConnecting': 0, 'maxIdleTimeMS': 0}
    own, made = since(pool, me), [n for n, x in enumerate(pool) if x['event'] == 'ConnectionCreated' and x['id'] == me]
    created, readied, closed = bool(made), bool(named(own, 'ConnectionReady', me)), bool(named(own, 'ConnectionClosed', me))
    ready = [n for n, x in enumerate(pool) if x['event'] == 'ConnectionReady' and x['id'] == me and (not made or made[-1] < n)]
    first = not named(own, 'ConnectionCheckedOut', me) and len(pauses(pool)) <= len(pauses(pool[:ready[-1]] if ready else []))
    out = has(pool, me)
    paused = created_pool and not closed_pool and not hands_out(pool)
    cleared = any(x['event'] == 'ConnectionPoolCleared' and not x['all'] for x in pool) or (clears(pool[:made[-1]]) if made else 0) < clears(pool)
    goes_out = name == 'ConnectionCheckedOut'
    if name == 'ConnectionPoolCreated' and created_pool and not closed_pool:
        yield 'pool-created-twice'
    if name != 'ConnectionPoolCreated' and not created_pool:
        yield 'pool-not-created'
    if closed_pool and (name in POOL_LIFE or goes_out and not first):
        yield 'pool-is-closed'
    if name == 'ConnectionPoolReady' and is_ready(pool) and year != 2020:
        yield 'pool-ready-twice'
    if name == 'ConnectionPoolCleared' and e['all'] and paused and year != 2020:
        yield 'cleared-while-paused'
    if name == 'ConnectionPoolClosed' and lying(pool):
        yield 'left-in-pool'
    if goes_out and not hands_out(pool) and not (first and made and hands_out(pool[:made[-1]])) and year != 2020:
        yield 'pool-not-ready'
    if name == 'ConnectionCreated' and paused and year != 2020:
        yield 'created-while-paused'
    if name == 'ConnectionCreated' and created:
        yield 'created-twice'
    if name in NEEDS_ID[1:] and not created:
        yield 'not-created'
    if name == 'ConnectionReady' and readied:
        yield 'ready-twice'
    if goes_out and not readied:
        yield 'not-ready'
    if goes_out and out:
        yield 'checked-out-twice'
    if name == 'ConnectionCheckedIn' and not out:
        yield 'not-checked-out'
    if name == 'ConnectionClosed' and closed:
        yield 'closed-twice'
    if name in ('ConnectionReady', 'ConnectionCheckedOut', 'ConnectionCheckedIn') and closed and not (name == 'ConnectionCheckedIn' and out):
        yield 'is-closed'
    if name == 'ConnectionClosed' and out and (year in (2020, 2021) or e['reason'] != 'poolClosed' and not cleared):
        yield 'closed-while-out'
    if name == 'ConnectionClosed' and e['reason'] == 'stale' and created and not cleared:
        yield 'not-cleared'
    if goes_out:
        if (clears(pool[:made[-1]]) if made else 0) < clears(pool) and not first:
            yield 'stale'
        rest = newest(own, lambda x: x['id'] == me and x['event'] in ('ConnectionReady', 'ConnectionCheckedIn'))
        if rest and rest['at'] is not None and e['at'] is not None and 0 < options['maxIdleTimeMS'] and options['maxIdleTimeMS'] * 1000 < e['at'] - rest['at']:
            yield 'idle'
    if name == 'ConnectionCreated':
        if 0 < options['maxPoolSize'] <= live(pool):
            yield 'too-many'
        dropped = sum(1 for n, x in ended(pool) if not named(since(pool[:n], x['id']), 'ConnectionReady', x['id']))
        if 0 < options['maxConnecting'] <= max(0, max(0, len(named(pool, 'ConnectionCreated')) - len(named(pool, 'ConnectionReady'))) - dropped) and year != 2020:
            yield 'too-many-pending'
    if is_unstarted(pools, e):
        yield 'not-started'
    if name == 'ConnectionCheckOutFailed':
        broken = any(x['reason'] in ('error', 'connectionError') for x in named(pool, 'ConnectionClosed'))
        fair = {'timeout': True, 'poolClosed': was_closed or closed_pool, 'connectionError': was_closed or not hands_out(pool) or broken or 0 < clears(pool)}
        if not fair.get(e['reason'], False):
            yield 'no-reason'
    if is_passed(pool, e):
        yield 'out-of-turn'


def report(data, year):
    """The text that mdb_recorded writes, and its status."""
    lines, events, servers, found, bad, passed = [], [], [], 0, 0, 0
    for n, line in enumerate(data.split(b'\n')[:-1] if data.endswith(b'\n') else data.split(b'\n') if data else [], 1):
        try:
            event = event_of(line)
        except Malformed:
            lines.append('line %d: malformed' % n)
            bad += 1
            continue
        if event is None:
            passed += 1
            continue
        event['line'] = n
        if event['kind'] != 'pool':
            for rule in server_rules(servers, event):
                found += 1
                place = '' if event['address'] is None else ' server=' + event['address']
                lines.append('event %d: %s%s%s' % (n, rule, place, ending(server_against(servers, event, rule), rule, year)))
            servers.append(event)
            continue
        pools = lives(events, event['address'])
        for rule in pool_rules(pools, event, year):
            found += 1
            place = event['address'] + ('' if event['id'] is None else ' connection=%d' % event['id'])
            lines.append('event %d: %s pool=%s%s' % (n, rule, place, ending(against(pools[-1], event, rule), rule, year)))
        events.append(event)
    for address in dict.fromkeys(e['address'] for e in events):
        pools = lives(events, address)
        pool = pools[-1]
        counts = [len(named(pool, kind)) for kind in NEEDS_ID[:2]] + [len(ended(pool))]
        counts += [len(named(pool, kind)) for kind in ('ConnectionCheckOutStarted',) + NEEDS_ID[3:] + ('ConnectionCheckOutFailed',)] + [clears(pool), left(pools)]
        lines.append('pool %s created=%d ready=%d closed=%d started=%d out=%d in=%d failed=%d cleared=%d left=%d' % ((address,) + tuple(counts)))
    judged = len(events) + len(servers)
    told, status = ('findings=%d malformed=%d events=%d' % (found, bad, judged), 7) if found or bad else ('clean events=%d' % judged, 0) if judged else ('nothing judged', 8)
    lines.append('%s passed_over=%d' % (told, passed))
    return ''.join(line + '\n' for line in lines).encode(), status


def main():
    year = int(sys.argv[2]) if len(sys.argv) == 3 else 0
    text, status = report(sys.stdin.buffer.read(), year)
    sys.stdout.buffer.write(text)
    sys.exit(status)


if __name__ == '__main__':
    main()
