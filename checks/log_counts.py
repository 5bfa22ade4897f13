"""What is to be counted in a printed log, read off its text anew: nothing is taken from the page that draws it.

The places of connections are those of the plain definitions of checks/audit/plain.py.
"""
import os
import re
import sys
from collections import Counter, namedtuple

sys.path.insert(0, os.path.join(os.path.dirname(os.path.abspath(__file__)), 'audit'))
from plain import History, act, fact

READY = re.compile(r'Pool \d+ PoolReady ')


def entries(text):
    """The entries as step, reply and facts."""
    return [(line.split(' | ')[0], line.split(' | ')[1], line.split(' | ')[2:]) for line in text.split('\n')[:-1]]


class Counts:
    """Counts of one log, entry by entry."""

    def __init__(self, text):
        self.n, self.closed, self.ended, self.asked, self.jumps = Counter(), Counter(), Counter(), Counter(), Counter()
        self.marks, self.open, self.addresses, self.waiting, self.over, self.live = Counter(), {}, set(), set(), set(), Counter()
        self.balanced = False
        for step, reply, facts in entries(text):
            self.n['lines'] += 1
            if reply.startswith('Refused'):
                self.jumps['refusal'] += 1
            else:
                self.step(step.split(' '), reply)
                for said in facts:
                    self.fact(said.split(' '))

    def step(self, words, reply):
        kind = words[0]
        if kind == 'open':
            self.balanced = 'lb' in words
        elif kind in ('request', 'warm', 'take'):
            self.asked[kind] += 1
            if kind == 'request':
                self.waiting.add(words[2])
        elif kind == 'return':
            self.n['returned'] += words[2] not in self.over
        elif kind == 'error':
            self.jumps['void error' if reply == 'Changed false' else 'error'] += 1
        elif kind in ('hello', 'beaten', 'rtt') and self.open.get(words[2]) == words[3]:
            is_good = kind == 'rtt' or words[4 if kind == 'hello' else 5] == 'ok'
            self.n['trips' if is_good else 'failed checks'] += 1
            if not is_good:
                self.jumps['failed check'] += 1

    def fact(self, words):
        name = words[2] if words[0] == 'Pool' else words[1] if words[0] == 'Sdam' else words[0]
        self.n[name] += 1
        if name == 'Opened':
            self.open[words[2]] = words[1]
            self.addresses.add(words[2])
            self.live[int(words[1])] += 0
        elif name == 'PoolClosed' and self.open.get(words[3]) == words[1]:
            del self.open[words[3]]
        elif name == 'ConnectionCreated':
            self.live[int(words[1])] += 1
        elif name == 'ConnectionClosed':
            self.closed[words[5]] += 1
            self.live[int(words[1])] -= 1
        elif name == 'Ended':
            self.ended[words[2]] += 1
        elif name == 'Raised':
            self.jumps['raise'] += 1
        elif name == 'PoolCleared':  # what raised the generation of a pool that was not paused
            self.jumps['raise'] -= 1
            self.jumps['clear'] += 1
        if name == 'Ended':
            self.over.add(words[1])
        if name in ('Granted', 'Ended'):
            self.waiting.discard(words[1])

    def as_page(self):
        """The counts under the names that the page gives them."""
        n, jumps = self.n, {kind: count for kind, count in self.jumps.items() if count}
        return {
            'lines': n['lines'], 'read': n['lines'], 'unread': 0, 'servers': len(self.addresses), 'pools': n['Opened'], 'created': n['ConnectionCreated'],
            'closed': dict(self.closed), 'grants': n['Granted'], 'ended': dict(self.ended), 'connections': n['ConnectionCreated'],
            'had': n['ConnectionCheckedOut'], 'requests': dict(self.asked), 'waiting': len(self.waiting), 'jumps': jumps, 'clears': n['Raised'],
            'types': n['ServerOpening'] + n['ServerDescriptionChanged'], 'trips': n['trips'],
            'ready': n['PoolReady'] + (n['Opened'] if self.balanced else 0), 'live': [self.live[p] for p in sorted(self.live)],
        }

    def as_drawn(self):
        """What a picture of the whole log has."""
        page = self.as_page()
        marks = Counter(page['jumps'])
        marks.update({'check now': self.n['CheckNow'], 'cancel': self.n['Cancel']})
        return {
            'servers': page['servers'], 'types': page['types'] + self.n['TopologyDescriptionChanged'], 'trips': page['trips'], 'pools': page['pools'],
            'connections': page['connections'], 'requests': sum(page['requests'].values()), 'grants': page['grants'],
            'ends': sum(page['closed'].values()) + self.finished, 'marks': {kind: many for kind, many in marks.items() if many},
        }

    @property
    def finished(self):
        """Bars of requests that end: by an end, or by a return without one."""
        return self.n['Ended'] + self.n['returned']


def place(h, pool, number):
    """Where a connection is after a history, in words, or nothing."""
    xs = h.of_pool(pool)
    if xs.closings(number) or not xs.creations(number):
        return None
    if xs.is_pending(number):
        return 'pending'
    if number in xs.available:
        return 'available'
    if h.is_pinned(pool, number):
        return 'at its pin'
    return 'with a party %d' % next(r for r in xs.parties(number) if h.holds(pool, r, number))


After = namedtuple('After', 'places waiting')  # after an entry: the place of each live connection; the callers that wait, by pool


def after_each(text):
    """What is so after each entry, by the plain definitions."""
    h, found, known = History(), [], []
    for step, reply, facts in entries(text):
        if not reply.startswith('Refused'):
            h = History(('did', act(step)), h)
            for said in facts:
                h = History(('made', fact(said)), h)
                if fact(said)[0] == 'ConnectionCreated':
                    known.append(fact(said)[1:])
        now = {'%d.%d' % it: place(h, *it) for it in known}
        found.append(After({name: where for name, where in now.items() if where}, {number: len(h.waiting(number)) for number, _ in h.homes}))
    return found


def stretches(afters):
    """How often a connection's place changes, its first one with them."""
    found, before = 0, {}
    for now in afters:
        found += sum(1 for name, where in now.places.items() if before.get(name) != where)
        before = now.places
    return found


KINDS = ('pending', 'available', 'with', 'at')  # the first words of the places


def sizes(after):
    """Of each pool the connections by place, and who waits."""
    found = {pool: [0, 0, 0, 0, many] for pool, many in after.waiting.items()}
    for name, where in after.places.items():
        found[int(name.split('.')[0])][KINDS.index(where.split(' ')[0])] += 1
    return found


PARTY_STEPS = ('request', 'warm', 'collect', 'giveup', 'return', 'pin', 'take', 'error')
ADDRESS = {'request': 3, 'warm': 3, 'hello': 2, 'beat': 2, 'beaten': 2, 'rtt': 2, 'maintain': 2, 'expire': 2}
CONNECTION = {'established': 2, 'failed': 2, 'replicate': 2, 'unpin': 2, 'take': 3}


def names(line):
    """The connections, parties and servers that an entry names, but for those of its opening and of a list of hosts."""
    step, reply, *facts = (part.split(' ') for part in line.split(' | '))
    found = {'Connection ' + step[at] + '.' + step[at + 1] for at in [CONNECTION.get(step[0])] if at}
    found |= {'party ' + step[2]} if step[0] in PARTY_STEPS else set()
    found |= {'Server ' + step[ADDRESS[step[0]]]} if step[0] in ADDRESS else set()
    found |= {'Connection ' + reply[1]} if reply[0] in ('Pooled', 'Establishing', 'Job') else set()
    for words in facts:
        if words[0] == 'Granted':
            found |= {'party ' + words[1], 'Connection ' + words[2]}
        elif words[0] == 'Ended':
            found.add('party ' + words[1])
        elif words[0] == 'Pool':
            found.add('Server ' + words[3])
            if words[2].startswith('Connection') and len(words) > 4 and words[4].isdigit():
                found.add('Connection ' + words[1] + '.' + words[4])
        elif words[0] == 'Sdam' and words[1].startswith('Server'):
            found.add('Server ' + words[2])
    return found
