"""Whether a text is that of a legal log, by the plain definitions: slow, and with nothing taken from the auditor.

A history is read off the entries, newest item first, and each question is asked of the whole of it. `verdict(text)` gives
`legal entries=N` or `bad entry=N why=W`, as the program mdb_auditor writes it. Whether a line is the text of an entry is asked
of spelling.py, which is a reader of its own.
"""
import sys
from functools import cached_property, wraps

from spelling import is_spelled

sys.setrecursionlimit(1_000_000)
LAST_ID = 4_294_967_295


def kept(method):
    """Keeps what a method answered of a history."""
    @wraps(method)
    def call(self, *args):
        key = (method.__name__,) + args
        if key not in self.known:
            self.known[key] = method(self, *args)
        return self.known[key]
    return call


def address(text):
    host, _, port = text.rpartition(':')
    return (host[1:-1] if host.startswith('[') else host, int(port))


def place(text):
    pool, _, number = text.partition('.')
    return int(pool), int(number)


def act(line):
    """The words of a step that say something of pools."""
    word = line.split(' ')
    kind, rest = word[0], word[2:]
    if kind in ('request', 'warm'):
        return kind, int(rest[0]), address(rest[1])
    if kind in ('giveup', 'return', 'pin'):
        return kind, int(rest[0])
    if kind in ('established', 'failed', 'replicate', 'unpin'):
        return kind, int(rest[0]), int(rest[1])
    if kind == 'take':
        return kind, int(rest[0]), int(rest[1]), int(rest[2])
    return (kind,)


def fact(text):
    """The words of a fact that say something of pools."""
    word = text.split(' ')
    if word[0] == 'Opened':
        return 'Opened', int(word[1]), address(word[2])
    if word[0] == 'Granted':
        return ('Granted', int(word[1])) + place(word[2])
    if word[0] == 'Ended':
        return 'Ended', int(word[1])
    if word[0] == 'Raised':
        return 'Raised', int(word[1]), word[2] == '-'
    if word[0] == 'Pool' and word[2] in ('ConnectionCreated', 'ConnectionClosed', 'ConnectionCheckedIn'):
        return word[2], int(word[1]), int(word[4])
    if word[0] == 'Pool' and word[2] in ('PoolCreated', 'PoolReady', 'PoolClosed'):
        return word[2], int(word[1])
    return ('other',)


class Newest:
    """Items, each before the older ones."""

    def __init__(self, item=None, older=None):
        self.item, self.older, self.known = item, older, {}

    def __iter__(self):
        at = self
        while at.older is not None:
            yield at.item
            at = at.older


class Items(Newest):
    """What a history says of one pool, newest first."""

    @kept
    def creations(self, c):
        return sum(1 for it in self if it == ('created', c))

    @kept
    def closings(self, c):
        return sum(1 for it in self if it == ('closed', c))

    @cached_property
    def connections(self):
        return list(dict.fromkeys(it[1] for it in self if it[0] == 'created'))

    def is_tried(self, c):
        return any(it in (('established', c), ('failed', c)) for it in self)

    @kept
    def is_pending(self, c):
        return self.creations(c) > 0 and not self.is_tried(c) and self.closings(c) == 0

    def was_granted(self, c):
        return any(it[0] == 'granted' and it[2] == c for it in self)

    @cached_property
    def available(self):
        if self.older is None:
            return []
        kind, before = self.item[0], self.older.available
        if kind == 'checked in' or (kind == 'established' and not self.older.was_granted(self.item[1])):
            return [c for c in before if c != self.item[1]] + [self.item[1]]
        if kind == 'granted':
            return [c for c in before if c != self.item[2]]
        if kind == 'closed':
            return [c for c in before if c != self.item[1]]
        return before

    def has_asked(self, r):
        return any(it[0] in ('asked', 'warmed') and it[1] == r for it in self)

    def given(self, r):
        """The connection that the party was given, and has neither returned nor lost by the end of its request."""
        for it in self:
            if it[0] in ('granted', 'taken') and it[1] == r:
                return it[2]
            if it[0] in ('returned', 'ended') and it[1] == r:
                return None
        return None

    def parties(self, c):
        return list(dict.fromkeys(it[1] for it in self if it[0] in ('granted', 'taken') and it[2] == c))

    @cached_property
    def state(self):
        """The last of its creation, its being marked ready, its clears as a whole and its close."""
        return next((it[0] for it in self if it[0] in ('pool created', 'pool ready', 'raised', 'pool closed')), None)


class History(Newest):
    """Accepted steps and facts, newest first."""

    @kept
    def open_pool(self, a):
        if self.older is None:
            return None
        before = self.older.open_pool(a)
        if self.item[0] == 'made' and self.item[1][0] == 'Opened' and self.item[1][2] == a:
            return self.item[1][1]
        if self.item[0] == 'made' and self.item[1][0] == 'PoolClosed' and before == self.item[1][1]:
            return None
        return before

    @kept
    def of_pool(self, p):
        if self.older is None:
            return Items()
        xs = self.older.of_pool(p)
        new = self.by_act(p, xs) if self.item[0] == 'did' else self.by_fact(p, xs)
        return xs if new is None else Items(new, xs)

    def by_act(self, p, xs):
        kind, *more = self.item[1]
        if kind in ('request', 'warm'):
            return ('asked' if kind == 'request' else 'warmed', more[0]) if self.older.open_pool(more[1]) == p else None
        if kind == 'giveup':
            return ('gave up', more[0]) if xs.has_asked(more[0]) else None
        if kind in ('return', 'pin'):
            return ('returned' if kind == 'return' else 'pinned', more[0]) if xs.given(more[0]) is not None else None
        if kind in ('established', 'failed', 'replicate', 'unpin'):
            return (kind, more[1]) if more[0] == p else None
        if kind == 'take':
            return ('taken', more[0], more[2]) if more[1] == p else None
        return None

    def by_fact(self, p, xs):
        kind, *more = self.item[1]
        if kind == 'Ended':
            return ('ended', more[0]) if xs.has_asked(more[0]) else None
        if kind == 'Granted':
            return ('granted', more[0], more[2]) if more[1] == p else None
        if kind == 'Raised':
            return ('raised' if more[1] else 'raised for a service',) if more[0] == p else None
        if kind in ('PoolCreated', 'PoolReady', 'PoolClosed'):
            return ({'PoolCreated': 'pool created', 'PoolReady': 'pool ready', 'PoolClosed': 'pool closed'}[kind],) if more[0] == p else None
        if kind in ('ConnectionCreated', 'ConnectionClosed', 'ConnectionCheckedIn'):
            word = {'ConnectionCreated': 'created', 'ConnectionClosed': 'closed', 'ConnectionCheckedIn': 'checked in'}[kind]
            return (word, more[1]) if more[0] == p else None
        return None

    @cached_property
    def homes(self):
        """The pools that were opened, in order: number and address."""
        return [it[1][1:] for it in list(self)[::-1] if it[0] == 'made' and it[1][0] == 'Opened']

    @kept
    def some_act(self, kinds, r):
        return any(it[0] == 'did' and it[1][0] in kinds and it[1][1] == r for it in self)

    @cached_property
    def requests(self):
        return list(dict.fromkeys(it[1][1] for it in list(self)[::-1] if it[0] == 'did' and it[1][0] in ('request', 'warm')))

    @kept
    def first_step(self, r):
        """The first step that asked with the number, and the pool that was open at its address."""
        found, at = None, self
        while at.older is not None:
            if at.item[0] == 'did' and at.item[1][0] in ('request', 'warm') and at.item[1][1] == r:
                found = at.item[1][0], at.older.open_pool(at.item[1][2])
            at = at.older
        return found or (None, None)

    def is_warm(self, r):
        return self.first_step(r)[0] == 'warm'

    def pool_of(self, r):
        return self.first_step(r)[1]

    def is_granted(self, r):
        return any(it[0] == 'made' and it[1][:2] == ('Granted', r) for it in self)

    @kept
    def is_ended(self, r):
        return any(it == ('made', ('Ended', r)) for it in self)

    def queued(self, p):
        return [r for r in self.requests if self.pool_of(r) == p and not self.is_granted(r) and not self.is_ended(r)]

    def waiting(self, p):
        return [r for r in self.queued(p) if not self.is_warm(r)]

    @kept
    def holds(self, p, r, c):
        xs = self.of_pool(p)
        taken = any(it == ('taken', r, c) for it in xs)
        granted = any(it == ('granted', r, c) for it in xs)
        return (taken or (granted and not xs.is_pending(c) and not self.is_ended(r))) and not self.some_act(('return',), r)

    def held(self, p, c):
        return sum(1 for r in self.of_pool(p).parties(c) if self.holds(p, r, c))

    @kept
    def pins(self, p, c):
        """Pins and replicates of the connection, and its unpins."""
        if self.older is None:
            return 0, 0
        made, dropped = self.older.pins(p, c)
        if self.item[0] != 'did':
            return made, dropped
        kind, *more = self.item[1]
        if kind == 'pin' and self.older.holds(p, more[0], c) or kind == 'replicate' and more == [p, c]:
            made += 1
        return made, dropped + (kind == 'unpin' and more == [p, c])

    @kept
    def is_pinned(self, p, c):
        if self.older is None:
            return False
        kind, *more = self.item[1] if self.item[0] == 'did' else ('fact',)
        if kind in ('return', 'giveup') and self.older.holds(p, more[0], c):
            back = True
        elif kind == 'take' and more[1:] == [p, c]:
            back = False
        else:
            back = self.older.is_pinned(p, c)
        made, dropped = self.pins(p, c)
        return back and dropped < made

    def places(self, p, c):
        xs = self.of_pool(p)
        return xs.is_pending(c) + (c in xs.available) + self.held(p, c) + self.is_pinned(p, c)

    def in_place(self, p, c):
        xs = self.of_pool(p)
        if xs.creations(c) == 0:
            return xs.closings(c) == 0
        places = self.places(p, c)
        return places + xs.closings(c) == xs.creations(c) and places <= 1

    def one_place(self):
        named = {(it[1][1], it[1][2]) for it in self
                 if it[0] == 'made' and it[1][0] in ('ConnectionCreated', 'ConnectionClosed', 'ConnectionCheckedIn')}
        return all(self.in_place(p, c) for p, c in named)

    def is_ready(self, o, p):
        if p not in [number for number, _ in self.homes]:
            return False
        state = self.of_pool(p).state
        return state == 'pool ready' or (state == 'pool created' and o['lb'])

    def could_be_granted(self, o, p):
        xs = self.of_pool(p)
        made, closed = sum(1 for it in xs if it[0] == 'created'), sum(xs.closings(c) for c in xs.connections)
        may_create = made < o['limit_id'] and made < o['max'] + closed and sum(1 for c in xs.connections if xs.is_pending(c)) < o['connecting']
        return self.is_ready(o, p) and (any(c in xs.available for c in xs.connections) or may_create)

    def none_left_waiting(self, o):
        return all(not self.waiting(p) or not self.could_be_granted(o, p) for p in {self.pool_of(r) for r in self.requests} - {None})

    def is_first_come(self, granted):
        _, r, p, c = granted
        if self.pool_of(r) != p or self.of_pool(p).creations(c) == 0:
            return False
        return r in self.queued(p) if self.is_warm(r) else self.waiting(p)[:1] == [r]


def options(line):
    o = {'max': 10, 'connecting': 2, 'limit_id': LAST_ID, 'lb': False, 'seeds': []}
    for word in line.split(' ')[1:]:
        name, _, value = word.partition('=')
        if name == 'seeds':
            o['seeds'] = [address(a) for a in value.split(',')]
        elif name == 'lb':
            o['lb'] = True
        elif name in ('max', 'connecting', 'limit_id'):
            o[name] = int(value)
    return o


def opens_seeds(o, h):
    numbers, addresses = [n for n, _ in h.homes], [a for _, a in h.homes]
    return (numbers == list(range(len(numbers))) and all(a < b for a, b in zip(addresses, addresses[1:]))
            and set(addresses) == set(o['seeds']) and (not o['lb'] or all(h.is_ready(o, n) for n in numbers)))


def fault(o, h, is_first, line, facts):
    """The history with the accepted entry, and what is wrong with it."""
    h, is_fair = History(('did', act(line)), h), True
    for it in facts:
        is_fair = is_fair and (it[0] != 'Granted' or h.is_first_come(it))
        h = History(('made', it), h)
    if is_first and not opens_seeds(o, h):
        return h, 'opening'
    if not is_fair:
        return h, 'grant'
    if not h.one_place():
        return h, 'place'
    if not h.none_left_waiting(o):
        return h, 'waiting'
    return h, None


def verdict(text):
    lines, h, o = text.split('\n'), History(), None
    for number, line in enumerate(lines[:-1], 1):
        if not is_spelled(line, number):
            return 'bad entry=%d why=spelling' % number
        said, reply, *facts = line.split(' | ')
        if reply.startswith('Refused'):
            if number == 1:
                return 'bad entry=1 why=opening'
            continue
        o = options(said) if number == 1 else o
        h, why = fault(o, h, number == 1, said, [fact(it) for it in facts])
        if why:
            return 'bad entry=%d why=%s' % (number, why)
    if lines[-1]:
        return 'bad entry=%d why=spelling' % len(lines)
    return 'legal entries=%d' % (len(lines) - 1)


if __name__ == '__main__':
    print(verdict(sys.stdin.read()))
