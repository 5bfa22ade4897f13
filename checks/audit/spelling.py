"""Whether a line of a log, without its newline, spells an entry: a reader of docs/SCRIPT.md, with nothing taken from the product.

`is_spelled(line, number)` is true where the line of this number, counted from 1, is the text of an entry: a line of a script, a
reply and facts, each behind ` | `. Each has one spelling: single spaces, numbers without signs or leading zeros and within
their types, optional parts in their order, and addresses, errors and options that keep their rules, in replies and facts too.
"""
import re

WORD = re.compile(r'[A-Za-z0-9_.-]{1,64}')
NAME = re.compile(r'[a-z0-9_.-]{1,255}')
SIX = re.compile(r'\[([0-9a-f:.]{2,45})\]')
ID = re.compile(r'[0-9a-f]{24}')
NUMBER = re.compile(r'0|[1-9][0-9]*')
PRINTABLE = re.compile(r'[ -~]*')
MOST = 128  # addresses in a list


def whole(pattern, text):
    return text is not None and pattern.fullmatch(text) is not None


def number(bits):
    return lambda text: whole(NUMBER, text) and int(text) < 2 ** bits


moment, long, short = number(64), number(64), number(32)
natural32, natural64 = number(31), number(63)


def is_id(text):
    return whole(ID, text)


def is_word(text):
    return whole(WORD, text)


def is_truth(text):
    return text in ('true', 'false')


def is_address(text):
    host, colon, port = (text or '').rpartition(':')
    if not colon or not whole(NUMBER, port) or not 1 <= int(port) <= 65535:
        return False
    six = SIX.fullmatch(host)
    return (six is not None and ':' in six.group(1)) or whole(NAME, host)


def are_addresses(text):
    each = text.split(',') if text is not None else []
    return 1 <= len(each) <= MOST and len(set(each)) == len(each) and all(map(is_address, each))


def is_version(text):
    process, dot, counter = (text or '').partition('.')
    return dot == '.' and is_id(process) and natural64(counter)


def are_labels(text):
    each = text.split(',')
    return len(each) <= 8 and all(map(is_word, each))


def are_tags(text):
    each = [tag.split(':') for tag in text.split(',')]
    names = [tag[0] for tag in each]
    return all(len(tag) == 2 and is_word(tag[0]) and is_word(tag[1]) for tag in each) and all(a < b for a, b in zip(names, names[1:]))


def is_connection(text):
    pool, dot, own = (text or '').partition('.')
    return dot == '.' and short(pool) and short(own)


def or_dash(test):
    return lambda text: text == '-' or test(text)


class Line:
    """A text that is read from its front, word by word."""

    def __init__(self, text):
        self.rest = text

    def word(self):
        """The next word, or None at the end."""
        if self.rest is None:
            return None
        word, space, rest = self.rest.partition(' ')
        self.rest = rest if space else None
        return word

    def has(self, *tests):
        return all(test(self.word()) for test in tests)

    def next_is(self, start):
        """The next word begins so."""
        return self.rest is not None and self.rest.startswith(start)

    def named(self, name, test):
        """The next word is a value of this name."""
        word = self.word()
        return word is not None and word.startswith(name + '=') and test(word[len(name) + 1:])

    def may(self, name, test):
        """The same, if the next word has this name."""
        return self.named(name, test) if self.next_is(name + '=') else True

    def flag(self, name):
        """The next word is this one, which is then read."""
        if self.rest is not None and self.rest.partition(' ')[0] == name:
            self.word()
            return True
        return False

    def ends(self):
        return self.rest is None


def is_error(line):
    """The rest of the line is an error."""
    kind = line.word()
    named = kind is not None and (kind in ('network', 'timeout', 'auth', 'incompatible', 'other') or (kind.startswith('command.') and natural32(kind[8:])))
    if not named or not line.may('labels', are_labels) or not line.may('tv', is_version) or not line.next_is('msg='):
        return False
    message, line.rest = line.rest[4:], None
    return len(message) <= 256 and '|' not in message


FIELDS = (('isWritablePrimary', is_truth), ('ismaster', is_truth), ('helloOk', is_truth), ('hosts', are_addresses), ('passives', are_addresses),
          ('arbiters', are_addresses), ('msg', is_word), ('me', is_address), ('setVersion', natural32), ('setName', is_word), ('hidden', is_truth),
          ('secondary', is_truth), ('arbiterOnly', is_truth), ('isreplicaset', is_truth), ('logicalSessionTimeoutMinutes', long),
          ('minWireVersion', natural32), ('maxWireVersion', natural32), ('tags', are_tags), ('electionId', is_id), ('primary', is_address),
          ('topologyVersion', is_version), ('connectionId', natural64))


def are_fields(line):
    return all(line.may(name, test) for name, test in FIELDS)


def is_open(line):
    kept = {}

    def keep(name, test):
        def tested(text):
            kept[name] = text
            return test(text)
        return tested

    def size(least):
        return lambda text: short(text) and least <= int(text) <= 65535

    if not line.named('seeds', keep('seeds', are_addresses)) or not line.may('set', keep('set', is_word)):
        return False
    direct, balanced = line.flag('direct'), line.flag('lb')
    parts = (('max', size(1)), ('min', size(0)), ('connecting', size(1)), ('idle', long), ('wait', long), ('heartbeat', long), ('connect', long),
             ('mode', lambda text: text in ('stream', 'poll')), ('limit_id', short), ('limit_generation', long), ('limit_pool', keep('limit_pool', short)), ('limit_monitor', short))
    if not all(line.may(name, test) for name, test in parts) or not line.ends():
        return False
    seeds = len(kept['seeds'].split(','))
    return not (direct and balanced) and not (balanced and 'set' in kept) and (seeds == 1 or not (direct or balanced)) and seeds - 1 <= int(kept.get('limit_pool', 2 ** 32 - 1))


def is_hello(line):
    if line.flag('ok'):
        return line.named('rtt', long) and are_fields(line)
    return line.flag('err') and is_error(line)


def is_beaten(line):
    if line.flag('ok'):
        return are_fields(line) and (line.flag('more') or True)
    return (line.flag('err') or line.flag('cancelled')) and is_error(line)


def is_established(line):
    return line.named('wire', natural32) and line.may('sid', is_id) and line.may('server', natural64)


def is_failed(line):
    if line.flag('pre'):
        return is_error(line)
    return line.flag('post') and line.may('sid', is_id) and is_error(line)


def nothing(line):
    return True


# each step: the words behind its name and its moment, and what follows them
STEPS = {
    'request': ((short, is_address), nothing), 'warm': ((short, is_address), nothing), 'collect': ((short,), nothing), 'claim': ((), nothing),
    'giveup': ((short,), nothing), 'established': ((short, short), is_established), 'failed': ((short, short), is_failed),
    'return': ((short, lambda text: text in ('ok', 'errored', 'dropped', 'streaming')), nothing), 'pin': ((short,), nothing),
    'replicate': ((short, short), nothing), 'take': ((short, short, short), nothing), 'unpin': ((short, short), nothing), 'error': ((short,), is_error),
    'hello': ((is_address, short), is_hello), 'beat': ((is_address, short), nothing), 'beaten': ((is_address, short, long), is_beaten),
    'rtt': ((is_address, short, long), nothing), 'hosts': ((are_addresses,), nothing), 'ctime': ((long,), nothing), 'maintain': ((is_address,), nothing),
    'expire': ((is_address,), nothing), 'want': ((short,), nothing), 'unwant': ((short,), nothing), 'stop': ((), nothing),
}


def is_step(text, first):
    line = Line(text)
    name = line.word()
    if name == 'open' or first:
        return name == 'open' and first and is_open(line)
    if name not in STEPS:
        return False
    words, more = STEPS[name]
    return line.has(moment, *words) and more(line) and line.ends()


def is_end(line):
    name = line.word()
    return name in ('Closed', 'Warmed', 'Filled', 'TimedOut', 'GaveUp') or (name in ('Cleared', 'Failed') and is_error(line))


def is_refusal(line):
    name = line.word()
    if name in ('UnknownServer', 'RequestKnown', 'UnknownRequest', 'NotHolder', 'NotPending', 'WrongMode', 'PinState', 'Unpinned', 'PinInUse', 'CheckRunning', 'NotChecking'):
        return True
    return (name == 'TimeBack' and moment(line.word())) or (name == 'Exhausted' and line.word() in ('pool', 'generation', 'monitor', 'servers'))


def is_reply(text):
    line = Line(text)
    name = line.word()
    if name in ('Waiting', 'NoJob', 'Done'):
        return line.ends()
    rest = {'Pooled': lambda: is_connection(line.word()), 'Establishing': lambda: is_connection(line.word()), 'Job': lambda: is_connection(line.word()),
            'Changed': lambda: is_truth(line.word()), 'Count': lambda: long(line.word()), 'Ended': lambda: is_end(line), 'Refused': lambda: is_refusal(line)}
    return name in rest and rest[name]() and line.ends()


def is_pool_event(line):
    name = line.word()
    if name in ('PoolReady', 'PoolClosed', 'ConnectionCheckoutStarted'):
        return line.has(is_address)
    if name in ('ConnectionCreated', 'ConnectionCheckedIn'):
        return line.has(is_address, short)
    if name in ('ConnectionReady', 'ConnectionCheckedOut'):
        return line.has(is_address, short, long)
    if name == 'PoolCreated':
        if not line.has(is_address):
            return False
        return line.flag('-') or (line.named('max', or_dash(short)) and line.named('min', or_dash(short)) and line.named('idle', or_dash(long)))
    if name == 'PoolCleared':
        return line.has(is_address) and line.named('service', or_dash(is_id)) and line.named('interrupt', is_truth)
    if name == 'ConnectionClosed':
        return line.has(is_address, short, lambda text: text in ('Stale', 'Idle', 'Error', 'Dropped', 'PoolClosed')) and line.named('service', or_dash(is_id))
    return name == 'ConnectionCheckoutFailed' and line.has(is_address, lambda text: text in ('Timeout', 'ConnectionError', 'PoolClosed'), long)


def is_server_type(text):
    return text in ('Standalone', 'Mongos', 'RsPrimary', 'RsSecondary', 'RsArbiter', 'RsOther', 'RsGhost', 'LoadBalancer', 'Unknown')


def is_topology(text):
    kind, bar, servers = (text or '').partition('/')
    return kind in ('Single', 'ReplicaSetNoPrimary', 'ReplicaSetWithPrimary', 'Sharded', 'LoadBalanced', 'Unknown') and bar == '/' and long(servers)


def is_sdam_event(line):
    name = line.word()
    if name in ('TopologyOpening', 'TopologyClosed'):
        return True
    if name in ('ServerOpening', 'ServerClosed'):
        return line.has(is_address)
    if name == 'ServerDescriptionChanged':
        return line.has(is_address, is_server_type, is_server_type)
    if name == 'TopologyDescriptionChanged':
        return line.has(is_topology, is_topology)
    if name not in ('ServerHeartbeatStarted', 'ServerHeartbeatSucceeded', 'ServerHeartbeatFailed'):
        return False
    if not (line.has(is_address) and line.named('awaited', is_truth) and line.named('driver', short) and line.named('server', or_dash(natural64))):
        return False
    return name == 'ServerHeartbeatStarted' or (line.named('duration', long) and (name == 'ServerHeartbeatSucceeded' or is_error(line)))


def is_fact(text):
    line = Line(text)
    name = line.word()
    facts = {'Opened': lambda: line.has(short, is_address), 'Granted': lambda: line.has(short, is_connection), 'CheckNow': lambda: line.has(is_address),
             'Cancel': lambda: line.has(is_address), 'Ended': lambda: line.has(short) and is_end(line), 'Sdam': lambda: is_sdam_event(line),
             'Raised': lambda: line.has(short, or_dash(is_id)) and is_error(line), 'Pool': lambda: line.has(short) and is_pool_event(line)}
    return name in facts and facts[name]() and line.ends()


def is_spelled(line, at):
    if not whole(PRINTABLE, line):
        return False
    said, *more = line.split(' | ')
    return bool(more) and is_step(said, at == 1) and is_reply(more[0]) and all(map(is_fact, more[1:]))
