"""A mutator for afl-fuzz: it changes a script line by line, with the words of the grammar.

afl-fuzz loads it by AFL_PYTHON_MODULE, calls `init` once and `fuzz` for each input. What it makes is mostly a script whose
lines are all in the grammar; afl-fuzz itself changes bytes, which mostly are not.
"""
import random

SERVICES = ('0102030405060708090a0b0c', '000000000000000000000001')
EDGES = (0, 1, 2, 3, 9, 10, 127, 128, 255, 65535, 65536, 2**31 - 1, 2**31, 2**32 - 1, 2**32, 2**63 - 1, 2**63, 2**64 - 1, 2**64)
ADDRESSES = ('a:1', 'b:1', 'c:1', 'a:2', '[::1]:9')
OPTIONS = ('set=foo', 'direct', 'lb', 'max=1', 'max=2', 'max=3', 'min=1', 'min=3', 'connecting=1', 'idle=0', 'idle=3', 'wait=0',
           'wait=4', 'heartbeat=500', 'connect=7', 'mode=stream', 'mode=poll', 'limit_id=0', 'limit_id=2', 'limit_generation=0',
           'limit_generation=1', 'limit_pool=1', 'limit_pool=3', 'limit_monitor=0', 'limit_monitor=1')
ORDER = [option.partition('=')[0] for option in OPTIONS]
ROLES = ('', ' isWritablePrimary=true', ' secondary=true', ' arbiterOnly=true', ' hidden=true', ' isreplicaset=true')
# The lines of steps, but for the moment, which is put behind the first word. A letter stands for a word that `filled` chooses.
STEPS = ('request R A', 'request R A', 'request R A', 'warm R A', 'collect R', 'claim', 'giveup R', 'established P C wire=21 sid=S',
         'established P C wire=21', 'established P C wire=W server=7', 'failed P C pre E', 'failed P C post E', 'failed P C post sid=S E',
         'return R ok', 'return R U', 'pin R', 'replicate P C', 'take R P C', 'unpin P C', 'error R E', 'error R E', 'hello A P ok rtt=N F',
         'hello A P ok rtt=N F', 'hello A P err E', 'beat A P', 'beaten A P N ok F', 'beaten A P N ok F more', 'beaten A P N err E',
         'beaten A P N cancelled E', 'rtt A P N', 'hosts H', 'ctime N', 'maintain A', 'expire A', 'want R', 'unwant R', 'stop')

rng = random.Random()


def hosts():
    """Some addresses, each once."""
    return ','.join(rng.sample(ADDRESSES, rng.randint(1, 3)))


def fields():
    """The fields of a reply, in their order."""
    role, text = rng.choice(ROLES), ''
    before, after = (role, '') if 'Primary' in role else ('', role)
    text += before
    if rng.random() < 0.6:
        text += ' hosts=' + hosts()
    text += ' msg=isdbgrid' if rng.random() < 0.1 else ''
    text += ' me=' + rng.choice(ADDRESSES) if rng.random() < 0.2 else ''
    text += ' setVersion=%d' % rng.randint(1, 3) if rng.random() < 0.2 else ''
    text += ' setName=foo' if rng.random() < 0.8 else ''
    text += after + rng.choice((' minWireVersion=0 maxWireVersion=21', ' minWireVersion=0 maxWireVersion=6', ' minWireVersion=30 maxWireVersion=31', ''))
    text += ' electionId=' + rng.choice(SERVICES) if rng.random() < 0.2 else ''
    text += ' topologyVersion=%s.%d' % (rng.choice(SERVICES), rng.randint(0, 4)) if rng.random() < 0.4 else ''
    return text[1:] if text else 'maxWireVersion=21'


def error():
    """An error with a message."""
    kind = rng.choice(('network', 'network', 'timeout', 'auth', 'incompatible', 'other', 'command.91', 'command.10107', 'command.189', 'command.1'))
    labels = rng.choice(('', '', '', ' labels=SystemOverloadedError', ' labels=a,b'))
    version = ' tv=%s.%d' % (rng.choice(SERVICES), rng.randint(0, 4)) if rng.random() < 0.2 else ''
    return kind + labels + version + ' msg=' + rng.choice(('x', '', 'two words ', 'a=b'))


CHOICES = {'R': lambda: str(rng.randint(1, 9)), 'A': lambda: rng.choice(ADDRESSES[:3]), 'P': lambda: rng.choice('000112'),
           'C': lambda: str(rng.randint(1, 4)), 'S': lambda: rng.choice(SERVICES), 'E': error, 'F': fields, 'H': hosts,
           'U': lambda: rng.choice(('ok', 'errored', 'dropped', 'streaming')), 'N': lambda: str(rng.choice((0, 5, 10, 1000000))),
           'W': lambda: rng.choice(('0', '7', '8', '21'))}


def filled(shape, moment):
    """A line of this shape, at this moment."""
    kind, _, rest = shape.partition(' ')
    words = [CHOICES[word]() if word in CHOICES else word for word in rest.split(' ') if word]
    words = [word[:-1] + rng.choice(SERVICES) if word == 'sid=S' else word for word in words]
    words = [word[:-1] + CHOICES[word[-1]]() if word in ('wire=W', 'rtt=N') else word for word in words]
    return ' '.join([kind, str(moment)] + words)


def opening():
    """A line that opens, mostly with options that go together."""
    options = sorted(rng.sample(OPTIONS, rng.choice((0, 1, 1, 2, 3))), key=lambda it: ORDER.index(it.partition('=')[0]))
    return ' '.join(['open', 'seeds=' + rng.choice(('a:1', 'a:1', hosts()))] + options)


def moment_of(line):
    """The moment of a line, or 0."""
    word = line.split(' ')[1] if ' ' in line else ''
    return int(word) if word.isdecimal() and word.isascii() else 0


def inserted(lines, other):
    """Some new lines at a place, often at the end."""
    at = len(lines) if rng.random() < 0.6 else rng.randint(1, max(1, len(lines)))
    moment, new = moment_of(lines[at - 1]) if at > 1 and at <= len(lines) else 0, []
    for _ in range(rng.choice((1, 1, 2, 4, 8))):
        moment += rng.choice((0, 0, 1, 1, 3))
        new.append(filled(rng.choice(STEPS), moment))
    return lines[:at] + new + lines[at:]


def removed(lines, other):
    at = rng.randrange(len(lines))
    return lines[:at] + lines[at + rng.choice((1, 1, 3)):]


def repeated(lines, other):
    at = rng.randrange(len(lines))
    return lines[:at + 1] + lines[at:at + rng.choice((1, 1, 2))] + lines[at + 1:]


def swapped(lines, other):
    at, to = rng.randrange(len(lines)), rng.randrange(len(lines))
    lines[at], lines[to] = lines[to], lines[at]
    return lines


def spliced(lines, other):
    """The front of one script and the end of the other one."""
    return lines[:rng.randint(1, len(lines))] + other[rng.randint(0, len(other)):]


def reopened(lines, other):
    return [opening()] + lines[1:]


def altered(lines, other):
    """One word of a line is another number, another word of the script, or gone."""
    at = rng.randrange(len(lines))
    words = lines[at].split(' ')
    place = rng.randrange(len(words))
    name, sign, value = words[place].rpartition('=')
    if value.isdecimal() and value.isascii():
        value = str(rng.choice((int(value) + 1, max(0, int(value) - 1), rng.choice(EDGES))))
    else:
        value = rng.choice(rng.choice(lines).split(' '))
    words[place] = name + sign + value
    lines[at] = ' '.join(words)
    return lines


def retimed(lines):
    """The script with moments that do not fall."""
    last = 0
    for at, line in enumerate(lines[1:], 1):
        words = line.split(' ')
        if len(words) > 1 and words[1].isdecimal() and len(words[1]) < 10:
            last = max(last, int(words[1]))
            words[1] = str(last)
            lines[at] = ' '.join(words)
    return lines


CHANGES = (inserted, inserted, inserted, removed, repeated, swapped, spliced, reopened, altered, altered)


def lines_of(data):
    """The lines of an input as text, at least one."""
    lines = bytes(data).decode('latin-1').split('\n')
    return lines[:-1] if len(lines) > 1 else [opening()]


def init(seed):
    rng.seed(seed)


def fuzz(data, added, max_size):
    """The input with some changes; `added` is another input."""
    lines, other = lines_of(data), lines_of(added or b'')
    for _ in range(rng.choice((1, 1, 2, 4))):
        lines = rng.choice(CHANGES)(lines, other) or [opening()]
    if rng.random() < 0.8:
        lines = retimed(lines)
    return bytearray(('\n'.join(lines) + '\n').encode('latin-1', 'replace')[:max_size])


def deinit():
    pass
