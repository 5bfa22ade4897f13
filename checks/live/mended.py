#!/usr/bin/env python3
"""What embedders of libmdb get wrong, each as a scenario: callers who wait and sleeping monitors, readers that stop, files and memory that are missing, threads that
come late, operations without an end.

usage: checks/live/mended.py [--program MDB_LIVE] [--auditor MDB_AUDITOR] [--python PYTHON] [--reader FUZZ_SAN] [--calls CALLS] [--shim SHIM] [--each] [--list] [NAME ..]

PROGRAM is examples/live/out/mdb_live where it is left out, READER examples/live/out/fuzz_san (`make plain`), CALLS examples/live/out/calls (`make calls`). shim.c is built by cc, where SHIM is left out. Each scenario writes a line of
what was measured. Status 0 where all is well, else 1.
"""
import argparse
import fcntl
import os
import re
import resource
import signal
import subprocess
import sys
import tempfile
import time
from concurrent.futures import ThreadPoolExecutor

sys.dont_write_bytecode = True
from dns import Names
from run import HERE, TOP, Servers

SLOW = 'replicaSet=rs&heartbeatFrequencyMS=10000'
WIDE = r'''
import sys
sys.dont_write_bytecode = True
sys.path.insert(0, sys.argv[1])
from servers import OP_MSG, filling, packed
fields = {'isWritablePrimary': True, 'helloOk': True, 'maxWireVersion': 21, 'maxBsonObjectSize': 1, 'maxMessageSizeBytes': 1, 'ok': 1.0}
sys.stdout.buffer.write(bytes([1]) + packed(OP_MSG, 1, filling(fields, 65535), 2))
'''
CALM = 'replicaSet=rs&heartbeatFrequencyMS=500&connectTimeoutMS=5000'
FAST = 'replicaSet=rs&heartbeatFrequencyMS=500&connectTimeoutMS=500'


class Played:
    """Servers, and a program that is connected to them."""

    def __init__(self, given, options, words=(), kind='replica', count=3, before=('elect 0',), seeds=None, env=None, limit=None, stdout=None, servers=(),
                 who='', program=None):
        self.given, self.folder = given, tempfile.TemporaryDirectory()
        self.log = os.path.join(self.folder.name, 'log')
        self.servers = Servers(given.python, kind, count, words=servers)
        for command in before:
            self.servers.do(command)
        seeds = self.servers.addresses[:seeds] if seeds else self.servers.addresses
        self.uri = 'mongodb://%s%s/?%s' % (who, ','.join(seeds), options)
        words = [program or given.program, self.uri, '100', *(self.log if it == 'LOG' else it for it in words)]
        self.written, self.errors = tempfile.TemporaryFile('w+'), tempfile.TemporaryFile('w+')
        self.began = time.monotonic()
        self.program = subprocess.Popen(words, stdout=stdout or self.written, stderr=self.errors, env={**os.environ, **(env or {})},
                                        preexec_fn=limit and (lambda: resource.setrlimit(resource.RLIMIT_NOFILE, limit)))

    def lines(self):
        self.written.seek(0)
        return self.written.read().splitlines()

    def told(self):
        self.errors.seek(0)
        return self.errors.read().strip()[-300:]

    def shown(self, wanted, limit, since=0.0):
        """Seconds from `since` until a line has all of the wanted, None where there is none in time."""
        began = since or time.monotonic()
        while time.monotonic() < began + limit:
            if any(all(it in line for it in wanted) for line in self.lines()[-1:]):
                return time.monotonic() - began
            time.sleep(0.005)
        return None

    def server(self, number, kind):
        return '%s=%s' % (self.servers.addresses[number], kind)

    def inserts(self):
        return [int(it) for it in self.servers.ask('inserts')]

    def count(self, name):
        """A number of the counts at the end, 0 where it is not told."""
        found = re.findall(r'\b%s=(\d+)' % re.escape(name), '\n'.join(self.lines()))
        return int(found[-1]) if found else 0

    def end(self, limit=15):
        """Ends the program. Answers its status, None where it did not end in time, and the seconds that it took."""
        began = time.monotonic()
        if self.program.poll() is None:
            self.program.send_signal(signal.SIGTERM)
        try:
            status = self.program.wait(limit)
        except subprocess.TimeoutExpired:
            self.program.kill()
            self.program.wait()
            status = None
        self.servers.close()
        return status, time.monotonic() - began

    def judged(self):
        """What the auditor says of the log."""
        if not os.path.exists(self.given.auditor):
            return 'not judged'
        with open(self.log, 'rb') as log:
            return subprocess.run([self.given.auditor], stdin=log, stdout=subprocess.PIPE, text=True).stdout.strip()


def legal(judged):
    return judged == 'not judged' or judged.startswith('legal entries=')


def waking(given):
    """At a heartbeat of 10,000 ms a new primary is known in well under a second where somebody waits for it: of servers that tell no changes, and of one that was down."""
    silent = ['silent %d' % it for it in range(3)]
    one = Played(given, SLOW, ['--load', '4'], before=[*silent, 'elect 0'])
    one.shown([one.server(0, 'RSPrimary')], 15)
    one.servers.do('stepdown')
    one.shown(['ReplicaSetNoPrimary'], 15)
    time.sleep(2)
    one.servers.do('elect 1')
    elected = one.shown([one.server(1, 'RSPrimary')], 15)
    ended = one.end()[0]
    two = Played(given, SLOW, ['--load', '4'])
    two.shown([two.server(0, 'RSPrimary'), two.server(1, 'RSSecondary'), two.server(2, 'RSSecondary')], 15)
    two.servers.do('kill 0')
    two.shown(['ReplicaSetNoPrimary'], 15)
    time.sleep(2)
    two.servers.do('start 0')
    two.servers.do('elect 0')
    back = two.shown([two.server(0, 'RSPrimary')], 15)
    ended = ended or two.end()[0]
    well = ended == 0 and elected is not None and elected < 1 and back is not None and back < 1
    return well, 'known %s s after its election, and %s s after a member came back and was elected' % tuple('%.2f' % it if it is not None else '-' for it in (elected, back))


def stopped_reader(given):
    """Nobody reads the standard output: inserts go on, and SIGTERM ends the program."""
    reading, writing = os.pipe()
    fcntl.fcntl(writing, fcntl.F_SETPIPE_SZ, 4096)
    played = Played(given, FAST, ['--events', '--load', '8'], stdout=writing)
    os.close(writing)
    time.sleep(3)
    before = sum(played.inserts())
    time.sleep(3)
    after = sum(played.inserts())
    status, took = played.end()
    os.close(reading)
    return status is not None and after - before > 10 and took < 10, '%d inserts, then %d more in 3 s; status %s after %.2f s' % (before, after - before, status, took)


def closed_reader(given):
    """The reader of the standard output goes away: the program goes on, and tells it by its status."""
    reading, writing = os.pipe()
    played = Played(given, FAST, ['--events', '--load', '8'], stdout=writing)
    os.close(writing)
    time.sleep(1)
    os.close(reading)
    time.sleep(1)
    alive = played.program.poll() is None
    status, took = played.end()
    return alive and status == 4, 'alive %s, status %s after %.2f s' % (alive, status, took)


def wide_hello(given):
    """A hello whose lists fill a text to its last byte is read within its bounds; READER has the address sanitizer."""
    whole = subprocess.run([given.python, '-c', WIDE, HERE], stdout=subprocess.PIPE, check=True).stdout
    ran = subprocess.run([given.reader], input=whole, stdout=subprocess.PIPE, stderr=subprocess.PIPE)
    told = re.findall(rb'ERROR: [^\n]*', ran.stderr)
    return ran.returncode == 0, 'a reply of %d bytes: status %d %s' % (len(whole) - 1, ran.returncode, told[0].decode() if told else '')


def few_files(given):
    """34 files: healthy servers stay what they are, and no pool is cleared."""
    played = Played(given, CALM + '&maxPoolSize=30', ['--load', '32', '--log', 'LOG'], before=['elect 0', *('work %d 20' % it for it in range(3))], limit=(34, 34))
    settled = played.shown([played.server(0, 'RSPrimary'), played.server(1, 'RSSecondary'), played.server(2, 'RSSecondary')], 10)
    seen = len(played.lines())
    time.sleep(6)
    status, _ = played.end()
    lost = sum('ReplicaSetNoPrimary' in it for it in played.lines()[seen:])
    cleared, fine, judged = played.count('pools cleared'), played.count('fine'), played.judged()
    with open(played.log) as log:
        why = sorted(set(re.findall(r'Raised \d+ - ([^|]*)', log.read())))
    well = settled is not None and status == 0 and cleared == 0 and lost == 0 and fine > 20 and legal(judged)
    return well, '%d inserts, %d pools cleared %s, %d times no primary, status %s; %s %s' % (fine, cleared, why or '', lost, status, judged, played.told())


def late_wake(given):
    """A caller that wakes 2.5 s after its connection was granted: where the pool was cleared meanwhile, and its connections interrupted, it does not write to a server
    that answers nothing."""
    played = Played(given, FAST + '&maxPoolSize=2', ['--load', '6', '--log', 'LOG'], env={'LD_PRELOAD': given.shim, 'SHIM_WAKE': '2500'})
    played.shown([played.server(0, 'RSPrimary')], 10)
    time.sleep(4)
    played.servers.do('freeze 0')
    time.sleep(12)
    status, _ = played.end()
    held, cleared = {}, None
    with open(played.log) as log:
        for line in log:
            step, _, *facts = line.rstrip('\n').split(' | ')
            words = step.split(' ')
            if words[0] == 'stop':
                break
            for fact in facts:
                if 'PoolCleared' in fact and 'interrupt=true' in fact and cleared is None:
                    cleared = int(words[1])
                if fact.startswith('Granted ') and cleared is None:
                    held[fact.split(' ')[1]] = None
            # A party's connection comes back by its return, or its request ends.
            for party in (words[2:3] if words[0] == 'return' else []) + [it.split(' ')[1] for it in facts if it.startswith('Ended ')]:
                if party in held and cleared is None:
                    del held[party]
                elif party in held and held[party] is None:
                    held[party] = int(words[1])
    if cleared is None:
        return False, 'no pool was cleared, status %s' % status
    hung = sum(it is None for it in held.values())
    latest = max([it - cleared for it in held.values() if it is not None], default=0)
    judged = played.judged()
    return hung == 0 and latest < 8000 and legal(judged) and bool(held), '%d in hand at the clear, %d never came back, the latest after %d ms; %s' % (len(held), hung, latest, judged)


def no_answers(given):
    """A server that answers hellos and no inserts: operations end at their deadline, by `socketTimeoutMS` as by `timeoutMS`."""
    said = []
    for option in ('socketTimeoutMS', 'timeoutMS'):
        played = Played(given, CALM + '&%s=700' % option, ['--load', '4', '--log', 'LOG'], before=['elect 0', 'mute 0'])
        time.sleep(5)
        status, _ = played.end()
        said.append((option, played.count('timeout') + played.count('timed_out'), status, played.count('pools cleared'), played.judged()))
    well = all(it[1] >= 3 and it[2] == 0 and it[3] == 0 and legal(it[4]) for it in said)
    return well, '; '.join('%s=700: %d timed out in 5 s, status %s, %d pools cleared, %s' % it for it in said)


def keepalive(given):
    """A connection that is in hand is asked for signs of life after minutes, not hours."""
    played = Played(given, FAST, ['--load', '2'], before=['elect 0', 'work 0 3000'])
    time.sleep(3)
    timers = []
    for line in subprocess.run(['ss', '-tnpo'], stdout=subprocess.PIPE, text=True).stdout.splitlines():
        found = re.search(r'timer:\(keepalive,(?:(\d+)min)?(?:(\d+)sec)?', line)
        if found and 'pid=%d,' % played.program.pid in line:
            timers.append(60 * int(found.group(1) or 0) + int(found.group(2) or 0))
    status, _ = played.end()
    return bool(timers) and max(timers) <= 120 and status == 0, '%d connections, the next sign of life is asked for in at most %s s' % (len(timers), max(timers, default='-'))


def no_threads(given):
    """Threads that cannot be started at first, and then can."""
    played = Played(given, FAST, ['--load', '2'], env={'LD_PRELOAD': given.shim, 'SHIM_THREADS': '3-9'})
    settled = played.shown([played.server(0, 'RSPrimary'), played.server(1, 'RSSecondary'), played.server(2, 'RSSecondary')], 10)
    status, _ = played.end()
    return settled is not None and status in (0, 3), 'all servers monitored after %s s, status %s %s' % ('%.2f' % settled if settled else '-', status, played.told())


def no_events(given):
    """Files for the ways to cancel that are missing at first: afterwards what hangs can be cancelled."""
    played = Played(given, FAST + '&connectTimeoutMS=10000', ['--load', '2'], env={'LD_PRELOAD': given.shim, 'SHIM_EVENTS': '1-12'})
    settled = played.shown([played.server(0, 'RSPrimary'), played.server(1, 'RSSecondary'), played.server(2, 'RSSecondary')], 10)
    for number in range(3):
        played.servers.do('freeze %d' % number)
    status, took = played.end()
    return settled is not None and status == 0 and took < 7, 'all servers monitored after %s s, status %s after %.2f s' % ('%.2f' % settled if settled else '-', status, took)


def no_memory(given):
    """Allocations that are refused, one in so many: nothing is lost, and the log is legal; and all from one on: the program ends with a reason."""
    said, well = [], True
    for rule in ('random:1000', 'random:300', '400/997', '800+', '2000+'):
        played = Played(given, FAST + '&maxPoolSize=5', ['--load', '8', '--pace', '5', '--log', 'LOG'], env={'LD_PRELOAD': given.shim, 'SHIM_MALLOC': rule})
        time.sleep(4)
        if rule[-1] == '+':
            time.sleep(2)
        status, took = played.end()
        judged = played.judged() if rule[-1] != '+' else 'not judged'
        fine = played.count('fine')
        ok = (status == 3 and 'out of memory' in played.told()) if rule[-1] == '+' else status == 0 and fine > 2 and legal(judged)
        well = well and ok
        said.append('%s: %d inserts, status %s after %.2f s, %s' % (rule, fine, status, took, judged if rule[-1] != '+' else played.told()))
    return well, '; '.join(said)


# Why mdb_live ends where memory is missing at its start; a thread takes some.
ENDS = ('mdb_live: out of memory', 'mdb_live: a thread could not be started')


def each_allocation(given):
    """One allocation is refused, each of the first 40 in turn and then one of 25, with --each every one of 1,500: nothing else changes, but where the client cannot be
    opened, or a thread of mdb_live not be started."""
    said, bad = {0: 0, 3: 0}, []

    def refuse(number):
        played = Played(given, CALM, ['--load', '2', '--pace', '20', '--log', 'LOG'], count=2, env={'LD_PRELOAD': given.shim, 'SHIM_MALLOC': str(number)})
        time.sleep(1.5)
        status, _ = played.end()
        told = played.told()
        said[status] = said.get(status, 0) + 1
        if not (status == 0 and legal(played.judged()) and not told) and not (status == 3 and told in ENDS):
            bad.append('%d: status %s %s' % (number, status, told))

    with ThreadPoolExecutor(4) as four:
        list(four.map(refuse, range(1, 1501) if given.each else [*range(1, 41), *range(65, 1500, 25)]))
    return not bad and set(said) == {0, 3}, '%d runs went on, %d were not opened; wrong: %s' % (said[0], said[3], bad or 'none')


def many_callers(given):
    """1,000 callers and ten connections."""
    played = Played(given, FAST + '&maxPoolSize=10', ['--load', '1000', '--pace', '0'])
    played.shown([played.server(0, 'RSPrimary')], 10)
    time.sleep(2)
    before = sum(played.inserts())
    spent = cpu(played.program.pid)
    time.sleep(5)
    after, used = sum(played.inserts()), cpu(played.program.pid) - spent
    status, took = played.end(60)
    each = 1e6 * used / max(1, after - before)
    return status == 0 and each < 1000, '%d inserts in 5 s, %.0f us of a processor for each; status %s after %.2f s' % (after - before, each, status, took)


def cpu(pid):
    with open('/proc/%d/stat' % pid) as file:
        words = file.read().rpartition(')')[2].split()
    return (int(words[11]) + int(words[12])) / os.sysconf('SC_CLK_TCK')


def dead_hosts(given):
    """One seed of five members, of which three answer nothing while connections to them are to be made: those to the primary are made."""
    played = Played(given, SLOW + '&minPoolSize=2&maxIdleTimeMS=300&maxPoolSize=8', ['--load', '4', '--pace', '20'], count=5, seeds=1)
    played.shown([played.server(it, 'RSSecondary') for it in range(1, 5)], 15)
    time.sleep(3)
    for number in (1, 2, 3):
        played.servers.do('freeze %d' % number)
    time.sleep(3)
    played.servers.do('reset 0')
    time.sleep(0.5)
    before = sum(played.inserts())
    time.sleep(4)
    after = sum(played.inserts())
    status, took = played.end(40)
    return after > before and status == 0, '%d inserts in 4 s after the connections to the primary were reset; status %s after %.2f s' % (after - before, status, took)


def write_errors(given):
    """An error of a single write is no success."""
    played = Played(given, FAST, ['--load', '2', '--log', 'LOG'], before=['elect 0', 'refuse 0 11000'])
    time.sleep(2.5)
    status, _ = played.end()
    fine, told, judged = played.count('fine'), played.count('command.11000'), played.judged()
    return fine == 0 and told > 10 and status == 0 and legal(judged), 'fine=%d command.11000=%d, status %s; %s' % (fine, told, status, judged)


def round_trips(given):
    """Connecting takes 300 ms: round trips do not."""
    played = Played(given, FAST.replace('=500', '=2000', 2), ['--log', 'LOG'], env={'LD_PRELOAD': given.shim, 'SHIM_CONNECT': '300'})
    played.shown([played.server(0, 'RSPrimary'), played.server(1, 'RSSecondary'), played.server(2, 'RSSecondary')], 10)
    time.sleep(3)
    status, _ = played.end()
    first, rtts = [], []
    with open(played.log) as log:
        for line in log:
            words = line.split(' | ')[0].split(' ')
            if words[0] == 'beaten' and words[5] == 'ok' and words[2] not in [it[0] for it in first]:
                first.append((words[2], int(words[4]) / 1e6))
            if words[0] == 'rtt':
                rtts.append(int(words[4]) / 1e6)
    greatest = max([it[1] for it in first] + rtts, default=0)
    return status == 0 and 0 < greatest < 250 and len(first) == 3 and rtts, '%d first checks and %d round trips, the longest of %.1f ms' % (len(first), len(rtts), greatest)


def options(given):
    """What real connection strings say is taken, and what is none is refused."""
    servers = Servers(given.python, 'replica', 1)
    servers.do('elect 0')
    taken = ['connectTimeoutMS=0', 'maxPoolSize=0', 'waitQueueTimeoutMS=0', 'socketTimeoutMS=0', 'replicaSet=%72s', 'replicaSet=r%73&maxIdleTimeMS=0', 'appName=a%20b%26c', 'retryReads=false', 'ssl=false', 'retryWrites=true&w=majority&readPreference=secondaryPreferred&readPreferenceTags=dc:ny&readPreferenceTags=&maxStalenessSeconds=-1',
             'journal=true&wtimeoutMS=100&readConcernLevel=majority']
    refused = ['replicaSet=%7', 'replicaSet=%zz', 'maxPoolSize=-1', 'connectTimeoutMS=x', 'heartbeatFrequencyMS=499', 'tls=true&ssl=false', 'readPreference=x', 'maxStalenessSeconds=90', 'w=a%20b', 'replicaSet=a%00b', 'loadBalanced=yes']
    wrong = []
    for option in taken + refused:
        ran = subprocess.run([given.program, 'mongodb://%s/?%s' % (servers.addresses[0], option), '1'], stdout=subprocess.PIPE, stderr=subprocess.PIPE, text=True)
        primary = 'RSPrimary' in ran.stdout
        if (ran.returncode == 0 and primary and not ran.stderr) != (option in taken) or (option in refused and ran.returncode != 1):
            wrong.append('%s: %s %s' % (option, ran.returncode, ran.stderr.strip()))
    servers.close()
    return not wrong, '%d taken, %d refused; wrong: %s' % (len(taken), len(refused), wrong or 'none')


def said_first(given):
    """A connection string that says `loadBalanced=false` counts before a TXT record that says true."""
    servers = Servers(given.python, 'replica', 1)
    servers.do('elect 0')
    names = Names({'records': ['a.live.test:@0'], 'txt': 'loadBalanced=true'}, servers.addresses)
    uri = 'mongodb+srv://cluster.live.test/?loadBalanced=false&tls=false&heartbeatFrequencyMS=500'
    ran = subprocess.run([given.program, uri, '1'], stdout=subprocess.PIPE, stderr=subprocess.PIPE, text=True, env={**os.environ, **names.env()})
    names.close()
    servers.close()
    return ran.returncode == 0 and 'LoadBalanced' not in ran.stdout and 'topology' in ran.stdout, 'shown %s' % ran.stdout.splitlines()[-2:]


class Calls:
    """The program of calls.c, with a client for each connection string."""

    def __init__(self, given, uris):
        self.program = subprocess.Popen([given.calls, *uris], stdin=subprocess.PIPE, stdout=subprocess.PIPE, stderr=subprocess.PIPE, text=True)

    def ask(self, line):
        """The numbers of the answer, by their names."""
        self.program.stdin.write(line + '\n')
        self.program.stdin.flush()
        code, *words = self.program.stdout.readline().rstrip('\n').split(' ')
        return {'code': int(code), **{name: int(value) for name, value in (it.split('=') for it in words[:6])}, 'text': ' '.join(words[6:])}

    def end(self):
        self.program.stdin.close()
        status = self.program.wait(20)
        return status, self.program.stderr.read()[-500:]


OK, OPTIONS, CLOSED, CANCELLED, NO_SERVER, TIMED_OUT, NETWORK, COMMAND = 0, 4, 6, 7, 8, 9, 11, 12


def calls(given):
    """The calls of mdb_net.h on two clients in one process: deadlines, cancelling, stopping, read preference, the second try of a read."""
    one, two = Servers(given.python, 'replica', 3), Servers(given.python, 'replica', 1)
    one.do('elect 0')
    options = '/?replicaSet=rs&heartbeatFrequencyMS=500&serverSelectionTimeoutMS=1500'
    made = Calls(given, ['mongodb://%s%s' % (','.join(it.addresses), options) for it in (one, two)])
    wrong = []

    def expect(line, code, **wanted):
        told = made.ask(line)
        bad = told['code'] != code or any(not (value(told[name]) if callable(value) else told[name] == value) for name, value in wanted.items())
        if bad:
            wrong.append('%s: %s' % (line, told))

    expect('run 0 insert', OK, sent=1, reply=lambda it: it > 10)
    expect('run 1 ping', NO_SERVER, sent=0, ms=lambda it: 1400 < it < 4000)
    expect('run 1 ping any', OK, sent=1)
    expect('run 1 ping timeout=200', TIMED_OUT, sent=0, ms=lambda it: 190 < it < 1400)
    expect('run 1 ping cancel=200', CANCELLED, sent=0, ms=lambda it: 190 < it < 1400)
    expect('run 0 unheard', COMMAND, server=59, reply=lambda it: it > 10)
    for command in ('insert', 'find'):
        one.do('fail 0 11600 1')
        expect('run 0 %s once' % command, COMMAND, server=11600, retried=0)
        one.do('fail 0 11600 1')
        expect('run 0 %s' % command, OK, retried=1)
        one.do('fail 0 11600 2')
        expect('run 0 %s' % command, COMMAND, server=11600, retried=1)
        one.do('fail 0 112 1')
        expect('run 0 %s' % command, COMMAND, server=112, retried=0)
    one.do('fail 0 11600 1')
    expect('run 0 ping', OK, retried=0)
    expect('run 0 find', OK, retried=1)
    one.do('mute 0')
    expect('run 0 insert timeout=300', TIMED_OUT, sent=1, ms=lambda it: 290 < it < 1500)
    expect('run 0 insert cancel=300', CANCELLED, sent=1, ms=lambda it: 290 < it < 1500)
    expect('run 0 insert stop=300', CLOSED, ms=lambda it: 290 < it < 3000)
    expect('run 0 ping', CLOSED, sent=0)
    expect('run 1 ping any', OK)
    expect('stop 1 8', OK)
    expect('run 1 ping any', CLOSED, sent=0)
    expect('open mongodb://a:b@c:d@e', OPTIONS)
    expect('open mongodb://a@c', OPTIONS)
    expect('open mongodb://c,', OPTIONS)
    expect('open mongodb://c/?directConnection=true&loadBalanced=true', OPTIONS)
    expect('open mongodb+srv://cluster.live.test/?directConnection=true', OPTIONS)
    expect('open mongodb://127.0.0.1:1', OK)
    status, errors = made.end()
    one.close()
    two.close()
    return status == 0 and not wrong, '28 calls, status %d %s; wrong: %s' % (status, errors, wrong or 'none')


SCENARIOS = {it.__name__.replace('_', '-'): it for it in (
    waking, stopped_reader, closed_reader, wide_hello, few_files, late_wake, no_answers, keepalive, no_threads, no_events, no_memory, each_allocation, many_callers, dead_hosts, write_errors,
    round_trips, options, said_first, calls)}


def main():
    built = os.path.join(TOP, 'examples', 'live', 'out')
    parser = argparse.ArgumentParser(description=__doc__, formatter_class=argparse.RawDescriptionHelpFormatter)
    parser.add_argument('--program', default=os.path.join(built, 'mdb_live'))
    parser.add_argument('--reader', default=os.path.join(built, 'fuzz_san'))
    parser.add_argument('--calls', default=os.path.join(built, 'calls'))
    parser.add_argument('--auditor', default=os.path.join(TOP, 'crates', 'mdb_auditor', 'out', 'mdb_auditor'))
    parser.add_argument('--python', default='/usr/bin/python3')
    parser.add_argument('--shim')
    parser.add_argument('--each', action='store_true')
    parser.add_argument('--list', action='store_true')
    parser.add_argument('names', nargs='*')
    given = parser.parse_args()
    chosen = {name: play for name, play in SCENARIOS.items() if not given.names or name in given.names}
    failed = 0
    for name, play in chosen.items():
        if given.list:
            print('%s: %s' % (name, ' '.join(play.__doc__.split())))
    with tempfile.TemporaryDirectory() as folder:
        if not given.shim:
            given.shim = os.path.join(folder, 'shim.so')
            subprocess.run(['cc', '-O1', '-shared', '-fPIC', os.path.join(HERE, 'shim.c'), '-o', given.shim, '-ldl'], check=True)
        for name, play in ({} if given.list else chosen).items():
            try:
                well, told = play(given)
            except (OSError, ValueError, IndexError, subprocess.SubprocessError) as why:
                well, told = False, repr(why)
            failed += not well
            print('%s %s: %s' % ('ok' if well else 'FAILED', name, told), flush=True)
    return 1 if failed else 0


if __name__ == '__main__':
    sys.exit(main())
