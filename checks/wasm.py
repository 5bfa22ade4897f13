#!/usr/bin/env python3
"""Compares the module of WebAssembly with the archive of the library for C, by lines.

usage: checks/wasm.py [--module FILE] [--archive FILE] [--lines N] [--drivers N] [--seed N] [--table FILE ..]

FILE is packaging/out/wasm/mdb.wasm, which packaging/wasm.py made, and packaging/out/built/x86_64/mdb_c.a, of which that was made. N random lines (20,000) for N
drivers (100), the scripts of mdb_checks_top, and the lines of each FILE that --table names (cases between lines that begin with `# `) go to both: each call's status
and each entry's text are to be the same, byte for byte; and the reader of the pages (pages/src/steps.js), which says why a line is malformed, is to find a reason for
those lines alone. The module runs in Node, by the very glue of the playground, pages/src/library.js. Needs node (18 or later) and a C compiler. The last line counts; the status is 0 where nothing differs, 1 where something does, 2 where something is missing.
"""
import argparse
import ctypes
import json
import os
import random
import re
import shutil
import subprocess
import sys
import tempfile

sys.dont_write_bytecode = True
HERE = os.path.dirname(os.path.abspath(__file__))
ROOT = os.path.dirname(HERE)
sys.path.insert(0, HERE)
from faults import scripts

OUT = os.path.join(ROOT, 'packaging', 'out')
OID = '%024x'
OK, MALFORMED = 0, 2
RUN = '''
import fs from 'node:fs';
import { Library, STATUS } from './library.js';
import { reasonOf } from './reasons.js';
const library = await Library.of(fs.readFileSync(process.argv[2]));
const runs = JSON.parse(fs.readFileSync(process.argv[3], 'utf8')).map((lines) => {
  const driver = library.driver();
  const told = lines.map((line) => {
    const status = driver.step(line);
    const why = reasonOf({ line: 0, status: STATUS.malformed, text: line });
    return [status, status === STATUS.ok ? driver.entry() : '', why.slice('line 1 is malformed'.length)];
  });
  driver.close();
  return told;
});
fs.writeFileSync(process.argv[4], JSON.stringify(runs));
'''


class Made:
    """Random lines of one driver: of a replica set or of one server, with parties, connections and errors that may or may not be there."""

    def __init__(self, chance):
        self.chance, self.moment, self.party = chance, 0, 0
        self.hosts = ['h%d:27017' % it for it in range(chance.randrange(1, 4))]
        self.kind = chance.choice(['set', 'set', 'direct', 'lb', 'plain'])
        self.balanced = self.kind == 'lb'

    def pick(self, *those):
        return self.chance.choice(those)

    def opening(self):
        seeds = self.hosts[:1] if self.kind in ('direct', 'lb') else self.hosts
        kind = {'set': ' set=rs', 'plain': ''}.get(self.kind, ' ' + self.kind)
        return 'open seeds=%s%s' % (','.join(seeds), kind) + self.pick('', ' max=1', ' max=2 min=1', ' max=3 connecting=1 idle=20 wait=9', ' limit_id=6', ' mode=poll')

    def error(self):
        kind = self.pick('network', 'timeout', 'auth', 'other', 'command.%d' % self.pick(91, 189, 10107, 11600, 13435))
        return kind + self.pick('', '', ' labels=RetryableWriteError,A') + self.pick('', ' tv=%s.%d' % (OID % 7, self.chance.randrange(5))) + ' msg=' + self.pick('reset', 'a b  c', '')

    def reply(self, host):
        if self.kind != 'set':
            return ' ' + self.pick('msg=isdbgrid maxWireVersion=21', 'isWritablePrimary=true maxWireVersion=21', 'maxWireVersion=3')
        role = self.pick('isWritablePrimary=true', 'secondary=true', 'arbiterOnly=true')
        head, tail = (role + ' ', '') if role.startswith('isW') else ('', ' ' + role)
        election = ' electionId=' + OID % self.chance.randrange(1, 4) if head else ''
        return ' %shosts=%s setVersion=1 setName=%s%s minWireVersion=0 maxWireVersion=21%s' % (head, ','.join(self.hosts), self.pick('rs', 'rs', 'rs', 'x'), tail, election)

    def outcome(self, host):
        return self.pick('ok', 'ok', 'ok', 'err ' + self.error())

    def step(self):
        chance = self.chance
        self.moment += chance.randrange(4)
        host, pool = self.pick(*self.hosts), chance.randrange(len(self.hosts))
        some, connection = chance.randrange(1, self.party + 3), chance.randrange(1, 6)
        kind = self.pick(*['request'] * 5, *['established'] * 5, *['return'] * 4, 'collect', 'claim', 'claim', 'giveup', 'warm', 'failed', 'error', 'pin', 'replicate', 'take', 'unpin', 'maintain',
                         'expire', 'want', 'unwant', 'ctime', 'rtt', 'beat', 'beaten', 'hello', 'hello', 'hello', 'hosts', 'wrong')
        if kind in ('request', 'warm', 'take'):
            self.party += 1
        at = '%s %d' % (kind, self.moment)
        return {
            'request': lambda: '%s %d %s' % (at, self.party, host), 'warm': lambda: '%s %d %s' % (at, self.party, host), 'take': lambda: '%s %d %d %d' % (at, self.party, pool, connection),
            'established': lambda: '%s %d %d wire=21%s' % (at, pool, connection, ' sid=' + OID % pool if self.balanced else ''), 'failed': lambda: '%s %d %d %s %s' % (at, pool, connection, self.pick('pre', 'post'), self.error()),
            'return': lambda: '%s %d %s' % (at, some, self.pick('ok', 'ok', 'ok', 'errored', 'dropped', 'streaming')), 'claim': lambda: at, 'ctime': lambda: '%s %d' % (at, chance.randrange(1 << 64)),
            'error': lambda: '%s %d %s' % (at, some, self.error()), 'replicate': lambda: '%s %d %d' % (at, pool, connection), 'unpin': lambda: '%s %d %d' % (at, pool, connection),
            'maintain': lambda: at + ' ' + host, 'expire': lambda: at + ' ' + host, 'rtt': lambda: '%s %s %d %d' % (at, host, pool, chance.randrange(1 << 40)), 'beat': lambda: '%s %s %d' % (at, host, pool),
            'hello': lambda: self.checked('%s %s %d' % (at, host, pool), host, ' rtt=%d' % chance.randrange(1 << 30)), 'beaten': lambda: self.checked('%s %s %d %d' % (at, host, pool, chance.randrange(1 << 30)), host, ''),
            'hosts': lambda: '%s %s' % (at, ','.join(self.hosts)), 'wrong': lambda: self.pick('', 'claim', at + '  x', 'open seeds=a:1', 'request %d 1 A:1' % self.moment, 'claim %d ' % self.moment, 'n\u00fcll'),
        }.get(kind, lambda: '%s %d' % (at, some))()

    def checked(self, front, host, tail):
        outcome = self.outcome(host)
        return front + ' ' + outcome + (tail + self.reply(host) if outcome == 'ok' else '')


def made(seed, count):
    driver = Made(random.Random(seed))
    return [driver.opening()] + [driver.step() for _ in range(count - 1)]


def tables(paths):
    """The lines of worked cases, each with what stands behind its mark left out."""
    for path in paths:
        cases = []
        with open(path, encoding='utf-8') as file:
            for line in file.read().splitlines():
                if line.startswith('# '):
                    cases.append([])
                elif line.strip() and cases:
                    cases[-1].append(re.split(r' (?:->|=>|~>) ', line[:-3] if line.endswith(' !>') else line)[0])
        yield from (it for it in cases if it)


class Native:
    """The archive, by ctypes."""

    def __init__(self, archive, folder):
        shared = os.path.join(folder, 'libmdb.so')
        subprocess.run([os.environ.get('CC', 'cc'), '-shared', '-fPIC', '-O1', '-o', shared, '-Wl,--whole-archive', archive, '-Wl,--no-whole-archive', os.path.join(ROOT, 'bindings', 'heap.c')], check=True)
        self.calls = ctypes.CDLL(shared)

    def run(self, lines):
        slot, reply, needed, text = (ctypes.c_uint64 * 2)(), (ctypes.c_uint64 * 3)(), ctypes.c_size_t(), ctypes.create_string_buffer(1 << 20)
        told = []
        for line in lines:
            given = line.encode()
            length, at = ctypes.c_size_t(len(given)), ctypes.c_uint32(0)
            if line == 'open' or line.startswith('open '):
                status = self.calls.mdb_open_line(slot, at, given, length)
            else:
                status = self.calls.mdb_line(slot, at, given, length, reply)
            if status == 0 and self.calls.mdb_entry_text(slot, text, ctypes.c_size_t(len(text)), ctypes.byref(needed)) != 0:
                raise SystemExit('the archive tells no entry')
            told.append([status, text.raw[:needed.value].decode() if status == 0 else ''])
        self.calls.mdb_close(slot)
        return told


def by_module(module, runs, folder):
    for name in os.listdir(os.path.join(ROOT, 'pages', 'src')):
        if name.endswith('.js'):
            shutil.copyfile(os.path.join(ROOT, 'pages', 'src', name), os.path.join(folder, name))
    paths = [os.path.join(folder, it) for it in ('run.mjs', 'runs.json', 'told.json')]
    for path, text in ((paths[0], RUN), (os.path.join(folder, 'package.json'), '{"type": "module"}')):
        with open(path, 'w', encoding='utf-8') as file:
            file.write(text)
    with open(paths[1], 'w', encoding='utf-8') as file:
        json.dump(runs, file)
    subprocess.run(['node', paths[0], os.path.abspath(module), *paths[1:]], check=True)
    with open(paths[2], encoding='utf-8') as file:
        return json.load(file)


def main():
    said = argparse.ArgumentParser(usage=__doc__.split('\n')[2][7:])
    said.add_argument('--module', default=os.path.join(OUT, 'wasm', 'mdb.wasm'))
    said.add_argument('--archive', default=os.path.join(OUT, 'built', 'x86_64', 'mdb_c.a'))
    said.add_argument('--lines', type=int, default=20000)
    said.add_argument('--drivers', type=int, default=100)
    said.add_argument('--seed', type=int, default=1)
    said.add_argument('--table', nargs='*', default=[])
    given = said.parse_args()
    missing = [it for it in (given.module, given.archive) if not os.path.exists(it)] + [it for it in ('node',) if shutil.which(it) is None]
    if missing:
        print('missing: ' + ', '.join(missing))
        return 2
    runs = [made(given.seed * 1000 + it, given.lines // given.drivers) for it in range(given.drivers)]
    worked = [lines for _, lines, _ in scripts()] + list(tables(given.table))
    with tempfile.TemporaryDirectory() as folder:
        native = Native(given.archive, folder)
        wanted = [native.run(it) for it in runs + worked]
        found = by_module(given.module, runs + worked, folder)
    every = [(lines[at], one[at], other[at]) for lines, one, other in zip(runs + worked, wanted, found) for at in range(len(lines))]
    differ = [it for it in every if it[1] != it[2][:2]]
    unexplained = [(line, told) for line, _, told in every if told[0] in (OK, MALFORMED) and (told[0] == MALFORMED) != (told[2] != '')]
    for line, told in unexplained[:10]:
        print('%.200r: status %d, and the pages say %.200r' % (line, told[0], told[2]))
    for line, one, other in differ[:10]:
        print('%r: the archive %.300r, the module %.300r' % (line, one, other))
    random_told = [it for told in wanted[:given.drivers] for it in told]
    print('%d random lines of %d drivers, of which %d did a step and %d are malformed; %d worked scripts of %d lines; %d characters of log; %d differ, %d without their reason' % (
        len(random_told), given.drivers, sum(it[0] == 0 for it in random_told), sum(it[0] == 2 for it in random_told), len(worked), sum(map(len, worked)), sum(len(it[1]) for told in wanted for it in told), len(differ), len(unexplained)))
    return 1 if differ or unexplained else 0


if __name__ == '__main__':
    sys.exit(main())
