#!/usr/bin/env python3
"""Runs small failovers by examples/storm whose numbers can be reckoned by hand, and compares.

usage: checks/storm.py [--storm PROGRAM] [--module FILE | --no-module] [--runs N]

PROGRAM is examples/storm/out/storm where it is left out (`make -C examples/storm`). Where FILE is there (packaging/out/wasm/storm.wasm), which packaging/wasm.py made, and node is
on the path, the module of WebAssembly has to write the same numbers; N random settings (60) are tried beside those that are known. The status is 0 where no check failed, 1 where one did, 2 where the program is missing.

The small case: ten clients, each with ten callers that wait when the successor is elected, at 99.5 s; round trips take no time, so all drivers know it then. Nobody asks for half a
second after that. Let C be the time to connect, n what maxConnecting allows of ten, G the time a server takes for one connection.

- Operations that last longer than all this, no limit of the server (G = 0): no connection serves twice, so each client needs ten, in 10/n rounds of C. With n = 2 there are 20 at once and
  it takes 5 C, with n = 10 there are 100 and it takes C.
- Operations of 1 ms, no limit: of each client two callers are served at C; two more have connections begun for them then, and have to wait for these to 2 C; the six others are
  served by the first two connections meanwhile. Four connections of each client: 40 in place of 100, and 2 C in place of C.
- Operations of 1 ms, and G = 4 ms, C = 20 ms: with n = 10 the last of 100 connections begins at 99 G, and is there at 396 + 20 ms. With n = 2 the first 20 take the server until 80 ms.
  Client i has its two at 8 i + 20 and 8 i + 24 ms, begins one more at each of these moments, whose turns come at 80 + 8 i and 84 + 8 i ms, and serves its six others by the first
  two before. The last is there at 84 + 72 + 20 = 176 ms. So the smaller storm is over sooner.
- With waitQueueTimeoutMS of 50, where C is 70 ms, n = 2 and operations are long, the eighty callers for whom no connection was begun end at 50 ms, and none is tried once more; the
  twenty others are served at C.

Of one client whose primary falls silent at 5.2 s: operations of 1.5 s come each second, so those of 4 s and 5 s are never answered; that of 6 s goes to the successor, which is
elected at 5.9 s. The check of the silent server that awaits news began at 20 ms, when it was connected to, and counts as timed out after heartbeatFrequencyMS and connectTimeoutMS,
at 20.02 s: the clear interrupts both, and both are tried once more. Where the primary steps down or refuses, both meet their error at once.

Whatever the settings, each operation that was asked was done, failed or is left; samples add up to the sums; no more connections are there or being established than the settings allow; and
the same settings write the same bytes.
"""
import argparse
import json
import os
import random
import shutil
import subprocess
import sys
import tempfile

HERE = os.path.dirname(os.path.abspath(__file__))
ROOT = os.path.dirname(HERE)
OUT = os.path.join(ROOT, 'packaging', 'out')
SMALL = 'seed=0 clients=10 operationsPerSecond=1 failsAtMS=0 electionMS=99500 lengthMS=101000 serverSelectionTimeoutMS=200000 roundTripMS=0 '
ELECTED = 99500
LONG = SMALL + 'acceptsPerSecond=0 connectMS=70 operationMS=60000 '
SHORT = SMALL + 'acceptsPerSecond=0 connectMS=70 operationMS=1 '
SLOW = SMALL + 'acceptsPerSecond=250 connectMS=20 operationMS=1 '
ALONE = 'seed=0 clients=1 operationsPerSecond=1 operationMS=1500 connectMS=20 failsAtMS=5200 electionMS=700 '
# The settings, and what is reckoned of their sums; times in milliseconds.
KNOWN = [
    (LONG + 'maxConnecting=2', {'pendingMost': 20, 'recoveredUS': ELECTED + 5 * 70, 'waitingMost': 100}),
    (LONG + 'maxConnecting=10', {'pendingMost': 100, 'recoveredUS': ELECTED + 70, 'waitingMost': 100}),
    (LONG + 'maxConnecting=0', {'pendingMost': 100, 'recoveredUS': ELECTED + 70, 'waitingMost': 100}),
    (SHORT + 'maxConnecting=2', {'pendingMost': 20, 'opened': 40, 'recoveredUS': ELECTED + 2 * 70}),
    (SHORT + 'maxConnecting=10', {'pendingMost': 100, 'opened': 100, 'recoveredUS': ELECTED + 70}),
    (SLOW + 'maxConnecting=2', {'pendingMost': 20, 'opened': 40, 'recoveredUS': ELECTED + 176, 'acceptMostUS': 76}),
    (SLOW + 'maxConnecting=10', {'pendingMost': 100, 'opened': 100, 'recoveredUS': ELECTED + 416, 'acceptMostUS': 396}),
    (LONG + 'maxConnecting=2 waitQueueTimeoutMS=50', {'waitQueueTimeout': 80, 'failed': 80, 'retried': 0, 'recoveredUS': ELECTED + 70}),
    (ALONE + 'death=silent lengthMS=20019', {'network': 0, 'retried': 0, 'failed': 0, 'connect': 0}),
    (ALONE + 'death=silent lengthMS=20020', {'network': 2, 'retried': 2, 'failed': 0, 'connect': 0}),
    (ALONE + 'death=stepdown lengthMS=9900', {'notPrimary': 2, 'retried': 2, 'failed': 0, 'network': 0, 'poolCleared': 0}),
    (ALONE + 'death=refused lengthMS=9900', {'notPrimary': 0, 'retried': 2, 'failed': 0, 'network': 2, 'poolCleared': 0}),
    (ALONE + 'death=refused lengthMS=9900 retries=0', {'notPrimary': 0, 'retried': 0, 'failed': 2, 'network': 2, 'poolCleared': 0}),
]
WRONG = ['maxConnecting=1001', 'maxConnecting=-1', 'maxconnecting=1', 'death=asleep', 'clients=0', 'seed=', '/no/such/file']
RUN = """
import fs from 'node:fs';
import { Simulation } from './simulation.js';
const simulation = await Simulation.of(fs.readFileSync(process.argv[2]));
const told = process.argv.slice(3).map((words) => {
  const run = simulation.begin(words);
  while (run.go(10000));
  const { names, rows } = run.samples();
  return [run.sums(), [names.join(','), ...rows.map((row) => row.join(','))]];
});
process.stdout.write(JSON.stringify(told));
"""


def native(program, words):
    """The sums and the samples of a run."""
    told = subprocess.run([program, *words.split()], check=True, capture_output=True, text=True).stdout
    samples = subprocess.run([program, '--csv', *words.split()], check=True, capture_output=True, text=True).stdout
    return {name: int(value) for name, value in (line.split() for line in told.splitlines())}, [line.partition(',')[2] for line in samples.splitlines()]


def by_module(module, all_words):
    with tempfile.TemporaryDirectory() as folder:
        shutil.copyfile(os.path.join(ROOT, 'pages', 'src', 'simulation.js'), os.path.join(folder, 'simulation.js'))
        for name, text in (('run.js', RUN), ('package.json', '{"type": "module"}')):
            with open(os.path.join(folder, name), 'w', encoding='utf-8') as file:
                file.write(text)
        told = subprocess.run(['node', os.path.join(folder, 'run.js'), os.path.abspath(module), *all_words], check=True, capture_output=True, text=True)
    return [(sums, samples) for sums, samples in json.loads(told.stdout)]


class Checks:
    def __init__(self):
        self.done, self.failed = 0, 0

    def equal(self, name, given, wanted):
        self.done += 1
        if given != wanted:
            self.failed += 1
            print('%s: %.300r, and not %.300r' % (name, given, wanted))

    def true(self, name, given):
        self.equal(name, bool(given), True)


def made(chance):
    """Random settings of a short run."""
    pick = chance.choice
    return ' '.join([
        'clients=%d' % pick([1, 3, 20]), 'operationsPerSecond=%d' % pick([20, 300, 2000]), 'operationMS=%d' % pick([0, 1, 20, 400]), 'death=' + pick(['refused', 'silent', 'stepdown']),
        'failsAtMS=%d' % pick([0, 700, 1500]), 'electionMS=%d' % pick([0, 300, 1200]), 'lengthMS=%d' % pick([2500, 6000]), 'acceptsPerSecond=%d' % pick([0, 20, 300]), 'connectMS=%d' % pick([0, 5, 300]),
        'roundTripMS=%d' % pick([0, 1, 40]), 'maxPoolSize=%d' % pick([0, 1, 2, 20]), 'minPoolSize=%d' % pick([0, 1, 5]), 'maxConnecting=%d' % pick([0, 1, 2, 5]), 'waitQueueTimeoutMS=%d' % pick([0, 10, 300]),
        'maxIdleTimeMS=%d' % pick([0, 50, 2000]), 'connectTimeoutMS=%d' % pick([50, 400, 10000]), 'heartbeatFrequencyMS=%d' % pick([500, 10000]),
        'serverSelectionTimeoutMS=%d' % pick([200, 30000]), 'retries=%d' % pick([0, 1]), 'seed=%d' % chance.randrange(5)])


def holds(checks, words, sums, samples):
    """What is so of every run."""
    given = dict(word.split('=') for word in words.split())
    names = samples[0].split(',')
    rows = [dict(zip(names, map(int, line.split(',')))) for line in samples[1:]]
    clients, at_once = int(given['clients']), int(given['maxConnecting']) or 1 << 30
    most = max(int(given['maxPoolSize']) or 1 << 30, int(given['minPoolSize']))
    checks.equal(words + ': operations', sums['asked'], sums['done'] + sums['failed'] + sums['left'])
    for name in ('done', 'failed'):
        checks.true('%s: %s by samples' % (words, name), sum(it[name] for it in rows) <= sums[name])
    for server in 'ABC':
        checks.true(words + ': connections', all(it['live' + server] + it['pending' + server] <= clients * most for it in rows))
        checks.true(words + ': connecting at once', all(it['pending' + server] <= clients * at_once for it in rows))
    checks.equal(words + ': samples', [it['moment'] for it in rows], list(range(0, int(given['lengthMS']) + 1, 100)))


def run(checks, program, module, many):
    chance = random.Random(1)
    every = [words for words, _ in KNOWN] + [made(chance) for _ in range(many)]
    told = [native(program, words) for words in every]
    for (words, wanted), (sums, _) in zip(KNOWN, told):
        checks.equal(words, {it: sums[it] // (1000 if it.endswith('US') else 1) for it in wanted}, wanted)
    for words, (sums, samples) in list(zip(every, told))[len(KNOWN):]:
        holds(checks, words, sums, samples)
    checks.equal('the same settings again', native(program, every[-1]), told[-1])
    for words in WRONG:
        said = subprocess.run([program, words], capture_output=True, text=True)
        checks.equal('wrong: ' + words, (said.returncode, said.stdout), (2, ''))
    if module:
        for words, one, other in zip(every, told, by_module(module, every)):
            checks.equal('the module: ' + words, other, one)


def main():
    said = argparse.ArgumentParser(usage=__doc__.split('\n')[2][7:])
    said.add_argument('--storm', default=os.path.join(ROOT, 'examples', 'storm', 'out', 'storm'))
    said.add_argument('--module', default=os.path.join(OUT, 'wasm', 'storm.wasm'))
    said.add_argument('--no-module', action='store_true')
    said.add_argument('--runs', type=int, default=60)
    given = said.parse_args()
    if not os.path.exists(given.storm):
        print('missing: %s (make -C examples/storm)' % given.storm)
        return 2
    module = given.module if not given.no_module and os.path.exists(given.module) and shutil.which('node') else None
    checks = Checks()
    run(checks, given.storm, module, given.runs)
    print('%d runs of known and random settings%s: %d checks, %d failed' % (len(KNOWN) + given.runs, ', also by the module' if module else '', checks.done, checks.failed))
    return 1 if checks.failed else 0


if __name__ == '__main__':
    sys.exit(main())
