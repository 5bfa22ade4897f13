#!/usr/bin/env python3
"""Commands over the served documents of play: cursors on each kind of deployment, with their pins behind a load balancer, sessions, and what is tried twice, judged by mdb-play.

usage: checks/live/commands.py [--program MDB_LIVE] [--calls CALLS] [--auditor MDB_AUDITOR] [--recorded MDB_RECORDED] [--python PYTHON] [--plans NAME ..] [NAME ..]

PROGRAM is examples/live/out/mdb_live where it is left out, CALLS examples/live/out/calls (`make calls`); the proved programs are those of the gate. Status 0 where all is well.
"""
import argparse
import json
import os
import re
import subprocess
import sys
import tempfile

sys.dont_write_bytecode = True
from run import TOP

PLAY = os.path.join(TOP, 'play', 'mdb-play')
RECORD = os.path.join(TOP, 'examples', 'recording', 'record_live.py')
KINDS = {'set': 'set rs 3', 'standalone': 'standalone 1', 'routers': 'routers 2', 'balancer': 'balancer 1'}
WALK = ('fill 0 25', 'walk 0 4 1000', 'walk 0 4 10', 'walk 0 100 5', 'run 0 find any', 'run 0 ping')
READ = (25, 25, 10, 5, None, None)


class Play:
    """A run of mdb-play: what the client wrote, and the verdicts."""

    def __init__(self, given, words, plan=(), do='', env=None):
        with tempfile.TemporaryDirectory() as folder:
            found, self.transcript = os.path.join(folder, 'verdicts'), os.path.join(folder, 'transcript')
            command = [PLAY, 'run', *plan, *(['--do', do] if do else []), '--json', found, '--transcript', self.transcript, '--', *words]
            self.ran = subprocess.run(command, stdout=subprocess.PIPE, stderr=subprocess.STDOUT, text=True, timeout=300, env={**os.environ, 'PYTHON': given.python, **given.programs, **(env or {})})
            self.verdicts, self.points = {}, ''
            if os.path.exists(found):
                with open(found, encoding='utf-8') as file:
                    self.verdicts = {it['name']: it for it in json.load(file)['verdicts']}
            if os.path.exists(self.transcript):
                with open(self.transcript, encoding='utf-8') as file:
                    self.points = file.read()

    def failed(self, allowed=()):
        """The verdicts that fail, but for those that may, and for what `mdb_recorded` tells of a connection that was pending at a clear, which CMAP allows."""
        pending = re.compile(r'\d+ pool-not-ready; findings=')
        return ['%s: %s' % (name, it['text']) for name, it in self.verdicts.items()
                if it['state'] == 'FAILS' and name not in allowed and not (name == 'recorded' and pending.match(it['text']))]


def audited(given, path):
    if not os.path.exists(given.auditor):
        return 'not judged'
    with open(path, 'rb') as log:
        return subprocess.run([given.auditor], stdin=log, stdout=subprocess.PIPE, text=True).stdout.strip()


def cursors(given):
    """A cursor is read to its end, or killed where it is left; behind a load balancer its connection is pinned, taken for each batch, and let go."""
    wrong, said = [], []
    for name, kind in KINDS.items():
        with tempfile.TemporaryDirectory() as folder:
            log = os.path.join(folder, 'log')
            script = "printf '%s\\n' | %s \"$0\"" % ('\\n'.join(WALK), given.calls)
            play = Play(given, ['sh', '-c', script, '$MDB_URI'], do=kind, env={'MDB_LOG': log})
            counts = [(int(it[0]), int(it[1])) for it in re.findall(r'^(\d+) sent=.* reply=(\d+)', play.ran.stdout, re.M)]
            with open(log, encoding='utf-8') as file:
                steps = [it.split(' ')[0] for it in file]
            judged = audited(given, log)
        pins = [steps.count(it) for it in ('pin', 'take', 'unpin')]
        due = [2, 9, 2] if name == 'balancer' else [0, 0, 0]  # 6 further batches and 2 further batches, and the end of a cursor
        if len(counts) != len(WALK) or any(code or (due_count is not None and count != due_count) for (code, count), due_count in zip(counts, READ)):
            wrong.append('%s: %s' % (name, play.ran.stdout[-600:]))
        if pins != due or not (judged.startswith('legal') or judged == 'not judged') or play.ran.returncode:
            wrong.append('%s: pins, takes and unpins %s, %s, status %d %s' % (name, pins, judged, play.ran.returncode, play.failed()))
        said.append('%s: %s' % (name, judged))
    return not wrong, '%s; wrong: %s' % (', '.join(said), wrong or 'none')


def broken(given):
    """A cursor whose server goes, answers late, damages its answer or forgets it ends with an error, its pin is let go, and the next cursor is read."""
    wrong = []
    kinds = ['set rs 3; at getMore 2 kill 0; at +300ms elect 1', 'set rs 3; at getMore 2 delay 5s', 'routers 2; at getMore 2 error 43', 'balancer 1; at getMore 2 delay 5s',
             'balancer 1; at getMore 2 damage half', 'balancer 1; at getMore 3 before-reply reset', 'balancer 1; at killCursors 1 close']
    for kind in kinds:
        with tempfile.TemporaryDirectory() as folder:
            log = os.path.join(folder, 'log')
            script = "printf 'fill 0 25\\nwalk 0 4 1000\\nwalk 0 4 1000\\nwalk 0 4 6\\n' | %s \"$0\"" % given.calls
            play = Play(given, ['sh', '-c', script, '$MDB_URI'], do=kind, env={'MDB_LOG': log})
            told = [(int(it[0]), int(it[1])) for it in re.findall(r'^(\d+) sent=.* reply=(\d+)', play.ran.stdout, re.M)]
            with open(log, encoding='utf-8') as file:
                steps = [it.split(' ')[0] for it in file]
            judged = audited(given, log)
        ends = 'killCursors' in kind
        good = len(told) == 4 and told[0] == (0, 25) and (told[1] == (0, 25) if ends else told[1][0] and 0 < told[1][1] < 25) and told[2:] == [(0, 25), (0, 6)]
        if not good or steps.count('pin') != steps.count('unpin') or not (judged.startswith('legal') or judged == 'not judged') or play.ran.returncode:
            wrong.append('%s: %s %s %s' % (kind, told, judged, play.failed()))
    return not wrong, '%d cursors; wrong: %s' % (len(kinds), wrong or 'none')


def plans(given):
    """Under each plan of play no write is lost or stored twice, what is to be tried again is, once, and no event breaks a rule."""
    failed, count = [], 0
    for file in sorted(os.listdir(os.path.join(TOP, 'play', 'plans'))):
        name = file[:-len('.plan')]
        if given.plans and name not in given.plans:
            continue
        with open(os.path.join(TOP, 'play', 'plans', file), encoding='utf-8') as plan:
            names = 'names ' in plan.read()
        words = ['sh', '-c', 'MDB_LIVE_DNS=$MDB_DNS exec "$@"', 'sh'] if names else []
        command = [*words, given.python, RECORD, '-', given.program, '$MDB_URI', '4', '--load', '4', '--pace', '5']
        play = Play(given, command, plan=('--plan', os.path.join(TOP, 'play', 'plans', file)))
        count += 1
        allowed = ('lost-writes',) if name == 'rolled-back' else ()  # of the application, which acknowledges by w=1
        if play.failed(allowed) or not play.verdicts:
            failed.append('%s: status %d, %s' % (name, play.ran.returncode, play.failed(allowed) or play.ran.stdout[-400:]))
        if given.verbose:
            print('  %s: %d %s' % (name, play.ran.returncode, '; '.join(re.findall(r'^(?:retries|recorded|recovery|double-writes) .*', play.ran.stdout, re.M))), flush=True)
    return not failed, '%d plans; failed: %s' % (count, failed or 'none')


SCENARIOS = {it.__name__: it for it in (cursors, broken, plans)}


def main():
    built = os.path.join(TOP, 'examples', 'live', 'out')
    parser = argparse.ArgumentParser(description=__doc__, formatter_class=argparse.RawDescriptionHelpFormatter)
    parser.add_argument('--program', default=os.path.join(built, 'mdb_live'))
    parser.add_argument('--calls', default=os.path.join(built, 'calls'))
    parser.add_argument('--auditor', default=os.path.join(TOP, 'crates', 'mdb_auditor', 'out', 'mdb_auditor'))
    parser.add_argument('--recorded', default=os.path.join(TOP, 'crates', 'mdb_recorded', 'out', 'mdb_recorded'))
    parser.add_argument('--python', default='/usr/bin/python3')
    parser.add_argument('--plans', nargs='*')
    parser.add_argument('--verbose', action='store_true')
    parser.add_argument('names', nargs='*')
    given = parser.parse_args()
    given.programs = {'MDB_RECORDED': given.recorded} if os.path.exists(given.recorded) else {}
    failed = 0
    for name, play in SCENARIOS.items():
        if given.names and name not in given.names:
            continue
        try:
            well, told = play(given)
        except (OSError, ValueError, KeyError, subprocess.SubprocessError) as why:
            well, told = False, repr(why)
        failed += not well
        print('%s %s: %s' % ('ok' if well else 'FAILED', name, told), flush=True)
    return 1 if failed else 0


if __name__ == '__main__':
    sys.exit(main())
