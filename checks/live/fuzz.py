#!/usr/bin/env python3
"""Fuzzes the reader of messages of examples/live by AFL++, with the address and undefined-behaviour sanitizers.

usage: checks/live/fuzz.py [--seconds N] [--folder FOLDER] [--python PYTHON]

`make fuzz` in examples/live builds the program. Its first inputs are replies to hellos and errors as servers send them. Status 0 where nothing crashed or hung.
Afterwards what AFL++ kept is run once more under valgrind, which also sees what libbson reads.
"""
import argparse
import os
import re
import shutil
import subprocess
import sys
import tempfile

HERE = os.path.dirname(os.path.abspath(__file__))
LIVE = os.path.join(os.path.dirname(os.path.dirname(HERE)), 'examples', 'live')
SEEDS = r'''
import sys, os
sys.dont_write_bytecode = True
sys.path.insert(0, sys.argv[1])
from servers import *
from bson import Timestamp
fleet = Fleet('replica', 3)
for at, member in enumerate(fleet.all): member.port = 1 + at
fleet.all[0].primary, fleet.all[0].term, fleet.all[2].role = True, 1, 'arbiter'
router, balancer = Member(fleet, 3, 'router'), Member(fleet, 4, 'balancer')
said = [it.hello({'hello': 1, 'loadBalanced': True}, 7) for it in (*fleet.all, router, balancer)]
said[0].update(tags={'dc': 'ny', 'rack': '1'}, passives=['B:2'], lastWrite={'opTime': 1})
said += [fleet.all[1].other('insert', {}), fleet.all[0].other('find', {}), {'ok': 1, '$clusterTime': {'clusterTime': Timestamp(7, 1), 'signature': {'keyId': Int64(1)}},
    'cursor': {'id': Int64(5), 'ns': 'a.b', 'nextBatch': [{'_id': 1}]}}, {'ok': 1, 'writeConcernError': {'code': 91, 'errmsg': 'x', 'errorLabels': ['RetryableWriteError']}}, {'ok': 0.0, 'errmsg': 'a|b'}]
said.append(filling(dict(said[0]), 65535))
for at, fields in enumerate(said):
    for form, code in ((0, OP_QUERY), (1, OP_MSG)):
        flags = MORE if at % 2 and form else 0
        open(os.path.join(sys.argv[2], '%d-%d' % (at, form)), 'wb').write(bytes([form]) + packed(code, 1, fields, 2, flags) + packed(code, 2 if flags else 1, fields, 3))
for at, text in enumerate(('r=nonce%x,s=W22ZaJ0SNY7soEsUEjb6gQ==,i=4096', 'r=nonce1,s=AA==,i=99999', 'v=6rriTRBi23WpRR/wtup+mMhUZUn/dB5nLTJRsjl95G4=', 'e=x,r=,s=')):
    open(os.path.join(sys.argv[2], 'scram-%d' % at), 'wb').write(bytes([4]) + text.encode())
'''


def main():
    parser = argparse.ArgumentParser(description=__doc__, formatter_class=argparse.RawDescriptionHelpFormatter)
    parser.add_argument('--seconds', type=int, default=600)
    parser.add_argument('--folder')
    parser.add_argument('--python', default='/usr/bin/python3')
    given = parser.parse_args()
    folder = given.folder or tempfile.mkdtemp(prefix='mdb-live-fuzz-')
    seeds, found = os.path.join(folder, 'seeds'), os.path.join(folder, 'found')
    os.makedirs(seeds, exist_ok=True)
    subprocess.run([given.python, '-c', SEEDS, HERE, seeds], check=True)
    settings = {**os.environ, 'AFL_SKIP_CPUFREQ': '1', 'AFL_NO_UI': '1', 'AFL_NO_AFFINITY': '1', 'AFL_I_DONT_CARE_ABOUT_MISSING_CRASHES': '1',
                'ASAN_OPTIONS': 'abort_on_error=1:symbolize=0:detect_leaks=0', 'UBSAN_OPTIONS': 'abort_on_error=1:symbolize=0'}
    words = ['afl-fuzz', '-G', '200000', '-V', str(given.seconds), '-m', 'none', '-t', '30000', '-i', seeds, '-o', found, '--', os.path.join(LIVE, 'out', 'fuzz_wire')]
    ran = subprocess.run(words, env=settings, stdin=subprocess.DEVNULL, stdout=subprocess.PIPE, stderr=subprocess.STDOUT, text=True)
    try:
        with open(os.path.join(found, 'default', 'fuzzer_stats')) as file:
            numbers = dict(re.findall(r'^(\w+) *: (.*)$', file.read(), re.M))
    except OSError:
        print(ran.stdout[-2000:])
        return 1
    crashes, hangs = int(numbers['saved_crashes']), int(numbers['saved_hangs'])
    print('%s inputs in %s s, %s kept, %d crashes, %d hangs: %s' % (numbers['execs_done'], numbers['run_time'], numbers['corpus_count'], crashes, hangs, folder), flush=True)
    return 1 if crashes or hangs or not again(os.path.join(found, 'default', 'queue')) else 0


def again(queue):
    """What was kept, each input once, by a program without sanitizers under valgrind."""
    plain = os.path.join(LIVE, 'out', 'fuzz_plain')
    if not shutil.which('valgrind') or not os.path.exists(plain):
        print('left out: valgrind, or `make plain` in examples/live')
        return True
    bad = 0
    kept = sorted(it for it in os.listdir(queue) if it.startswith('id:'))[:400]
    for name in kept:
        with open(os.path.join(queue, name), 'rb') as file:
            bad += subprocess.run(['valgrind', '--quiet', '--error-exitcode=99', plain], stdin=file, stdout=subprocess.DEVNULL, stderr=subprocess.DEVNULL).returncode != 0
    print('%d inputs under valgrind, %d with an error' % (len(kept), bad))
    return bad == 0


if __name__ == '__main__':
    sys.exit(main())
