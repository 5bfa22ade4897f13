#!/usr/bin/env python3
"""Changes single lines of logs and compares what the auditor says of each with spelling.py and the plain definitions.

usage: checks/audit/lines.py [--script PROGRAM] [--auditor PROGRAM] [--lines N] [--seed N]

PROGRAM is as mutants.py has it; nothing is built. The lines are those of the logs that mdb_script writes of the scripts of mdb_checks,
and a line of each form that these lack. N times (10000) one of them is changed: a character dropped, doubled, changed or put in,
words swapped, dropped or doubled, a number past its type or with a zero in front. It is audited as the second line of a log, or as
the first where it opens. Each difference has a line, and the last line tells how many were tried, by verdict. The status is 0 where
none differs, 1 where one does, and 2 where a program is missing.
"""
import argparse
import os
import random
import re
import sys
from collections import Counter

HERE = os.path.dirname(os.path.abspath(__file__))
sys.dont_write_bytecode = True  # the repository is left as it is
sys.path.insert(0, os.path.dirname(HERE))
sys.path.insert(0, HERE)
from faults import CRATES, scripts
from mutants import audited, log_of
from plain import verdict

OPENING = 'open seeds=a:1 lb | Done | Opened 0 a:1 | Pool 0 PoolCreated a:1 -\n'
ID = '0102030405060708090a0b0c'
FORMS = (
    'open seeds=a:1 set=r.s direct max=1 min=0 connecting=2 idle=3 wait=4 heartbeat=5 connect=6 mode=stream limit_id=7 limit_generation=8 limit_pool=0 limit_monitor=9 | Done',
    f'established 1 0 1 wire=21 sid={ID} server=7 | Done',
    f'failed 1 0 1 post sid={ID} command.91 labels=a,b tv={ID}.5 msg=not  now | Changed false',
    f'hello 1 [a::1]:1 0 ok rtt=5 isWritablePrimary=true ismaster=false helloOk=true hosts=a:1,b:2 passives=c:3 arbiters=d:4 msg=isdbgrid me=a:1 setVersion=3 setName=r | Changed true',
    f'hello 1 a:1 0 ok rtt=5 hidden=true secondary=false arbiterOnly=true isreplicaset=false logicalSessionTimeoutMinutes=30 minWireVersion=0 maxWireVersion=21 tags=a:b,c:d | Done',
    f'beaten 1 a:1 0 5 ok electionId={ID} primary=a:1 topologyVersion={ID}.9 connectionId=8 more | Done',
    'beaten 1 a:1 0 5 cancelled other msg= | Refused TimeBack 18446744073709551615',
    'beaten 1 a:1 0 5 err auth msg= | Refused Exhausted generation',
    'rtt 1 a:1 0 18446744073709551615 | Count 18446744073709551615',
    'hosts 1 a:1,b:2,c.d_e-f:65535 | Refused NotChecking',
    'collect 1 4294967295 | Establishing 4294967295.4294967295',
    'collect 1 1 | Ended Failed timeout msg=a',
    'collect 1 1 | Ended TimedOut',
    'claim 1 | Job 0.1 | Raised 0 ' + ID + ' network labels=x msg=',
    'ctime 1 5 | Done | Cancel a:1 | CheckNow [::1]:27017',
    'want 1 1 | Done | Sdam ServerDescriptionChanged a:1 RsOther RsGhost | Sdam TopologyDescriptionChanged Single/1 Sharded/20',
    f'beat 1 a:1 0 | Done | Sdam ServerHeartbeatStarted a:1 awaited=true driver=0 server=-',
    f'beat 1 a:1 0 | Done | Sdam ServerHeartbeatSucceeded a:1 awaited=false driver=4294967295 server=9223372036854775807 duration=1',
    f'beat 1 a:1 0 | Done | Sdam ServerHeartbeatFailed a:1 awaited=false driver=1 server=2 duration=1 incompatible msg=x y',
    f'maintain 1 a:1 | Done | Pool 0 PoolCreated a:1 max=1 min=- idle=18446744073709551615 | Pool 0 PoolCleared a:1 service={ID} interrupt=true',
    'expire 1 a:1 | Done | Pool 0 ConnectionCheckoutFailed a:1 Timeout 7 | Pool 0 ConnectionClosed a:1 1 PoolClosed service=- | Ended 1 Closed',
    'return 1 1 streaming | Refused PinInUse',
    'stop 1 | Done | Sdam ServerClosed a:1 | Pool 0 PoolClosed a:1 | Sdam TopologyClosed',
)
PAST = (0, 127, 128, 65535, 65536, 2 ** 31 - 1, 2 ** 31, 2 ** 32 - 1, 2 ** 32, 2 ** 63 - 1, 2 ** 63, 2 ** 64 - 1, 2 ** 64)
LETTERS = [chr(n) for n in range(32, 127)] + [' ', ' ', '|', ',', '.', ':', '=', '0', '-', '[', ']', '\t', '\r', '\0', '\x7f']


def number(chance, line):
    found = list(re.finditer(r'\d+', line))
    at = chance.choice(found) if found else None
    if at is None:
        return line
    new = chance.choice([str(chance.choice(PAST)), '0' + at.group(), '+' + at.group(), '-' + at.group()])
    return line[:at.start()] + new + line[at.end():]


def words(chance, line, how):
    each = line.split(' ')
    one, other = chance.randrange(len(each)), chance.randrange(len(each))
    if how == 'swapped':
        each[one], each[other] = each[other], each[one]
    elif how == 'dropped':
        del each[one]
    else:
        each.insert(other, each[one])
    return ' '.join(each)


def changed(chance, line):
    """The line with one change."""
    at = chance.randrange(len(line))
    kind = chance.choice(['dropped', 'doubled', 'changed', 'put in', 'number', 'number', 'words swapped', 'words dropped', 'words doubled', 'long'])
    if kind == 'dropped':
        return line[:at] + line[at + 1:]
    if kind == 'doubled':
        return line[:at] + line[at] + line[at:]
    if kind == 'changed':
        return line[:at] + chance.choice(LETTERS) + line[at + 1:]
    if kind == 'put in':
        return line[:at] + chance.choice(LETTERS) + line[at:]
    if kind == 'number':
        return number(chance, line)
    if kind == 'long':
        return line[:at] + line[at] * chance.choice([2, 8, 22, 44, 64, 65, 255, 256, 257]) + line[at:]
    return words(chance, line, kind.split(' ')[1])


def main():
    said = argparse.ArgumentParser(usage=__doc__.split('\n')[2][7:])
    said.add_argument('--script', default=os.path.join(CRATES, 'mdb_script', 'out', 'mdb_script'))
    said.add_argument('--auditor', default=os.path.join(CRATES, 'mdb_auditor', 'out', 'mdb_auditor'))
    said.add_argument('--lines', type=int, default=10_000)
    said.add_argument('--seed', type=int, default=1)
    given = said.parse_args()
    for program in (given.script, given.auditor):
        if not os.path.isfile(program):
            print('missing: ' + program)
            return 2
    chance, differ, tried = random.Random(given.seed), 0, Counter()
    lines = sorted({line for _, script, _ in scripts() for line in log_of(given.script, script).split('\n') if 0 < len(line) < 2000})
    for turn in range(len(FORMS) + given.lines):
        line = FORMS[turn] if turn < len(FORMS) else changed(chance, chance.choice(FORMS if chance.random() < 0.5 else lines))
        text = ('' if line.startswith('open ') else OPENING) + line + chance.choice(['\n'] * 19 + [''] * (turn >= len(FORMS)))
        wanted, found = verdict(text), audited(given.auditor, text)
        tried[re.sub(r'entr.*=\d+ ?', '', wanted).strip()] += 1
        if wanted != found or (turn < len(FORMS) and 'spelling' in wanted):
            differ += 1
            print('%d: the auditor says %r, the definitions %r: %r' % (turn, found, wanted, line))
    print('%d lines (%s), %d differ' % (sum(tried.values()), ', '.join('%s %d' % it for it in sorted(tried.items())), differ))
    return 1 if differ else 0


if __name__ == '__main__':
    sys.exit(main())
