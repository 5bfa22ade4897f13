#!/usr/bin/env python3
"""Changes legal logs and compares what the auditor says of each with the plain definitions.

usage: checks/audit/mutants.py [--script PROGRAM] [--auditor PROGRAM] [--mutants N] [--seed N] [--keep FOLDER]

PROGRAM is crates/mdb_script/out/mdb_script and crates/mdb_auditor/out/mdb_auditor where it is left out; nothing is built. The
logs are what mdb_script writes of the scripts of mdb_checks_top and of scripts made here at random. Each log is audited as it is,
and must be legal; then N times (1000) one of them is changed in one place: a line dropped, doubled or swapped with another, a
fact dropped or doubled, a party or a connection renamed. plain.py says what the verdict is: it shares nothing with the
auditor. Each difference has a line, FOLDER keeps its text, and the last line tells how many mutants were tried, by verdict.
The status is 0 where none differs, 1 where one does, and 2 where a program is missing.
"""
import argparse
import os
import random
import re
import subprocess
import sys
from collections import Counter

HERE = os.path.dirname(os.path.abspath(__file__))
sys.dont_write_bytecode = True  # the repository is left as it is
sys.path.insert(0, os.path.dirname(HERE))
sys.path.insert(0, HERE)
from faults import CRATES, scripts
from plain import verdict

SERVICE = '0102030405060708090a0b0c'
MADE = 300  # scripts made at random
LONG = 60  # lines of one of them, at most
HEAVY = 150_000  # characters of a log that is left out: the plain definitions are slow


def made(chance):
    """The lines of a script at random: of a load balancer or of one server, with few parties and connections."""
    balanced = chance.random() < 0.6
    lines = ['open seeds=a:1 ' + ('lb' if balanced else 'direct') + chance.choice(['', ' max=1', ' max=2', ' max=3 connecting=1'])]
    if not balanced:
        lines.append('hello 1 a:1 0 ok rtt=1 isWritablePrimary=true maxWireVersion=21')
    moment, party = 2, 0
    for _ in range(chance.randrange(5, LONG)):
        moment += chance.randrange(3)
        some, connection = chance.randrange(1, party + 2), chance.randrange(1, 5)
        kind = chance.choice(['request'] * 4 + ['established'] * 4 + ['return'] * 3 + ['giveup', 'failed', 'collect', 'pin', 'replicate', 'take', 'unpin', 'warm', 'error', 'claim'])
        if kind in ('request', 'warm'):
            party += 1
            lines.append(f'{kind} {moment} {party} a:1')
        elif kind == 'established':
            lines.append(f'established {moment} 0 {connection} wire=21' + (f' sid={SERVICE}' if balanced else ''))
        elif kind == 'return':
            lines.append(f'return {moment} {some} ' + chance.choice(['ok', 'ok', 'ok', 'errored', 'dropped']))
        elif kind == 'failed':
            lines.append(f'failed {moment} 0 {connection} pre network msg=reset')
        elif kind == 'error':
            lines.append(f'error {moment} {some} network msg=reset')
        elif kind == 'take':
            party += 1
            lines.append(f'take {moment} {party} 0 {connection}')
        elif kind in ('replicate', 'unpin'):
            lines.append(f'{kind} {moment} 0 {connection}')
        elif kind == 'claim':
            lines.append(f'claim {moment}')
        else:
            lines.append(f'{kind} {moment} {some}')
    return lines


def log_of(program, lines):
    text = ''.join(line + '\n' for line in lines).encode()
    return subprocess.run([program], input=text, stdout=subprocess.PIPE, check=True, timeout=120).stdout.decode()


def audited(program, text):
    return subprocess.run([program], input=text.encode(), stdout=subprocess.PIPE, timeout=120).stdout.decode().strip()


def renamed(chance, line, pattern):
    """One of the numbers that the pattern finds is another one."""
    found = list(re.finditer(pattern, line))
    if not found:
        return line
    at = chance.choice(found)
    number = max(0, int(at.group(1)) + chance.choice([-1, 1, 1, 2]))
    return line[:at.start(1)] + str(number) + line[at.end(1):]


PARTY = r'(?:^(?:request|warm|giveup|return|pin|collect|error|take) \d+ |Granted |Ended )(\d+)\b'
CONNECTION = (r'(?:^(?:established|failed|replicate|unpin) \d+ \d+ |^take \d+ \d+ \d+ |Granted \d+ \d+\.'
              r'|Connection(?:Created|Closed|CheckedIn) [^ ]+ )(\d+)\b')


TELLING = re.compile(r'Granted|Ended|Opened|Raised|Pool \d+ (Pool|ConnectionC(reated|losed|heckedIn))')


def changed(chance, text):
    """A text with one change, and the change's name."""
    while True:
        name, mutant = once(chance, text)
        if mutant != text:
            return name, mutant


def once(chance, text):
    lines = text.split('\n')[:-1]
    accepted = [n for n, line in enumerate(lines) if ' | Refused' not in line]
    at = chance.choice(accepted if accepted and chance.random() < 0.9 else range(len(lines)))
    other = chance.randrange(len(lines))
    name = chance.choice(['line dropped', 'line doubled', 'lines swapped', 'fact dropped', 'fact doubled', 'party', 'party', 'connection', 'connection'])
    parts = lines[at].split(' | ')
    telling = [n for n, part in enumerate(parts) if n > 1 and TELLING.match(part)]
    fact = chance.choice(telling) if telling else None
    if name == 'line dropped':
        del lines[at]
    elif name == 'line doubled':
        lines.insert(at, lines[at])
    elif name == 'lines swapped':
        lines[at], lines[other] = lines[other], lines[at]
    elif name == 'fact dropped' and fact:
        lines[at] = ' | '.join(parts[:fact] + parts[fact + 1:])
    elif name == 'fact doubled' and fact:
        lines[at] = ' | '.join(parts[:fact] + [parts[fact]] + parts[fact:])
    elif name == 'party':
        lines[at] = renamed(chance, lines[at], PARTY)
    elif name == 'connection':
        lines[at] = renamed(chance, lines[at], CONNECTION)
    return name, ''.join(line + '\n' for line in lines)


def main():
    said = argparse.ArgumentParser(usage=__doc__.split('\n')[2][7:])
    said.add_argument('--script', default=os.path.join(CRATES, 'mdb_script', 'out', 'mdb_script'))
    said.add_argument('--auditor', default=os.path.join(CRATES, 'mdb_auditor', 'out', 'mdb_auditor'))
    said.add_argument('--mutants', type=int, default=1000)
    said.add_argument('--seed', type=int, default=1)
    said.add_argument('--keep')
    words = said.parse_args()
    for program in (words.script, words.auditor):
        if not os.path.isfile(program):
            print('missing: ' + program)
            return 2
    chance, differ, tried = random.Random(words.seed), 0, Counter()
    logs = [log_of(words.script, lines) for _, lines, _ in scripts()] + [log_of(words.script, made(chance)) for _ in range(MADE)]
    logs = [log for log in logs if 0 < len(log) < HEAVY]
    texts = [('as it is', log) for log in logs] + [changed(chance, chance.choice(logs)) for _ in range(words.mutants)]
    for number, (name, text) in enumerate(texts):
        wanted, given = verdict(text), audited(words.auditor, text)
        tried[re.sub(r'entr.*=\d+ ?', '', wanted).strip()] += number >= len(logs)
        if wanted != given or (number < len(logs) and not wanted.startswith('legal')):
            differ += 1
            print('%d (%s): the auditor says %r, the definitions %r' % (number, name, given, wanted))
            if words.keep:
                os.makedirs(words.keep, exist_ok=True)
                with open(os.path.join(words.keep, str(number)), 'w', newline='\n') as file:
                    file.write(text)
    print('%d legal logs, %d mutants (%s), %d differ' % (len(logs), words.mutants, ', '.join('%s %d' % it for it in sorted(tried.items()) if it[1]), differ))
    return 1 if differ else 0


if __name__ == '__main__':
    sys.exit(main())
