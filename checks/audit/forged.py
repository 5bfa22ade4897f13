#!/usr/bin/env python3
"""Makes logs that no core makes and compares what the auditor says of each with the plain definitions.

usage: checks/audit/forged.py [--auditor PROGRAM] [--logs N] [--seed N] [--keep FOLDER]

PROGRAM is crates/mdb_auditor/out/mdb_auditor where it is left out; nothing is built. A log is made of entries at random: few
numbers of parties, pools and connections, two addresses, any step with any facts. So numbers are asked twice, at two addresses;
pools that were never opened grant and close; one address has two pools and one number two addresses; a party is given several
connections and a connection several parties; pins are dropped before they are made; facts name connections that are created later.
An entry after which the log is legal is kept; one that is at fault ends the log now and then, and else is left out. plain.py says
what is legal, and what the verdict of the whole text is: it shares nothing with the auditor. Each difference has a line, FOLDER
keeps its text, and the last line tells how many logs were tried, by verdict, and what they had. The status is 0 where none differs,
1 where one does, and 2 where the program is missing.
"""
import argparse
import os
import random
import re
import subprocess
import sys
from collections import Counter

HERE = os.path.dirname(os.path.abspath(__file__))
sys.dont_write_bytecode = True  # the repository is left as it is
sys.path.insert(0, HERE)
from plain import History, act, address, fact, fault, options, verdict

PROGRAM = os.path.join(os.path.dirname(os.path.dirname(HERE)), 'crates', 'mdb_auditor', 'out', 'mdb_auditor')
LONG = 70  # entries of a log, at most
PLACES = ('a:1', 'b:2')


class Chance(random.Random):
    """Small numbers and words at random."""

    def party(self):
        return self.randrange(1, 6)

    def pool(self):
        return self.choice((0, 0, 0, 1, 2))

    def connection(self):
        return self.randrange(1, 5)

    def place(self):
        return self.choice(PLACES)


def opening(chance):
    """An open line that opens its seeds, and an entry for it that is mostly right."""
    seeds = chance.choice((['a:1'], ['a:1'], ['b:2'], ['a:1', 'b:2']))
    balanced = len(seeds) == 1 and chance.random() < 0.6
    line = 'open seeds=' + ','.join(seeds) + (' lb' if balanced else '') + chance.choice(('', '', ' max=1', ' max=2', ' max=3 connecting=1', ' connecting=1', ' limit_id=2'))
    facts = []
    for number, seed in enumerate(seeds):
        facts.append(f'Opened {number} {seed}')
        if chance.random() < 0.9:
            facts.append(f'Pool {number} PoolCreated {seed} -')
    return line, facts + ([some_fact(chance)] if chance.random() < 0.1 else [])


def some_step(chance):
    kind = chance.choice(['request'] * 4 + ['warm', 'established', 'failed', 'take', 'take', 'pin', 'pin', 'unpin', 'unpin', 'replicate', 'giveup', 'giveup', 'return', 'return', 'claim', 'claim', 'stop'])
    if kind in ('request', 'warm'):
        return f'{kind} 1 {chance.party()} {chance.place()}'
    if kind == 'established':
        return f'established 1 {chance.pool()} {chance.connection()} wire=21'
    if kind == 'failed':
        return f'failed 1 {chance.pool()} {chance.connection()} pre network msg='
    if kind == 'take':
        return f'take 1 {chance.party()} {chance.pool()} {chance.connection()}'
    if kind in ('unpin', 'replicate'):
        return f'{kind} 1 {chance.pool()} {chance.connection()}'
    if kind in ('pin', 'giveup'):
        return f'{kind} 1 {chance.party()}'
    return f'return 1 {chance.party()} ok' if kind == 'return' else f'{kind} 1'


def some_fact(chance):
    kind = chance.choice(['created'] * 4 + ['granted'] * 4 + ['ended', 'ended', 'closed', 'closed', 'in', 'in', 'opened', 'pool', 'pool', 'raised', 'told'])
    pool = chance.pool()
    if kind == 'created':
        return f'Pool {pool} ConnectionCreated a:1 {chance.connection()}'
    if kind == 'granted':
        return f'Granted {chance.party()} {pool}.{chance.connection()}'
    if kind == 'ended':
        return f'Ended {chance.party()} {chance.choice(("Closed", "GaveUp", "Filled"))}'
    if kind == 'closed':
        return f'Pool {pool} ConnectionClosed a:1 {chance.connection()} Error service=-'
    if kind == 'in':
        return f'Pool {pool} ConnectionCheckedIn a:1 {chance.connection()}'
    if kind == 'opened':
        return f'Opened {pool} {chance.place()}'
    if kind == 'pool':
        event = chance.choice(('PoolReady', 'PoolReady', 'PoolClosed', 'PoolCreated'))
        return f'Pool {pool} {event} a:1' + (' -' if event == 'PoolCreated' else '')
    if kind == 'raised':
        return f'Raised {pool} {chance.choice(("-", "0102030405060708090a0b0c"))} network msg=reset'
    return chance.choice(('CheckNow a:1', 'Sdam TopologyClosed', 'Cancel b:2'))


def tidied(chance, line, facts):
    """Facts after which a connection that was created, granted or given back mostly has one place."""
    asked = re.match(r'(?:request|warm) 1 (\d+) ', line)
    if asked and chance.random() < 0.6:
        pool, connection = chance.pool(), chance.connection()
        return [f'Pool {pool} ConnectionCreated a:1 {connection}'] * (chance.random() < 0.8) + [f'Granted {asked.group(1)} {pool}.{connection}'] + facts[:1]
    if line.startswith(('return', 'giveup', 'unpin', 'failed')) and chance.random() < 0.5:
        kind = chance.choice(('ConnectionCheckedIn a:1 %d', 'ConnectionClosed a:1 %d Error service=-'))
        return [f'Pool {chance.pool()} ' + kind % chance.connection()] + facts[:1]
    return facts


def made(chance):
    """A log at random, and what was kept of it."""
    line, facts = opening(chance)
    o, h, why = options(line), History(), None
    entries, wild = [], 0.03 * chance.random()
    for turn in range(1, chance.randrange(5, 12 * LONG)):
        refused = chance.random() < 0.03
        if not refused:
            after, why = fault(o, h, not entries, line, [fact(it) for it in facts])
        if refused or not why or chance.random() < wild * (8 if why == 'waiting' else 1) or not entries:
            reply = 'Refused PinState' if refused else chance.choice(('Done', 'NoJob', 'Waiting'))
            entries.append(' | '.join([line, reply] + facts))
            if why and not refused or len(entries) == LONG:
                break
            h = h if refused else after
        line = some_step(chance)
        facts = tidied(chance, line, [some_fact(chance) for _ in range(chance.choice((0, 0, 1, 1, 2, 3, 6)))])
    return ''.join(entry + '\n' for entry in entries)


def traits(text):
    """What no core makes, of the log."""
    asked, gifts, homes, created, dropped = {}, {}, {}, set(), Counter()
    found = set()
    for line in text.split('\n')[:-1]:
        said, reply, *facts = line.split(' | ')
        if reply.startswith('Refused'):
            continue
        step = act(said)
        if step[0] in ('request', 'warm') and step[2] != asked.setdefault(step[1], step[2]):
            found.add('a number asked at two addresses')
        if step[0] == 'take':
            gifts.setdefault(step[1], set()).add(step[2:])
            found.update(['a connection taken before its creation'] if step[2:] not in created else [])
        if step[0] == 'unpin':
            dropped[step[1:]] += 1
            found.update(['more unpins than pins'] if dropped[step[1:]] > 0 else [])
        if step[0] == 'replicate':
            dropped[step[1:]] -= 1
        for it in map(fact, facts):
            if it[0] == 'Opened':
                if homes.setdefault(it[2], it[1]) != it[1]:
                    found.add('two pools at an address')
            elif it[0] in ('ConnectionCreated', 'PoolReady', 'PoolClosed', 'Granted') and it[2 if it[0] == 'Granted' else 1] not in homes.values():
                found.add('facts of a pool that was never opened')
            if it[0] == 'ConnectionCreated':
                created.add(it[1:])
            if it[0] == 'Granted':
                gifts.setdefault(it[1], set()).add(it[2:])
    if any(len(given) > 1 for given in gifts.values()):
        found.add('a party with two connections')
    return found


def main():
    said = argparse.ArgumentParser(usage=__doc__.split('\n')[2][7:])
    said.add_argument('--auditor', default=PROGRAM)
    said.add_argument('--logs', type=int, default=1000)
    said.add_argument('--seed', type=int, default=1)
    said.add_argument('--keep')
    given = said.parse_args()
    if not os.path.isfile(given.auditor):
        print('missing: ' + given.auditor)
        return 2
    chance, differ, tried, had, entries = Chance(given.seed), 0, Counter(), Counter(), 0
    for turn in range(given.logs):
        text = made(chance)
        wanted = verdict(text)
        found = subprocess.run([given.auditor], input=text.encode(), stdout=subprocess.PIPE, timeout=120).stdout.decode().strip()
        entries += text.count('\n')
        tried[re.sub(r'entr.*=\d+ ?', '', wanted).strip()] += 1
        had.update(traits(text))
        if wanted != found:
            differ += 1
            print('%d: the auditor says %r, the definitions %r' % (turn, found, wanted))
            if given.keep:
                os.makedirs(given.keep, exist_ok=True)
                with open(os.path.join(given.keep, str(turn)), 'w', newline='\n') as file:
                    file.write(text)
    print('%d logs of %d entries (%s), %d differ' % (given.logs, entries, ', '.join('%s %d' % it for it in sorted(tried.items())), differ))
    print('; '.join('%s: %d' % it for it in sorted(had.items())))
    return 1 if differ else 0


if __name__ == '__main__':
    sys.exit(main())
