#!/usr/bin/env python3
"""A failover under load: three members of a replica set, 32 threads that insert, which takes 10 ms, the primary killed, another one elected, the old one back and elected again.

usage: checks/live/failover.py [--program MDB_LIVE] [--auditor MDB_AUDITOR] [--python PYTHON] [--threads N] [--log FILE] [--retries]

Writes ten lines of numbers. They come from mdb_live, and from its log, which is read here: each grant against the clears before it, each error against the
generation of its connection. The auditor says whether the whole log is legal. Status 0 where no stale connection was granted, no late error cleared a pool,
the log is legal, and mdb_live ended well. Inserts are tried once, with --retries as the standard of retryable writes has it.
"""
import argparse
import os
import re
import subprocess
import sys
import tempfile
import threading
import time

sys.dont_write_bytecode = True
HERE = os.path.dirname(os.path.abspath(__file__))
TOP = os.path.dirname(os.path.dirname(HERE))
PLAY = [(2, 'kill 0'), (0.5, 'elect 1'), (2, 'start 0'), (2, 'elect 0'), (2, 'stepdown'), (0.5, 'elect 2'), (2, None)]


class Reading:
    """What the entries of a log come to: which generation each connection is of, which were granted when stale, and what late errors did."""

    def __init__(self):
        self.generation, self.born, self.held, self.address, self.open = {}, {}, {}, {}, {}
        self.grants = self.stale = self.errors = self.late = self.late_clears = self.first = self.entries = 0
        self.raised, self.moment, self.ended = [], 0, {}

    def read(self, line):
        self.entries += 1
        step, reply, *facts = line.rstrip('\n').split(' | ')
        words = step.split(' ')
        if words[0] != 'open':
            self.moment = int(words[1])
        if words[0] == 'error':
            self.error(int(words[2]), reply, facts)
        for fact in facts:
            self.fact(fact.split(' '))
        if words[0] == 'return' and reply == 'Done':
            self.held.pop(int(words[2]), None)

    def error(self, party, reply, facts):
        """An error is late where its connection's pool was cleared or closed since the connection was made."""
        pool, number = self.held[party]
        late = self.born[pool, number] < self.generation[pool] or self.open.get(self.address[pool]) != pool
        self.errors += 1
        self.late += late
        self.late_clears += late and (reply != 'Changed false' or any(it.startswith('Raised') for it in facts))
        self.first += not late

    def fact(self, words):
        if words[0] == 'Opened':
            pool = int(words[1])
            self.generation[pool], self.address[pool], self.open[words[2]] = 0, words[2], pool
        if words[0] == 'Raised':
            self.generation[int(words[1])] += 1
            self.raised.append((self.moment, self.address[int(words[1])]))
        if words[0] == 'Pool' and words[2] == 'ConnectionCreated':
            self.born[int(words[1]), int(words[4])] = self.generation[int(words[1])]
        if words[0] == 'Pool' and words[2] == 'PoolClosed':
            self.open.pop(self.address[int(words[1])], None)
        if words[0] == 'Granted':
            name = tuple(int(it) for it in words[2].split('.'))
            self.grants += 1
            self.stale += self.born[name] < self.generation[name[0]]
            self.held[int(words[1])] = name
        if words[0] == 'Ended':
            self.ended[words[2]] = self.ended.get(words[2], 0) + 1


class Writing(threading.Thread):
    """What mdb_live writes, each line with the moment at which it came."""

    def __init__(self, program):
        super().__init__()
        self.program, self.lines = program, []
        self.start()

    def run(self):
        for line in self.program.stdout:
            self.lines.append((time.monotonic(), line.rstrip('\n')))

    def since(self, began, shown):
        """How many milliseconds after this moment a line of the topology showed this."""
        return next(('%d' % round(1000 * (moment - began)) for moment, line in self.lines if moment >= began and shown in line), '-')

    def counts(self):
        return [line for _, line in self.lines if not re.match(r'\d+\.\d+ ', line)]


def play(given, log):
    """Plays the failover, and answers the status of mdb_live, what it wrote, when each command was given, and the addresses."""
    servers = subprocess.Popen([given.python, os.path.join(HERE, 'servers.py'), 'replica', '3', '--seconds', '300'], stdin=subprocess.PIPE, stdout=subprocess.PIPE, text=True)
    seeds = servers.stdout.readline().split()[1]
    commands = [*((0, 'work %d 10' % it) for it in range(3)), (0, 'elect 0'), *PLAY]
    told, writing = {}, None
    for wait, command in commands:
        time.sleep(wait)
        if command:
            told[command] = time.monotonic()
            servers.stdin.write(command + '\n')
            servers.stdin.flush()
            servers.stdout.readline()
        if command == 'elect 0' and writing is None:
            uri = 'mongodb://%s/?replicaSet=rs&heartbeatFrequencyMS=500&connectTimeoutMS=1000&maxPoolSize=20&minPoolSize=2&waitQueueTimeoutMS=2000&retryWrites=%s' % (seeds, str(given.retries).lower())
            words = [given.program, uri, '100', '--load', str(given.threads), '--log', log]
            writing = Writing(subprocess.Popen(words, stdout=subprocess.PIPE, stderr=subprocess.STDOUT, text=True))
    writing.program.terminate()
    status = writing.program.wait(90)
    writing.join()
    servers.stdin.close()
    servers.wait(60)
    return status, writing, told, seeds.split(',')


def main():
    parser = argparse.ArgumentParser(description=__doc__, formatter_class=argparse.RawDescriptionHelpFormatter)
    parser.add_argument('--program', default=os.path.join(TOP, 'examples', 'live', 'out', 'mdb_live'))
    parser.add_argument('--auditor', default=os.path.join(TOP, 'crates', 'mdb_auditor', 'out', 'mdb_auditor'))
    parser.add_argument('--python', default='/usr/bin/python3')
    parser.add_argument('--threads', type=int, default=32)
    parser.add_argument('--log')
    parser.add_argument('--retries', action='store_true')
    given = parser.parse_args()
    with tempfile.TemporaryDirectory() as folder:
        log = given.log or os.path.join(folder, 'log')
        status, writing, told, seeds = play(given, log)
        reading = Reading()
        with open(log) as file:
            for line in file:
                reading.read(line)
        with open(log, 'rb') as file:
            judged = subprocess.run([given.auditor], stdin=file, stdout=subprocess.PIPE, text=True).stdout.strip() if os.path.exists(given.auditor) else 'not judged'
    lost = writing.since(told['kill 0'], 'topology ReplicaSetNoPrimary')
    found = writing.since(told['elect 1'], seeds[1] + '=RSPrimary')
    back = writing.since(told['start 0'], seeds[0] + '=RSSecondary')
    print('\n'.join(writing.counts()))
    print('milliseconds from the kill to no primary %s, from the election to the new primary %s, from the start to the old one back %s' % (lost, found, back))
    print('grants %d, of stale connections %d' % (reading.grants, reading.stale))
    print('errors %d, late %d, which cleared %d pools; %s' % (reading.errors, reading.late, reading.late_clears, judged))
    well = status == 0 and reading.stale == 0 and reading.late_clears == 0 and (judged.startswith('legal') or judged == 'not judged')
    if not well:
        print('FAILED: status %s' % status)
    return 0 if well else 1


if __name__ == '__main__':
    sys.exit(main())
