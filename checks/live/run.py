#!/usr/bin/env python3
"""Plays scenarios of servers that fail and recover, and compares what mdb_live describes of them with what is to be described by the standard, and with what
two other drivers describe: pymongo and the Go driver, where they are installed.

usage: checks/live/run.py [--program MDB_LIVE] [--auditor MDB_AUDITOR] [--python PYTHON] [--alone] [--list] [NAME ..]

PROGRAM is examples/live/out/mdb_live where it is left out (its Makefile builds it). PYTHON is /usr/bin/python3, which has Debian's python3-bson and
python3-pymongo; the Go witness is built with Debian's golang-go and golang-mongodb-mongo-driver-dev; with --alone there is no witness. After each command every view is to be the wanted one
within 3 seconds. Where AUDITOR (crates/mdb_auditor/out/mdb_auditor) is built it judges the log of each run of mdb_live. A witness that shows another view is a failure, but for the differences that DIFFERENCES explains. Status 0 where all is well, else 1.
"""
import argparse
import os
import shutil
import socket
import subprocess
import sys
import tempfile
import threading
import time

sys.dont_write_bytecode = True
from dns import Names
from scenarios import DIFFERENCES, SCENARIOS

HERE = os.path.dirname(os.path.abspath(__file__))
TOP = os.path.dirname(os.path.dirname(HERE))
LIMIT, STARTING, QUIET = 3.0, 15.0, 1.0
HOSTS = '127.0.0.1 localhost\n::1 two.live.test\n127.0.0.1 two.live.test a.live.test b.live.test c.live.test\n'
LETTERS = {'U': 'Unknown', 'P': 'RSPrimary', 'S': 'RSSecondary', 'A': 'RSArbiter', 'O': 'RSOther', 'G': 'RSGhost', 'T': 'Standalone', 'M': 'Mongos', 'L': 'LoadBalancer'}
TYPES = {'No': 'ReplicaSetNoPrimary', 'With': 'ReplicaSetWithPrimary'}


class View:
    """A program that writes lines of the topology; the last one is what it describes."""

    def __init__(self, name, words, env=None):
        self.name, self.line, self.errors = name, '', tempfile.TemporaryFile('w+')
        self.program = subprocess.Popen(words, stdout=subprocess.PIPE, stderr=self.errors, text=True, env={**os.environ, **(env or {})})
        threading.Thread(target=self.read, daemon=True).start()

    def read(self):
        for line in self.program.stdout:
            words = line.split()
            if len(words) == 4 and words[1] == 'topology':
                self.line = ' '.join(words[2:])

    def close(self):
        """Ends the program, and answers what was wrong with its end."""
        died = self.program.poll()
        self.program.terminate()
        status = self.program.wait(60)
        self.errors.seek(0)
        told = self.errors.read()
        if self.name == 'mdb_live' and (died is not None or status != 0 or told):
            return 'status %s: %s' % (status, told[-500:])
        return None


class Servers:
    def __init__(self, python, kind, count, seconds=120, words=()):
        self.program = subprocess.Popen([python, os.path.join(HERE, 'servers.py'), kind, str(count), '--seconds', str(seconds), *words], stdin=subprocess.PIPE, stdout=subprocess.PIPE, text=True)
        self.addresses = self.program.stdout.readline().split()[1].split(',')

    def ask(self, question):
        """The words of the answer."""
        self.program.stdin.write(question + '\n')
        self.program.stdin.flush()
        return self.program.stdout.readline().split()[1:]

    def do(self, command):
        self.program.stdin.write(command + '\n')
        self.program.stdin.flush()
        told = self.program.stdout.readline().strip()
        if told != 'done ' + command:
            raise RuntimeError(told)

    def close(self):
        self.program.stdin.close()
        self.program.wait(60)


class Forwarder:
    """Takes connections on ::1 and hands their bytes on to a server on 127.0.0.1, so that it has an address of IPv6."""

    def __init__(self, address):
        self.to = ('127.0.0.1', int(address.rpartition(':')[2]))
        self.listener = socket.create_server(('::1', 0), family=socket.AF_INET6)
        self.port = self.listener.getsockname()[1]
        threading.Thread(target=self.serve, daemon=True).start()

    def serve(self):
        while True:
            try:
                taken = self.listener.accept()[0]
            except OSError:
                return
            made = socket.create_connection(self.to)
            for ends in ((taken, made), (made, taken)):
                threading.Thread(target=self.hand_on, args=ends, daemon=True).start()

    def hand_on(self, one, other):
        try:
            while data := one.recv(65536):
                other.sendall(data)
        except OSError:
            pass
        for end in (one, other):
            try:
                end.shutdown(socket.SHUT_RDWR)
            except OSError:
                pass


def spelled(wanted, addresses):
    """`With 0=P 1=S` as a line of the topology."""
    for number, address in enumerate(addresses):
        wanted = wanted.replace('@%d' % number, address.rpartition(':')[2])
    kind, *servers = wanted.split()
    shown = sorted('%s=%s' % (addresses[int(it[:-2])] if it[:-2].isdigit() else it[:-2], LETTERS[it[-1]]) for it in servers)
    return '%s %s' % (TYPES.get(kind, kind), ','.join(shown) or '-')


def shortened(line, addresses):
    for number, address in enumerate(addresses):
        line = line.replace(address, str(number))
    return line


def with_hosts(words, hosts):
    """The command with a hosts file of its own, in a mount namespace of its own, which takes root."""
    return ['unshare', '-m', 'sh', '-c', 'mount --bind "$0" /etc/hosts && exec "$@"', hosts, *words]


class Runs:
    def __init__(self, given, folder):
        self.given, self.folder, self.judged, self.failed, self.steps, self.explained, self.slowest = given, folder, 0, 0, 0, [], {}
        self.witnesses, self.left_out = {}, 0
        self.hosts = os.path.join(folder, 'hosts')
        with open(self.hosts, 'w') as file:
            file.write(HOSTS)
        self.own_hosts = shutil.which('unshare') and subprocess.run(with_hosts(['true'], self.hosts), stderr=subprocess.DEVNULL).returncode == 0
        if given.alone:
            return
        if subprocess.run([given.python, '-c', 'import pymongo'], stderr=subprocess.DEVNULL).returncode == 0:
            self.witnesses['pymongo'] = [given.python, os.path.join(HERE, 'witness', 'by_pymongo.py')]
        by_go = os.path.join(folder, 'by_go')
        env = {**os.environ, 'GO111MODULE': 'off', 'GOPATH': '/usr/share/gocode'}
        try:
            if subprocess.run(['go', 'build', '-o', by_go, os.path.join(HERE, 'witness', 'by_go.go')], env=env, stderr=subprocess.DEVNULL).returncode == 0:
                self.witnesses['go'] = [by_go]
        except FileNotFoundError:
            pass

    def tell(self, name, why):
        self.failed += 1
        print('FAILED %s: %s' % (name, why), flush=True)

    def settle(self, views, wanted, command):
        """Waits until each view is the wanted one, for at most 3 seconds; a command that is to change nothing is given a second to do so, and a program 15
        seconds to start."""
        took = {}
        if all(it.line in wanted[it.name] for it in views):
            time.sleep(QUIET)
        began = time.monotonic()
        while len(took) < len(views) and time.monotonic() < began + (STARTING if command == 'begin' else LIMIT):
            for view in views:
                if view.name not in took and view.line in wanted[view.name]:
                    took[view.name] = time.monotonic() - began
            time.sleep(0.01)
        for name, seconds in took.items():
            self.slowest[name] = max(seconds * (command != 'begin'), self.slowest.get(name, 0))
        return [it for it in views if it.name not in took]

    def step(self, scenario, command, wanted, views, addresses):
        self.steps += 1
        want = {}
        for view in views:
            other = DIFFERENCES.get((scenario['name'], command, view.name))
            want[view.name] = [spelled(it, addresses) for it in (other[0] if other else wanted).split(' / ')]
            if other:
                self.explained.append('%s, `%s`: %s shows `%s`: %s' % (scenario['name'], command, view.name, other[0], other[1]))
        for view in self.settle(views, want, command):
            self.tell(scenario['name'], '`%s`: %s shows `%s`, wanted `%s`' % (command, view.name, shortened(view.line, addresses), shortened(' / '.join(want[view.name]), addresses)))

    def play(self, scenario):
        own = scenario.get('hosts')
        if own and not self.own_hosts:
            self.left_out += 1
            print('left out: %s needs a hosts file of its own' % scenario['name'])
            return
        servers = Servers(self.given.python, scenario['kind'], scenario['count'])
        seeds = scenario.get('seeds') or ','.join(servers.addresses)
        for number, address in enumerate(servers.addresses):
            seeds = seeds.replace('#%d' % number, address).replace('@%d' % number, address.rpartition(':')[2])
        addresses = list(servers.addresses)
        if 'six' in scenario:
            seeds = '[::1]:%d' % Forwarder(addresses[0]).port
            addresses[0] = seeds
        names = Names(scenario['names'], servers.addresses) if 'names' in scenario else None
        uri = '%s://%s/?%s%s' % ('mongodb+srv' if names else 'mongodb', seeds, scenario['options'], '&tls=false' if names else '')
        views = []
        try:
            for command in scenario.get('before', []):
                servers.do(command)
            programs = {'mdb_live': [self.given.program], **{name: words for name, words in self.witnesses.items() if name not in scenario.get('without', ())}}
            for name, words in programs.items():
                words = [*words, uri, '100', *(['--log', os.path.join(self.folder, 'log')] if name == 'mdb_live' else [])]
                views.append(View(name, with_hosts(words, self.hosts) if own else words, names and names.env()))
            for command, wanted in scenario['steps']:
                if command.startswith('names '):
                    names.records = command[6:].split()
                elif command != 'begin':
                    servers.do(command)
                self.step(scenario, command, wanted, views, addresses)
        finally:
            for view in views:
                why = view.close()
                if why:
                    self.tell(scenario['name'], why)
            servers.close()
            if names:
                names.close()
        self.judge(scenario)

    def judge(self, scenario):
        """What the auditor says of the log."""
        if os.path.exists(self.given.auditor):
            with open(os.path.join(self.folder, 'log'), 'rb') as log:
                said = subprocess.run([self.given.auditor], stdin=log, stdout=subprocess.PIPE, text=True).stdout.strip()
            self.judged += 1
            if not said.startswith('legal entries='):
                self.tell(scenario['name'], 'the log is ' + said)


def main():
    parser = argparse.ArgumentParser(description=__doc__, formatter_class=argparse.RawDescriptionHelpFormatter)
    parser.add_argument('--program', default=os.path.join(TOP, 'examples', 'live', 'out', 'mdb_live'))
    parser.add_argument('--auditor', default=os.path.join(TOP, 'crates', 'mdb_auditor', 'out', 'mdb_auditor'))
    parser.add_argument('--python', default='/usr/bin/python3')
    parser.add_argument('--alone', action='store_true')
    parser.add_argument('--list', action='store_true')
    parser.add_argument('names', nargs='*')
    given = parser.parse_args()
    chosen = [it for it in SCENARIOS if not given.names or it['name'] in given.names]
    if given.list:
        print('\n'.join(it['name'] for it in chosen))
        return 0
    with tempfile.TemporaryDirectory() as folder:
        runs = Runs(given, folder)
        print('witnesses: %s' % (', '.join(runs.witnesses) or 'none'), flush=True)
        for scenario in chosen:
            before = runs.failed
            runs.play(scenario)
            print('%s %s' % ('ok' if runs.failed == before else 'FAILED', scenario['name']), flush=True)
    for line in runs.explained:
        print('explained: ' + line)
    print('%d scenarios, %d commands, %d logs legal, %d failed; slowest view %s' % (
        len(chosen) - runs.left_out, runs.steps, runs.judged, runs.failed, ', '.join('%s %.2f s' % it for it in sorted(runs.slowest.items()))))
    return 1 if runs.failed else 0


if __name__ == '__main__':
    sys.exit(main())
