#!/usr/bin/env python3
"""Checks the C library from C: the header against the archive, clients under valgrind and sanitizers, refused allocations, random and fuzzed calls.

usage: checks/c_library.py [--library ARCHIVE] [--program PROGRAM] [--auditor AUDITOR] [--scripts N] [--seconds N] [--folder FOLDER] [--only WORD]

ARCHIVE is crates/mdb_c/out/libmdb_c.a where it is left out (`rt lib` in crates/mdb_c makes it), PROGRAM crates/mdb_script/out/mdb_script, and AUDITOR
crates/mdb_auditor/out/mdb_auditor; none is built here. In order:

  header     include/mdb.h is C11 and C++ with no warning; the archive defines each function that it declares, and no other global name, and wants no
             function but those of the heap and of copying
  clients    checks/c/lines.c, calls.c, documents.c, fleets.c and asked.c, plain, under valgrind (no error, no leak) and with the address and undefined-behaviour sanitizers; the
             examples of bindings/examples
  pools      every call of a pool that stands alone, with each allocation refused in turn (checks/c/pools.c), the same three ways
  threads    checks/c/threads.c, plain, under helgrind and with ThreadSanitizer
  memory     each allocation of N random scripts (6) is refused in turn (checks/c/refusing.c), and once so under valgrind
  program    N random scripts give the log that PROGRAM writes (left out where it is not built)
  auditor    AUDITOR calls the text of all entries of N random scripts legal, and one with a party changed not (left out where it is not built)
  fuzz       AFL++ for N seconds (60) over checks/c/fuzz.c with the sanitizers, where there is one, and random calls for as long

The sanitizers see the client and the heap; the library's own code is not instrumented, so valgrind is what looks at its reads and writes. Each check has a
line, and the status is 0 where all are well, 1 where one is not, and 2 where the archive is missing. FOLDER keeps what was built and found. Needs gcc,
g++, nm, valgrind, and for the last check afl-fuzz (the package afl++).
"""
import argparse
import os
import random
import re
import shutil
import subprocess
import sys
import tempfile
import time

HERE = os.path.dirname(os.path.abspath(__file__))
TOP = os.path.dirname(HERE)
sys.dont_write_bytecode = True
sys.path.insert(0, os.path.join(TOP, 'bindings', 'python', 'tests'))
from scripts import script

C = os.path.join(HERE, 'c')
INCLUDE = os.path.join(TOP, 'include')
HEAP = os.path.join(TOP, 'bindings', 'heap.c')
WANTED = {'rattle_alloc', 'rattle_realloc', 'rattle_dealloc', 'memcpy', 'memmove', 'memset', 'memcmp', 'bcmp'}
EXAMPLES = os.path.join(TOP, 'bindings', 'examples')
OPERATIONS = '200 operations\n'
POOL = '''ready: ready 0, done
request: check-out started 0, connection created 1, done
established: connection ready 1, checked out 1, done
collect: done
clear: cleared 0, done
return: checked in 1, connection closed 1, done
request: check-out started 0, check-out failed 0, done
maintain: done
close: closed 0, done
'''
RENEWED = '100 requests, 1 renewal\n'
ENTRY = 'return 4 1 ok | Done | Pool 0 ConnectionCheckedIn a:27017 1\n'
FLAGS = ['-std=gnu11', '-Wall', '-Wextra', '-Werror', '-O1', '-g', '-fno-omit-frame-pointer']
SANITIZERS = ['-fsanitize=address,undefined', '-fno-sanitize-recover=all']
VALGRIND = ['valgrind', '--quiet', '--error-exitcode=99', '--leak-check=full', '--show-leak-kinds=all']


def run(words, **how):
    """Runs a command and answers whether it ended well, with what it told."""
    ran = subprocess.run(words, stdout=subprocess.PIPE, stderr=subprocess.STDOUT, **how)
    return ran.returncode == 0, ran.stdout.decode('utf-8', 'replace')


class Checks:
    def __init__(self, given, folder):
        self.given, self.folder, self.failed = given, folder, 0

    def tell(self, name, well, what=''):
        self.failed += not well
        print('%s %s%s' % ('ok' if well else 'FAILED', name, ' ' + what.strip() if what else ''), flush=True)

    def built(self, source, flags=(), heap=True, compiler='gcc', name=None):
        """A client of checks/c, linked with the library."""
        to = os.path.join(self.folder, name or source + ''.join(flags[:1]).replace('/', '_'))
        words = [compiler, *FLAGS, *flags, '-I' + INCLUDE, os.path.join(C, source + '.c'), self.given.library, *([HEAP] if heap else []), '-lpthread', '-o', to]
        well, told = run(words)
        if not well:
            self.tell('build of ' + source, False, told)
        return to if well else None

    def ran(self, name, program, words=(), before=(), **how):
        if program:
            began = time.monotonic()
            well, told = run([*before, program, *words], **how)
            self.tell(name, well, '%.1f s' % (time.monotonic() - began) if well else told[-2000:])
            return told if well else None

    def header(self):
        empty = os.path.join(self.folder, 'empty.c')
        with open(empty, 'w') as file:
            file.write('#include "mdb.h"\n')
        for words in (['gcc', '-std=c11'], ['g++', '-std=c++17', '-x', 'c++']):
            well, told = run([*words, '-Wall', '-Wextra', '-Wpedantic', '-Werror', '-I' + INCLUDE, '-c', empty, '-o', os.devnull])
            self.tell('header ' + words[0], well, told)
        with open(os.path.join(INCLUDE, 'mdb.h')) as file:
            declared = set(re.findall(r'^(?:mdb_status|void|uint32_t|uint64_t) (mdb_\w+)\(', file.read(), re.M))
        _, told = run(['nm', '-g', self.given.library])
        symbols = re.findall(r'^[0-9a-f ]{16} ([A-Za-z]) (\S+)$', told, re.M)
        defined, missing = {it for kind, it in symbols if kind != 'U'}, {it for kind, it in symbols if kind == 'U'}
        self.tell('symbols', defined == declared and missing <= WANTED, '%d calls' % len(declared) if defined == declared else str(sorted(defined ^ declared)) + str(missing - WANTED))

    def clients(self):
        for source, many, few in (('lines', '100000', '200'), ('calls', '20000', '300'), ('documents', '2000', '20'), ('fleets', '', ''), ('asked', '20000', '100')):
            self.ran(source, self.built(source), [many])
            self.ran(source + ' under valgrind', self.built(source), [few], VALGRIND)
            self.ran(source + ' with sanitizers', self.built(source, SANITIZERS), [few])

        for name, wanted in (('round', ENTRY), ('client', OPERATIONS), ('pool', POOL), ('renew', RENEWED)):
            example = os.path.join(self.folder, name)
            well, told = run(['gcc', '-std=c11', '-Wall', '-Wextra', '-Wpedantic', '-Werror', '-I' + INCLUDE, os.path.join(EXAMPLES, name + '.c'), self.given.library, HEAP, '-lpthread', '-o', example])
            well, told = run([example], timeout=60) if well else (well, told)
            self.tell('example ' + name, well and told == wanted, told)

    def pools(self):
        self.ran('pools', self.built('pools', heap=False))
        self.ran('pools under valgrind', self.built('pools', heap=False), ['20'], VALGRIND)
        self.ran('pools with sanitizers', self.built('pools', SANITIZERS, heap=False))

    def threads(self):
        self.ran('threads', self.built('threads'), ['2000'])
        self.ran('threads under helgrind', self.built('threads'), ['60'], ['valgrind', '--quiet', '--tool=helgrind', '--error-exitcode=99'])
        self.ran('threads with ThreadSanitizer', self.built('threads', ['-fsanitize=thread']), ['500'], ['setarch', '-R'] if shutil.which('setarch') else [])

    def memory(self):
        program = self.built('refusing', heap=False)
        for seed in range(self.given.scripts):
            told = self.ran('memory, script %d' % seed, program, input=text_of(seed, 60))
            if told:
                print('   ' + told.strip())
        self.ran('memory under valgrind', program, ['150'], VALGRIND, input=text_of(0, 15))

    def program(self):
        if not os.path.exists(self.given.program):
            print('left out: %s is not built' % self.given.program)
            return
        client, differ = self.built('script'), 0
        for seed in range(self.given.scripts):
            ran = [subprocess.run([it], input=text_of(seed, 200), stdout=subprocess.PIPE, stderr=subprocess.PIPE) for it in (client, self.given.program)]
            differ += (ran[0].returncode, ran[0].stdout, ran[0].stderr) != (ran[1].returncode, ran[1].stdout, ran[1].stderr)
        self.tell('program', differ == 0, '%d scripts, %d differ' % (self.given.scripts, differ))

    def auditor(self):
        if not os.path.exists(self.given.auditor):
            print('left out: %s is not built' % self.given.auditor)
            return
        client, wrong, entries = self.built('script'), [], 0
        for seed in range(self.given.scripts if client else 0):
            log = subprocess.run([client], input=text_of(seed, 200), stdout=subprocess.PIPE).stdout
            entries += log.count(b'\n')
            if self.judged(log) != (0, 'legal entries=%d' % log.count(b'\n')):
                wrong.append((seed, self.judged(log)))
            granted = re.search(rb'\| Granted (\d+) (\S+)', log)
            if granted and self.judged(log[:granted.start(1)] + b'9' + log[granted.start(1):])[0] != 7:
                wrong.append((seed, 'another party passes'))
        self.tell('auditor', bool(client) and not wrong, '%d scripts, %d entries%s' % (self.given.scripts, entries, ', ' + str(wrong) if wrong else ''))

    def judged(self, log):
        ran = subprocess.run([self.given.auditor], input=log, stdout=subprocess.PIPE)
        return ran.returncode, ran.stdout.decode().strip()

    def fuzz(self):
        seeds = os.path.join(self.folder, 'seeds')
        os.makedirs(seeds)
        for seed in range(20):
            with open(os.path.join(seeds, str(seed)), 'wb') as file:
                file.write(text_of(seed, 12) if seed % 2 else calls_of(seed, 20))
        if shutil.which('afl-fuzz') and shutil.which('afl-clang-fast'):
            program = self.built('fuzz', SANITIZERS, compiler='afl-clang-fast', name='fuzz-afl')
            if program:
                self.by_afl(program, seeds)
        else:
            print('left out: no afl-fuzz')
        program = self.built('fuzz', SANITIZERS)
        if program:
            well, told = run([program, str(self.given.seconds), '1'])
            self.tell('random calls', well, told)

    def by_afl(self, program, seeds):
        found = os.path.join(self.folder, 'afl')
        settings = {**os.environ, 'AFL_SKIP_CPUFREQ': '1', 'AFL_NO_UI': '1', 'AFL_NO_AFFINITY': '1', 'AFL_HANG_TMOUT': '60000', 'AFL_I_DONT_CARE_ABOUT_MISSING_CRASHES': '1',
                    'ASAN_OPTIONS': 'abort_on_error=1:symbolize=0:detect_leaks=0', 'UBSAN_OPTIONS': 'abort_on_error=1:symbolize=0'}
        words = ['afl-fuzz', '-V', str(self.given.seconds), '-m', 'none', '-t', '20000', '-i', seeds, '-o', found, '--', program]
        well, told = run(words, env=settings, stdin=subprocess.DEVNULL)
        stats = os.path.join(found, 'default', 'fuzzer_stats')
        if not os.path.exists(stats):
            self.tell('fuzz', False, told[-2000:])
            return
        with open(stats) as file:
            numbers = dict(re.findall(r'^(\w+) *: (.*)$', file.read(), re.M))
        crashes, hangs = int(numbers['saved_crashes']), int(numbers['saved_hangs'])
        self.tell('fuzz', crashes == 0 and hangs == 0, '%s inputs in %s s, %s kept, %d crashes, %d hangs: %s' % (
            numbers['execs_done'], numbers['run_time'], numbers['corpus_count'], crashes, hangs, found))


def text_of(seed, length):
    return ''.join(line + '\n' for line in script(seed, length)).encode()


def calls_of(seed, length):
    """An opening and random calls, as fuzz.c reads them."""
    chance = random.Random(seed)
    calls = [bytes([128 + chance.randrange(24), chance.randrange(9), 0, chance.randrange(1, 6), *[chance.randrange(4) for _ in range(2)], 0, chance.randrange(1, 5), 22, 0])
             for _ in range(length)]
    opening = [b'open seeds=a:1 max=2', b'hello 0 a:1 0 ok rtt=5 minWireVersion=0 maxWireVersion=21'] if seed % 4 else [b'open seeds=a:1 lb']
    return b'\n'.join(opening + [it.replace(b'\n', b'\x0b') for it in calls]) + b'\n'


def main():
    parser = argparse.ArgumentParser(description=__doc__, formatter_class=argparse.RawDescriptionHelpFormatter)
    parser.add_argument('--library', default=os.path.join(TOP, 'crates', 'mdb_c', 'out', 'libmdb_c.a'))
    parser.add_argument('--program', default=os.path.join(TOP, 'crates', 'mdb_script', 'out', 'mdb_script'))
    parser.add_argument('--auditor', default=os.path.join(TOP, 'crates', 'mdb_auditor', 'out', 'mdb_auditor'))
    parser.add_argument('--scripts', type=int, default=6)
    parser.add_argument('--seconds', type=int, default=60)
    parser.add_argument('--folder')
    parser.add_argument('--only', default='')
    given = parser.parse_args()
    given.library, given.program, given.auditor = (os.path.abspath(it) for it in (given.library, given.program, given.auditor))
    if not os.path.exists(given.library):
        print('%s is missing: `rt lib` in crates/mdb_c makes it' % given.library)
        return 2
    folder = given.folder or tempfile.mkdtemp(prefix='mdb-c-')
    os.makedirs(folder, exist_ok=True)
    checks = Checks(given, folder)
    for name in ('header', 'clients', 'pools', 'threads', 'memory', 'program', 'auditor', 'fuzz'):
        if given.only in ('', name):
            getattr(checks, name)()
    print('all is well' if not checks.failed else '%d failed: %s' % (checks.failed, folder))
    if not given.folder and not checks.failed:
        shutil.rmtree(folder)
    return 1 if checks.failed else 0


if __name__ == '__main__':
    sys.exit(main())
