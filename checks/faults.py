#!/usr/bin/env python3
"""Runs built programs with one call of the C library failing: each allocation, each read and each write in turn.

usage: checks/faults.py [--script PROGRAM] [--fleet PROGRAM] [--proxy PROGRAM] [--recorded PROGRAM] [--low PROGRAM] [--mid PROGRAM] [--top PROGRAM] [--demo PROGRAM] [--bench PROGRAM] [--tests PROGRAM] [--jobs N] [--seconds N] [--every]

PROGRAM is crates/CRATE/out/CRATE, of mdb_script, mdb_fleet, mdb_proxy, mdb_recorded, the three programs of cases (mdb_checks_low, mdb_checks_mid and mdb_checks_top), mdb_pool_demo and mdb_bench, and
crates/mdb_trials/out/mdb_trials_tests, where it is left out; nothing is built. mdb_script runs its stored script, also with `share 1` and `share 2`, `make 10`, and
the scripts of mdb_checks_top that SWEPT names (with --every all of them); mdb_fleet, mdb_proxy and mdb_recorded run their stored runs, the programs of cases their stored cases, and mdb_pool_demo its threads: of its
allocations the first DEMO_FIRST fail in turn, and then each DEMO_STEP-th; of a run of mdb_bench with few ROUNDS of two threads at one connection each fails. Each runs once as it is, and then, up to N runs side by side (as many as there are
processors) and for at most N seconds (900), once for each call and each of these faults:

  allocation   is refused. The program tells want of memory, with status 1, after whole entries or lines, the first of the
               stored output; or the run recovers: status 0 and the stored output.
  read, write  fails with an error. The program tells it, with its status, after a front of the stored output; a failing
               read leaves mdb_script and mdb_fleet with no output, and so does want of memory with `share K`. Of `share 2`, whose log is the
               schedule's, only the number of lines is compared, and a run may end before the call that was to fail.
  short_read, short_write   moves one byte, and so does each of them in a further run. Nothing changes.

The tests of mdb_trials over a running total share a driver among threads and seats. Each runs once for each of its first allocations, which is refused: it
ends well, or stops and tells want of memory; it never hangs.

Each run of mdb_pool_demo and of mdb_bench ends, whichever allocation is refused in whichever thread. It recovers, or tells want of memory, or what came of it: that a thread
was not started, which it waits for some seconds, or that a request got no connection, since that could not be established.

A case may answer want of memory where it runs the tool (counted as answered). One that is answered otherwise
for want of memory is known where its kind is in KNOWN, and else a finding. Cases of more than LONG allocations are left out.
Each finding has a line, and the counts come last; runs for which there was no time are counted as left. The status is 0
where nothing was found, 1 where something was, and 2 where a program is missing or can't be run so. Needs gcc, and programs that are linked with the C library (by `rt run`).
"""
import argparse
import concurrent.futures
import os
import re
import signal
import subprocess
import sys
import tempfile
import time
from collections import Counter, namedtuple

sys.dont_write_bytecode = True  # the repository is left as it is
from cases import CRATES, fits, lines_of

HERE = os.path.dirname(os.path.abspath(__file__))
CHECKS = ('mdb_checks_low', 'mdb_checks_mid', 'mdb_checks_top')
SORTS = {'allocation': 0, 'read': 1, 'write': 2, 'short_read': 1, 'short_write': 2}
MADE = b'lines=22 granted=10 created=4 closed=1 live=3\n'
# Kinds of cases that may be answered otherwise for want of memory: a write to a `Vec` that has no room is told as failed.
KNOWN = (b'base writing',)
# The end of an answer that is itself want of memory, told by a run of the tool within a case.
WANT = b'"out of memory\\n"'
FIRST = 1000  # allocations of a test that are refused in turn
TESTS = 'totals::'  # the tests that are run so
REST = 30  # seconds between two lines of progress
LIMIT = 120  # seconds for one run
LONG = 2000  # allocations of one case; one that takes more is left out
# The scripts of mdb_checks_top that mdb_script runs too, by the beginnings of the remarks above them: a set that drops a member,
# one that takes it back, pins.
SWEPT = ('A primary that lists one server less', 'An error of a connection of a pool that was closed', 'The connection stands at its pin',
         'Pins are refused')

# The status is that of a run to its end.
Subject = namedtuple('Subject', 'name program words input wanted ends status', defaults=(0,))
Run = namedtuple('Run', 'status written told counts')

# How a run ends at a fault: its status, and what it tells.
SCRIPT_ENDS = {'allocation': (1, b'out of memory\n'), 'read': (3, b'read fault\n'), 'write': (4, b'write fault\n')}
FAULT = b'Error: Os { code: 5, kind: Uncategorized, message: "Input/output error" }\n'
CHECKS_ENDS = {'allocation': (1, b'Error: Kind(OutOfMemory)\n'), 'read': (1, FAULT), 'write': (1, FAULT)}
SHARE_ENDS = dict(SCRIPT_ENDS)
FOUND = 7  # the status of mdb_recorded where it finds something
DEMO_ENDS = dict(CHECKS_ENDS)
# What the demo and the rounds may tell at a refused allocation, beside want of memory.
DEMO_TOLD = ((1, b'a thread was not started\n'), (1, b'a request got no connection\n'), (1, b'another answer\n'))
DEMO_LIMIT = 30  # seconds for one run of the demo
DEMO_FIRST, DEMO_STEP = 200, 97  # which allocations of the demo fail; how many it makes is up to the schedule
ROUNDS = ['kept', '20', '2', '1', '1']  # the rounds of mdb_bench of which each allocation fails
TOLD_ROUNDS = re.compile(br'returned=40 entries=\d+ micros=\d+\n')


def stored(crate):
    """The stored input of a crate, by its path, and the stored output."""
    with open(os.path.join(CRATES, crate, 'stdout'), 'rb') as file:
        return os.path.join(CRATES, crate, 'stdin'), file.read()


def scripts():
    """The scripts of mdb_checks_top that run to their end: the remark above, the lines, and the lines of the log, where ` ..` stands for any text."""
    remark, found = '', []
    for case in lines_of('mdb_checks_top'):
        kind, _, given = case.partition(' ')
        line, _, wanted = given.partition(' => ')
        if kind == '#':
            remark = given
        elif kind == 'script':
            found.append((remark, [line], [line + ' | ' + wanted]))
        elif kind == 'then':
            found[-1][1].append(line)
            found[-1][2].append(line + ' | ' + wanted)
    return [it for it in found if not any(' | status ' in line for line in it[2])]


def swept(program, folder, is_every):
    """The runs of scripts of mdb_checks_top. Their inputs are written to the folder."""
    found = []
    for number, (remark, lines, log) in enumerate(scripts()):
        if is_every or remark.startswith(SWEPT):
            path = os.path.join(folder, 'script%d' % number)
            with open(path, 'w', encoding='utf-8', newline='\n') as file:
                file.writelines(line + '\n' for line in lines)
            wanted = ''.join(line + '\n' for line in log).encode()
            found.append(Subject('mdb_script (%s)' % remark[:40], program, [], path, wanted, SCRIPT_ENDS))
    return found


def subjects(script, fleet, proxy, recorded, checks, demo, bench, folder, is_every):
    """The runs that are disturbed, of the programs that are there; and the programs that are missing."""
    found, missing = [], [program for program in (script, fleet, proxy, recorded, *checks, demo, bench) if not os.path.isfile(program)]
    if script not in missing:
        found.append(Subject('mdb_script', script, [], *stored('mdb_script'), SCRIPT_ENDS))
        for parts in ('1', '2'):
            found.append(Subject('mdb_script share ' + parts, script, ['share', parts], *stored('mdb_script'), SHARE_ENDS))
        found.append(Subject('mdb_script make 10', script, ['make', '10'], os.devnull, MADE, SCRIPT_ENDS))
        found.extend(swept(script, folder, is_every))
    if fleet not in missing:
        found.append(Subject('mdb_fleet', fleet, [], *stored('mdb_fleet'), SCRIPT_ENDS))
    if proxy not in missing:
        found.append(Subject('mdb_proxy', proxy, [], *stored('mdb_proxy'), SCRIPT_ENDS))
    if recorded not in missing:
        found.append(Subject('mdb_recorded', recorded, [], *stored('mdb_recorded'), SCRIPT_ENDS, FOUND))
    for crate, program in zip(CHECKS, checks):
        if program not in missing:
            found.append(Subject(crate, program, [], *stored(crate), CHECKS_ENDS))
    if demo not in missing:
        found.append(Subject('mdb_pool_demo', demo, [], os.devnull, stored('mdb_pool_demo')[1], DEMO_ENDS))
    if bench not in missing:
        found.append(Subject('mdb_bench ' + ' '.join(ROUNDS), bench, ROUNDS, os.devnull, b'\n', DEMO_ENDS))
    return found, missing


def run(subject, library, folder, **fault):
    """Runs a subject with the fault that the variables tell. Its input is a file: from a pipe a line is read byte by byte."""
    with open(subject.input, 'rb') as file, tempfile.TemporaryFile(dir=folder) as counts:
        env = {'LD_PRELOAD': library, 'FAULT_COUNTS': str(counts.fileno()), **fault}
        try:
            ended = subprocess.run([subject.program] + subject.words, stdin=file, capture_output=True, env=env,
                                   pass_fds=(counts.fileno(),), cwd=folder, timeout=DEMO_LIMIT if subject.ends is DEMO_ENDS else LIMIT)
        except subprocess.TimeoutExpired:
            return Run('none', b'', b'', [])
        counts.seek(0)
        told = [[int(count) for count in line.split()] for line in counts]
    return Run(ended.returncode, ended.stdout, ended.stderr, told)


def is_by_schedule(subject):
    """Whether the output is the schedule's: that of several parts, and of rounds of threads."""
    return subject.words == ROUNDS or subject.ends is SHARE_ENDS and subject.words[1] != '1'


def is_whole(subject, written):
    """Whether this is what the subject is to write."""
    if subject.words == ROUNDS:
        return TOLD_ROUNDS.fullmatch(written) is not None
    if is_by_schedule(subject):
        return written.endswith(b'\n') and written.count(b'\n') == subject.wanted.count(b'\n')
    if written == subject.wanted:
        return True
    lines, others = (text.decode(errors='replace').split('\n') for text in (written, subject.wanted))
    return subject.ends is SCRIPT_ENDS and len(lines) == len(others) and all(fits(line, other) for line, other in zip(lines, others))


def is_front(subject, written, by_lines):
    """Whether what was written is a front of what is wanted; by lines: of whole lines."""
    if is_by_schedule(subject):
        return written.count(b'\n') <= subject.wanted.count(b'\n')
    return subject.wanted.startswith(written) and (not by_lines or not written or written.endswith(b'\n'))


def changed_cases(written, wanted):
    """The lines that tell another answer to a case than the stored one, or None where anything else differs."""
    lines, others = written.splitlines(), wanted.splitlines()
    if len(lines) != len(others):
        return None
    changed = []
    for line, other in zip(lines, others):
        case, arrow, _ = other.partition(b' => ')
        if line != other and not (arrow and line.startswith(b'differs: ' + case + arrow)):
            return None
        if line != other:
            changed.append(line)
    return changed


def judge_change(subject, ended):
    """Of an allocation refused in a run that came to its end with another output: what it counts as, and the cases."""
    changed = changed_cases(ended.written, subject.wanted)
    if not changed or ended.told:
        return 'found', []
    if all(line.endswith(WANT) for line in changed):
        return 'answered', []
    is_known = all(any(line.startswith(b'differs: %s ' % kind) for kind in KNOWN) for line in changed)
    return ('known' if is_known else 'found'), changed


def judge_end(subject, kind, ended):
    """What a run counts as that did not come to its end."""
    is_told = (ended.status, ended.told) == subject.ends[kind]
    if subject.ends is DEMO_ENDS and kind == 'allocation':
        is_told = is_told or (ended.status, ended.told) in DEMO_TOLD
    owes_silence = {id(SCRIPT_ENDS): ('read',), id(SHARE_ENDS): ('read', 'allocation')}.get(id(subject.ends), ())
    is_silent = kind not in owes_silence or not ended.written
    is_good = is_told and is_silent and is_front(subject, ended.written, kind == 'allocation')
    return ('ended' if is_good else 'found'), []


def judge(subject, kind, at, ended):
    """What a run with a fault counts as, 'ended', 'unharmed', 'answered', 'known' or 'found', and the cases that changed."""
    is_unharmed = (ended.status, ended.told) == (subject.status, b'') and is_whole(subject, ended.written)
    if not ended.counts or ended.counts[-1][SORTS[kind]] < max(at, 1):
        return ('unharmed' if ended.counts and is_unharmed and is_by_schedule(subject) else 'found'), []
    if kind in ('short_read', 'short_write'):
        return ('unharmed' if is_unharmed else 'found'), []
    if kind == 'allocation' and ended.status == subject.status:
        return ('unharmed', []) if is_unharmed else judge_change(subject, ended)
    return judge_end(subject, kind, ended)


def one(subject, library, folder, kind, at):
    """One run with a fault: what it counts as, and the lines to print of it."""
    ended = run(subject, library, folder, FAULT_KIND=kind, FAULT_AT=str(at))
    verdict, changed = judge(subject, kind, at, ended)
    if verdict in ('ended', 'unharmed', 'answered'):
        return verdict, []
    which = 'each %s' % kind if at == 0 else '%s %d' % (kind, at)
    head = '%s: %s: %s: %s' % (verdict, subject.name, which, 'status %s, told %r, %d of %d bytes' % (
        ended.status, ended.told, len(ended.written), len(subject.wanted)))
    return verdict, [head] + ['  ' + line.decode(errors='replace') for line in changed]


def faults(counts):
    """The faults of a run with these counts: kinds, and numbers of calls, 0 for all of them at once."""
    for kind, sort in SORTS.items():
        for at in range(1, counts[sort] + 1):
            yield kind, at
        if kind.startswith('short') and counts[sort]:
            yield kind, 0


def chosen(subject, counts):
    """The faults that a subject is run with: of the demo the first allocations, and later ones far apart."""
    for kind, at in faults(counts):
        is_far = at > DEMO_FIRST and (at % DEMO_STEP or at > 0.9 * counts[0])
        if subject.ends is not DEMO_ENDS or subject.words or not (kind == 'allocation' and is_far):
            yield kind, at


def shortened(subject, plain, folder):
    """The subject without its long cases, which are told. A case is a line of the input, and is answered by one write."""
    lines, took = subject.wanted.splitlines(keepends=True), [counts[0] for counts in plain.counts[:-1]]
    if subject.words or subject.ends is DEMO_ENDS or len(took) != len(lines):
        return subject
    is_long = [after - before > LONG for before, after in zip([0] + took, took)]
    if subject.ends is SCRIPT_ENDS or not any(is_long):
        return subject
    for line, is_left_out in zip(lines, is_long):
        if is_left_out:
            print('%s: left out, for it takes over %d allocations: %s' % (subject.name, LONG, line[:80].decode().rstrip()))
    kept = b''.join(line for line, is_left_out in zip(lines, is_long) if not is_left_out)
    path = os.path.join(folder, 'input')
    with open(path, 'wb') as file:
        file.write(kept)
    return subject._replace(input=path, wanted=kept)


def plain_run(subject, library, folder):
    """A run with no fault, or None where it is not as stored, which is told."""
    plain = run(subject, library, folder, FAULT_EACH='yes')
    if (plain.status, plain.told) != (subject.status, b'') or not is_whole(subject, plain.written):
        print('found: %s: with no fault: status %s, told %r, not the stored output' % (subject.name, plain.status, plain.told))
        return None
    if not plain.counts or not plain.counts[-1][0]:
        print('%s: no allocation was seen; is it linked with the C library?' % subject.name, file=sys.stderr)
        sys.exit(2)
    return plain


def unless_late(until, *words):
    """One run with a fault, or nothing after the end of the time."""
    return one(*words) if time.monotonic() < until else ('left', [])


def sweep(subject, library, folder, jobs, until):
    """Runs a subject with each fault until the time is over; what the runs of each kind count as."""
    plain = plain_run(subject, library, folder)
    if plain:
        subject = shortened(subject, plain, folder)
        plain = plain_run(subject, library, folder)
        if plain and subject.ends is SCRIPT_ENDS:
            subject = subject._replace(wanted=plain.written)
    if not plain:
        return Counter({('none', 'found'): 1})
    print('%s: %d allocations, %d reads, %d writes' % (subject.name, *plain.counts[-1]), flush=True)
    tally, begun = Counter(), time.monotonic()
    todo, told = list(chosen(subject, plain.counts[-1])), begun
    with concurrent.futures.ThreadPoolExecutor(jobs) as pool:
        ended = pool.map(lambda fault: unless_late(until, subject, library, folder, *fault), todo)
        for number, (fault, (verdict, lines)) in enumerate(zip(todo, ended)):
            tally[fault[0], verdict] += 1
            for line in lines:
                print(line, flush=True)
            if time.monotonic() - told > REST:
                told = time.monotonic()
                print('%s: %d of %d runs' % (subject.name, number + 1, len(todo)), file=sys.stderr, flush=True)
    tell(subject, tally, time.monotonic() - begun)
    return tally


def tell(subject, tally, seconds):
    """Prints what the runs of each kind count as."""
    for kind in SORTS:
        verdicts = ['%d %s' % (tally[kind, verdict], verdict)
                    for verdict in ('ended', 'unharmed', 'answered', 'known', 'found', 'left') if tally[kind, verdict]]
        if verdicts:
            print('%s: %s: %s' % (subject.name, kind, ', '.join(verdicts)))
    print('%s: %d runs in %.0f seconds' % (subject.name, sum(tally.values()), seconds), flush=True)


def tests_of(program):
    """The names of the tests of a program of tests."""
    told = subprocess.run([program, '--list'], capture_output=True, text=True, timeout=LIMIT).stdout
    return [line[:-len(': test')] for line in told.splitlines() if line.endswith(': test') and TESTS in line]


def one_test(program, library, name, at):
    """What a run of a test counts as whose allocation of this number is refused, and the line to print of it."""
    env = {'LD_PRELOAD': library, 'FAULT_KIND': 'allocation', 'FAULT_AT': str(at)}
    try:
        ended = subprocess.run([program, name], capture_output=True, env=env, timeout=LIMIT)
    except subprocess.TimeoutExpired:
        return 'found', ['found: %s: allocation %d: no end' % (name, at)]
    if ended.returncode == 0 and ended.stdout.endswith(b'test result: ok\n'):
        return 'unharmed', []
    if ended.returncode == -signal.SIGABRT and b'memory' in ended.stderr:
        return 'ended', []
    return 'found', ['found: %s: allocation %d: status %s, told %r' % (name, at, ended.returncode, ended.stderr)]


def sweep_tests(program, library, jobs):
    """Runs each test with each of its first allocations refused."""
    tally, begun = Counter(), time.monotonic()
    todo = [(name, at) for name in tests_of(program) for at in range(1, FIRST + 1)]
    with concurrent.futures.ThreadPoolExecutor(jobs) as pool:
        for verdict, lines in pool.map(lambda it: one_test(program, library, *it), todo):
            tally['allocation', verdict] += 1
            for line in lines:
                print(line, flush=True)
    tell(Subject('mdb_trials_tests', program, [], os.devnull, b'', CHECKS_ENDS), tally, time.monotonic() - begun)
    return tally


def build(folder):
    """Compiles what stands before the C library."""
    library = os.path.join(folder, 'faults.so')
    source = os.path.join(HERE, 'faults.c')
    try:
        subprocess.run(['gcc', '-O1', '-shared', '-fPIC', '-o', library, source, '-ldl'], check=True)
    except (OSError, subprocess.CalledProcessError) as e:
        print('faults.c can\'t be compiled: %s' % e, file=sys.stderr)
        sys.exit(2)
    return library


def options():
    """The words of the command line."""
    reader = argparse.ArgumentParser(usage=__doc__.split('usage: ')[1])
    reader.add_argument('--script', default=os.path.join(CRATES, 'mdb_script/out/mdb_script'))
    reader.add_argument('--proxy', default=os.path.join(CRATES, 'mdb_proxy/out/mdb_proxy'))
    reader.add_argument('--recorded', default=os.path.join(CRATES, 'mdb_recorded/out/mdb_recorded'))
    reader.add_argument('--fleet', default=os.path.join(CRATES, 'mdb_fleet/out/mdb_fleet'))
    for crate in CHECKS:
        reader.add_argument('--' + crate.rsplit('_', 1)[1], default=os.path.join(CRATES, crate, 'out', crate))
    reader.add_argument('--demo', default=os.path.join(CRATES, 'mdb_pool_demo/out/mdb_pool_demo'))
    reader.add_argument('--bench', default=os.path.join(CRATES, 'mdb_bench/out/mdb_bench'))
    reader.add_argument('--tests', default=os.path.join(CRATES, 'mdb_trials/out/mdb_trials_tests'))
    reader.add_argument('--jobs', type=int, default=os.cpu_count())
    reader.add_argument('--seconds', type=int, default=900)
    reader.add_argument('--every', action='store_true')
    return reader.parse_args()


def main():
    """Sweeps each program that is there, and says what was found."""
    given, tally = options(), Counter()
    until = time.monotonic() + given.seconds
    with tempfile.TemporaryDirectory() as folder:
        checks = [os.path.abspath(it) for it in (given.low, given.mid, given.top)]
        script, fleet, proxy, recorded, demo, bench = (os.path.abspath(it) for it in (given.script, given.fleet, given.proxy, given.recorded, given.demo, given.bench))
        found, missing = subjects(script, fleet, proxy, recorded, checks, demo, bench, folder, given.every)
        library = build(folder) if found else None
        for subject in found:
            tally.update(sweep(subject, library, folder, given.jobs, until))
        tests = os.path.abspath(given.tests)
        if not os.path.isfile(tests):
            missing.append(tests)
        elif library:
            tally.update(sweep_tests(tests, library, given.jobs))
    for program in missing:
        print('missing: %s' % program)
    verdicts = Counter()
    for (_, verdict), number in tally.items():
        verdicts[verdict] += number
    count, left = verdicts['found'], verdicts.pop('left', 0)
    print('%d runs, %d left, %d findings' % (sum(verdicts.values()), left, count))
    sys.exit(2 if missing else 1 if count else 0)


if __name__ == '__main__':
    main()
