#!/usr/bin/env python3
"""Feeds the built program mutated and generated scripts by AFL++, with the auditor or a model of the script as the judge.

usage: checks/fuzz/fuzz.py [--judge PROGRAM-OR-MODEL] [--program PROGRAM] [--seconds N] [--folder FOLDER]

The judge is crates/mdb_auditor/out/mdb_auditor where it is left out; a model is a Python file with `run_script(data)`, as judge.py
tells, and no part of this repository. PROGRAM is crates/mdb_script/out/mdb_script where it is left out; nothing is built. It runs for N seconds (1800), at the lowest priority
and in one process, and begins with the scripts of crates/mdb_checks_top/stdin. FOLDER (a new one) keeps what was found, in
`differences`: the input, how the program ended and what the judge says. The last lines tell how many inputs were tried, by
status, and how many differ. The status is 0 where none does, 1 where one does, and 2 where something is missing. Needs
`afl-fuzz` (the package afl++).
"""
import argparse
import json
import os
import shutil
import subprocess
import sys
import tempfile

HERE = os.path.dirname(os.path.abspath(__file__))
sys.dont_write_bytecode = True  # the repository is left as it is
sys.path.insert(0, os.path.dirname(HERE))
from faults import CRATES, scripts

# The machine is left as it is, the target is no program that AFL++ built, and its judge takes its time.
SETTINGS = {'AFL_SKIP_BIN_CHECK': '1', 'AFL_NO_UI': '1', 'AFL_SKIP_CPUFREQ': '1', 'AFL_NO_AFFINITY': '1', 'AFL_MAP_SIZE': '65536',
            'AFL_I_DONT_CARE_ABOUT_MISSING_CRASHES': '1', 'AFL_FORKSRV_INIT_TMOUT': '120000', 'AFL_DISABLE_TRIM': '1', 'AFL_FAST_CAL': '1',
            'AFL_PYTHON_MODULE': 'mutator', 'PYTHONPATH': HERE, 'PYTHONDONTWRITEBYTECODE': '1'}
TIMEOUT = 60000  # milliseconds for one input


def seeds(folder):
    """The scripts of mdb_checks_top, each in a file of its own."""
    os.makedirs(folder)
    for number, (_, lines, _) in enumerate(scripts()):
        with open(os.path.join(folder, '%03d' % number), 'w', encoding='utf-8', newline='\n') as file:
            file.writelines(line + '\n' for line in lines)
    return folder


def fuzz(given, folder):
    """Runs afl-fuzz to the end of its time."""
    out, file = os.path.join(folder, 'afl'), os.path.join(folder, 'input')
    judge = [sys.executable, os.path.join(HERE, 'judge.py'), os.path.abspath(given.program), os.path.abspath(given.judge), folder, file]
    words = ['nice', '-n', '19', 'afl-fuzz', '-i', seeds(os.path.join(folder, 'seeds')), '-o', out, '-f', file, '-V', str(given.seconds),
             '-t', str(TIMEOUT), '-m', 'none', '--'] + judge
    with open(os.path.join(folder, 'log'), 'wb') as log:
        return subprocess.run(words, stdout=log, stderr=subprocess.STDOUT, env={**os.environ, **SETTINGS}).returncode


def tell(folder):
    """Prints what was tried and what was found; how many inputs differ, or None where nothing was tried."""
    path = os.path.join(folder, 'tally')
    if not os.path.isfile(path):
        return None
    with open(path) as file:
        tally = json.load(file)
    seconds = tally.pop('seconds')
    found = sorted(name for name in os.listdir(os.path.join(folder, 'differences')) if name.isdecimal())
    for name in found:
        print('differs: %s' % os.path.join(folder, 'differences', name))
    print('%d inputs in %d seconds: %s' % (sum(tally.values()), seconds, ', '.join('%d with %s' % (n, end) for end, n in sorted(tally.items()))))
    print('%d differ' % len(found))
    return len(found)


def options():
    """The words of the command line."""
    reader = argparse.ArgumentParser(usage=__doc__.split('usage: ')[1])
    reader.add_argument('--judge', default=os.path.join(CRATES, 'mdb_auditor/out/mdb_auditor'))
    reader.add_argument('--program', default=os.path.join(CRATES, 'mdb_script/out/mdb_script'))
    reader.add_argument('--seconds', type=int, default=1800)
    reader.add_argument('--folder')
    return reader.parse_args()


def main():
    """Fuzzes the program, and says what was found."""
    given = options()
    missing = [it for it in (given.judge, given.program) if not os.path.isfile(it)] + ['afl-fuzz'] * (not shutil.which('afl-fuzz'))
    for it in missing:
        print('missing: %s' % it, file=sys.stderr)
    if missing:
        sys.exit(2)
    folder = os.path.abspath(given.folder) if given.folder else tempfile.mkdtemp(prefix='fuzz-')
    os.makedirs(folder, exist_ok=True)
    status = fuzz(given, folder)
    count = tell(folder)
    if count is None:
        print('nothing was tried (afl-fuzz ended with %d): see %s' % (status, os.path.join(folder, 'log')), file=sys.stderr)
    sys.exit(2 if count is None else 1 if count else 0)


if __name__ == '__main__':
    main()
