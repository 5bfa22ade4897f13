#!/usr/bin/env python3
"""Opens logs in pages/timeline.html, in a real browser, and compares what it drew with counts of its own.

usage: checks/page.py [--browser PROGRAM] [--script PROGRAM] [--auditor PROGRAM] [--logs FOLDER] [--mutants N] [--seed N] [--pictures FOLDER] [--quick]

Needs chromium (Debian's package of that name; PROGRAM is `chromium` where it is left out) and nothing else: no network, no library
of Python beyond its own. It builds nothing: pages/build.py made the page, and it is refused where the sources build another. Where
mdb_script is given as PROGRAM, the log of the failover is to be what it writes of its script.

- The logs are those of mdb_script and mdb_auditor, the scripts of mdb_checks_top, the failover of pages/examples, what FOLDER has, and
  N (200) that differ from one of them in one place. What is legal by the plain definitions (checks/audit/plain.py), or by the
  built auditor where PROGRAM is given, is to be drawn without a complaint; counts of connections, closes, requests, grants, ends,
  clears, refusals, errors, round trips and types are to be those of log_counts.py, and after each entry each live connection is to
  have the place that the plain definitions say. The picture of a whole log is to have each of them.
- It clicks, zooms, pans, searches, jumps, touches, drops and picks, goes to each bar by keys alone, looks at the names that a
  reader of the screen is told, at contrasts, at a narrow screen, and opens two logs of 8 MiB (not with --quick).
- FOLDER keeps pictures: timeline.png is the one of docs.

A check that fails has a line. The last line counts; the status is 0 where none failed, 1 where one did, 2 where the browser is missing.
"""
import argparse
import os
import random
import shutil
import sys

sys.dont_write_bytecode = True
HERE = os.path.dirname(os.path.abspath(__file__))
ROOT = os.path.dirname(HERE)
sys.path[:0] = [HERE, os.path.join(HERE, 'audit'), os.path.join(ROOT, 'pages')]
import page_behaviour
import page_logs
from browser import Browser
from build import PAGE, built
from page_checks import Checks


def words():
    said = argparse.ArgumentParser(usage=__doc__.split('\n')[2][7:])
    said.add_argument('--browser', default='chromium')
    said.add_argument('--script')
    said.add_argument('--auditor')
    said.add_argument('--logs')
    said.add_argument('--mutants', type=int, default=200)
    said.add_argument('--seed', type=int, default=1)
    said.add_argument('--pictures')
    said.add_argument('--quick', action='store_true')
    return said.parse_args()


def main():
    said = words()
    program = shutil.which(said.browser)
    if program is None:
        print('missing: ' + said.browser)
        return 2
    checks = Checks(Browser(program), 'file://' + PAGE, said.pictures)
    try:
        with open(PAGE, encoding='utf-8') as file:
            checks.equal('the page is what its sources build', file.read() == built(), True)
        page_logs.run(checks, random.Random(said.seed), said)
        page_behaviour.run(checks, said.quick)
        checks.equal('the page complained of nothing in its own log', checks.browser.faults(), [])
        checks.equal('the page asked only for itself', set(checks.browser.requested()) - {'file', 'about', 'data'}, set())
    finally:
        checks.browser.close()
    print(checks.last_line())
    return 1 if checks.failed else 0


if __name__ == '__main__':
    sys.exit(main())
