#!/usr/bin/env python3
"""Times the C library from C and, where their tools are there, from Python, Go and Rust.

usage: bench/c_library.py [--library ARCHIVE] [--rounds N]

ARCHIVE is crates/mdb_c/out/libmdb_c.a where it is left out; the other languages take bindings/out, which `make -C bindings` builds. Needs gcc. Each number is
the least of several runs of processor time, and a request and a return are two calls and two entries. Python is timed with its compiled steps, where
`python3 setup.py build_ext --inplace` built them in bindings/python, and by ctypes; how many times C's time that is stands behind its rounds with facts.
"""
import argparse
import os
import re
import shutil
import subprocess
import sys
import tempfile
import time

HERE = os.path.dirname(os.path.abspath(__file__))
TOP = os.path.dirname(HERE)
sys.dont_write_bytecode = True
sys.path.insert(0, os.path.join(TOP, 'bindings', 'python'))


def from_c(library, rounds, folder):
    to = os.path.join(folder, 'bench')
    subprocess.run(['gcc', '-O2', '-std=gnu11', '-I' + os.path.join(TOP, 'include'), os.path.join(HERE, 'c_library.c'), library, '-o', to], check=True)
    said = subprocess.run([to, str(rounds)], check=True, stdout=subprocess.PIPE, text=True).stdout
    print(said, end='', flush=True)
    return float(re.search(r'by the same calls +([0-9.]+) us', said)[1])


def from_python(rounds, of_c):
    for steps in ('', 'ctypes'):
        words = [sys.executable, os.path.abspath(__file__), '--python', str(of_c), '--rounds', str(rounds)]
        subprocess.run(words, env={**os.environ, 'MDB_STEPS': steps}, check=True)


def this_python(rounds, of_c):
    import mdb
    print('python %s, %s steps' % (sys.version.split()[0], 'compiled' if mdb.COMPILED else 'ctypes'))
    with mdb.Driver('open seeds=a:27017 max=100') as driver:
        driver.line('hello 1 a:27017 0 ok rtt=1000000 isWritablePrimary=true maxWireVersion=21')
        driver.established(3, driver.request(2, 0, 'a:27017').connection, 21)
        driver.return_(4, 0)
        party = iter(range(1, 1 << 32))
        took = least_of(lambda: by_calls(driver, next(party)), rounds) * 1e6
        print('python: request and return with facts %11.2f us, %.1f times C' % (took, took / of_c), flush=True)
        print('python: request and return by lines  %12.2f us' % (least_of(lambda: by_lines(driver, next(party)), rounds // 5) * 1e6), flush=True)
        for what, one in (('facts with their texts', driver.facts), ('topology', driver.topology), ('servers', driver.servers)):
            print('python: %-28s %12.2f us' % (what, least_of(one, rounds // 50) * 1e6), flush=True)


def by_calls(driver, party):
    assert len(driver.request(5, party, 'a:27017').facts) + len(driver.return_(5, party).facts) == 4


def by_lines(driver, party):
    driver.line('request 5 %d a:27017' % party)
    driver.line('return 5 %d ok' % party)


def least_of(one, rounds):
    least, many = 1e9, rounds // 100
    for _ in range(100):
        began = time.process_time()
        for _ in range(many):
            one()
        least = min(least, (time.process_time() - began) / many)
    return least


def main():
    parser = argparse.ArgumentParser(description=__doc__, formatter_class=argparse.RawDescriptionHelpFormatter)
    parser.add_argument('--library', default=os.path.join(TOP, 'crates', 'mdb_c', 'out', 'libmdb_c.a'))
    parser.add_argument('--rounds', type=int, default=100000)
    parser.add_argument('--python', type=float, metavar='US', help=argparse.SUPPRESS)
    given = parser.parse_args()
    if given.python:
        return this_python(given.rounds, given.python)
    with tempfile.TemporaryDirectory() as folder:
        of_c = from_c(os.path.abspath(given.library), given.rounds, folder)
    if not os.path.exists(os.path.join(TOP, 'bindings', 'out', 'libmdb.so')):
        return
    from_python(given.rounds, of_c)
    bindings = os.path.join(TOP, 'bindings')
    if shutil.which('go'):
        subprocess.run(['go', 'test', '-run', 'none', '-bench', '.', '-benchtime', '20000x'], cwd=os.path.join(bindings, 'go'))
    if shutil.which('cargo'):
        subprocess.run(['cargo', 'run', '--offline', '--quiet', '--release', '--example', 'rounds'], cwd=os.path.join(bindings, 'rust'))


if __name__ == '__main__':
    main()
