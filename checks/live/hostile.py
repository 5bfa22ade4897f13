#!/usr/bin/env python3
"""Damaged answers under load: the primary of three members damages its answers to inserts, and then to hellos too, in each way that servers.py knows, while 8
threads insert. mdb_live is to end well, with errors of that server's alone, and its log is to be legal.

usage: checks/live/hostile.py [--program MDB_LIVE] [--auditor MDB_AUDITOR] [--python PYTHON]

PROGRAM is best the one with sanitizers (`make sanitized` in examples/live: out/mdb_live-san), which is taken where it is built. Status 0 where all is well.
"""
import argparse
import os
import subprocess
import sys
import tempfile
import time

sys.dont_write_bytecode = True
from run import HERE, TOP, Servers

KINDS = ['short', 'negative', 'huge', 'opcode', 'answers', 'half', 'stall', 'overlong', 'nothing', 'deep', 'garbage', 'field', 'wide']


def main():
    built = os.path.join(TOP, 'examples', 'live', 'out')
    parser = argparse.ArgumentParser(description=__doc__, formatter_class=argparse.RawDescriptionHelpFormatter)
    parser.add_argument('--program', default=next((it for it in (os.path.join(built, 'mdb_live-san'), os.path.join(built, 'mdb_live')) if os.path.exists(it)), ''))
    parser.add_argument('--auditor', default=os.path.join(TOP, 'crates', 'mdb_auditor', 'out', 'mdb_auditor'))
    parser.add_argument('--python', default='/usr/bin/python3')
    given = parser.parse_args()
    failed = 0
    for kind in KINDS:
        with tempfile.TemporaryDirectory() as folder:
            told, well = play(given, kind, os.path.join(folder, 'log'))
        failed += not well
        print('%s %s: %s' % ('ok' if well else 'FAILED', kind, told), flush=True)
    return 1 if failed else 0


def play(given, kind, log):
    servers = Servers(given.python, 'replica', 3)
    servers.do('elect 0')
    uri = 'mongodb://%s/?replicaSet=rs&heartbeatFrequencyMS=500&connectTimeoutMS=500' % ','.join(servers.addresses)
    live = subprocess.Popen([given.program, uri, '60', '--load', '8', '--log', log], stdout=subprocess.PIPE, stderr=subprocess.STDOUT, text=True)
    for command in (None, 'break 0 ' + kind, 'damage 0 ' + kind, 'damage 0 none', 'break 0 none'):
        if command:
            servers.do(command)
        time.sleep(0.7)
    live.terminate()
    wrote = live.communicate(timeout=30)[0]
    servers.close()
    judged = 'not judged'
    if os.path.exists(given.auditor):
        with open(log, 'rb') as file:
            judged = subprocess.run([given.auditor], stdin=file, stdout=subprocess.PIPE, text=True).stdout.strip()
    counts = [it for it in wrote.splitlines() if it.startswith(('operations', 'errors'))]
    strange = [it for it in wrote.splitlines() if 'mdb_live:' in it or 'ERROR' in it or 'runtime error' in it]
    other = any('=Unknown' in it.replace(servers.addresses[0] + '=Unknown', '') for it in wrote.splitlines() if it[:1].isdigit() and float(it.split()[0]) > 0.6)
    well = live.returncode == 0 and len(counts) == 2 and not strange and not other and (judged.startswith('legal') or judged == 'not judged')
    return '%s; %s%s' % (', '.join(counts), judged, '' if well else ' status %d %s %s' % (live.returncode, strange, wrote[-1500:])), well


if __name__ == '__main__':
    sys.exit(main())
