#!/usr/bin/env python3
"""Runs cases of replica sets on a built program, and compares what it writes.

usage: checks/fleet.py [PROGRAM]

PROGRAM is crates/mdb_fleet/out/mdb_fleet where it is left out; nothing is built. The cases stand in checks/fleet/*.txt, each below a title
`# ..`: the first line of a run, and then each later line with what is wanted of it, as the program writes it. A line with nothing wanted
is malformed: the run ends there, with status 5. The wanted texts come from an executable model of the rules, and not from the program.
The status is 0 where every case is as wanted.
"""
import glob
import os
import subprocess
import sys

HERE = os.path.dirname(os.path.abspath(__file__))


def cases():
    """The title and the lines of each case."""
    for path in sorted(glob.glob(os.path.join(HERE, 'fleet', '*.txt'))):
        title, lines = None, []
        with open(path, encoding='utf-8') as file:
            told = file.read().splitlines() + ['# ']
        for line in told:
            if line.startswith('# '):
                if title is not None:
                    yield title, lines
                title, lines = line[2:], []
            elif line:
                lines.append(line)


def wanted_of(lines):
    """The input of a case, the text that is wanted, what is told on the sink for errors, and the status."""
    script, text, told, status = [], [], '', 0
    for number, line in enumerate(lines, 1):
        script.append(line.split(' | ')[0])
        if ' | ' in line:
            text.append(line)
        elif number > 1 or not is_first(line):
            told, status = 'line %d is malformed\n' % number, 5
    return ''.join(it + '\n' for it in script), ''.join(it + '\n' for it in text), told, status


def is_first(line):
    """Whether a line gives a number of members."""
    word, _, count = line.partition(' ')
    return word == 'fleet' and count.isdigit() and count[0] != '0' and int(count) <= 50


def main():
    """Runs each case, and says which of them differ."""
    program = sys.argv[1] if len(sys.argv) > 1 else os.path.join(HERE, '../crates/mdb_fleet/out/mdb_fleet')
    number, differ = 0, 0
    for title, lines in cases():
        script, text, told, status = wanted_of(lines)
        run = subprocess.run([os.path.abspath(program)], input=script.encode(), capture_output=True)
        number += 1
        if (run.stdout, run.stderr, run.returncode) != (text.encode(), told.encode(), status):
            differ += 1
            print('differs: %s: status %d, told %r' % (title, run.returncode, run.stderr))
            for want, got in zip(text.splitlines(), run.stdout.decode('latin-1').splitlines()):
                if want != got:
                    print('  wanted %s\n  wrote  %s' % (want, got))
                    break
    print('%d cases, %d differ' % (number, differ))
    sys.exit(1 if differ else 0)


if __name__ == '__main__':
    main()
