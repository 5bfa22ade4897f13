#!/usr/bin/env python3
"""Runs cases of tenants with shares on a built program, and compares what it writes.

usage: checks/proxy.py [PROGRAM]

PROGRAM is crates/mdb_proxy/out/mdb_proxy where it is left out; nothing is built. The cases stand in checks/proxy/*.txt, each below a title
`# ..`: the first line of a script, and then each later line with what is wanted of it, as the program writes it. A line with nothing wanted
is malformed: the run ends there, with status 5, and all that is wanted of the lines before it is written. The wanted texts come from an
executable model of the rules, and not from the program.
Each case is run once more with its last line cut before the newline: that line is malformed then, whatever it says.
The status is 0 where every case is as wanted.
"""
import glob
import os
import subprocess
import sys

HERE = os.path.dirname(os.path.abspath(__file__))


def cases():
    """The title and the lines of each case."""
    for path in sorted(glob.glob(os.path.join(HERE, 'proxy', '*.txt'))):
        title, lines = None, []
        with open(path, encoding='utf-8') as file:
            told = file.read().splitlines() + ['# ']
        for line in told:
            if line.startswith('# '):
                if title is not None:
                    yield title, lines
                title, lines = line[2:], []
            elif line:
                lines.append(line)


def is_number(word):
    """Whether a word is a number of 1 to 2^32 - 1."""
    return word.isdigit() and word[0] != '0' and int(word) < 2**32


def is_first(line):
    """Whether a line names shares."""
    word, _, numbers = line.partition('=')
    return word == 'shares' and len(numbers.split(',')) <= 64 and all(map(is_number, numbers.split(',')))


def wanted_of(lines):
    """The input of a case, the text that is wanted, what is told on the sink for errors, and the status."""
    script, text, told, status = [], [], '', 0
    for number, line in enumerate(lines, 1):
        script.append(line.split(' | ')[0])
        if ' | ' in line:
            text.append(line)
        elif number > 1 or not is_first(line):
            told, status = 'line %d is malformed\n' % number, 5
    return ''.join(it + '\n' for it in script), ''.join(it + '\n' for it in text), told, status


def cut_of(script, text, told, status):
    """The same with the last line cut before its newline."""
    lines = script.count('\n')
    wanted = text if status else ''.join(text.splitlines(True)[:lines - 2])
    return script[:-1], wanted, 'line %d is malformed\n' % lines, 5


def differs(program, title, case):
    """Runs a case, and says where it is not as wanted."""
    script, text, told, status = case
    run = subprocess.run([program], input=script.encode(), capture_output=True, check=False)
    if (run.stdout, run.stderr, run.returncode) == (text.encode(), told.encode(), status):
        return False
    print('differs: %s: status %d, told %r' % (title, run.returncode, run.stderr))
    for want, got in zip(text.splitlines() + ['nothing more'], run.stdout.decode('latin-1').splitlines() + ['nothing more']):
        if want != got:
            print('  wanted %s\n  wrote  %s' % (want, got))
            break
    return True


def main():
    """Runs each case, and counts those that differ."""
    program = os.path.abspath(sys.argv[1] if len(sys.argv) > 1 else os.path.join(HERE, '../crates/mdb_proxy/out/mdb_proxy'))
    if not os.path.isfile(program):
        print('missing: %s' % program)
        sys.exit(2)
    number, differ = 0, 0
    for title, lines in cases():
        whole = wanted_of(lines)
        for name, case in ((title, whole), (title + ', cut', cut_of(*whole))):
            number += 1
            differ += differs(program, name, case)
    print('%d cases, %d differ' % (number, differ))
    sys.exit(1 if differ else 0)


if __name__ == '__main__':
    main()
