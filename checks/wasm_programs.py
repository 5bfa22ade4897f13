#!/usr/bin/env python3
"""Compares the modules of WebAssembly of the programs with the programs themselves, by texts.

usage: checks/wasm_programs.py [--modules FOLDER] [--built FOLDER] [--texts N] [--seed N]

The first FOLDER is packaging/out/wasm, where packaging/wasm.py made the modules, and the other packaging/out/built/x86_64, with the object files of which they were made. The stored input of
mdb_auditor, mdb_recorded, mdb_fleet and mdb_proxy, and N texts (150) that differ from it in some places, go to both: status, output and errors are to be the same, byte for byte,
and those of the stored input what is stored. The modules run in Node by the glue of the playground, pages/src/programs.js. Needs node (18 or later), objcopy and a C compiler. The last
line counts; the status is 0 where nothing differs, 1 where something does, 2 where something is missing.
"""
import argparse
import json
import os
import random
import shutil
import subprocess
import sys
import tempfile

HERE = os.path.dirname(os.path.abspath(__file__))
ROOT = os.path.dirname(HERE)
OUT = os.path.join(ROOT, 'packaging', 'out')
PROGRAMS = ('mdb_auditor', 'mdb_recorded', 'mdb_fleet', 'mdb_proxy')
RUN = """
import fs from 'node:fs';
import { Program } from './programs.js';
const [module, name, texts, told] = process.argv.slice(2);
const program = await Program.of(name, fs.readFileSync(module));
fs.writeFileSync(told, JSON.stringify(JSON.parse(fs.readFileSync(texts, 'utf8')).map((text) => Object.values(program.run(text)))));
"""


def read(*path):
    with open(os.path.join(ROOT, *path), encoding='utf-8') as file:
        return file.read()


def native(built, name, folder):
    """The program, linked with what a release links it with, but for the C library."""
    renamed, made = os.path.join(folder, name + '.o'), os.path.join(folder, name)
    subprocess.run(['objcopy', '--redefine-sym', 'main=rattle_main', os.path.join(built, name + '.o'), renamed], check=True)
    subprocess.run([os.environ.get('CC', 'cc'), '-O1', renamed, os.path.join(ROOT, 'packaging', 'system.c'), os.path.join(ROOT, 'bindings', 'heap.c'), '-o', made], check=True)
    return made


def changed(text, chance):
    """A text with some changes: a digit, a letter, a line that goes, comes twice, or changes its place, an end that is cut."""
    for _ in range(chance.randrange(1, 4)):
        lines = text.split('\n')
        at, other = chance.randrange(len(lines)), chance.randrange(len(lines))
        place = chance.randrange(len(text) + 1)
        text = chance.choice([
            lambda: text[:place] + chance.choice('0123456789') + text[place + 1:], lambda: text[:place] + chance.choice('abc :,.=|"{}\r\n') + text[place:], lambda: text[:place] + text[place + 1:],
            lambda: '\n'.join(lines[:at] + lines[at + 1:]), lambda: '\n'.join(lines[:at] + [lines[at]] + lines[at:]), lambda: '\n'.join(lines[:at] + [lines[other]] + lines[at + 1:]),
            lambda: text[:place], lambda: text])()
    return text


def by_module(module, name, texts, folder):
    shutil.copyfile(os.path.join(ROOT, 'pages', 'src', 'programs.js'), os.path.join(folder, 'programs.js'))
    paths = [os.path.join(folder, it) for it in ('run.js', 'texts.json', 'told.json', 'package.json')]
    for path, text in ((paths[0], RUN), (paths[1], json.dumps(texts)), (paths[3], '{"type": "module"}')):
        with open(path, 'w', encoding='utf-8') as file:
            file.write(text)
    subprocess.run(['node', paths[0], os.path.abspath(module), name, paths[1], paths[2]], check=True)
    with open(paths[2], encoding='utf-8') as file:
        return json.load(file)


def by_program(program, text):
    ran = subprocess.run([program], input=text.encode(), capture_output=True)
    return [ran.returncode, ran.stdout.decode(), ran.stderr.decode()]


def compare(given, name, folder):
    """How many texts there were, how many of them ended otherwise than well, and how many differ."""
    chance = random.Random('%s %d' % (name, given.seed))
    stored = read('crates', name, 'stdin')
    texts = [stored, ''] + [changed(stored, chance) for _ in range(given.texts)]
    program = native(given.built, name, folder)
    wanted = [by_program(program, it) for it in texts]
    found = by_module(os.path.join(given.modules, name + '.wasm'), name, texts, folder)
    differ = [it for it in zip(texts, wanted, found) if it[1] != it[2]]
    if wanted[0][1] != read('crates', name, 'stdout'):
        differ.append((stored, wanted[0], 'what is stored'))
    for text, one, other in differ[:5]:
        print('%s of %.300r: the program %.300r, the module %.300r' % (name, text, one, other))
    return len(texts), sum(it[0] != 0 for it in wanted), len(differ)


def main():
    said = argparse.ArgumentParser(usage=__doc__.split('\n')[2][7:])
    said.add_argument('--modules', default=os.path.join(OUT, 'wasm'))
    said.add_argument('--built', default=os.path.join(OUT, 'built', 'x86_64'))
    said.add_argument('--texts', type=int, default=150)
    said.add_argument('--seed', type=int, default=1)
    given = said.parse_args()
    files = [os.path.join(given.modules, it + '.wasm') for it in PROGRAMS] + [os.path.join(given.built, it + '.o') for it in PROGRAMS]
    missing = [it for it in files if not os.path.exists(it)] + [it for it in ('node', 'objcopy') if shutil.which(it) is None]
    if missing:
        print('missing: ' + ', '.join(missing))
        return 2
    with tempfile.TemporaryDirectory() as folder:
        sums = [sum(it) for it in zip(*(compare(given, name, folder) for name in PROGRAMS))]
    print('%d texts of %d programs, of which %d ended with another status than 0; %d differ' % (sums[0], len(PROGRAMS), sums[1], sums[2]))
    return 1 if sums[2] else 0


if __name__ == '__main__':
    sys.exit(main())
