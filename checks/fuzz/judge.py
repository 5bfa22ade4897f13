"""The target of afl-fuzz: runs the program and the model on an input, and compares them.

usage: judge.py PROGRAM JUDGE FOLDER FILE

afl-fuzz starts it once and asks it for each input, which stands in FILE, by the protocol of its fork server: four bytes
come on descriptor 198 and four go out on 199. JUDGE is a model, a Python file with a function `run_script(data)`: of the bytes of a
script it answers the status, the text on standard error and the text on standard output, each text as a `str` of one letter
a byte. Or it is a program, mdb_auditor: the run is to end by one of the statuses of a script, with one entry for each line up to
the bad one, each behind its own line, and the auditor is to find them legal. An input at which this is not so is written to
FOLDER/differences and told to afl-fuzz as a crash. FOLDER/tally has the number of inputs by status.

The shape of the log (kinds of lines, replies and facts, without their numbers) goes to the map in shared memory in which
afl-fuzz looks for what is new, as the program has no instrumentation of its own.
"""
import ctypes
import importlib.util
import json
import os
import re
import signal
import struct
import subprocess
import sys
import time
import zlib
from collections import Counter

ASKED, ANSWERED = 198, 199
MAP = 65536
LIMIT = 60  # seconds for one run of the program
DIFFERS = 100  # how a child ends that found a difference; else it ends with the status of the program
NUMBER = re.compile(rb'[0-9]+')
MALFORMED = re.compile(rb'line ([0-9]+) is malformed\n')
MAX_INPUT = 131072


def loaded(path):
    """The model, from its file. What it imports may stand beside it."""
    sys.path.insert(0, os.path.dirname(os.path.abspath(path)))
    spec = importlib.util.spec_from_file_location('model', path)
    model = importlib.util.module_from_spec(spec)
    spec.loader.exec_module(model)
    return model


def shared_map():
    """The map of afl-fuzz, or memory of our own where there is none."""
    name = os.environ.get('__AFL_SHM_ID')
    if name is None:
        return (ctypes.c_ubyte * MAP)()
    library = ctypes.CDLL(None)
    library.shmat.restype = ctypes.c_void_p
    return (ctypes.c_ubyte * MAP).from_address(library.shmat(int(name), None, 0))


def head(part, words):
    """The first words of a part of an entry, without numbers."""
    return NUMBER.sub(b'', b' '.join(part.split(b' ')[:words]))


def shape(entry):
    """The kind of the line, the reply, and the kinds of the facts."""
    line, *others = entry.split(b' | ')
    return b'|'.join([head(line, 1)] + [head(part, 3) for part in others])


def put_shapes(places, log):
    """Marks each shape of an entry in the map, and each pair of shapes that follow one another."""
    before = 0
    places[0] = 1
    for entry in log.splitlines():
        now = zlib.crc32(shape(entry))
        for place in (now % MAP, (now ^ before >> 1) % MAP):
            places[place] = min(255, places[place] + 1)
        before = now


def run(program, path):
    """How the program ends on an input: its status, and what it wrote and told."""
    with open(path, 'rb') as file:
        ended = subprocess.run([program], stdin=file, capture_output=True, timeout=LIMIT)
    return ended.returncode, ended.stdout, ended.stderr


class Model:
    """Says how a script has to end: a Python file."""

    def __init__(self, path):
        self.model = loaded(path)

    def wanted(self, data, _found):
        status, told, text = self.model.run_script(data)
        return status, text.encode('latin-1'), told.encode('latin-1')


class Auditor:
    """Says of a run whether it may be: the auditor's program. What it answers is the run itself where nothing speaks against it, and else why."""

    def __init__(self, path):
        self.path = path

    def wanted(self, data, found):
        status, text, told = found
        lines = data.split(b'\n')[:-1]
        bad = MALFORMED.fullmatch(told)
        if status not in (0, 5, 6) or (status == 5) != (bad is not None) or (status == 6) != (len(data) > MAX_INPUT):
            return 'an end that no script has'
        entries = text.split(b'\n')[:-1]
        many = {0: len(lines), 6: 0}.get(status, int(bad[1]) - 1 if bad else -1)
        if len(entries) != many or any(entry.split(b' | ')[0] != line for entry, line in zip(entries, lines)):
            return 'not one entry for each line'
        said = subprocess.run([self.path], input=text, capture_output=True, timeout=LIMIT)
        return found if said.returncode in (0, 6) else said.stdout


def judge_of(path):
    return Model(path) if path.endswith('.py') else Auditor(path)


def keep(folder, data, found, expected):
    """Writes down an input at which they differ, with both ends."""
    path = os.path.join(folder, 'differences', '%d' % time.time_ns())
    for name, text in (('', data), ('.program', repr(found).encode()), ('.judge', repr(expected).encode())):
        with open(path + name, 'wb') as file:
            file.write(text)


def judge(program, judging, folder, path, places):
    """What a child ends with: the status of the program, or that it differs."""
    with open(path, 'rb') as file:
        data = file.read()
    found, expected = None, None
    try:
        found = run(program, path)
        put_shapes(places, found[1])
        expected = judging.wanted(data, found)
    except Exception as e:  # the judge failed, or the program took too long: that is a difference, and is told
        expected = expected or e
    if found != expected:
        keep(folder, data, found, expected)
        return DIFFERS
    return found[0]


def told(status, tally):
    """Counts an input by how its child ended, and says it in the words of afl-fuzz: a difference is an abort."""
    if os.WIFSIGNALED(status):
        tally['stopped'] += 1
        return status
    code = os.WEXITSTATUS(status)
    tally['differs' if code == DIFFERS else code] += 1
    return signal.SIGABRT if code == DIFFERS else 0


def serve(program, judging, folder, path, places):
    """Answers each input that afl-fuzz asks for, in a child of its own."""
    tally, begun = Counter(), time.monotonic()
    os.write(ANSWERED, bytes(4))
    while len(os.read(ASKED, 4)) == 4:
        child = os.fork()
        if child == 0:
            os._exit(judge(program, judging, folder, path, places))
        os.write(ANSWERED, struct.pack('i', child))
        _, status = os.waitpid(child, 0)
        answer = told(status, tally)
        if sum(tally.values()) % 50 == 0:
            with open(os.path.join(folder, 'tally'), 'w') as file:
                json.dump({'seconds': int(time.monotonic() - begun), **tally}, file)
        os.write(ANSWERED, struct.pack('i', answer))


def main():
    """Serves afl-fuzz, or without it judges the one input."""
    program, path, folder, file = sys.argv[1:]
    judging, places = judge_of(path), shared_map()
    os.makedirs(os.path.join(folder, 'differences'), exist_ok=True)
    if '__AFL_SHM_ID' in os.environ:
        serve(program, judging, folder, file, places)
    else:
        print(judge(program, judging, folder, file, places))


if __name__ == '__main__':
    main()
