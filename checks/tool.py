#!/usr/bin/env python3
"""Tries the tool mdb: what each command writes beside the specification's program, its help, and what it says of what cannot be read or written.

usage: checks/tool.py [PROGRAMS]

PROGRAMS is a folder with mdb, mdb_script and the others (packaging/out/proved, or a folder of packaging/unproved.py).
"""
from __future__ import annotations

import argparse
import subprocess
import sys
import tempfile
from pathlib import Path

TOP = Path(__file__).resolve().parent.parent
CRATES = TOP / "crates"
# A subcommand, and the program of the specification that does the same.
SAME = {"run": "mdb_script", "audit": "mdb_auditor", "judge": "mdb_recorded", "fleet": "mdb_fleet", "proxy": "mdb_proxy"}
COMMANDS = [*SAME, "make", "share", "help", "version"]
SCRIPT = (CRATES / "mdb_script/stdin").read_bytes()

# Words, the status that they end with, and what the one line on standard error has.
WORDS = (
    ([], "a command is wanted"),
    (["rnu"], "rnu: this is no command"),
    (["run", "a", "b"], "mdb run: b is a word too many"),
    (["run", "-x"], "mdb run: -x is no option here"),
    (["make"], "mdb make: a number of 1 to 2000 is wanted"),
    (["make", "0"], "mdb make: 0 is no number of 1 to 2000"),
    (["make", "2001"], "2001 is no number of 1 to 2000"),
    (["make", "01"], "01 is no number of 1 to 2000"),
    (["make", "+1"], "+1 is no number of 1 to 2000"),
    (["make", "1", "2"], "mdb make: 2 is a word too many"),
    (["share"], "mdb share: a number of 1 to 8 is wanted"),
    (["share", "9"], "mdb share: 9 is no number of 1 to 8"),
    (["share", "2", "--x"], "mdb share: --x is no option here"),
    (["judge", "--cmap"], "mdb judge: --cmap is followed by a year, 2020 or 2021"),
    (["judge", "--cmap", "1999"], "usage: mdb judge"),
    (["help", "rnu"], "rnu: this is no command"),
    (["version", "x"], "mdb version: x is a word too many"),
)

# A script, and where it is malformed and why.
OPEN = b"open seeds=a:1\n"
MALFORMED = (
    (OPEN + b"reqest 1 1 a:1\n", "line 2, column 1: `reqest` is no step; did you mean `request`?"),
    (OPEN + b"xyzzy 1\n", "line 2, column 1: `xyzzy` is no step\n"),
    (b"open seeds=a:1 max=0\n", "line 1, column 16: `max=0` does not fit: max is 1 to 65535"),
    (b"open seeds=a:1 mux=1\n", "line 1, column 16: `mux` does not stand here; did you mean `max`?"),
    (b"open seeds=A:1\n", "line 1, column 12: `A:1` does not fit: seeds are"),
    (b"open seeds=a\n", "line 1, column 12: `a` does not fit"),
    (b"open seeds=a:1 min=2 max=5\n", "line 1, column 22: `max` comes too late, or twice: the order is set, direct, lb, max, min,"),
    (b"open seeds=a:1,b:1 direct\n", "line 1, column 1: these options do not go together"),
    (b"open seeds=a:1 \n", "line 1, column 15: a space too many"),
    (b"open\n", "line 1, column 5: ` seeds="),
    (b"request 1 1 a:1\n", "line 1, column 1: the first line is `open"),
    (b"open seeds=a:1\r\n", "line 1, column 15: this line ends in a carriage return"),
    (b"\xef\xbb\xbfopen seeds=a:1\n", "line 1, column 1: a byte order mark"),
    (OPEN + OPEN, "line 2, column 1: `open` stands on the first line alone"),
    (OPEN + b"\n", "line 2, column 1: an empty line"),
    (OPEN + b"request\t1 1 a:1\n", "line 2, column 8: a tab"),
    (OPEN + b"claim 1", "line 2, column 1: this last line has no newline"),
    (OPEN + b"\x7fELF\x00\n", "line 2, column 1: a byte that is no printable"),
    (OPEN + b"request\n", "line 2, column 8: a moment is wanted"),
    (OPEN + b"request 1\n", "line 2, column 10: a party is wanted"),
    (OPEN + b"request 01 1 a:1\n", "line 2, column 9: `01` does not fit: a moment is wanted"),
    (OPEN + b"request 1 4294967296 a:1\n", "line 2, column 11: `4294967296` does not fit: a party is wanted"),
    (OPEN + b"request 1 1 a:65536\n", "line 2, column 13: `a:65536` does not fit: an address is wanted"),
    (OPEN + b"request 1  1 a:1\n", "line 2, column 11: a space too many"),
    (OPEN + b"request 1 1 a:1 \n", "line 2, column 16: a space too many"),
    (OPEN + b"claim 1 2\n", "line 2, column 9: `2` is too much"),
    (OPEN + b"return 1 1 good\n", "line 2, column 12: `good` does not fit: how it was used is wanted: ok, errored, dropped or streaming"),
    (OPEN + b"established 1 0 1\n", "line 2, column 18: ` wire=n` is wanted"),
    (OPEN + b"established 1 0 1 wire=x\n", "line 2, column 19: `wire=x` does not fit: wire is 0 to 2147483647"),
    (OPEN + b"established 1 0 1 wire=1 server=1 sid=0102030405060708090a0b0c\n", "line 2, column 35: `sid` comes too late, or twice: the order is wire, sid, server"),
    (OPEN + b"error 1 1 netwrk msg=x\n", "line 2, column 11: `netwrk` is no error: network, timeout, auth, incompatible, command.CODE or other"),
    (OPEN + b"error 1 1 network\n", "line 2, column 18: an error ends in ` msg=TEXT`"),
    (OPEN + b"error 1 1 network tv=1 msg=x\n", "line 2, column 19: `tv=1` does not fit: tv is an object id, a point and a number"),
    (OPEN + b"failed 1 0 1 during network msg=x\n", "line 2, column 14: `during` does not say when"),
    (OPEN + b"hello 1 a:1 0 fine\n", "line 2, column 15: `fine` is no outcome"),
    (OPEN + b"hello 1 a:1 0 ok rtt=1 ismaster=yes\n", "line 2, column 24: `ismaster=yes` does not fit: ismaster is true or false"),
    (OPEN + b"hello 1 a:1 0 ok rtt=1 lastWrite=1\n", "line 2, column 24: `lastWrite` does not stand here"),
    (OPEN + b"beaten 1 a:1 0 7 ok setNme=rs\n", "line 2, column 21: `setNme` does not stand here; did you mean `setName`?"),
    (OPEN + b"hosts 1 a:1,B:1\n", "line 2, column 9: `a:1,B:1` does not fit: 1 to 128 different addresses are wanted"),
)


class Trials:
    """Counts what was tried, and tells what differs."""

    def __init__(self, programs: Path) -> None:
        self.programs = programs
        self.tried = 0
        self.failed = 0

    def run(self, *words: str, data: bytes = b"", program: str = "mdb", folder: Path | None = None) -> subprocess.CompletedProcess[bytes]:
        return subprocess.run([self.programs / program, *words], input=data, capture_output=True, timeout=60, check=False, cwd=folder)

    def want(self, holds: bool, what: str) -> None:
        self.tried += 1
        if not holds:
            self.failed += 1
            print(f"differs: {what}")

    def says(self, it: subprocess.CompletedProcess[bytes], status: int, text: str, what: str) -> None:
        """One line on standard error, with this text, this status, and nothing written."""
        error = it.stderr.decode()
        self.want(it.returncode == status and text in error and error.count("\n") == 1 and it.stdout == b"", f"{what}: {it.returncode} {error!r}")


def same_as_programs(trials: Trials, folder: Path) -> None:
    """From a file, from standard input and by `-` the tool writes what the specification's program does."""
    for name, program in SAME.items():
        data = (CRATES / program / "stdin").read_bytes()
        (folder / name).write_bytes(data)
        wanted = trials.run(data=data, program=program)
        for words, given in (([name, name], b""), ([name], data), ([name, "-"], data)):
            it = trials.run(*words, data=given, folder=folder)
            trials.want((it.returncode, it.stdout) == (wanted.returncode, wanted.stdout), f"{words} beside {program}")
    for words in (["make", "10"], ["share", "3"]):
        it, wanted = trials.run(*words, data=SCRIPT), trials.run(*words, data=SCRIPT, program="mdb_script")
        trials.want(it.returncode == wanted.returncode == 0 and sorted(it.stdout.splitlines()) == sorted(wanted.stdout.splitlines()), f"{words} beside mdb_script")
    years = CRATES / "mdb_recorded/stdin"
    it, wanted = trials.run("judge", "--cmap", "2020", str(years)), trials.run("--cmap", "2020", data=years.read_bytes(), program="mdb_recorded")
    trials.want((it.returncode, it.stdout) == (wanted.returncode, wanted.stdout), "judge --cmap 2020 beside mdb_recorded")


def helps(trials: Trials) -> None:
    whole = trials.run("--help")
    trials.want(whole.returncode == 0 and whole.stderr == b"", "--help ends with 0")
    for words in (["help"], ["-h"]):
        trials.want(trials.run(*words).stdout == whole.stdout, f"{words} is --help")
    for name in COMMANDS:
        trials.want(f"  {name} ".encode() in whole.stdout, f"--help has {name}")
        one = trials.run(name, "--help")
        trials.want(one.returncode == 0 and one.stdout.startswith(f"usage: mdb {name}".encode()), f"{name} --help")
        trials.want(trials.run("help", name).stdout == one.stdout, f"help {name} is {name} --help")
    header = (TOP / "include/mdb.h").read_text(encoding="utf-8")
    number = header.split('#define MDB_VERSION "')[1].split('"')[0]
    interface = header.split("#define MDB_ABI ")[1].split()[0]
    for words in (["version"], ["--version"], ["-V"]):
        trials.want(trials.run(*words).stdout == f"mdb {number}, interface {interface}\n".encode(), f"{words} is the header's")


def bad_words(trials: Trials) -> None:
    for words, text in WORDS:
        it = trials.run(*words)
        trials.want(it.returncode == 2 and text in it.stderr.decode() and it.stdout == b"", f"{words}: {it.returncode} {it.stderr!r}")


def malformed(trials: Trials, folder: Path) -> None:
    """A line that is not in the grammar is told with its column, and what could stand there."""
    for script, text in MALFORMED:
        (folder / "bad").write_bytes(script)
        wanted = trials.run(data=script, program="mdb_script")
        it = trials.run("run", "bad", folder=folder)
        trials.want((it.returncode, it.stdout) == (wanted.returncode, wanted.stdout) and wanted.returncode == 5, f"{script!r} beside mdb_script: {it.returncode}")
        error = it.stderr.decode()
        trials.want(error.startswith(f"mdb: bad: {text}") and error.count("\n") == 1, f"{script!r}: {error!r}")
        shared = trials.run("share", "2", data=script)
        trials.want(shared.returncode == 5 and shared.stderr.decode().startswith(f"mdb: standard input: {text}"), f"share of {script!r}: {shared.stderr!r}")


def bad_files(trials: Trials, folder: Path) -> None:
    (folder / "closed").write_bytes(SCRIPT)
    (folder / "closed").chmod(0)
    for name in [*SAME, "share"]:
        words = [name, "2"] if name == "share" else [name]
        trials.says(trials.run(*words, "missing", folder=folder), 3, "mdb: missing: there is no such file", f"{name} of a missing file")
        trials.says(trials.run(*words, ".", folder=folder), 3, "mdb: .: it is a directory", f"{name} of a directory")
    long = b"x" * 9_000_000
    for name in ("run", "audit", "fleet", "proxy"):
        trials.says(trials.run(name, data=long), 6, "mdb: standard input: input is too long", f"{name} of a long input")
    closed = subprocess.run(f"'{trials.programs}/mdb' run <&-", shell=True, capture_output=True, timeout=60, check=False)
    trials.says(closed, 3, "mdb: standard input: read fault", "a closed standard input")


def outputs(trials: Trials, folder: Path) -> None:
    """A reader that goes away ends the tool quietly, and a full disk does not."""
    script = folder / "many"
    lines = [b"open seeds=a:1 lb\n"] + [b"request %d %d a:1\n" % (at, at) for at in range(1, 4000)]
    script.write_bytes(b"".join(lines))
    for words in (["run", str(script)], ["share", "2", str(script)]):
        tool = subprocess.Popen([trials.programs / "mdb", *words], stdout=subprocess.PIPE, stderr=subprocess.PIPE)
        assert tool.stdout and tool.stderr
        tool.stdout.readline()
        tool.stdout.close()
        error = tool.stderr.read()
        trials.want(tool.wait(60) == 4 and error == b"", f"{words[0]} into a closed pipe: {tool.returncode} {error!r}")
    for words in (["run", str(script)], ["make", "3"], ["--help"], ["version"]):
        with open("/dev/full", "wb") as full:
            it = subprocess.run([trials.programs / "mdb", *words], stdout=full, stderr=subprocess.PIPE, timeout=60, check=False)
        trials.want(it.returncode == 4 and it.stderr == b"mdb: standard output: write fault\n", f"{words[0]} onto a full disk: {it.returncode} {it.stderr!r}")


def main() -> int:
    parser = argparse.ArgumentParser(description=__doc__, formatter_class=argparse.RawDescriptionHelpFormatter)
    parser.add_argument("programs", nargs="?", type=Path, default=TOP / "packaging/out/proved")
    programs = parser.parse_args().programs.resolve()
    for name in ("mdb", *SAME.values()):
        if not (programs / name).is_file():
            print(f"missing: {programs / name}", file=sys.stderr)
            return 2
    trials = Trials(programs)
    with tempfile.TemporaryDirectory() as room:
        folder = Path(room)
        same_as_programs(trials, folder)
        helps(trials)
        bad_words(trials)
        malformed(trials, folder)
        bad_files(trials, folder)
        outputs(trials, folder)
    print(f"{trials.tried} tried, {trials.failed} differ")
    return 1 if trials.failed else 0


if __name__ == "__main__":
    sys.exit(main())
