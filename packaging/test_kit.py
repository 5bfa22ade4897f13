#!/usr/bin/env python3
"""Tests of what asks the kit, over a kit that is made up here, and of the parts that need none."""
from __future__ import annotations

import hashlib
import json
import os
import re
import shutil
import subprocess
import sys
import tempfile
import unittest
from pathlib import Path

import gate_log
import packed
from kit import Kept, crates_of, lend
from plain import Stop
from prove import Progress
from release import manual_of
from shipped import HERE, LIBRARY, PROGRAMS, SAID, TOP, version
from unproved import exports_in

RT = """#!{python}
import os, sys, types
STORE = os.environ.get("STORE", "")
Crate = types.SimpleNamespace()
handles_of, own_sum = lambda top: "", lambda crate: crate.name
def crates_of(top):
    names = [it.partition(":")[0].split() for it in open(top + "/crates.txt") if ":" in it and it[0] != "#"]
    return [types.SimpleNamespace(name=it[0], is_program=it[0] in ("mdb_recorded", "mdb_fleet"), below=list) for it in names]
if __name__ == "__main__":
    print(os.environ["SAID"])
    sys.exit(int(os.environ.get("STATUS", "0")))
"""


class Proving(unittest.TestCase):
    """Over a kit whose rt says what a test wants."""

    def setUp(self):
        self.room = Path(tempfile.mkdtemp(prefix="mdb-tests-"))
        self.addCleanup(shutil.rmtree, self.room)
        (self.room / "bin").mkdir()
        rt = self.room / "bin/rt"
        rt.write_text(RT.replace("{python}", sys.executable))
        rt.chmod(0o755)

    def keep(self, name: str, files: dict[str, bytes]):
        folder = self.room / f"proof-{name}-{hashlib.sha256(repr((name, [])).encode()).hexdigest()}"
        folder.mkdir()
        for number, text in enumerate(files.values()):
            (folder / str(number)).write_bytes(text)
        sums = [(path, hashlib.sha256(text).hexdigest()) for path, text in files.items()]
        (folder / "made.json").write_text(json.dumps({"files": sums}))
        return folder

    def run_one(self, script: str, *words: str, **variables: str):
        path = f"{self.room}/bin:{os.environ['PATH']}"
        return subprocess.run(
            [sys.executable, str(HERE / script), "--to", str(self.room / "to"), *words], stdout=subprocess.PIPE, stderr=subprocess.PIPE, text=True,
            env={**os.environ, "PATH": path, "STORE": str(self.room), **variables},
        )

    def test_a_line_for_each_crate_and_the_program_at_the_end(self):
        self.keep("mdb_recorded", {"mdb_recorded": b"program", "mdb_recorded_rattle": b"other"})
        said = "== mdb_base\nrt: mdb_base proved\nrt: mdb_parts is kept: an earlier run\nrt: mdb_recorded proved\n3 passed, 0 failed"
        ran = self.run_one("prove.py", "recorded", SAID=said)
        self.assertEqual(ran.returncode, 0, ran.stderr)
        self.assertRegex(ran.stdout, r"/\d+ mdb_base proved, about \d+ minutes left\n2/\d+ mdb_parts kept, ")
        self.assertEqual((self.room / "to/mdb_recorded").read_bytes(), b"program")

    def test_what_is_not_proved(self):
        ran = self.run_one("prove.py", "recorded", SAID="rt: mdb_base NOT PROVED\n0 passed, 1 failed: mdb_base", STATUS="1")
        self.assertEqual(ran.returncode, 1)
        self.assertIn("mdb_base NOT PROVED", ran.stdout)
        self.assertRegex(ran.stderr, r"\Aprove\.py: not all is proved, .*: 0 passed, 1 failed: mdb_base\n\Z")

    def test_an_unknown_crate(self):
        ran = self.run_one("prove.py", "nothing", SAID="")
        self.assertEqual((ran.returncode, ran.stderr), (1, "prove.py: crates.txt has no crate mdb_nothing\n"))

    def test_no_build_over_what_is_not_kept(self):
        ran = self.run_one("build.py", "mdb_hello", SAID="clang version 0")
        self.assertEqual((ran.returncode, ran.stderr.count("\n")), (1, 1), ran.stderr)

    def test_a_damaged_library_is_refused(self):
        folder = self.keep("mdb_base", {"rlib/mdb_base.rlib/format": b"whole"})
        kept = Kept(folder, [("rlib/mdb_base.rlib/format", hashlib.sha256(b"whole").hexdigest())])
        lend(kept, self.room / "lent")
        (folder / "0").write_bytes(b"damaged")
        with self.assertRaisesRegex(Stop, "is damaged: file 0"):
            lend(kept, self.room / "again")


class Parts(unittest.TestCase):
    def test_the_tree_says_one_version(self):
        self.assertRegex(version(TOP), r"^\d+\.\d+\.\d+$")
        self.assertEqual(set(SAID) & {"include/mdb.h"}, {"include/mdb.h"})

    def test_each_program_has_its_manual(self):
        for programs in (PROGRAMS, ("mdb", *(it for it in PROGRAMS if it != "mdb"))):
            text = manual_of(programs)
            self.assertEqual(re.findall(r"(?m)^\.TP\n\.B (\w+)$", text), list(programs))
            name = text.partition(".SH NAME\n")[2].partition("\\-")[0]
            self.assertEqual(tuple(name.replace(",", " ").split()), programs)
            self.assertEqual(set(re.findall(r"@\w+@", text)), {"@VERSION@", "@DATE@"})

    def test_what_is_shipped_is_in_crates_txt(self):
        crates = crates_of(TOP)
        self.assertEqual(crates.kinds[LIBRARY], ["staticlib"])
        self.assertEqual({crates.root(it) for it in PROGRAMS}, {"src/main.rt"})

    def test_verdicts(self):
        text = "== a\nlogic=proved x\nrt: a proved\n== a: its tests\nlogic=proved tests\nrt: b is kept: an earlier run on this machine\n"
        self.assertEqual(gate_log.verdicts_in(text), {"a": "logic=proved x", "b": gate_log.KEPT})

    def test_exports(self):
        text = 'pub extern "C" fn f() -> u32\npub extern "C" fn g(\n    a: Map<u8, u8>,\n    b: &[u8],\n) -> u32 { }'
        self.assertEqual(exports_in(text), [("f", 0), ("g", 2)])

    def test_progress_follows_the_longest_chain(self):
        crates = crates_of(TOP)
        progress = Progress(crates, ["mdb_hello", "mdb_srv"], {"mdb_base": 100.0, "mdb_hello": 300.0, "mdb_srv": 50.0}, 4)
        self.assertEqual((progress.all, progress.seconds_left()), (3, 400.0))
        self.assertIn("1/3 mdb_base kept", progress.done("mdb_base", "kept"))
        self.assertEqual(progress.seconds_left(), 300.0)

    def test_a_zip_of_a_folder(self):
        with tempfile.TemporaryDirectory() as room:
            (Path(room) / "a").write_text("x")
            self.assertEqual(packed.record_of(Path(room), "i").splitlines()[-1], "i/RECORD,,")


if __name__ == "__main__":
    unittest.main()
