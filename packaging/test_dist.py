#!/usr/bin/env python3
"""Tests of dist.py, over a checkout and a build that are made up here: what is refused and in which words, and that nothing is left half-written."""
from __future__ import annotations

import json
import os
import shutil
import subprocess
import sys
import tempfile
import unittest
from pathlib import Path

from built import end, file_of
from plain import Stop, put
from shipped import HERE, LIBRARY, PROGRAMS, SAID, TARGETS, TOP, interface, is_released, version

COPIED = ("include", "bindings", "pages", "LICENSE", "docs", "CHANGES.md")
LIBRARY_CODE = "unsigned mdb_abi(void) { return 3; }\nvoid *rattle_alloc(unsigned long, unsigned long);\nvoid *mdb_take(void) { return rattle_alloc(1, 1); }\n"
PROGRAM_CODE = """long read(int, void *, unsigned long);
long write(int, const void *, unsigned long);
int main(void) {
    char c;
    while (read(0, &c, 1) > 0) write(1, &c, 1);
    return 0;
}
"""


def git(folder: Path, *words: str) -> str:
    named = ["-c", "user.name=nobody", "-c", "user.email=nobody@example.org", "-c", "commit.gpgsign=false"]
    return subprocess.run(["git", *named, "-C", str(folder), *words], check=True, stdout=subprocess.PIPE, text=True).stdout.strip()


class MadeUp(unittest.TestCase):
    """A checkout of one crate, its gate's log, and a build in which each part is a few lines of C."""

    @classmethod
    def setUpClass(cls):
        cls.room = Path(tempfile.mkdtemp(prefix="mdb-tests-"))
        cls.checkout, cls.built, cls.log = cls.room / "checkout", cls.room / "built", cls.room / "gate.log"
        cls.checkout.mkdir()
        for it in COPIED:
            copy = shutil.copytree if (TOP / it).is_dir() else shutil.copy
            ignored = {"ignore": shutil.ignore_patterns("out", "target", "__pycache__")} if (TOP / it).is_dir() else {}
            copy(TOP / it, cls.checkout / it, **ignored)
        for it in (it for it in SAID if not (cls.checkout / it).is_file()):
            put(TOP / it, cls.checkout / it)
        (cls.checkout / "crates.txt").write_text("mdb_c staticlib:\n")
        changes = cls.checkout / "CHANGES.md"
        changes.write_text(f"# Changes\n\n## {version(TOP)}\n\n- First.\n")
        git(cls.checkout, "init", "-q")
        git(cls.checkout, "add", "-A")
        git(cls.checkout, "commit", "-qm", "all")
        cls.commit = git(cls.checkout, "rev-parse", "HEAD")
        for target in TARGETS:
            cls.build(target)


    @classmethod
    def build(cls, target):
        folder, cc = cls.built / target.cpu, target.tool("gcc")
        folder.mkdir(parents=True)
        for name, code in ((LIBRARY, LIBRARY_CODE), *((it, PROGRAM_CODE) for it in PROGRAMS)):
            source = cls.room / f"{name}.c"
            source.write_text(code)
            subprocess.run([cc, "-O1", "-fPIC", "-c", str(source), "-o", str(folder / f"{name}.o")], check=True)
        subprocess.run([cc, "-O1", "-fPIC", "-S", str(cls.room / f"{LIBRARY}.c"), "-o", str(folder / f"{LIBRARY}.s")], check=True)
        subprocess.run([target.tool("ar"), "rcsD", str(folder / f"{LIBRARY}.a"), str(folder / f"{LIBRARY}.o")], check=True)
        (folder / f"{LIBRARY}.o").unlink()
        made = {"commit": cls.commit, "changed": False, "proved": True, "kit": "k", "logic": "l", "compiler": "c"}
        for name in (LIBRARY, *PROGRAMS):
            end(file_of(cls.built, target, name), made, "logic=proved functions=1")

    @classmethod
    def tearDownClass(cls):
        shutil.rmtree(cls.room)

    def setUp(self):
        self.log.write_text(f"commit {self.commit}\n== mdb_c\nlogic=proved functions=1\nrt: mdb_c proved\n1 passed, 0 failed\n")
        self.to = self.room / "made" / "dist"
        shutil.rmtree(self.to.parent, ignore_errors=True)

    def dist(self, *more: str, **variables: str):
        named = {"sources": self.checkout, "built": self.built, "log": self.log, "to": self.to}
        words = [word for name, path in named.items() for word in (f"--{name}", str(path))]
        streams = {"stdout": subprocess.PIPE, "stderr": subprocess.PIPE}
        return subprocess.run([sys.executable, str(HERE / "dist.py"), *words, *more], text=True, env={**os.environ, **variables}, **streams)

    def refused(self, why: str, *more: str, **variables: str):
        """It ends with status 1 and one line that says why, and leaves nothing."""
        ran = self.dist(*more, **variables)
        self.assertEqual((ran.returncode, ran.stderr.count("\n")), (1, 1), ran.stderr)
        self.assertIn(why, ran.stderr)
        self.assertEqual([] if not self.to.parent.exists() else list(self.to.parent.iterdir()), [])


class Refusals(MadeUp):
    def test_a_log_of_a_gate_that_failed(self):
        self.log.write_text(f"commit {self.commit}\n== mdb_c\nrt: mdb_c NOT PROVED\n0 passed, 1 failed: mdb_c\n")
        self.refused("does not end in 'N passed, 0 failed': 0 passed, 1 failed")

    def test_a_log_of_a_gate_that_failed_before_what_stands_outside_it_passed(self):
        self.log.write_text(f"commit {self.commit}\n== mdb_c\nlogic=proved x\n4 passed, 1 failed: mdb_c\n15 passed, 0 failed\n")
        self.refused("says '4 passed, 1 failed: mdb_c' before its end")

    def test_a_log_that_was_cut_off(self):
        self.log.write_text(f"commit {self.commit}\n== mdb_c\n")
        self.refused("does not end in")

    def test_a_log_of_some_crates_alone(self):
        self.log.write_text(f"commit {self.commit}\n== mdb_c\nlogic=proved x\n1 passed, 0 failed (mdb_c and the crates below alone: not the gate)\n")
        self.refused("does not end in")

    def test_no_log(self):
        self.refused("No such file or directory", "--log", str(self.room / "none.log"))

    def test_a_log_of_another_commit(self):
        self.log.write_text(self.log.read_text().replace(self.commit, "0" * 40))
        self.refused("is of commit 000000000000, and the checkout of")

    def test_a_log_that_names_no_commit(self):
        self.log.write_text(self.log.read_text().partition("\n")[2])
        self.refused("no line 'commit ..'")

    def test_a_log_without_a_crate(self):
        self.log.write_text(f"commit {self.commit}\n1 passed, 0 failed\n")
        self.refused("no verdict on mdb_c")

    def test_a_checkout_with_changes(self):
        more = self.checkout / "more"
        more.touch()
        self.addCleanup(more.unlink)
        self.refused("has changes: ?? more")

    def test_a_tag_of_another_commit(self):
        changes = self.checkout / "CHANGES.md"
        git(self.checkout, "tag", "-a", "-m", "earlier", f"v{version(TOP)}")
        self.addCleanup(git, self.checkout, "tag", "-d", f"v{version(TOP)}")
        self.addCleanup(git, self.checkout, "reset", "-q", "--hard", self.commit)
        changes.write_text(changes.read_text() + "- Second.\n")
        git(self.checkout, "commit", "-qam", "later")
        later = git(self.checkout, "rev-parse", "HEAD")
        self.log.write_text(self.log.read_text().replace(self.commit, later))
        self.change({"commit": later}, *self.built.glob("*/*.json"))
        self.refused("is of another commit: a new release needs a new version")

    def test_changes_of_another_version(self):
        with tempfile.TemporaryDirectory() as room:
            Path(room, "CHANGES.md").write_text("# Changes\n\n## 0.0.1\n")
            with self.assertRaisesRegex(Stop, "CHANGES.md begins with 0.0.1"):
                is_released(Path(room), "0.3.0")

    def change(self, facts: dict[str, object], *pages: Path):
        """Says other facts of crates that were built, until the test ends."""
        for page in pages:
            text = page.read_text()
            self.addCleanup(page.write_text, text)
            page.write_text(json.dumps({**json.loads(text), **facts}))

    def test_a_build_of_another_commit(self):
        self.change({"commit": "1" * 40}, *self.built.glob("*/*.json"))
        self.refused("is of commit 111111111111")

    def test_a_build_of_two_commits(self):
        self.change({"commit": "1" * 40}, self.built / "aarch64/mdb_script.json")
        self.refused("mdb_script for aarch64 has another commit than mdb_c")

    def test_a_build_of_a_checkout_with_changes(self):
        self.change({"changed": True}, self.built / "x86_64/mdb_proxy.json")
        self.refused("mdb_proxy for x86_64 was built of a checkout with changes")

    def test_a_build_without_proof(self):
        self.change({"proved": False}, *self.built.glob("*/*.json"))
        self.refused("was built without proof")

    def test_a_file_that_is_not_the_one_that_was_built(self):
        self.change({"sum": "0" * 64}, self.built / "x86_64/mdb_c.json")
        self.refused("mdb_c.a is not what was built")

    def test_a_build_without_a_program(self):
        program = self.built / "x86_64/mdb_script.o"
        program.rename(self.room / "away")
        self.addCleanup((self.room / "away").rename, program)
        self.refused("has no mdb_script for x86_64")

    def test_missing_tools(self):
        tools = self.room / "tools"
        tools.mkdir(exist_ok=True)
        (tools / "git").unlink(missing_ok=True)
        os.symlink(shutil.which("git"), tools / "git")
        self.refused("missing: dpkg-deb, x86_64-linux-gnu-gcc", PATH=str(tools))

    def test_a_full_disk(self):
        if os.geteuid() or subprocess.run(["unshare", "--mount", "true"]).returncode:
            self.skipTest("only root can mount a small disk")
        self.to.parent.mkdir(parents=True)
        dist = f"'{sys.executable}' {HERE}/dist.py --sources {self.checkout} --built {self.built} --log {self.log} --to {self.to}"
        words = f"mount -t tmpfs -o size=100k none {self.to.parent} && {dist}; ls -A {self.to.parent}"
        ran = subprocess.run(["unshare", "--mount", "sh", "-c", words], stdout=subprocess.PIPE, stderr=subprocess.PIPE, text=True)
        self.assertEqual(ran.stdout, "")
        self.assertRegex(ran.stderr, r"\Adist\.py: .*No space left on device.*\n\Z")


class Whole(MadeUp):
    def test_the_same_bytes_in_two_folders(self):
        self.assertEqual(self.dist().returncode, 0)
        first = {it.name: it.read_bytes() for it in self.to.iterdir()}
        pages = len(list((TOP / "pages").glob("*.html")))
        self.assertEqual(len(first), len(TARGETS) * len(("folder", "libmdb", "libmdb-dev", "mdb-tools", "wheel")) + len(("rust", "go", "assembly")) + pages + len(("manifest", "sums")))
        self.assertIn(f"mdb-{version(TOP)}-x86_64-linux.tar.gz", first)
        self.to = self.room / "another" / "folder" / "dist"
        self.assertEqual(self.dist(TMPDIR=str(self.room), TZ="Asia/Tokyo").returncode, 0)
        self.assertEqual({it.name: it.read_bytes() for it in self.to.iterdir()}, first)

    def test_the_manifest_says_of_what_a_release_was_made(self):
        self.assertEqual(self.dist().returncode, 0)
        page = json.loads((self.to / "MANIFEST.json").read_text())
        wanted = {"name": "mdb", "version": version(TOP), "interface": interface(TOP), "commit": self.commit, "kit": "k", "logic": "l", "compiler": "c"}
        self.assertEqual({it: page[it] for it in wanted}, wanted)
        self.assertEqual(page["gate"], {"passed": 1, "verdicts": {"mdb_c": "logic=proved functions=1"}})
        self.assertEqual({cpu: set(of_cpu) for cpu, of_cpu in page["built"].items()}, {it.cpu: {LIBRARY, *PROGRAMS} for it in TARGETS})
        self.assertEqual(set(page["sources"]), {"crates.txt", "crates/mdb_commands", "include", "bindings", "pages"})
        sums = {name: total for total, name in (it.split("  ") for it in (self.to / "SHA256SUMS").read_text().splitlines())}
        self.assertEqual({**page["files"], "MANIFEST.json": sums["MANIFEST.json"]}, sums)
        self.assertEqual(set(sums), {it.name for it in self.to.iterdir()} - {"SHA256SUMS"})

    def test_an_earlier_release_gives_way(self):
        self.to.mkdir(parents=True)
        (self.to / "earlier").touch()
        self.assertEqual(self.dist().returncode, 0)
        self.assertFalse((self.to / "earlier").exists())
        self.assertEqual([it.name for it in self.to.parent.iterdir()], ["dist"])
        checked = subprocess.run(["sha256sum", "--quiet", "-c", "SHA256SUMS"], cwd=self.to)
        self.assertEqual(checked.returncode, 0)


if __name__ == "__main__":
    unittest.main()
