"""The parts of outside.py: what each needs, what it stands on, and the short form of its tests."""

from __future__ import annotations

from dataclasses import dataclass
from pathlib import Path
from typing import Callable

from outside_built import BINDINGS, OUT, Built
from outside_run import TOP, Command, command

CHECKS = TOP / "checks"
LIVE = TOP / "examples/live"
PLAY = TOP / "play"
LIBRARY = "mdb_c"
PYTEST = ("-m", "pytest", "-q", "-p", "no:cacheprovider")
NATIVE = ("pkg-config", "pkg-config libbson-1.0", "python bson")
# What embedders get wrong, but for the scenarios that try each of many allocations or callers: those take minutes.
MENDED = ("waking", "stopped-reader", "wide-hello", "few-files", "no-answers", "no-threads", "write-errors", "options", "said-first", "calls")


@dataclass(frozen=True)
class Part:
    """One line of outside.py. `uses` has the crate of the library, and programs; `own_needs` what it takes beside what makes these."""

    name: str
    says: str
    own_needs: tuple[str, ...]
    uses: tuple[str, ...]
    commands: Callable[[Built], list[Command]]

    @property
    def needs(self) -> tuple[str, ...]:
        return (("gcc", "make") if self.uses else ()) + self.own_needs


def library(built: Built) -> list[Command]:
    words = ("--library", built.archive, "--program", built.program("mdb_script"), "--auditor", built.program("mdb_auditor"))
    return [command(built.python, CHECKS / "c_library.py", *words, "--scripts", 2, "--seconds", 10)]


def python(built: Built) -> list[Command]:
    variables = {"MDB_LIBRARY": built.library / "libmdb.so", "MDB_SCRIPT": built.program("mdb_script")}
    return [command(built.python, *PYTEST, "tests", folder=BINDINGS / "python", **variables)]


def go(_: Built) -> list[Command]:
    return [command("go", *words, folder=BINDINGS / "go", GOPROXY="off") for words in (("vet", "./..."), ("test", "-count=1", "./..."))]


def rust(built: Built) -> list[Command]:
    variables = {"MDB_LIB_DIR": built.library, "CARGO_TARGET_DIR": OUT / "rust"}
    words = (("test", "--offline", "--quiet"), ("run", "--offline", "--quiet", "--example", "rounds"))
    return [command("cargo", *it, folder=BINDINGS / "rust", **variables) for it in words]


def languages(built: Built) -> list[Command]:
    return [command("make", "-B", "-C", TOP / "examples" / it, "test", f"MDB={built.library}") for it in ("node", "java")]


def cases(built: Built) -> list[Command]:
    return [command(built.python, CHECKS / f"{it}.py", built.program(f"mdb_{it}")) for it in ("fleet", "proxy")]


def judges(built: Built) -> list[Command]:
    auditor, script = ("--auditor", built.program("mdb_auditor")), ("--script", built.program("mdb_script"))
    return [
        command(built.python, CHECKS / "audit/mutants.py", *auditor, *script, "--mutants", 300),
        command(built.python, CHECKS / "audit/lines.py", *auditor, *script, "--lines", 1000),
        command(built.python, CHECKS / "audit/forged.py", *auditor, "--logs", 300),
        command(built.python, CHECKS / "recorded/cases.py", built.program("mdb_recorded")),
        command(built.python, CHECKS / "recorded/mutants.py", built.program("mdb_recorded"), 200),
        command(built.python, CHECKS / "recorded/own.py", built.program("mdb_recorded"), built.program("mdb_script"), 100),
        command(built.python, CHECKS / "recorded/standard.py", built.program("mdb_recorded")),
    ]


def live(script: str, *words: object, targets: tuple[str, ...] = ("all",)) -> Callable[[Built], list[Command]]:
    """A script of checks/live over the programs of examples/live, which one part makes at a time."""

    def commands(built: Built) -> list[Command]:
        auditor = () if script == "soak" else ("--auditor", built.program("mdb_auditor"))
        made = command("flock", OUT / "live.lock", "make", "-C", LIVE, f"MDB={built.library}", *targets)
        return [made, command(built.python, CHECKS / f"live/{script}.py", *auditor, "--python", built.python, *words)]

    return commands


def live_commands(built: Built) -> list[Command]:
    few = ("--plans", "lost-reply", "lost-request", "kill-the-primary", "load-balancer", "seed-list")
    return live("commands", "--recorded", built.program("mdb_recorded"), *few, targets=("all", "calls"))(built)


def play(built: Built) -> list[Command]:
    variables = {f"MDB_{it}": built.program(f"mdb_{it.lower()}") for it in ("FLEET", "RECORDED")}
    variables |= {"PYTHONPATH": BINDINGS / "python", "MDB_LIBRARY": built.library / "libmdb.so"}
    plans = sorted((PLAY / "plans").glob("*.plan"))
    return [command(PLAY / "mdb-play", "check", *plans), command(built.python, *PYTEST, "tests", folder=PLAY, **variables)]


def play_go(built: Built) -> list[Command]:
    variables = {"MDB_PLAY": PLAY / "mdb-play", "MDB_LIBRARY": built.library / "libmdb.so", "GOPROXY": "off"}
    return [command("go", "test", "-count=1", "./...", folder=PLAY / "go", **variables)]


def storm(built: Built) -> list[Command]:
    folder = TOP / "examples/storm"
    made = command("make", "-C", folder, f"MDB={built.library}", "sanitized")
    return [made, command(built.python, CHECKS / "storm.py", "--storm", folder / "out/storm-san", "--runs", 20, "--no-module")]


def packaging(built: Built) -> list[Command]:
    return [command(built.python, "-m", "unittest", "test_dist", "test_kit", folder=TOP / "packaging")]


def pages(built: Built) -> list[Command]:
    shown = command(built.python, CHECKS / "blocks.py", built.program("mdb_script").parent, "--library", built.library / "libmdb.so")
    return [shown, *(command(built.python, CHECKS / f"{it}.py") for it in ("quotes", "definitions"))]


CROSS = ("aarch64-linux-gnu-gcc", "/usr/aarch64-linux-gnu/lib/libc.so.6", "/usr/lib/x86_64-linux-musl/libc.a", "/usr/lib/aarch64-linux-musl/libc.a")
AUDITED = (LIBRARY, "mdb_auditor")
PLAYING = ("python pytest", "python bson", "python pymongo", "python dns")

PARTS = {
    it.name: it
    for it in (
        Part("library", "the library for C from C: sanitizers, threads, refused allocations", ("g++", "valgrind"), (*AUDITED, "mdb_script"), library),
        Part("scenarios", "the live client: scenarios of servers that fail and recover", NATIVE, AUDITED, live("run", "--alone")),
        Part("mended", "the live client: what embedders get wrong", (*NATIVE, "ss"), AUDITED, live("mended", *MENDED, targets=("all", "plain", "calls"))),
        Part(
            "secured",
            "the live client: TLS and SCRAM-SHA-256",
            (*NATIVE, "pkg-config libssl", "openssl"),
            AUDITED,
            live("secured", targets=("all", "calls", "vectors", "without")),
        ),
        Part("commands", "the live client: cursors, sessions, what is tried twice", NATIVE, (*AUDITED, "mdb_recorded"), live_commands),
        Part("failover", "the live client: a failover under 32 threads", NATIVE, AUDITED, live("failover")),
        Part("hostile", "the live client: damaged answers under load, with sanitizers", NATIVE, AUDITED, live("hostile", targets=("sanitized",))),
        Part("soak", "the live client: half a minute of blows", NATIVE, (LIBRARY,), live("soak", "--seconds", 30)),
        Part("play", "the played servers, their verdicts, mutants of a client", PLAYING, (LIBRARY, "mdb_fleet", "mdb_recorded"), play),
        Part("play-go", "the helper for tests in Go", ("go", "python bson"), (LIBRARY,), play_go),
        Part("python", "the binding for Python", ("python pytest",), (LIBRARY, "mdb_script"), python),
        Part("go", "the binding for Go", ("go",), (LIBRARY,), go),
        Part("rust", "the binding for Rust", ("cargo",), (LIBRARY,), rust),
        Part(
            "languages",
            "the examples for Node and Java",
            ("make", "gcc", "node", "/usr/include/node/node_api.h", "javac", "/usr/share/java/jna.jar"),
            (LIBRARY,),
            languages,
        ),
        Part("cases", "cases of replica sets and of shares", (), ("mdb_fleet", "mdb_proxy"), cases),
        Part(
            "judges",
            "changed logs and recordings, against plain definitions",
            ("/usr/share/gocode/src/go.mongodb.org/mongo-driver",),
            ("mdb_script", "mdb_auditor", "mdb_recorded"),
            judges,
        ),
        Part("storm", "failovers in made-up time, with sanitizers", (), (LIBRARY,), storm),
        Part("packaging", "what make dist refuses, over a made-up checkout", ("gcc", "dpkg-deb", *CROSS), (), packaging),
        Part(
            "pages",
            "whether pages quote what stands in the tree, and show what programs write",
            (),
            (LIBRARY, "mdb_script", "mdb_proxy", "mdb_fleet", "mdb_auditor"),
            pages,
        ),
    )
}
