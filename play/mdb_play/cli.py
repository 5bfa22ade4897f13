"""The command line."""

from __future__ import annotations

import argparse
import asyncio
import os
import ssl
import sys
import tempfile

from .picture import picture
from .plan import Plan, PlanError, parse
from .running import Run, run
from .serving import serve
from .shrink import shrink
from .transcript import Replayed, read
from .verdicts import FAILS, as_json, failed, judge

USAGE, MALFORMED, ACCUSED = 2, 5, 7

_DESCRIPTION = """Plays a replica set that fails over by a plan, and judges the client that it starts.

Status: 0 where no verdict fails, 7 where one does, 5 for a plan that cannot be read, 2 for other words and for a client that cannot be started."""


def _parser() -> argparse.ArgumentParser:
    parser = argparse.ArgumentParser(prog="mdb-play", description=_DESCRIPTION, formatter_class=argparse.RawDescriptionHelpFormatter)
    words = parser.add_subparsers(dest="word", required=True)
    one = words.add_parser("run", help="play a plan to a client")
    _plan_words(one)
    one.add_argument("--json", metavar="FILE", help="write the verdicts as JSON; - is the standard output")
    one.add_argument("--transcript", metavar="FILE", help="write the points of the run, and what was decided at each")
    one.add_argument("--replay", metavar="FILE", help="decide as this transcript has it")
    one.add_argument("--shrink", action="store_true", help="take lines out of the plan while the same verdicts fail")
    one.add_argument("--runs", type=int, default=1, metavar="N", help="as many runs, with the seeds that follow the plan's; ends at the first that fails")
    one.add_argument("--picture", action="store_true", help="show the time line also where nothing fails")
    one.add_argument("--recording", metavar="FILE", help="keep what the client's listeners write to MDB_RECORD")
    one.add_argument("--cmap", choices=["2020", "2021"], help="the standard by which mdb_recorded judges pools")
    one.add_argument("client", nargs=argparse.REMAINDER, metavar="-- COMMAND", help="the client; $MDB_URI in its words is the connection string, as is the variable MDB_URI")
    held = words.add_parser("serve", help="play until the standard input ends; each line there is an action")
    _plan_words(held)
    checked = words.add_parser("check", help="read plans, and say which are well formed")
    checked.add_argument("plans", nargs="+", metavar="FILE")
    return parser


def _plan_words(parser: argparse.ArgumentParser) -> None:
    parser.add_argument("--plan", metavar="FILE", help="the plan; - is the standard input")
    parser.add_argument("--do", metavar="LINES", help="further lines of the plan, with ; between them")
    parser.add_argument("--seed", type=int, help="another seed than the plan's")
    parser.add_argument("--names-port", type=int, default=0, metavar="PORT", help="the port of the server of names, as 53 for drivers that ask no other (the system's choice)")
    parser.add_argument("--tls", nargs=2, metavar=("CERTIFICATE", "KEY"), help="connections are TLS, by these files")


def main(words: list[str] | None = None) -> int:
    """Does what the words say, and gives the status."""
    given = _parser().parse_args(words)
    try:
        if given.word == "check":
            return _check(given.plans)
        plan = _plan(given)
        if given.word == "serve":
            return asyncio.run(serve(plan, _tls(given)))
        return _run(given, plan)
    except PlanError as why:
        print(f"mdb-play: {why}", file=sys.stderr)
        return MALFORMED
    except OSError as why:
        print(f"mdb-play: {why}", file=sys.stderr)
        return USAGE


def _check(files: list[str]) -> int:
    status = 0
    for name in files:
        try:
            with open(name, encoding="utf-8") as file:
                plan = parse(file.read())
            print(f"{name}: {plan.kind} of {plan.count}, {len(plan.rules)} actions")
        except PlanError as why:
            print(f"{name}: {why}")
            status = MALFORMED
    return status


def _plan(given: argparse.Namespace) -> Plan:
    text = ""
    if given.plan:
        with open(0 if given.plan == "-" else given.plan, encoding="utf-8") as file:
            text = file.read()
    plan = parse(text + "\n" + (given.do or ""))
    if given.seed is not None:
        plan.reseed(given.seed)
    plan.port = given.names_port
    if given.tls:
        plan.options += [] if any(it.startswith("tls") for it in plan.options) else ["tls=true"]
    return plan


def _tls(given: argparse.Namespace) -> ssl.SSLContext | None:
    if not given.tls:
        return None
    context = ssl.SSLContext(ssl.PROTOCOL_TLS_SERVER)
    context.load_cert_chain(*given.tls)
    return context


def _run(given: argparse.Namespace, plan: Plan) -> int:
    client = given.client[1:] if given.client[:1] == ["--"] else given.client
    if not client:
        print("mdb-play: run needs a client behind --", file=sys.stderr)
        return USAGE
    if given.shrink:
        return _shrunk(given, plan, client)
    status = 0
    for number in range(given.runs):
        if number:
            plan.reseed(plan.seed + 1)
        status = _one(given, plan, client)
        if status:
            break
    return status


def _one(given: argparse.Namespace, plan: Plan, client: list[str]) -> int:
    replayed = None
    if given.replay:
        with open(given.replay, encoding="utf-8") as file:
            told = read(file.read())
        replayed, plan = Replayed(told), told.plan
    with tempfile.TemporaryDirectory() as folder:
        recording = given.recording or os.path.join(folder, "recording.jsonl")
        done = asyncio.run(run(plan, client, replayed, _tls(given), recording))
        done.standard = given.cmap
        verdicts = judge(done)
    _write(given, done)
    if given.runs > 1:
        print(f"seed {plan.seed}")
    for verdict in verdicts:
        print(verdict)
    if replayed is not None:
        print(f"replay: {replayed.outcome()}")
    if given.json:
        _put(given.json, as_json(done, verdicts) + "\n")
    wrong = failed(verdicts)
    if wrong or given.picture:
        print(picture(done.world.watch, done.seconds))
    return ACCUSED if wrong else 0


def _write(given: argparse.Namespace, done: Run) -> None:
    if given.transcript:
        _put(given.transcript, done.world.transcript.text())


def _put(name: str, text: str) -> None:
    if name == "-":
        sys.stdout.write(text)
        return
    with open(name, "w", encoding="utf-8") as file:
        file.write(text)


def _shrunk(given: argparse.Namespace, plan: Plan, client: list[str]) -> int:
    def accusations(lines: list[str]) -> frozenset[str]:
        done = asyncio.run(run(parse("\n".join(lines)), client, None, _tls(given)))
        return frozenset(it.name for it in judge(done) if it.state == FAILS)

    lines, wrong = shrink(plan.lines, accusations)
    if not wrong:
        print("no verdict fails: there is nothing to shrink")
        return 0
    print(f"# fails: {' '.join(sorted(wrong))}")
    print("\n".join(lines))
    return ACCUSED
