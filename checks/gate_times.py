#!/usr/bin/env python3
"""Measures the gate: runs .ci/run, adds up the processor seconds of the prover's processes by crate and purpose, and prints the table of docs/GATE.md.

usage: checks/gate_times.py [--write] [--resume FILE] [--pid PID | --under PREFIX .. | --sum]

A process of the prover counts for the crate that it names, and for what it does there: the crate's proof, its edits, its tests, or the
builds of a program. What the kit kept of an earlier run is not done again and has no seconds: for the whole table the run begins from
nothing. --pid follows a run of rt ci that has begun already, in place of starting one. --under follows each run of rt ci that is
started in a folder whose path begins with one of the prefixes, also those that begin later, until the script is ended (INT or TERM);
runs of rt check there do not count. --resume FILE keeps the sums there, and begins with what stands in it, so that several runs that
each did a part add up. --sum starts and follows nothing: the table of what --resume holds. --write puts the table into docs/GATE.md,
between the lines '<!-- table -->' and '<!-- end of table -->'. Seconds are user and system time together, of all threads; below the table stand
their sum as it was, and in the minutes of the budget, by the proofs of some low crates.
"""
import argparse
import json
import os
import re
import signal
import subprocess
import sys
import time
from collections import defaultdict

ROOT = os.path.dirname(os.path.dirname(os.path.abspath(__file__)))
TICKS = os.sysconf("SC_CLK_TCK")
PURPOSES = ("proof", "edits", "tests", "programs")
# For comparing machines: what these proofs took in the table that stood when the budget was set. Their crates have changed little since.
UNIT = {"mdb_base": 166, "mdb_hello": 310, "mdb_srv": 158, "mdb_describe": 358, "mdb_events": 166, "mdb_monitor": 110, "mdb_log": 135}


def stat_of(pid):
    """The parent, the start and the seconds of a process, or nothing where it is gone."""
    try:
        fields = open(f"/proc/{pid}/stat").read().rpartition(")")[2].split()
    except OSError:
        return None
    return int(fields[1]), fields[19], (int(fields[11]) + int(fields[12])) / TICKS


def label_of(pid):
    """The crate and the purpose of a process of the prover, or nothing for another process."""
    try:
        words = open(f"/proc/{pid}/cmdline").read().split("\0")
        folder = os.readlink(f"/proc/{pid}/cwd")
    except OSError:
        return None
    if "--crate-name" not in words:
        return None
    is_edit = "/rt-edit-" in folder
    if "--incremental" in words and not is_edit:
        return None
    purpose = "edits" if is_edit else "tests" if "--test" in words else "programs" if "--backend" in words else "proof"
    return words[words.index("--crate-name") + 1], purpose


def family(stats, top):
    """The processes below the run, itself among them."""
    children = defaultdict(list)
    for pid, stat in stats.items():
        children[stat[0]].append(pid)
    found, left = set(), [top]
    while left:
        pid = left.pop()
        found.add(pid)
        left += children[pid]
    return found


def started_under(stats, prefixes):
    """The processes of runs that were started in a folder of these: a run changes its folder, and its processes keep the name of the first one."""
    found = set()
    for pid in stats:
        try:
            words = open(f"/proc/{pid}/environ", errors="replace").read().split("\0")
        except OSError:
            continue
        folder = next((it[4:] for it in words if it.startswith("PWD=")), "")
        found |= {pid} if folder.startswith(tuple(prefixes)) else set()
    return found


def follow(those, is_over, kept):
    """Adds what the processes that those(stats) tells take to the sums in kept, until the run is over."""
    sums, seen = defaultdict(float, kept), {}
    while not is_over():
        stats = {int(it): stat for it in os.listdir("/proc") if it.isdigit() for stat in [stat_of(it)] if stat}
        for pid in those(stats):
            _, start, seconds = stats[pid]
            label, before = seen.get((pid, start), (None, 0))
            label = label or label_of(pid)
            if label:
                sums[" ".join(label)] += seconds - before
                seen[pid, start] = label, seconds
        yield sums
        time.sleep(1)


def below():
    """The libraries of each crate, by crates.txt."""
    lines = [it.partition("#")[0] for it in open(f"{ROOT}/crates.txt")]
    pairs = [it.partition(":") for it in lines if ":" in it]
    return {head.split()[0]: tail.split() for head, _, tail in pairs}


def table(sums):
    needs, chains = below(), {}

    def seconds(crate, purpose):
        return sums.get(f"{crate} {purpose}", 0)

    def chain(crate):
        if crate not in chains:
            chains[crate] = seconds(crate, "proof") + max([chain(it) for it in needs[crate] if it in needs] or [0])
        return chains[crate]

    rows = ["| crate | proof s | edits s | tests s | programs s | longest chain s |", "|---|---|---|---|---|---|"]
    for crate in needs:
        cells = [f"{seconds(crate, it):.0f}" if seconds(crate, it) else "" for it in PURPOSES]
        rows.append(f"| `{crate}` | {' | '.join(cells)} | {chain(crate):.0f} |")
    whole = [sum(seconds(it, purpose) for it in needs) for purpose in PURPOSES]
    rows.append(f"| **all** | {' | '.join(f'{it:.0f}' for it in whole)} | {max(chain(it) for it in needs):.0f} |")
    minutes, longest = sum(whole) / 60, max(chain(it) for it in needs) / 60
    rows += ["", f"Together {minutes:.0f} processor minutes, the longest chain {longest:.0f}."]
    if all(seconds(it, "proof") for it in UNIT):
        times = sum(seconds(it, "proof") for it in UNIT) / sum(UNIT.values())
        rows[-1] += f" The proofs of {len(UNIT)} low crates took {times:.2f} times what they took when the budget was set; in its minutes {minutes / times:.0f} and {longest / times:.0f}."
    return "\n".join(rows)


def write(text):
    path = f"{ROOT}/docs/GATE.md"
    page = open(path).read()
    made = re.sub(r"(<!-- table -->\n).*(<!-- end of table -->)", lambda it: f"{it[1]}{text}\n{it[2]}", page, flags=re.S)
    open(path, "w").write(made)


def main():
    words = argparse.ArgumentParser(usage=__doc__.split("\n")[2][7:])
    words.add_argument("--write", action="store_true")
    words.add_argument("--resume")
    one = words.add_mutually_exclusive_group()
    one.add_argument("--pid", type=int)
    one.add_argument("--under", nargs="+")
    one.add_argument("--sum", action="store_true")
    said = words.parse_args()
    sums = json.load(open(said.resume)) if said.resume and os.path.exists(said.resume) else {}
    began, status, ended = time.time(), 0, []
    for number in (signal.SIGINT, signal.SIGTERM) if said.under else ():
        signal.signal(number, lambda *_: ended.append(1))
    run = None if said.pid or said.under or said.sum else subprocess.Popen([f"{ROOT}/.ci/run"], cwd=ROOT, stdin=subprocess.DEVNULL)
    top = said.pid or run and run.pid
    those = (lambda stats: started_under(stats, said.under)) if said.under else (lambda stats: family(stats, top) & set(stats))
    is_over = (lambda: run.poll() is not None) if run else (lambda: not os.path.exists(f"/proc/{top}")) if said.pid else (lambda: said.sum or ended)
    for sums in follow(those, is_over, sums):
        if said.resume:
            with open(f"{said.resume}.new", "w") as file:
                json.dump(sums, file, indent=0)
            os.replace(f"{said.resume}.new", said.resume)
    if run:
        status = run.returncode
    text = table(sums)
    if run or said.pid:
        text += f"\nBy the clock {(time.time() - began) / 60:.0f} minutes on {os.cpu_count()} processors."
    print(text)
    if said.write:
        write(text)
    return status


if __name__ == "__main__":
    sys.exit(main())
