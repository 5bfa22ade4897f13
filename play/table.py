#!/usr/bin/env python3
"""Plays all plans to the clients of `clients`, and writes the table of docs/PLAY.md.

usage: table.py FOLDER [--clients NAME ..] [--plans NAME ..] [--jobs N] [--prefix COMMAND] [--again SECONDS]

FOLDER keeps a run's output and its verdicts; a run that is there is not done again, but with `--again` those are in which the servers came later than that. The
programs mdb_fleet and mdb_recorded are found as `mdb-play` finds them. `make -C clients` builds what is compiled.
"""

from __future__ import annotations

import argparse
import glob
import json
import os
import subprocess
from concurrent.futures import ThreadPoolExecutor

HERE = os.path.dirname(os.path.abspath(__file__))
CLIENTS = os.path.join(HERE, "clients")
OUT = os.path.join(CLIENTS, "out")
JAR = "/usr/share/java/mongo-java-driver.jar"
SECONDS, THREADS = "4", "4"
COMMANDS = {
    "pymongo": ["/usr/bin/python3", f"{CLIENTS}/load.py", SECONDS, THREADS],
    "go": [f"{OUT}/load_go", SECONDS, THREADS],
    "libmongoc": [f"{OUT}/load_c", SECONDS, THREADS],
    "node": ["/usr/bin/env", "NODE_PATH=/usr/share/nodejs", "/usr/bin/node", f"{CLIENTS}/load.js", SECONDS, THREADS],
    "java": ["/usr/bin/java", "-XX:TieredStopAtLevel=1", "-cp", f"{JAR}:{OUT}", "Load", SECONDS, THREADS],
    "ruby": ["/usr/bin/ruby", "-W0", f"{CLIENTS}/load.rb", SECONDS, THREADS],
    "perl": ["/usr/bin/perl", f"{CLIENTS}/load.pl", SECONDS],
    "php": ["/usr/bin/php", f"{CLIENTS}/load.php", SECONDS],
}
# Clients whose resolver can be told another server of names. All others ask port 53, so that they play seed lists in a room of their own, which takes root.
NAMED = ("pymongo",)
ROOM = ["unshare", "--mount", "--net", "sh", "-c", 'ip link set lo up && mount --bind "$0" /etc/resolv.conf && exec "$@"']
LIMIT = 400


def play(folder: str, name: str, plan: str, prefix: list[str], again: float | None) -> None:
    """One run, if it is not there."""
    base = os.path.join(folder, f"{name}.{plan}")
    known = verdicts(base)
    if known is not None and (again is None or known["lag"] <= again):
        return
    in_room = room(folder, name, plan)
    words = [*prefix, *in_room, os.path.join(HERE, "mdb-play"), "run", "--plan", os.path.join(HERE, "plans", plan + ".plan"), "--cmap", "2020", "--picture"]
    words += ["--names-port", "53"] if in_room else []
    words += ["--json", base + ".json", "--transcript", base + ".transcript", "--", *COMMANDS[name]]
    with open(base + ".txt", "w", encoding="utf-8") as file:
        try:
            subprocess.run(words, stdin=subprocess.DEVNULL, stdout=file, stderr=subprocess.STDOUT, timeout=LIMIT, check=False)
        except subprocess.TimeoutExpired:
            file.write(f"no end after {LIMIT} s\n")
    print(name, plan, cell(verdicts(base)), flush=True)


def verdicts(base: str) -> dict | None:
    """The verdicts of a run; None where there are none."""
    try:
        with open(base + ".json", encoding="utf-8") as file:
            return json.load(file)
    except (OSError, ValueError):
        return None


def cell(known: dict | None) -> str:
    """What the table says of a run."""
    if known is None:
        return ""
    wrong = [it["name"] for it in known["verdicts"] if it["state"] == "FAILS"]
    return " ".join(f"**{it}**" if it != "recorded" else it for it in wrong) or "passes"


def lines_of(plan: str) -> list[str]:
    """The lines of a plan; the first one says what it shows."""
    with open(os.path.join(HERE, "plans", plan + ".plan"), encoding="utf-8") as file:
        return file.read().splitlines()


def asks_names(plan: str) -> bool:
    """Whether a plan has a seed list."""
    return any(it.startswith("names ") for it in lines_of(plan))


def is_played(name: str, plan: str) -> bool:
    """Whether a client can play a plan here."""
    return name in NAMED or not asks_names(plan) or os.geteuid() == 0


def room(folder: str, name: str, plan: str) -> list[str]:
    """The words before a run for a room in which the plan's server of names is the only one; none where no room is wanted."""
    if name in NAMED or not asks_names(plan):
        return []
    path = os.path.join(os.path.abspath(folder), "resolv.conf")
    with open(path, "w", encoding="utf-8") as file:
        file.write("nameserver 127.0.0.1\n")
    return [*ROOM, path]


def table(folder: str, names: list[str], plans: list[str]) -> str:
    """The table, in Markdown."""
    rows = ["| plan | what it shows | " + " | ".join(names) + " |", "|---" * (2 + len(names)) + "|"]
    for plan in plans:
        cells = [cell(verdicts(os.path.join(folder, f"{name}.{plan}"))) for name in names]
        rows.append(f"| `{plan}` | {lines_of(plan)[0].strip('# ')} | " + " | ".join(cells) + " |")
    return "\n".join(rows)


def main() -> None:
    """Plays, and prints the table."""
    known = sorted(os.path.basename(it)[: -len(".plan")] for it in glob.glob(os.path.join(HERE, "plans", "*.plan")))
    parser = argparse.ArgumentParser(description=__doc__, formatter_class=argparse.RawDescriptionHelpFormatter)
    parser.add_argument("folder")
    parser.add_argument("--clients", nargs="+", choices=list(COMMANDS), default=list(COMMANDS))
    parser.add_argument("--plans", nargs="+", choices=known, default=known, metavar="NAME")
    parser.add_argument("--jobs", type=int, default=4)
    parser.add_argument("--prefix", default="")
    parser.add_argument("--again", type=float)
    given = parser.parse_args()
    os.makedirs(given.folder, exist_ok=True)
    runs = [(name, plan) for plan in given.plans for name in given.clients if is_played(name, plan)]
    with ThreadPoolExecutor(given.jobs) as pool:
        list(pool.map(lambda run: play(given.folder, *run, given.prefix.split(), given.again), runs))
    print(table(given.folder, given.clients, given.plans))


if __name__ == "__main__":
    main()
