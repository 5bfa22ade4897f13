#!/usr/bin/env python3
"""Plays the scenarios of checks/live to Debian's pymongo, stock and with the proved pools and topology inside, and compares what each describes with the standard's
view: the wanted ones are those of checks/live/scenarios.py.

usage: checks/drivers/pymongo_live.py [--python PYTHON] [--patience N] [NAME ..]

Each view is to come within 3 seconds; with --patience all limits and the clients' connectTimeoutMS are N times as long, for a machine that has much else to do.
Needs python3-pymongo. Left out are scenarios that pymongo 3.11 cannot speak (load balancing) or that need a name server.
"""

from __future__ import annotations

import argparse
import sys
import tempfile
from pathlib import Path
from types import SimpleNamespace
from typing import Any

TOP = Path(__file__).resolve().parents[2]
LIVE = TOP / "checks/live"
sys.path = [str(LIVE), *sys.path[1:]]  # the folder of this file has modules with the names of packages
import run  # noqa: E402
from run import Forwarder, Runs, Servers, View, with_hosts  # noqa: E402
from scenarios import DIFFERENCES, SCENARIOS  # noqa: E402

LASTS = 240  # seconds, for the servers and the clients of a scenario
WITNESS = str(LIVE / "witness" / "by_pymongo.py")
PATHS = [str(TOP / "bindings/python"), str(TOP / "examples")]
INSTALLED = f"import sys, runpy; sys.path[:0] = {PATHS!r}; import pymongo_driver; pymongo_driver.install(); sys.argv[0] = 'ours'; runpy.run_path({WITNESS!r}, run_name='__main__')"

# The wire stays pymongo's, and so do the differences of what it reads.
DIFFERENCES.update({(name, command, "ours"): why for (name, command, who), why in list(DIFFERENCES.items()) if who == "pymongo"})


class Both(Runs):
    """The scenarios, played to both at once."""

    def __init__(self, given: Any, folder: str) -> None:
        super().__init__(given, folder)
        self.witnesses = {"pymongo": [given.python, WITNESS], "ours": [given.python, "-c", INSTALLED]}
        self.failures: dict[str, set[str]] = {name: set() for name in self.witnesses}

    def play(self, scenario: dict[str, Any]) -> None:
        servers = Servers(self.given.python, scenario["kind"], scenario["count"], LASTS * self.given.patience)
        addresses = list(servers.addresses)
        seeds = scenario.get("seeds") or ",".join(addresses)
        for number, address in enumerate(addresses):
            seeds = seeds.replace(f"#{number}", address).replace(f"@{number}", address.rpartition(":")[2])
        if "six" in scenario:
            seeds = addresses[0] = f"[::1]:{Forwarder(addresses[0]).port}"
        views = []
        try:
            for command in scenario.get("before", []):
                servers.do(command)
            for name, words in self.witnesses.items():
                options = scenario["options"].replace("connectTimeoutMS=500", f"connectTimeoutMS={500 * self.given.patience}")
                words = [*words, f"mongodb://{seeds}/?{options}", str(LASTS * self.given.patience)]
                views.append(View(name, with_hosts(words, self.hosts) if scenario.get("hosts") else words))
            for command, wanted in scenario["steps"]:
                if command != "begin":
                    servers.do(command)
                self.step(scenario, command, wanted, views, addresses)
        finally:
            for view in views:
                view.close()
            servers.close()

    def tell(self, name: str, why: str) -> None:
        super().tell(name, why)
        self.failures["ours" if ": ours shows" in why else "pymongo"].add(name)


def main() -> int:
    parser = argparse.ArgumentParser(description=__doc__, formatter_class=argparse.RawDescriptionHelpFormatter)
    parser.add_argument("--python", default="/usr/bin/python3")
    parser.add_argument("--patience", type=int, default=1)
    parser.add_argument("names", nargs="*")
    given = parser.parse_args()
    run.LIMIT, run.STARTING = run.LIMIT * given.patience, run.STARTING * given.patience
    chosen = [it for it in SCENARIOS if (not given.names or it["name"] in given.names) and "pymongo" not in it.get("without", ())]
    with tempfile.TemporaryDirectory() as folder:
        runs = Both(SimpleNamespace(python=given.python, alone=True, patience=given.patience), folder)
        for scenario in chosen:
            if scenario.get("hosts") and not runs.own_hosts:
                print(f"left out: {scenario['name']} needs a hosts file of its own")
                continue
            runs.play(scenario)
            print(f"played {scenario['name']}", flush=True)
    counts = ", ".join(f"{name} fails {len(of)} ({' '.join(sorted(of)) or 'none'})" for name, of in runs.failures.items())
    print(f"{len(chosen)} scenarios, {runs.steps} commands: {counts}; explained {len(runs.explained)}")
    return 1 if runs.failures["ours"] else 0


if __name__ == "__main__":
    sys.exit(main())
