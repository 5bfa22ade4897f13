#!/usr/bin/env python3
"""Runs the standard's JSON tests of SDAM and CMAP over Debian's pymongo, stock and with the proved pool and topology inside, and compares them by name.

usage: checks/drivers/pymongo.py [--data FOLDER] [--quiet]

Needs Debian's python3-pymongo, and the tests, which lie in golang-mongodb-mongo-driver-dev. The library: `make -C bindings`, and for speed
`python3 setup.py build_ext --inplace` in bindings/python. It fails where ours fails a test that is not named below with its reason.
"""

from __future__ import annotations

import argparse
import sys
from pathlib import Path

TOP = Path(__file__).resolve().parents[2]
# this file has the name of the package, so its folder is not looked in first
sys.path = [str(TOP / "bindings/python"), str(TOP / "examples"), *(it for it in sys.path[1:])]
DATA = Path("/usr/share/gocode/src/go.mongodb.org/mongo-driver/data")

# What ours fails, and why.
_CLOSE_ALONE = "docs/DECISIONS.md, 'A closed pool stays closed': a connection that comes back there makes no event but its close"
KNOWN = {f"cmap, a pool {it}: connection-monitoring-and-pooling/pool-checkin-destroy-closed": _CLOSE_ALONE for it in ("alone", "of a driver")}


def named(folder: Path, names: tuple[str, ...]) -> list[Path]:
    return [it for name in names for it in sorted((folder / name).glob("*.json"))]


def compared(title: str, files: list[Path], run, quiet: bool) -> list[str]:
    """Runs each test over both, prints where they differ or ours fails, and tells which ours fails that are not known."""
    passed, unknown = {False: 0, True: 0}, []
    for path in files:
        name = f"{title}: {path.parent.name}/{path.stem}"
        why = {ours: run(path, ours) for ours in (False, True)}
        for ours, it in why.items():
            passed[ours] += it is None
        if why[True] and name not in KNOWN:
            unknown.append(name)
        if not quiet and any(why.values()):
            print(f"{name}: stock {why[False] or 'passes'}; ours {why[True] or 'passes'}{' (known: ' + KNOWN[name] + ')' if name in KNOWN else ''}")
    print(f"{title}: {len(files)} tests, stock passes {passed[False]}, ours {passed[True]}", flush=True)
    return unknown


def main() -> int:
    parser = argparse.ArgumentParser(description=__doc__, formatter_class=argparse.RawDescriptionHelpFormatter)
    parser.add_argument("--data", type=Path, default=DATA)
    parser.add_argument("--quiet", action="store_true", help="the counts alone")
    given = parser.parse_args()
    if not (given.data / "server-discovery-and-monitoring").is_dir():
        raise SystemExit(f"no tests in {given.data}: apt-get install golang-mongodb-mongo-driver-dev")
    sys.path.append(str(Path(__file__).resolve().parent))
    import pymongo_cmap
    import pymongo_sdam

    cmap = sorted((given.data / "connection-monitoring-and-pooling").glob("*.json"))
    unknown = compared("cmap, a pool alone", cmap, pymongo_cmap.run, given.quiet)
    unknown += compared("cmap, a pool of a driver", cmap, pymongo_cmap.run_of_driver, given.quiet)
    unknown += compared("sdam", named(given.data / "server-discovery-and-monitoring", pymongo_sdam.FOLDERS), pymongo_sdam.run, given.quiet)
    for it in unknown:
        print(f"ours fails {it}")
    return 1 if unknown else 0


if __name__ == "__main__":
    sys.exit(main())
