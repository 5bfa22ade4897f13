#!/usr/bin/env python3
"""Times a check-out with its check-in of Debian's pymongo: its stock pool, ours alone, and ours of a driver, by 1 and 8 threads, in one run. Each number is
processor time in microseconds, the least of several rounds that take turns, and how many times that of the stock pool it is.

usage: checks/drivers/pymongo_cost.py [--rounds N]
"""

from __future__ import annotations

import argparse
import os
import sys
import threading
import time
from pathlib import Path
from typing import Any

TOP = Path(__file__).resolve().parents[2]
# this folder has a module with the name of a package, so it is looked in last
sys.path = [str(TOP / "bindings/python"), str(TOP / "examples"), *sys.path[1:], str(Path(__file__).resolve().parent)]
import mdb  # noqa: E402
import pymongo_cmap  # noqa: E402
from pymongo import pool as stock  # noqa: E402

THREADS = (1, 8)


def took(pool: Any, threads: int, rounds: int) -> float:
    def work() -> None:
        for _ in range(rounds // threads):
            with pool.get_socket({}):
                pass

    crew = [threading.Thread(target=work) for _ in range(threads)]
    began = time.process_time()
    for one in crew:
        one.start()
    for one in crew:
        one.join()
    return (time.process_time() - began) / (rounds // threads * threads) * 1e6


def main() -> None:
    parser = argparse.ArgumentParser(description=__doc__, formatter_class=argparse.RawDescriptionHelpFormatter)
    parser.add_argument("--rounds", type=int, default=2000)
    given = parser.parse_args()
    pymongo_cmap.SHORT = 3600  # no background work
    server, least = pymongo_cmap.Answering(), {}
    beds = {way: pymongo_cmap.Bed(way, server.address, stock.PoolOptions(max_pool_size=100)) for way in ("stock", "alone", "driver")}
    for _ in range(10):
        for way, bed in beds.items():
            for threads in THREADS:
                least[way, threads] = min(least.get((way, threads), 1e9), took(bed.pool, threads, given.rounds))
    for (way, threads), it in least.items():
        print(f"{'compiled' if mdb.COMPILED else 'ctypes'}, {way}, {threads} threads: {it:.1f} us, {it / least['stock', threads]:.1f} times stock")
    sys.stdout.flush()
    os._exit(0)  # the workers sleep for an hour


if __name__ == "__main__":
    main()
