"""A load by pymongo: threads that insert documents, each with its own text, for some seconds. On a busy machine it goes on until each has 25 done, but for no longer
than six times as long.

usage: load.py SECONDS THREADS      MDB_URI says where; MDB_RECORD names a file for what the listeners are told; MDB_DNS a server of names, asked each second
"""

from __future__ import annotations

import os
import sys
import threading
import time

import pymongo
import pymongo.common
import pymongo.errors

LEAST = 25


def listeners(name: str) -> list[object]:
    """Listeners that write what they are told into the file; none without a name."""
    if not name:
        return []
    sys.path.insert(0, os.path.join(os.path.dirname(os.path.abspath(__file__)), "..", "..", "examples", "recording"))
    import record_pymongo

    return record_pymongo.listeners(open(name, "w", encoding="utf-8", buffering=1))


def ask_for_names(address: str) -> None:
    """Seed lists are asked of this server of names, each second and not each minute; nothing without an address."""
    if not address:
        return
    import dns.resolver

    host, _, port = address.rpartition(":")
    resolver = dns.resolver.Resolver(configure=False)
    resolver.nameservers, resolver.port = [host], int(port)
    dns.resolver.default_resolver = resolver
    pymongo.common.MIN_SRV_RESCAN_INTERVAL = 1


def work(client: pymongo.MongoClient, thread: int, seconds: float, counts: dict[str, int]) -> None:
    """One thread of the load."""
    number, done, begin = 0, 0, time.monotonic()
    while time.monotonic() - begin < (seconds if done >= LEAST else 6 * seconds):
        number += 1
        try:
            client.test.items.insert_one({"text": f"{thread} {number}"})
            counts["done"] += 1
            done += 1
        except pymongo.errors.PyMongoError as why:
            counts["failed"] += 1
            counts[str(why)[:60]] = counts.get(str(why)[:60], 0) + 1
            time.sleep(0.01)
        time.sleep(0.01)


def main() -> None:
    """Plays the load, and says on the standard error how it went."""
    seconds, threads = float(sys.argv[1]), int(sys.argv[2])
    ask_for_names(os.environ.get("MDB_DNS", ""))
    client = pymongo.MongoClient(os.environ["MDB_URI"], event_listeners=listeners(os.environ.get("MDB_RECORD", "")))
    counts = {"done": 0, "failed": 0}
    workers = [threading.Thread(target=work, args=(client, thread, seconds, counts)) for thread in range(threads)]
    for worker in workers:
        worker.start()
    for worker in workers:
        worker.join()
    client.close()
    print("pymongo", pymongo.version, counts, file=sys.stderr)


if __name__ == "__main__":
    main()
