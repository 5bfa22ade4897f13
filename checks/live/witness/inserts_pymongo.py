#!/usr/bin/python3
"""A load by pymongo: threads that insert into the database `pymongo`.

usage: inserts_pymongo.py URI SECONDS THREADS
"""
import sys
import threading
import time

from pymongo import MongoClient
from pymongo.errors import PyMongoError


def inserts(client, until):
    while time.monotonic() < until:
        try:
            client.pymongo.live.insert_one({})
        except PyMongoError:
            pass
        time.sleep(0.02)


def main():
    client, until = MongoClient(sys.argv[1]), time.monotonic() + float(sys.argv[2])
    for _ in range(int(sys.argv[3])):
        threading.Thread(target=inserts, args=(client, until)).start()


if __name__ == '__main__':
    main()
