#!/usr/bin/python3
"""A witness: what pymongo describes of the servers of a connection string, a line at each change, in the form of mdb_live.

usage: by_pymongo.py URI SECONDS      needs python3-pymongo
"""
import sys
import time

from pymongo import MongoClient, monitoring

BEGAN = time.monotonic()


class Listener(monitoring.TopologyListener):
    def opened(self, event):
        pass

    def closed(self, event):
        pass

    def description_changed(self, event):
        new = event.new_description
        servers = sorted(('%s:%d' % ('[%s]' % host if ':' in host else host, port), server.server_type_name) for (host, port), server in new.server_descriptions().items())
        print('%.3f topology %s %s' % (time.monotonic() - BEGAN, new.topology_type_name, ','.join('%s=%s' % it for it in servers) or '-'), flush=True)


def main():
    client = MongoClient(sys.argv[1], event_listeners=[Listener()])
    client._topology.open()
    time.sleep(float(sys.argv[2]))


if __name__ == '__main__':
    main()
