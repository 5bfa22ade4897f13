#!/usr/bin/env python3
"""Records what pymongo tells of its pools, servers and topology, as JSON lines that mdb_recorded reads.

usage: record_pymongo.py URI SECONDS THREADS > recording.jsonl      needs python3-pymongo

`listeners` is all that your own program needs: MongoClient(.., event_listeners=listeners(file)). The rest is a load: so many threads
that insert for so long, whatever fails.
"""
import json
import sys
import threading
import time

import pymongo
from pymongo.monitoring import ConnectionPoolListener, ServerHeartbeatListener, ServerListener, TopologyListener

WANTED = ('maxPoolSize', 'minPoolSize', 'maxConnecting', 'maxIdleTimeMS')


class Recorder:
    """Writes each event as a line, in the order in which the driver tells them."""

    def __init__(self, file):
        self.file, self.lock = file, threading.Lock()

    def tell(self, kind, name, address=None, **more):
        with self.lock:
            line = {'t': round(time.monotonic(), 6), 'kind': kind, 'event': name}
            if address:
                line['address'] = '%s:%s' % address
            self.file.write(json.dumps({**line, **more}) + '\n')


class Pools(ConnectionPoolListener):
    """pymongo calls this in the thread that checks out, so that the thread's number stands for the check-out."""

    def __init__(self, recorder):
        self.recorder = recorder

    def tell(self, name, event, **more):
        self.recorder.tell('pool', name, event.address, **more)

    def tell_caller(self, name, event, **more):
        self.tell(name, event, caller=threading.get_native_id(), **more)

    def pool_created(self, event):
        self.tell('ConnectionPoolCreated', event, **{key: int(value) for key, value in event.options.items() if key in WANTED})

    def pool_ready(self, event):
        self.tell('ConnectionPoolReady', event)

    def pool_cleared(self, event):
        service = getattr(event, 'service_id', None)
        self.tell('ConnectionPoolCleared', event, **({'serviceId': str(service)} if service else {}))

    def pool_closed(self, event):
        self.tell('ConnectionPoolClosed', event)

    def connection_created(self, event):
        self.tell_caller('ConnectionCreated', event, connectionId=event.connection_id)

    def connection_ready(self, event):
        self.tell('ConnectionReady', event, connectionId=event.connection_id)

    def connection_closed(self, event):
        self.tell('ConnectionClosed', event, connectionId=event.connection_id, reason=event.reason)

    def connection_check_out_started(self, event):
        self.tell_caller('ConnectionCheckOutStarted', event)

    def connection_check_out_failed(self, event):
        self.tell_caller('ConnectionCheckOutFailed', event, reason=event.reason)

    def connection_checked_out(self, event):
        self.tell_caller('ConnectionCheckedOut', event, connectionId=event.connection_id)

    def connection_checked_in(self, event):
        self.tell('ConnectionCheckedIn', event, connectionId=event.connection_id)


class Servers(ServerListener):
    def __init__(self, recorder):
        self.recorder = recorder

    def opened(self, event):
        self.recorder.tell('sdam', 'ServerOpening', event.server_address)

    def description_changed(self, event):
        kinds = {'from': event.previous_description.server_type_name, 'to': event.new_description.server_type_name}
        self.recorder.tell('sdam', 'ServerDescriptionChanged', event.server_address, **kinds)

    def closed(self, event):
        self.recorder.tell('sdam', 'ServerClosed', event.server_address)


class Topologies(TopologyListener):
    def __init__(self, recorder):
        self.recorder = recorder

    def opened(self, event):
        self.recorder.tell('sdam', 'TopologyOpening')

    def description_changed(self, event):
        self.recorder.tell('sdam', 'TopologyDescriptionChanged')

    def closed(self, event):
        self.recorder.tell('sdam', 'TopologyClosed')


class Heartbeats(ServerHeartbeatListener):
    def __init__(self, recorder):
        self.recorder = recorder

    def started(self, event):
        self.recorder.tell('beat', 'ServerHeartbeatStarted', event.connection_id)

    def succeeded(self, event):
        self.recorder.tell('beat', 'ServerHeartbeatSucceeded', event.connection_id)

    def failed(self, event):
        self.recorder.tell('beat', 'ServerHeartbeatFailed', event.connection_id)


def listeners(file):
    """What a client is given to be recorded."""
    recorder = Recorder(file)
    return [kind(recorder) for kind in (Pools, Servers, Topologies, Heartbeats)]


def work(client, until, counts):
    """One thread of the load."""
    while time.monotonic() < until:
        try:
            client.test.items.insert_one({'n': 1})
            counts['done'] += 1
        except pymongo.errors.PyMongoError:
            counts['failed'] += 1
            time.sleep(0.01)


def main():
    uri, seconds, threads = sys.argv[1], float(sys.argv[2]), int(sys.argv[3])
    client = pymongo.MongoClient(uri, event_listeners=listeners(sys.stdout))
    until, counts = time.monotonic() + seconds, {'done': 0, 'failed': 0}
    workers = [threading.Thread(target=work, args=(client, until, counts)) for _ in range(threads)]
    for worker in workers:
        worker.start()
    for worker in workers:
        worker.join()
    client.close()
    print('pymongo %s: %d done, %d failed' % (pymongo.version, counts['done'], counts['failed']), file=sys.stderr)


if __name__ == '__main__':
    main()
