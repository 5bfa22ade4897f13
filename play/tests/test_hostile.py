"""Clients that send what no driver sends don't stop the servers."""

from __future__ import annotations

import os
import resource
import socket
import struct
import threading
import time

import bson
import pytest
from raw import Raw

from mdb_play.thread import Played
from mdb_play.wire import GREATEST, OP_MSG, Budget, Malformed, parsed

MANY = int(os.environ.get("MDB_PLAY_CONNECTIONS", "300"))


@pytest.fixture
def port(played: Played) -> int:
    """The port of one primary."""
    played.plan("set rs 1")
    return played.world.members[0].port


def answers(port: int) -> bool:
    with Raw(port) as link:
        return bool(link.ask({"ping": 1})["ok"] == 1.0)


def ends(link: socket.socket) -> bool:
    """The servers end the connection."""
    link.settimeout(30)
    try:
        while link.recv(1 << 16):
            pass
    except ConnectionError:
        pass
    return True


HEAD = struct.Struct("<iiii")
NOISE = [
    HEAD.pack(15, 1, 0, OP_MSG),
    HEAD.pack(-1, 1, 0, OP_MSG),
    HEAD.pack(GREATEST + 1, 1, 0, OP_MSG),
    HEAD.pack(16, 1, 0, 2001),
    HEAD.pack(16, 1, 0, OP_MSG),
    HEAD.pack(26, 1, 0, OP_MSG) + bytes(5) + struct.pack("<i", 99) + b"\0",
    HEAD.pack(26, 1, 0, OP_MSG) + struct.pack("<I", 1 << 9) + b"\0" + struct.pack("<i", 5) + b"\0",
    HEAD.pack(26, 1, 0, OP_MSG) + bytes(4) + b"\7" + struct.pack("<i", 5) + b"\0",
    HEAD.pack(40, 1, 0, 2004) + bytes(24),
    b"GET / HTTP/1.1\r\n\r\n" + bytes(40),
]


@pytest.mark.parametrize("bytes_sent", NOISE)
def test_bytes_that_are_no_request_end_their_connection_alone(port: int, bytes_sent: bytes) -> None:
    with socket.create_connection(("127.0.0.1", port), 30) as link:
        link.sendall(bytes_sent)
        assert ends(link)
    assert answers(port)


def test_odd_commands_are_errors(port: int) -> None:
    odd = [{}, {"insert": 5}, {"insert": "items", "documents": 7}, {"update": "items", "updates": [{}]}, {"getMore": "x"}, {"find": "items", "filter": {"$and": 3}}]
    odd += [{"insert": "items", "documents": [1]}, {"hello": 1, "topologyVersion": 3}, {"ping": 1, "lsid": 9, "txnNumber": "x"}, {"delete": "items", "deletes": [{"q": 1}]}]
    for command in odd:
        with Raw(port) as link:
            try:
                link.ask(command)
            except ConnectionError:
                pass
    assert answers(port)


def test_half_a_message_holds_nobody_up(port: int) -> None:
    with socket.create_connection(("127.0.0.1", port), 30) as link:
        link.sendall(HEAD.pack(1000, 1, 0, OP_MSG) + bytes(10))
        assert answers(port)
    assert answers(port)


def test_a_message_of_48_megabytes_is_read(port: int) -> None:
    documents = [{"_id": it, "filler": bytes(15_900_000)} for it in range(3)]
    with Raw(port) as link:
        link.socket.settimeout(120)
        assert link.ask({"insert": "items", "documents": documents})["n"] == 3
        assert link.ask({"count": "items"})["n"] == 3


def test_a_length_takes_no_memory_before_its_bytes_come(port: int) -> None:
    before = resource.getrusage(resource.RUSAGE_SELF).ru_maxrss
    links = [socket.create_connection(("127.0.0.1", port), 30) for _ in range(4)]
    for link in links:
        link.sendall(HEAD.pack(GREATEST, 1, 0, OP_MSG) + bytes(100))
    assert answers(port)
    for link in links:
        link.close()
    assert resource.getrusage(resource.RUSAGE_SELF).ru_maxrss - before < 40_000


def test_large_messages_have_a_bound_together() -> None:
    budget = Budget(100)
    budget.take(60)
    with pytest.raises(Malformed):
        budget.take(41)
    budget.give(60)
    budget.take(100)


def test_a_reader_that_does_not_read_holds_nobody_up(port: int) -> None:
    with Raw(port) as slow:
        slow.ask({"insert": "items", "documents": [{"_id": it, "filler": bytes(1_000_000)} for it in range(12)]})
        for _ in range(8):
            slow.send({"find": "items", "$db": "test"})
        time.sleep(0.2)
        assert answers(port)
        assert len(slow.read()[2]["cursor"]["firstBatch"]) == 12


def test_noise_is_malformed_or_a_request() -> None:
    noise = bytes((7 * it * it + 3) % 251 for it in range(4000))
    whole = bytes(5) + bson.encode({"insert": "items", "documents": [{"a": [1, {"b": "c"}]}], "$db": "test"})
    for at in range(len(whole)):
        for value in (0, 1, 127, 255):
            spoiled = whole[:at] + bytes([value]) + whole[at + 1 :]
            try:
                parsed(1, OP_MSG, spoiled)
            except Malformed:
                pass
    for size in range(0, 400, 7):
        with pytest.raises(Malformed):
            parsed(1, OP_MSG, b"\0\0\0\0\1" + noise[size : size + 50])


def test_many_connections(port: int) -> None:
    before = resource.getrusage(resource.RUSAGE_SELF).ru_maxrss
    links: list[Raw] = []
    lock = threading.Lock()

    def opened(count: int) -> None:
        for _ in range(count):
            link = Raw(port)
            link.ask({"hello": 1, "$db": "admin"})
            with lock:
                links.append(link)

    threads = [threading.Thread(target=opened, args=(MANY // 4,)) for _ in range(4)]
    for thread in threads:
        thread.start()
    for thread in threads:
        thread.join()
    assert len(links) == MANY // 4 * 4
    assert all(link.ask({"ping": 1})["ok"] == 1.0 for link in links)
    for link in links:
        link.socket.close()
    grown = resource.getrusage(resource.RUSAGE_SELF).ru_maxrss - before
    print(f"{len(links)} connections, {grown} kilobytes")
    assert grown < 200 * len(links)
