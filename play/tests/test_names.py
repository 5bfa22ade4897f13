"""The server of names, and a client that finds the members by it."""

from __future__ import annotations

import socket
import struct
import time
from typing import Any, Iterator

import pytest

from mdb_play.names import HOST, SERVICE, spelled
from mdb_play.plan import PlanError, parse
from mdb_play.thread import Played

SRV, TXT, A = 33, 16, 1


def asked(address: str, name: str, kind: int) -> tuple[int, list[bytes]]:
    """The code of an answer, and the data of its records."""
    host, _, port = address.rpartition(":")
    query = struct.pack(">HHHHHH", 7, 0x0100, 1, 0, 0, 0) + spelled(name) + struct.pack(">HH", kind, 1)
    with socket.socket(socket.AF_INET, socket.SOCK_DGRAM) as link:
        link.settimeout(20)
        for _ in range(2):
            # the first one is no query, and is not answered
            link.sendto(query if _ else query[:13], (host, int(port)))
        answer = link.recv(4096)
    number, flags, questions, count, _, _ = struct.unpack(">HHHHHH", answer[:12])
    assert (number, questions, answer[12 : len(query)]) == (7, 1, query[12:])
    records, at = [], len(query)
    for _ in range(count):
        told, _, _, size = struct.unpack(">HHIH", answer[at + 2 : at + 12])
        assert told == kind
        records.append(answer[at + 12 : at + 12 + size])
        at += 12 + size
    assert at == len(answer)
    return flags & 15, records


def test_the_named_members_and_no_others(played: Played) -> None:
    played.plan("routers 3; names 0,2; text authSource=admin")
    assert played.world.names is not None
    where, ports = played.world.names.address, [it.port for it in played.world.members]
    assert played.uri == f"mongodb+srv://{HOST}/?ssl=false"
    assert asked(where, SERVICE.upper(), SRV) == (0, [struct.pack(">HHH", 0, 0, ports[it]) + spelled("127.0.0.1") for it in (0, 2)])
    assert asked(where, HOST, TXT) == (0, [b"\x10authSource=admin"])
    assert asked(where, HOST, A) == (0, []) and asked(where, "example.org", A) == (3, [])
    played.do("names 1")
    assert asked(where, SERVICE, SRV) == (0, [struct.pack(">HHH", 0, 0, ports[1]) + spelled("127.0.0.1")])


@pytest.mark.parametrize("text", ["set rs 3; names 3", "set rs 3; at insert 1 names 1", "set rs 3; names 0; at insert 1 names 4", "names 0; host ::1", "names 0; seeds 1"])
def test_what_cannot_be_named_is_refused(text: str) -> None:
    with pytest.raises(PlanError):
        parse(text)


@pytest.fixture
def resolved(played: Played) -> Iterator[None]:
    """Names are asked of the servers of the test, each second."""
    resolver, common = pytest.importorskip("dns.resolver"), pytest.importorskip("pymongo.common")
    before = resolver.default_resolver, common.MIN_SRV_RESCAN_INTERVAL
    played.plan("routers 3; names 0,1; option heartbeatFrequencyMS=500")
    made: Any = resolver.Resolver(configure=False)
    assert played.world.names is not None
    made.nameservers, made.port = ["127.0.0.1"], int(played.world.names.address.rpartition(":")[2])
    resolver.default_resolver, common.MIN_SRV_RESCAN_INTERVAL = made, 1
    yield
    resolver.default_resolver, common.MIN_SRV_RESCAN_INTERVAL = before


def knows(client: Any, ports: list[int]) -> bool:
    """Whether the client is connected to these members and no others, within half a minute."""
    until = time.monotonic() + 30
    while {port for _, port in client.nodes} != set(ports) and time.monotonic() < until:
        time.sleep(0.1)
    return {port for _, port in client.nodes} == set(ports)


def test_a_client_finds_the_members_by_their_names(played: Played, resolved: None) -> None:
    pymongo = pytest.importorskip("pymongo")
    client: Any = pymongo.MongoClient(played.uri)
    ports = [it.port for it in played.world.members]
    try:
        client.test.items.insert_one({"text": "1"})
        assert knows(client, ports[:2])
        played.do("names 1,2")
        assert knows(client, ports[1:])
    finally:
        client.close()
    assert played.verdict.failed == []
