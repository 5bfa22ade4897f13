"""Replies as documents in BSON, which are made here by the rules of BSON 1.1."""

import struct

import pytest

from mdb import BadDocument, DocumentFault, Driver, Event, Kind, ServerKind, TopologyKind, Unspelled


def element(name, value):
    key = name.encode() + b"\0"
    if isinstance(value, bool):
        return b"\x08" + key + bytes([value])
    if isinstance(value, int):
        return b"\x10" + key + struct.pack("<i", value)
    if isinstance(value, str):
        text = value.encode() + b"\0"
        return b"\x02" + key + struct.pack("<i", len(text)) + text
    return (b"\x04" + key + document({str(n): it for n, it in enumerate(value)})) if isinstance(value, list) else b"\x03" + key + document(value)


def document(fields):
    body = b"".join(element(name, value) for name, value in fields.items()) + b"\0"
    return struct.pack("<i", len(body) + 4) + body


PRIMARY = {
    "ok": 1,
    "isWritablePrimary": True,
    "setName": "rs",
    "hosts": ["a:1", "b:2"],
    "me": "a:1",
    "setVersion": 3,
    "minWireVersion": 0,
    "maxWireVersion": 21,
}
PRIMARY |= {"maxBsonObjectSize": 16777216, "maxMessageSizeBytes": 48000000, "maxWriteBatchSize": 100000}


def test_a_hello_and_a_check_by_documents():
    with Driver("open seeds=a:1 set=rs") as driver:
        reply = driver.hello_bson(1, "a:1", 0, 7, document(PRIMARY))
        assert reply.kind is Kind.CHANGED and reply.number == 1
        assert Event.TOPOLOGY_CHANGED in [fact.event for fact in reply.facts]
        assert driver.topology().kind is TopologyKind.REPLICA_SET_WITH_PRIMARY
        server = driver.server("a:1")
        assert (server.kind, server.set_version, server.hosts, server.round_trip) == (ServerKind.RS_PRIMARY, 3, ("a:1", "b:2"), 7)
        driver.beat(2, "a:1", 0)
        reply = driver.beaten_bson(2, "a:1", 0, 9, document({**PRIMARY, "setVersion": 4}), more=False)
        assert [(fact.id, fact.number) for fact in reply.facts if fact.event is Event.HEARTBEAT_SUCCEEDED] == [(driver.next_check("a:1").connection, 9)]
        assert driver.server("a:1").set_version == 4


def test_what_no_line_can_spell():
    with Driver("open seeds=a:1 set=rs") as driver:
        assert driver.hello_bson(1, "a:1", 0, 7, document({**PRIMARY, "tags": {"dc": "New York"}})).number == 1
        with pytest.raises(Unspelled):
            driver.entry_text()


@pytest.mark.parametrize(
    "bytes_, fault, field",
    [
        (b"", DocumentFault.SHORT, ""),
        (document({})[:-1], DocumentFault.LENGTH, ""),
        (document({}) + b"\0", DocumentFault.TRAILING, ""),
        (document({**PRIMARY, "setName": 1}), DocumentFault.FIELD, "setName"),
    ],
)
def test_bad_documents(bytes_, fault, field):
    with Driver("open seeds=a:1 set=rs") as driver:
        before = driver.entry_text()
        with pytest.raises(BadDocument) as raised:
            driver.hello_bson(1, "a:1", 0, 7, bytes_)
        assert (raised.value.fault, raised.value.field) == (fault, field)
        assert driver.entry_text() == before
        with pytest.raises(TypeError):
            driver.hello_bson(1, "a:1", 0, 7, None)
