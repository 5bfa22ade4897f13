"""The servers: hellos, the words of errors, documents, sessions, and what is done to messages."""

from __future__ import annotations

import struct
import time
from typing import Any

import bson
import pytest
from bson.binary import Binary
from raw import Raw

from mdb_play.thread import Played

SESSION = {"id": Binary(b"0123456789abcdef", 4)}


@pytest.fixture
def ports(played: Played) -> list[int]:
    """The ports of three members, of which member 0 is the primary."""
    return started(played, "set rs 3")


def started(played: Played, plan: str) -> list[int]:
    played.plan(plan)
    return [it.port for it in played.world.members]


def write(number: int, **more: Any) -> dict[str, Any]:
    return {"insert": "items", "documents": [{"_id": number}], "lsid": SESSION, "txnNumber": bson.Int64(number), **more}


# ---- hellos


def test_hellos_come_by_both_opcodes(ports: list[int]) -> None:
    with Raw(ports[0]) as one, Raw(ports[1]) as two:
        number = one.query({"ismaster": 1})
        answers, _, said = one.read()
        assert answers == number and said["ismaster"] is True and said["setName"] == "rs" and "electionId" in said
        other = two.ask({"hello": 1, "$db": "admin"})
        assert other["isWritablePrimary"] is False and other["secondary"] is True and "electionId" not in other
        assert len(other["hosts"]) == 3 and other["primary"] == said["me"]


def test_an_awaited_hello_is_answered_by_news(played: Played, ports: list[int]) -> None:
    with Raw(ports[1]) as link:
        known = link.ask({"hello": 1, "$db": "admin"})["topologyVersion"]
        link.send({"hello": 1, "topologyVersion": known, "maxAwaitTimeMS": 20000, "$db": "admin"})
        played.do("elect 1")
        _, _, said = link.read()
        assert said["isWritablePrimary"] is True and said["topologyVersion"]["counter"] > known["counter"]


def test_streamed_hellos_answer_each_other(played: Played, ports: list[int]) -> None:
    with Raw(ports[1]) as link:
        known = link.ask({"hello": 1, "$db": "admin"})["topologyVersion"]
        known["counter"] = bson.Int64(known["counter"] - 1)
        asked = link.send({"hello": 1, "topologyVersion": known, "maxAwaitTimeMS": 20000, "$db": "admin"}, 1 << 16)
        answers, flags, said = link.read()
        assert answers == asked and flags & 2 and not said["isWritablePrimary"]
        played.do("elect 1")
        second, flags, said = link.read()
        assert second != asked and flags & 2
        assert said["isWritablePrimary"]


def test_a_new_process_has_another_id(played: Played, ports: list[int]) -> None:
    with Raw(ports[2]) as link:
        before = link.ask({"hello": 1})["topologyVersion"]["processId"]
        played.do("restart 2")
        with pytest.raises(OSError):
            link.ask({"hello": 1})
    with Raw(ports[2]) as link:
        assert link.ask({"hello": 1})["topologyVersion"]["processId"] != before


def test_a_configuration_without_a_primary_is_the_next_winners(played: Played, ports: list[int]) -> None:
    with Raw(ports[0]) as old, Raw(ports[1]) as new:
        played.do("stepdown")
        played.do("hide 2")
        waiting = old.ask({"hello": 1})
        assert len(waiting["hosts"]) == 2 and waiting["setVersion"] == 1
        played.do("elect 1")
        assert new.ask({"hello": 1})["setVersion"] == 2
        played.do("show 2")
        assert new.ask({"hello": 1})["setVersion"] == 3 and old.ask({"hello": 1})["setVersion"] == 1


# ---- words


def test_errors_have_the_words_of_the_clients_age(ports: list[int]) -> None:
    with Raw(ports[1]) as old, Raw(ports[1]) as new:
        old.ask({"ismaster": 1})
        new.ask({"ismaster": 1, "helloOk": True})
        assert old.ask({"insert": "items", "documents": [{}]})["errmsg"] == "not master"
        said = new.ask(write(1))
        assert (said["code"], said["errmsg"], said["codeName"]) == (10107, "not primary", "NotWritablePrimary")
        assert said["errorLabels"] == ["RetryableWriteError"] and "topologyVersion" in said
        assert old.ask({"find": "items"})["errmsg"] == "not master and slaveOk=false"
        assert old.ask({"find": "items", "$readPreference": {"mode": "secondary"}})["ok"] == 1.0


def test_old_commands_are_answered(ports: list[int]) -> None:
    with Raw(ports[0]) as link:
        for command in ({"buildinfo": 1}, {"getlasterror": 1}, {"ping": 1}):
            link.query(command)
            assert link.read()[2]["ok"] == 1.0
        assert link.ask({"explode": 1})["code"] == 59


# ---- documents


def test_documents_are_written_and_read(ports: list[int]) -> None:
    with Raw(ports[0]) as link:
        assert link.ask({"insert": "items", "documents": [{"_id": it, "n": it % 3, "in": {"deep": [it]}} for it in range(300)]})["n"] == 300
        assert link.ask({"insert": "items", "documents": [{"_id": 7}]})["writeErrors"][0]["code"] == 11000
        first = link.ask({"find": "items", "filter": {"n": {"$in": [0, 1]}}, "sort": {"_id": -1}, "batchSize": 50})["cursor"]
        assert len(first["firstBatch"]) == 50 and first["firstBatch"][0]["_id"] == 298
        more = link.ask({"getMore": first["id"], "collection": "items", "batchSize": 60})["cursor"]
        assert len(more["nextBatch"]) == 60 and more["id"] == first["id"]
        rest = link.ask({"getMore": first["id"], "collection": "items"})["cursor"]
        assert len(rest["nextBatch"]) == 90 and rest["id"] == 0
        assert link.ask({"getMore": first["id"], "collection": "items"})["code"] == 43
        assert link.ask({"count": "items", "query": {"in.deep": {"$gte": 290}}})["n"] == 10
        pipeline = [{"$match": {"n": 2}}, {"$group": {"_id": 1, "n": {"$sum": 1}}}]
        assert link.ask({"aggregate": "items", "pipeline": pipeline, "cursor": {}})["cursor"]["firstBatch"] == [{"_id": 1, "n": 100}]


def test_documents_are_changed_and_deleted(ports: list[int]) -> None:
    with Raw(ports[0]) as link:
        link.ask({"insert": "items", "documents": [{"_id": 1, "n": 1}, {"_id": 2, "n": 1}]})
        said = link.ask(
            {
                "update": "items",
                "updates": [{"q": {"n": 1}, "u": {"$inc": {"n": 4}, "$push": {"l": 2}}, "multi": True}, {"q": {"_id": 9}, "u": {"$set": {"a.b": 1}}, "upsert": True}],
            }
        )
        assert (said["n"], said["nModified"], said["upserted"]) == (3, 2, [{"index": 1, "_id": 9}])
        found = link.ask({"findAndModify": "items", "query": {"_id": 9}, "update": {"x": 1}, "new": True})
        assert found["value"] == {"_id": 9, "x": 1}
        assert link.ask({"delete": "items", "deletes": [{"q": {"n": 5}, "limit": 1}]})["n"] == 1
        assert link.ask({"distinct": "items", "key": "_id"})["values"] == [2, 9]
        opened = link.ask({"find": "items", "batchSize": 1})["cursor"]["id"]
        assert link.ask({"killCursors": "items", "cursors": [opened, bson.Int64(5)]})["cursorsNotFound"] == [5]
        assert link.ask({"find": "items", "filter": {"$where": "1"}})["code"] == 9


def test_a_sequence_of_documents_is_read(ports: list[int]) -> None:
    with Raw(ports[0]) as link:
        documents = b"".join(bson.encode({"_id": it}) for it in range(3))
        sequence = b"documents\0" + documents
        body = struct.pack("<IB", 0, 0) + bson.encode({"insert": "items", "$db": "test"}) + b"\1" + struct.pack("<i", 4 + len(sequence)) + sequence
        link.socket.sendall(struct.pack("<iiii", 16 + len(body), 99, 0, 2013) + body)
        answers, _, said = link.read()
        assert answers == 99 and said["n"] == 3


# ---- sessions


def test_a_write_that_comes_again_is_remembered_by_the_next_primary(played: Played, ports: list[int]) -> None:
    with Raw(ports[0]) as link:
        assert link.ask(write(1))["n"] == 1
        assert link.ask(write(1))["n"] == 1
    played.do("elect 1")
    with Raw(ports[1]) as link:
        assert link.ask(write(1)) == {"n": 1, "ok": 1.0}
        assert link.ask(write(2))["n"] == 1
        assert link.ask({"count": "items"})["n"] == 2


def transaction(number: int, command: dict[str, Any], **more: Any) -> dict[str, Any]:
    return {**command, "lsid": SESSION, "txnNumber": bson.Int64(number), "autocommit": False, **more}


def test_a_transaction_is_seen_when_it_is_committed(ports: list[int]) -> None:
    with Raw(ports[0]) as link:
        link.ask(transaction(1, {"insert": "items", "documents": [{"_id": 1}]}, startTransaction=True))
        assert link.ask({"count": "items"})["n"] == 0
        assert link.ask(transaction(1, {"find": "items"}))["cursor"]["firstBatch"] == [{"_id": 1}]
        for _ in range(2):
            assert link.ask(transaction(1, {"commitTransaction": 1}))["ok"] == 1.0
        link.ask(transaction(2, {"insert": "items", "documents": [{"_id": 2}]}, startTransaction=True))
        assert link.ask(transaction(2, {"abortTransaction": 1}))["ok"] == 1.0
        assert link.ask({"count": "items"})["n"] == 1
        assert link.ask(transaction(3, {"commitTransaction": 1}))["code"] == 251


def test_a_transaction_ends_with_its_primary(played: Played, ports: list[int]) -> None:
    with Raw(ports[0]) as one, Raw(ports[1]) as two:
        one.ask(transaction(1, {"insert": "items", "documents": [{"_id": 1}]}, startTransaction=True))
        played.do("elect 1")
        said = one.ask(transaction(1, {"insert": "items", "documents": [{"_id": 2}]}))
        assert said["code"] == 10107 and said["errorLabels"] == ["TransientTransactionError"]
        said = two.ask(transaction(1, {"commitTransaction": 1}))
        assert said["code"] == 251 and said["errorLabels"] == ["TransientTransactionError"]


# ---- a set that is parted


def test_what_a_parted_primary_acknowledged_is_gone(played: Played, ports: list[int]) -> None:
    with Raw(ports[0]) as old, Raw(ports[1]) as new:
        old.ask({"insert": "items", "documents": [{"_id": 1}]})
        played.do("part 0")
        assert old.ask({"insert": "items", "documents": [{"_id": 2}]})["n"] == 1
        late = old.ask({"insert": "items", "documents": [{"_id": 3}], "writeConcern": {"w": "majority", "wtimeout": 50}})
        assert late["writeConcernError"]["code"] == 64
        played.do("elect 1")
        assert new.ask({"find": "items"})["cursor"]["firstBatch"] == [{"_id": 1}]
    assert played.verdict.lost_writes == 1


def test_a_majority_fails_when_its_primary_has_to_go(played: Played, ports: list[int]) -> None:
    with Raw(ports[0]) as old:
        played.do("part 0")
        old.send({"insert": "items", "documents": [{"_id": 3, "text": "x"}], "writeConcern": {"w": "majority"}, "$db": "test"})
        time.sleep(0.5)
        played.do("elect 1")
        assert old.read()[2]["code"] == 189
    with Raw(ports[1]) as new:
        new.ask({"insert": "items", "documents": [{"_id": 3, "text": "x"}], "writeConcern": {"w": "majority"}})
    assert played.verdict.lost_writes == 0 and played.verdict.double_writes == 0


# ---- messages


def test_requests_and_replies_are_lost(played: Played) -> None:
    ports = started(played, "set rs 1; at insert 1 lose; at insert 2 lose-reply; at insert 3 error 91; at insert 4 before-reply close")
    with Raw(ports[0]) as link:
        link.send({"insert": "items", "documents": [{"_id": 1}], "$db": "test"})
        link.send({"insert": "items", "documents": [{"_id": 2}], "$db": "test"})
        number = link.send({"ping": 1, "$db": "test"})
        assert link.read()[0] == number
    with Raw(ports[0]) as link:
        assert link.ask({"insert": "items", "documents": [{"_id": 3}]})["code"] == 91
        with pytest.raises(OSError):
            link.ask({"insert": "items", "documents": [{"_id": 4}]})
    with Raw(ports[0]) as link:
        assert [it["_id"] for it in link.ask({"find": "items"})["cursor"]["firstBatch"]] == [2, 4]
