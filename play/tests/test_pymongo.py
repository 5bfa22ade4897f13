"""An application by pymongo: what it reads and writes, and failovers in the midst of it."""

from __future__ import annotations

from typing import Any, Iterator

import pytest

from mdb_play.thread import Played

pymongo = pytest.importorskip("pymongo")
FAST = "option heartbeatFrequencyMS=500 connectTimeoutMS=2000; "


@pytest.fixture
def client(played: Played) -> Iterator[Any]:
    """A client of the servers; the test has made its plan before it uses it."""
    made: list[Any] = []

    def connected() -> Any:
        made.append(pymongo.MongoClient(played.uri))
        return made[-1]

    yield connected
    for it in made:
        it.close()


def test_an_application_reads_and_writes(played: Played, client: Any) -> None:
    played.plan(FAST + "set rs 3")
    items = client().shop.items
    assert len(items.insert_many([{"n": it, "kind": "ab"[it % 2]} for it in range(250)]).inserted_ids) == 250
    assert items.count_documents({"kind": "a"}) == 125
    assert items.estimated_document_count() == 250
    assert [it["n"] for it in items.find({"n": {"$lt": 5}}, {"n": 1}).sort("n", -1)] == [4, 3, 2, 1, 0]
    assert len(list(items.find(batch_size=40))) == 250
    assert items.update_many({"kind": "b"}, {"$inc": {"n": 1000}}).modified_count == 125
    assert items.find_one_and_update({"n": 0}, {"$set": {"x": 1}}, return_document=True)["x"] == 1
    assert items.delete_many({"kind": "a"}).deleted_count == 125
    assert items.distinct("kind") == ["b"]
    assert list(items.aggregate([{"$group": {"_id": "$kind", "n": {"$sum": 1}}}])) == [{"_id": "b", "n": 125}]
    items.create_index("n")
    assert "items" in client().shop.list_collection_names()
    items.drop()
    assert played.verdict.failed == []


def test_a_check_out_survives_a_lost_reply_and_an_election(played: Played, client: Any) -> None:
    played.plan(FAST + "at insert 3 before-reply kill 0; at +200ms elect 1")
    items = client().shop.items
    for number in range(5):
        items.insert_one({"number": number})
    assert items.count_documents({}) == 5
    assert played.verdict.lost_writes == 0 and played.verdict.double_writes == 0
    assert played.verdict.failed == []


def test_without_retries_the_application_stores_twice(played: Played, client: Any) -> None:
    played.plan(FAST + "option retryWrites=false; at insert 3 before-reply reset")
    items = client().shop.items
    for number in range(5):
        try:
            items.insert_one({"number": number})
        except pymongo.errors.AutoReconnect:
            items.insert_one({"number": number})
    assert items.count_documents({}) == 6
    assert played.verdict.failed == ["double-writes"]


def test_a_transaction_is_tried_again(played: Played, client: Any) -> None:
    played.plan(FAST + "at update 1 before-reply stepdown; at +100ms elect 1")
    connected = client()
    connected.shop.create_collection("accounts")
    connected.shop.accounts.insert_many([{"_id": "a", "n": 10}, {"_id": "b", "n": 0}])

    def move(session: Any) -> None:
        accounts = connected.shop.accounts
        accounts.update_one({"_id": "a"}, {"$inc": {"n": -3}}, session=session)
        accounts.update_one({"_id": "b"}, {"$inc": {"n": 3}}, session=session)

    with connected.start_session() as session:
        session.with_transaction(move)
    assert [it["n"] for it in connected.shop.accounts.find()] == [7, 3]
    assert played.verdict.failed == []
