"""A made-up replica set by the proved rule. What is wanted is derived from the rule in words."""

import mdb
import pytest


def test_all_begin_as_secondaries():
    fleet = mdb.Fleet(3)
    assert len(fleet) == 3 and fleet.elections == 0
    assert [fleet.member(it) for it in range(3)] == [mdb.Member(1, None, 0)] * 3


def test_an_election_leaves_the_others_as_they_are():
    fleet = mdb.Fleet(3)
    fleet.elect(0)
    fleet.elect(2)
    assert fleet.elections == 2
    assert [fleet.member(it) for it in range(3)] == [mdb.Member(1, 1, 1), mdb.Member(1, None, 0), mdb.Member(1, 2, 1)]
    assert fleet.member(2).election_id == "000000000000000000000002"


def test_the_winner_has_the_greatest_set_version():
    fleet = mdb.Fleet(2)
    fleet.elect(0)
    assert fleet.reconfigure(0) and not fleet.reconfigure(1)
    assert fleet.step_down(0) and not fleet.step_down(0)
    fleet.elect(1)
    assert [fleet.member(it) for it in range(2)] == [mdb.Member(2, None, 3), mdb.Member(2, 1 + 1, 1)]


def test_a_reply_is_what_a_line_has():
    fleet = mdb.Fleet(2)
    fleet.elect(1)
    hosts = "hosts=m0:27017,m1:27017"
    first = f"isWritablePrimary=false helloOk=true {hosts} me=m0:27017 setVersion=1 setName=rs secondary=true minWireVersion=0 maxWireVersion=21"
    second = f"isWritablePrimary=true helloOk=true {hosts} me=m1:27017 setVersion=1 setName=rs secondary=false minWireVersion=0 maxWireVersion=21"
    assert fleet.reply(0) == f"{first} topologyVersion=000000000000000000000001.0"
    assert fleet.reply(1) == f"{second} electionId=000000000000000000000001 topologyVersion=000000000000000000000002.1"


def test_a_driver_takes_the_replies():
    fleet = mdb.Fleet(2)
    fleet.elect(0)
    with mdb.Driver("open seeds=m0:27017 set=rs") as driver:
        driver.hello(0, "m0:27017", 0, f"ok rtt=5 {fleet.reply(0)}")
        assert driver.topology().kind == mdb.TopologyKind.REPLICA_SET_WITH_PRIMARY


@pytest.mark.parametrize("members", [0, 51])
def test_no_or_too_many_members_are_refused(members):
    with pytest.raises(mdb.Malformed):
        mdb.Fleet(members)


def test_a_member_that_there_is_not_is_refused():
    fleet = mdb.Fleet(2)
    for call in (fleet.elect, fleet.step_down, fleet.reconfigure, fleet.member, fleet.reply):
        with pytest.raises(mdb.NoEntry):
            call(2)
    assert fleet.elections == 0 and fleet.member(0) == mdb.Member(1, None, 0)
