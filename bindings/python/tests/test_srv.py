"""The rules of SRV and TXT records. What is wanted is by the standard "Initial DNS Seedlist Discovery" and its tests."""

import pytest

from mdb import BadRecords, Driver, Malformed, accepted_hosts, rescan_seconds, txt_options

NAME = "cluster.example.com"


def test_hosts_of_the_domain_are_accepted():
    assert accepted_hosts(NAME, ["B.example.com:1", "a.b.example.com"]) == ["b.example.com:1", "a.b.example.com:27017"]
    assert accepted_hosts(NAME, ["b.example.com:1", "a.evil.com:1"], skip=True) == ["b.example.com:1"]
    assert accepted_hosts("localhost", ["a.localhost:1"]) == ["a.localhost:1"]
    many = [f"host-{n}.example.com:27017" for n in range(500)]
    assert accepted_hosts(NAME, many) == many


def test_strangers_refuse_a_lookup():
    with pytest.raises(BadRecords, match="returned result a.evil.com, which does not match domain name example.com"):
        accepted_hosts(NAME, ["b.example.com:1", "a.evil.com:1"])
    for hosts, skip in (([], False), (["a.evil.com:1"], True)):
        with pytest.raises(BadRecords, match="returned no records"):
            accepted_hosts(NAME, hosts, skip)
    with pytest.raises(Malformed):
        accepted_hosts(NAME, ["b.example.com:0"])


def test_options_of_a_record():
    assert txt_options(NAME, []) == {}
    assert txt_options(NAME, [[b"replicaSet=rs&auth", b"Source=admin"]]) == {"authSource": "admin", "replicaSet": "rs"}
    assert txt_options(NAME, [[b"LOADBALANCED=true"]]) == {"loadBalanced": "true"}
    assert txt_options(NAME, [["replicaSet=\u00e9".encode()]]) == {"replicaSet": "\u00e9"}
    for records in ([[b"ssl=true"]], [[b"replicaSet"]], [[b"loadBalanced=1"]], [[b""]], [[b"replicaSet=rs"]] * 2):
        with pytest.raises(BadRecords):
            txt_options(NAME, records)


def test_numbers_that_do_not_fit_are_refused():
    for accepted, ttl, heartbeat in ((1 << 32, 5, 10), (1, 1 << 32, 10), (1, 5, 1 << 64), (-1, 5, 10)):
        with pytest.raises(OverflowError):
            rescan_seconds(accepted, ttl, heartbeat)


def test_when_to_look_again():
    assert [rescan_seconds(1, 5, 10), rescan_seconds(1, 300, 10), rescan_seconds(0, 300, 10), rescan_seconds(0, 300, 90)] == [60, 300, 60, 90]
    for line, polled in (("open seeds=a:1", True), ("open seeds=a:1 direct", False), ("open seeds=a:1 set=rs", False)):
        with Driver(line) as driver:
            assert driver.topology().polled is polled
