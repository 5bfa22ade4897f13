"""Random scripts: lines and calls make the same entries, and those of the built program where there is one."""

import os
import subprocess

import pytest

from mdb import Driver, Event, FactKind, ServerKind, TopologyKind
from scripts import script
from spoken import by_call

HERE = os.path.dirname(os.path.abspath(__file__))
PROGRAM = os.environ.get("MDB_SCRIPT", os.path.join(HERE, "..", "..", "..", "crates", "mdb_script", "out", "mdb_script"))
SCRIPTS, LENGTH = int(os.environ.get("MDB_SCRIPTS", "60")), 150


def log_by(take, lines):
    with Driver(lines[0]) as driver:
        texts = [driver.entry_text()]
        for line in lines[1:]:
            take(driver, line)
            texts.append(driver.entry_text())
            assert len(driver.facts()) == texts[-1].count(" | ") - 1
    return texts


@pytest.mark.parametrize("seed", range(SCRIPTS))
def test_lines_and_calls_agree(seed):
    lines = script(seed, LENGTH)
    by_lines = log_by(lambda driver, line: driver.line(line), lines)
    assert log_by(by_call, lines) == by_lines
    assert [text.split(" | ")[0] for text in by_lines] == lines


def test_scripts_reach_much():
    entries = [text for seed in range(20) for text in log_by(by_call, script(seed, LENGTH))]
    for word in ("Pooled", "Establishing", "Waiting", "Ended", "Job", "NoJob", "Changed true", "Changed false", "Count", "Done", "Refused NotHolder", "ConnectionClosed", "PoolCleared"):
        assert any(word in text for text in entries), word


@pytest.mark.parametrize("seed", range(0, SCRIPTS, 4))
def test_what_is_known_is_what_the_facts_told(seed):
    lines, servers, kind = script(seed, LENGTH), {}, TopologyKind.UNKNOWN
    with Driver(lines[0]) as driver:
        for line in [None, *lines[1:]]:
            if line is not None:
                by_call(driver, line)
            for fact in driver.facts():
                if fact.event is Event.SERVER_OPENING:
                    servers.setdefault(fact.address, ServerKind.UNKNOWN)
                elif fact.event is Event.SERVER_CLOSED:
                    servers.pop(fact.address)
                elif fact.event is Event.SERVER_CHANGED:
                    servers[fact.address] = fact.after
                elif fact.event is Event.TOPOLOGY_CHANGED:
                    assert fact.before is kind
                    kind = fact.after
                elif fact.kind is FactKind.OPENED:
                    assert driver.open_pool(fact.address) == fact.pool
            topology = driver.topology()
            assert (topology.kind, topology.servers) == (kind, len(servers))
            assert {it.address: it.kind for it in driver.servers()} == servers
            assert [it.address for it in driver.servers()] == [it.address for it in (driver.server(address) for address in sorted(servers))]


@pytest.mark.skipif(not os.path.exists(PROGRAM), reason="mdb_script is not built")
@pytest.mark.parametrize("seed", range(SCRIPTS))
def test_program_writes_the_same(seed):
    lines = script(seed, LENGTH)
    ran = subprocess.run([PROGRAM], input="".join(f"{line}\n" for line in lines), capture_output=True, text=True, check=True)
    assert log_by(lambda driver, line: driver.line(line), lines) == ran.stdout.splitlines(keepends=True)
