"""The standard's JSON tests of SDAM over a topology of pymongo: the stock one, or ours of examples/pymongo_driver.

An application error is told to the stock topology by `handle_error`, with a generation beside it. Ours hears of it while the connection is held: a connection of
each generation is kept for the errors that a file names.
"""

from __future__ import annotations

import json
from pathlib import Path
from typing import Any

from bson import json_util
from bson.json_util import JSONOptions, object_hook
from pymongo import common, topology as stock
from pymongo.errors import AutoReconnect, ConfigurationError, NetworkTimeout, NotMasterError, OperationFailure
from pymongo.helpers import _check_command_response, _check_write_command_response
from pymongo.ismaster import IsMaster
from pymongo.pool import PoolOptions
from pymongo.server_description import ServerDescription
from pymongo.settings import TopologySettings
from pymongo.topology_description import TOPOLOGY_TYPE
from pymongo.uri_parser import parse_uri

from mdb import Connection, Kind
from pymongo_driver import Topology
from pymongo_driver.words import error_of

FOLDERS = ("single", "rs", "sharded", "errors")


class Silent:
    """A monitor that checks nothing."""

    def __init__(self, *_: Any) -> None:
        pass

    def __getattr__(self, _name: str) -> Any:
        return lambda *_: None


def _settings(uri: str) -> TopologySettings:
    parsed = parse_uri(uri.replace("directconnection", "directConnection"))
    options = parsed["options"]
    direct = options.get("directconnection", options.get("directConnection"))
    pools = PoolOptions(max_pool_size=1000)
    return TopologySettings(
        parsed["nodelist"], replica_set_name=options.get("replicaset"), monitor_class=lambda **_: Silent(), direct_connection=direct, pool_options=pools
    )


def _raised(told: dict[str, Any]) -> Exception | None:
    try:
        if told["type"] == "network":
            raise AutoReconnect("mock non-timeout network error")
        if told["type"] == "timeout":
            raise NetworkTimeout("mock network timeout error")
        _check_command_response(told["response"], told["maxWireVersion"])
        _check_write_command_response(told["response"])
    except (AutoReconnect, NotMasterError, OperationFailure) as error:
        return error
    return None


class Stock:
    """pymongo's own topology."""

    kind: Any = stock.Topology

    def __init__(self, test: dict[str, Any]) -> None:
        self.topology = self.kind(_settings(test["uri"]))
        self.topology.open()

    def prepare(self, test: dict[str, Any]) -> None:
        """What is to be kept before a phase."""

    def fail(self, told: dict[str, Any]) -> None:
        error, address = _raised(told), common.partition_node(told["address"])
        if error is None:
            return
        generation = told.get("generation", self.topology.get_server_by_address(address).pool.generation)
        done = told["when"] == "afterHandshakeCompletes"
        self.topology.handle_error(address, stock._ErrorContext(error, told["maxWireVersion"], generation, done))

    def close(self) -> None:
        self.topology.close()


class Ours(Stock):
    """The topology over a driver."""

    kind = Topology

    def __init__(self, test: dict[str, Any]) -> None:
        super().__init__(test)
        self.kept: dict[tuple[Any, ...], list[Any]] = {}

    def prepare(self, test: dict[str, Any]) -> None:
        for told in (error for phase in test["phases"] for error in phase.get("applicationErrors", ())):
            server = self.topology.get_server_by_address(common.partition_node(told["address"]))
            if server is not None:
                for after in (False, True):
                    self._keep(server.pool, told, after)

    def _keep(self, pool: Any, told: dict[str, Any], after: bool) -> None:
        """A connection of this generation, pending or established."""
        machine, party = pool._machine, pool._machine.party()
        reply = machine.step(pool._steps.request, party)
        if reply.kind is not Kind.ESTABLISHING:
            return
        if after:
            machine.step(pool._steps.established, reply.id, told["maxWireVersion"])
        self.kept.setdefault((told["address"], pool.generation, told["maxWireVersion"], after), []).append((pool, party, reply.id))

    def fail(self, told: dict[str, Any]) -> None:
        error, address = _raised(told), common.partition_node(told["address"])
        if error is None:
            return
        after = told["when"] == "afterHandshakeCompletes"
        generation = told.get("generation", self.topology.get_server_by_address(address).pool.generation)
        held = self.kept.get((told["address"], generation, told["maxWireVersion"], after))
        assert held, f"no connection of generation {generation} could be had"
        pool, party, id = held.pop()
        core = pool._machine.core
        if after:
            reply = pool._machine.step(core.error, party, error_of(error))
        else:
            reply = pool._machine.step(core.failed, Connection(pool._steps.number, id), f"pre {error_of(error)}")
        self.topology._learn_of_error(reply.facts, address, error)


def _same(what: str, found: Any, wanted: Any) -> None:
    if found != wanted:
        raise AssertionError(f"{what} is {found!r}, and {wanted!r} is wanted")


def _outcome(topology: Any, wanted: dict[str, Any]) -> None:
    known = topology.description
    servers = {f"{host}:{port}" if ":" not in host else f"[{host}]:{port}": it for (host, port), it in known.server_descriptions().items()}
    _same("the servers", sorted(servers), sorted(wanted["servers"]))
    for name, told in wanted["servers"].items():
        _server(name, servers[name], topology, told)
    _same("the type", TOPOLOGY_TYPE._fields[known.topology_type], wanted["topologyType"])
    if "setName" in wanted:
        _same("the set", known.replica_set_name, wanted["setName"])
    if "logicalSessionTimeoutMinutes" in wanted:
        _same("the session timeout", known.logical_session_timeout_minutes, wanted["logicalSessionTimeoutMinutes"])
    for name, found in (("maxSetVersion", known.max_set_version), ("maxElectionId", known.max_election_id)):
        if name in wanted:
            _same(name, found, wanted[name])
    if "compatible" in wanted:
        _same("compatible", _compatible(known), wanted["compatible"])


def _compatible(known: Any) -> bool:
    try:
        known.check_compatible()
    except ConfigurationError:
        return False
    return True


def _server(name: str, it: Any, topology: Any, wanted: dict[str, Any]) -> None:
    _same(f"{name}'s type", it.server_type_name, "Unknown" if wanted["type"] == "PossiblePrimary" else wanted["type"])
    fields = {"setName": it.replica_set_name, "setVersion": it.set_version, "electionId": it.election_id, "topologyVersion": it.topology_version}
    fields.update(logicalSessionTimeoutMinutes=it.logical_session_timeout_minutes, minWireVersion=it.min_wire_version, maxWireVersion=it.max_wire_version)
    for field, found in fields.items():
        if field in wanted:
            _same(f"{name}'s {field}", found, wanted[field])
    if "generation" in wanted.get("pool", ()):
        _same(f"{name}'s generation", topology.get_server_by_address(it.address).pool.generation, wanted["pool"]["generation"])


def run(path: Path, ours: bool) -> str | None:
    """Why the test of the file fails, or None where it passes."""
    test = json.loads(path.read_text(encoding="utf-8"), object_hook=lambda pairs: object_hook(pairs, JSONOptions(json_mode=json_util.JSONMode.LEGACY)))
    it = None
    try:
        it = (Ours if ours else Stock)(test)
        for phase in test["phases"]:
            for name, reply in phase.get("responses", ()):
                it.topology.on_change(_described(name, reply))
            for told in phase.get("applicationErrors", ()):
                it.fail(told)
            _outcome(it.topology, phase["outcome"])
            it.prepare(test)
    except Exception as why:
        return f"{type(why).__name__}: {why}"
    finally:
        if it:
            it.close()
    return None


def _described(name: str, reply: dict[str, Any]) -> ServerDescription:
    address = common.partition_node(name)
    if not reply:
        return ServerDescription(address, error=AutoReconnect("mock error of a check"))
    if reply.get("isWritablePrimary") is not None:
        reply = {**reply, "ismaster": reply["isWritablePrimary"]}
    return ServerDescription(address, IsMaster(reply), 0)
