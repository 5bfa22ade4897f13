"""A topology of pymongo over a proved driver: descriptions, pools and what an error changes are the driver's; selection and sessions stay pymongo's."""

import mdb
from bson.objectid import ObjectId
from mdb import Event, FactKind, ServerKind, TopologyKind
from pymongo import mongo_client
from pymongo import topology as stock
from pymongo.server_description import ServerDescription
from pymongo.topology_description import SRV_POLLING_TOPOLOGIES, TOPOLOGY_TYPE, TopologyDescription

from .machine import Machine, Shared
from .pool import Pool, sizes_of
from .words import address_of, document_of, error_of, name_of

_KINDS = {
    TopologyKind.UNKNOWN: TOPOLOGY_TYPE.Unknown,
    TopologyKind.SINGLE: TOPOLOGY_TYPE.Single,
    TopologyKind.REPLICA_SET_NO_PRIMARY: TOPOLOGY_TYPE.ReplicaSetNoPrimary,
    TopologyKind.REPLICA_SET_WITH_PRIMARY: TOPOLOGY_TYPE.ReplicaSetWithPrimary,
    TopologyKind.SHARDED: TOPOLOGY_TYPE.Sharded,
}


def opening(settings):
    """The line that opens the driver of these settings."""
    sizes = sizes_of(settings.pool_options)
    words = ["open seeds=" + ",".join(map(name_of, settings.seeds))]
    words += [f"set={settings.replica_set_name}"] if settings.replica_set_name else []
    words += ["direct"] if settings.direct else []
    words += [f"max={sizes['max_size']}"] + ([f"min={sizes['min_size']}"] if sizes["min_size"] else [])
    words += [f"connecting={sizes['max_connecting']}"]
    return " ".join(words + [f"{name}={sizes[key]}" for name, key in (("idle", "max_idle"), ("wait", "max_wait")) if sizes[key]])


class Topology(stock.Topology):
    """A topology. Its lock is taken before that of its driver, and never the other way."""

    _machine = None

    def _ensure_opened(self):
        if not self._opened:
            self._machine = Machine(mdb.Driver(opening(self._settings)))
        super()._ensure_opened()

    def _create_pool_for_server(self, address):
        return Pool(address, self._settings.pool_options, Shared(self._machine, name_of(address)), learned=self._learn_of_error)

    def _process_change(self, server_description, reset_pool=False):
        """A check came to this description. Whether a pool is cleared is the driver's to say."""
        name, core = name_of(server_description.address), self._machine.core
        pool = core.open_pool(name)
        if server_description.is_server_type_known:
            nanos = max(int((server_description.round_trip_time or 0) * 1e9), 0)
            reply = self._machine.step(core.hello_bson, name, pool, nanos, document_of(server_description))
        else:
            error = server_description.error
            reply = self._machine.step(core.hello, name, pool, f"err {error_of(error) if error else 'other msg=not ok'}")
        self._learn(reply.facts, server_description)
        self._receive_cluster_time_no_lock(server_description.cluster_time)

    def _process_srv_update(self, seedlist):
        self._learn(self._machine.step(self._machine.core.hosts, ",".join(map(name_of, seedlist))).facts, None)

    def _handle_error(self, address, err_ctx):
        """The pool told the driver while the connection was held."""

    def close(self):
        super().close()
        with self._lock:
            machine, self._machine, self._servers = self._machine, None, {}
        if machine:
            machine.step(machine.core.stop)

    def _learn_of_error(self, facts, address, error):
        with self._lock:
            if self._opened:
                self._learn(facts, ServerDescription(address, error=error))

    def _learn(self, facts, told):
        """Publishes what the facts changed. `told` is the description that they come of. The lock is held."""
        before, servers = self._description, self._description.server_descriptions()
        changes = []
        if told is not None and self._is_news(servers.get(told.address), told):
            servers[told.address] = told
        for fact in facts:
            if fact.event is Event.SERVER_OPENING:
                servers.setdefault(address_of(fact.address), ServerDescription(address_of(fact.address)))
            elif fact.event is Event.SERVER_CLOSED:
                servers.pop(address_of(fact.address), None)
            elif fact.event is Event.SERVER_CHANGED:
                changes.append(self._changed(fact, before, servers, told))
        self._describe(servers)
        self._publish_changes(before, [it for it in changes if it], any(fact.event is Event.TOPOLOGY_CHANGED for fact in facts))
        self._ask_monitors(facts)
        self._condition.notify_all()

    @staticmethod
    def _is_news(known, told):
        """Whether a reply that changes nothing is newer than what is known, as for its round trip and the server's last write."""
        return known is not None and told.is_server_type_known and known.server_type == told.server_type and not stock._is_stale_server_description(known, told)

    @staticmethod
    def _changed(fact, before, servers, told):
        address = address_of(fact.address)
        if address not in servers:
            return None
        own = told if told is not None and told.address == address else None
        if fact.after is ServerKind.UNKNOWN:
            servers[address] = own if own is not None and not own.is_server_type_known else ServerDescription(address)
        elif own is not None:
            servers[address] = own
        return before.server_descriptions().get(address, ServerDescription(address)), servers[address]

    def _describe(self, servers):
        known = self._machine.core.topology()
        election = ObjectId(known.max_election_id) if known.max_election_id else None
        self._description = TopologyDescription(_KINDS[known.kind], servers, known.set_name, known.max_set_version, election, self._settings)
        self._update_servers()
        if self._srv_monitor and self._description.topology_type not in SRV_POLLING_TOPOLOGIES:
            self._srv_monitor.close()

    def _publish_changes(self, before, changes, topology_changed):
        if self._publish_server:
            for old, new in changes:
                self._events.put((self._listeners.publish_server_description_changed, (old, new, new.address, self._topology_id)))
        if self._publish_tp and topology_changed:
            self._events.put((self._listeners.publish_topology_description_changed, (before, self._description, self._topology_id)))

    def _ask_monitors(self, facts):
        for fact in facts:
            server = self._servers.get(address_of(fact.address)) if fact.kind in (FactKind.CHECK_NOW, FactKind.CANCEL) and fact.address else None
            if server and fact.kind is FactKind.CHECK_NOW:
                server.request_check()
            elif server:
                server._monitor.cancel_check()


def install():
    """From now on clients have this topology."""
    mongo_client.Topology = Topology


def remove():
    mongo_client.Topology = stock.Topology
