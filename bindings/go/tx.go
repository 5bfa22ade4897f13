package mdb

// #include "mdb.h"
import "C"

import (
	"fmt"
	"unsafe"
)

// A Tx makes calls of a driver while its lock is held: what they tell belongs together. It must not be kept beyond the function that was given it.
type Tx struct {
	Seat uint32     // of the steps that follow; each Do begins with 0
	slot C.mdb_slot // memory of Go's, which holds a pointer of C's alone
}

// Line does the step that a line of a script spells, any but `open`, by the given seat.
func (t *Tx) Line(seat uint32, line string) (Reply, error) {
	text := []byte(line)
	return t.told(func(reply *C.mdb_reply) C.mdb_status {
		return C.mdb_line(&t.slot, C.uint32_t(seat), start(text), C.size_t(len(text)), reply)
	})
}

// Request is the step: a caller asks for a connection to the address.
func (t *Tx) Request(moment uint64, party uint32, address string) (Reply, error) {
	at, text := t.when(moment), []byte(address)
	return t.told(func(reply *C.mdb_reply) C.mdb_status {
		return C.mdb_request(&t.slot, &at, C.uint32_t(party), start(text), C.size_t(len(text)), reply)
	})
}

// Collect is the step: the caller of a request asks how it stands.
func (t *Tx) Collect(moment uint64, party uint32) (Reply, error) {
	at := t.when(moment)
	return t.told(func(reply *C.mdb_reply) C.mdb_status { return C.mdb_collect(&t.slot, &at, C.uint32_t(party), reply) })
}

// GiveUp is the step: the caller of a request no longer wants its connection.
func (t *Tx) GiveUp(moment uint64, party uint32) (Reply, error) {
	at := t.when(moment)
	return t.told(func(reply *C.mdb_reply) C.mdb_status { return C.mdb_give_up(&t.slot, &at, C.uint32_t(party), reply) })
}

// Return is the step: a party returns its connection.
func (t *Tx) Return(moment uint64, party uint32, used Use) (Reply, error) {
	at := t.when(moment)
	return t.told(func(reply *C.mdb_reply) C.mdb_status {
		return C.mdb_return(&t.slot, &at, C.uint32_t(party), C.uint32_t(used), reply)
	})
}

// Claim is the step: a worker asks for a connection to establish.
func (t *Tx) Claim(moment uint64) (Reply, error) {
	at := t.when(moment)
	return t.told(func(reply *C.mdb_reply) C.mdb_status { return C.mdb_claim(&t.slot, &at, reply) })
}

// JobAddress is the address to which a pending connection goes; NoEntry where it is not pending.
func (t *Tx) JobAddress(connection Connection) (string, error) {
	return text(func(out *C.uint8_t, room C.size_t, needed *C.size_t) C.mdb_status {
		return C.mdb_job_address(&t.slot, C.uint32_t(connection.Pool), C.uint32_t(connection.ID), out, room, needed)
	})
}

// Established reports that a pending connection is ready. The service is that behind a load balancer in 24 hex digits, or empty; serverID is the server's own
// number of the connection, where it told one (the first of those given).
func (t *Tx) Established(moment uint64, connection Connection, wire int32, service string, serverID ...int64) (Reply, error) {
	at, text, told := t.when(moment), []byte(service), C.int64_t(-1)
	if len(serverID) > 0 {
		told = C.int64_t(serverID[0])
	}
	made := C.mdb_established_as{pool: C.uint32_t(connection.Pool), id: C.uint32_t(connection.ID), wire: C.int32_t(wire), server_id: told}
	return t.told(func(reply *C.mdb_reply) C.mdb_status {
		return C.mdb_established(&t.slot, &at, &made, start(text), C.size_t(len(text)), reply)
	})
}

// Failed is the step: a pending connection failed: `pre ERROR` before the server's hello, `post ERROR` or `post sid=ID ERROR` after it.
func (t *Tx) Failed(moment uint64, connection Connection, outcome string) (Reply, error) {
	at, text := t.when(moment), []byte(outcome)
	place := connection.numbers()
	return t.told(func(reply *C.mdb_reply) C.mdb_status {
		return C.mdb_failed(&t.slot, &at, &place, start(text), C.size_t(len(text)), reply)
	})
}

// Error is the step: an operation of a party met an error on its connection, as `network msg=reset`.
func (t *Tx) Error(moment uint64, party uint32, met string) (Reply, error) {
	at, text := t.when(moment), []byte(met)
	return t.told(func(reply *C.mdb_reply) C.mdb_status {
		return C.mdb_error(&t.slot, &at, C.uint32_t(party), start(text), C.size_t(len(text)), reply)
	})
}

// Hello is the step: what the hello of a monitor came to: `ok rtt=NANOSECONDS FIELD=VALUE ..` or `err ERROR`. The address has its port.
func (t *Tx) Hello(moment uint64, address string, pool uint32, outcome string) (Reply, error) {
	at, monitor, text := t.when(moment), []byte(fmt.Sprintf("%s %d", address, pool)), []byte(outcome)
	return t.told(func(reply *C.mdb_reply) C.mdb_status {
		return C.mdb_hello(&t.slot, &at, start(monitor), C.size_t(len(monitor)), start(text), C.size_t(len(text)), reply)
	})
}

// Beat is the step: the monitor of the address begins a check, for the pool of this number.
func (t *Tx) Beat(moment uint64, address string, pool uint32) (Reply, error) {
	at, text := t.when(moment), []byte(address)
	return t.told(func(reply *C.mdb_reply) C.mdb_status {
		return C.mdb_beat(&t.slot, &at, start(text), C.size_t(len(text)), C.uint32_t(pool), reply)
	})
}

// Beaten is the step: the check of a monitor ended: its nanoseconds, and then `ok FIELD=VALUE ..`, `err ERROR` or `cancelled ERROR`. The address has its port.
func (t *Tx) Beaten(moment uint64, address string, pool uint32, outcome string) (Reply, error) {
	at, monitor, text := t.when(moment), []byte(fmt.Sprintf("%s %d", address, pool)), []byte(outcome)
	return t.told(func(reply *C.mdb_reply) C.mdb_status {
		return C.mdb_beaten(&t.slot, &at, start(monitor), C.size_t(len(monitor)), start(text), C.size_t(len(text)), reply)
	})
}

// NextCheck is what the check of the server does that begins now, asked before Beat; NoEntry where no pool is open there.
func (t *Tx) NextCheck(address string) (Check, error) {
	var c C.mdb_check
	text := []byte(address)
	if err := failed(C.mdb_check_get(&t.slot, start(text), C.size_t(len(text)), &c)); err != nil {
		return Check{}, err
	}
	told := Check{
		Action: Action(c.action), Connection: uint32(c.connection), Timeout: uint64(c.timeout), Most: uint64(c.most), Counter: int64(c.counter),
		Awaits: c.awaits == 1, Legacy: c.legacy == 1, Asks: c.asks == 1,
	}
	for i, b := range c.process {
		told.Process[i] = byte(b)
	}
	return told, nil
}

// NextAfter is what follows a check that ends so, asked before Beaten, with the same words; NoEntry where no pool is open there.
func (t *Tx) NextAfter(address string, pool uint32, outcome string) (Next, error) {
	var next C.uint32_t
	monitor, text := []byte(fmt.Sprintf("%s %d", address, pool)), []byte(outcome)
	err := failed(C.mdb_check_next(&t.slot, start(monitor), C.size_t(len(monitor)), start(text), C.size_t(len(text)), &next))
	return Next(next), err
}

// Maintain is the step: the timer of the pool of the address.
func (t *Tx) Maintain(moment uint64, address string) (Reply, error) {
	at, text := t.when(moment), []byte(address)
	return t.told(func(reply *C.mdb_reply) C.mdb_status {
		return C.mdb_maintain(&t.slot, &at, start(text), C.size_t(len(text)), reply)
	})
}

// RTT is the step: a round trip of so many nanoseconds was measured beside the checks of a monitor. The address has its port.
func (t *Tx) RTT(moment uint64, address string, pool uint32, nanos uint64) (Reply, error) {
	at, monitor := t.when(moment), []byte(fmt.Sprintf("%s %d", address, pool))
	return t.told(func(reply *C.mdb_reply) C.mdb_status {
		return C.mdb_rtt(&t.slot, &at, start(monitor), C.size_t(len(monitor)), C.uint64_t(nanos), reply)
	})
}

// Hosts is the step: DNS names these servers now: addresses with their ports, and commas between them.
func (t *Tx) Hosts(moment uint64, hosts string) (Reply, error) {
	at, text := t.when(moment), []byte(hosts)
	return t.told(func(reply *C.mdb_reply) C.mdb_status {
		return C.mdb_hosts(&t.slot, &at, start(text), C.size_t(len(text)), reply)
	})
}

// ClusterTime is the step: a reply told this time of the cluster.
func (t *Tx) ClusterTime(moment, time uint64) (Reply, error) {
	at := t.when(moment)
	return t.told(func(reply *C.mdb_reply) C.mdb_status {
		return C.mdb_cluster_time(&t.slot, &at, C.uint64_t(time), reply)
	})
}

// Topology is what is known of the topology.
func (t *Tx) Topology() (Topology, error) {
	var found C.mdb_topology
	if err := failed(C.mdb_topology_get(&t.slot, &found)); err != nil {
		return Topology{}, err
	}
	return Topology{
		Kind: TopologyKind(found.kind), Servers: int(found.servers), MaxSetVersion: int32(found.max_set_version), ClusterTime: uint64(found.cluster_time),
		SessionMinutes: uint64(found.session_minutes), HasMaxSetVersion: found.has_max_set_version == 1, HasClusterTime: found.has_cluster_time == 1,
		HasSessionMinutes: found.has_session_minutes == 1, Compatible: found.compatible == 1, Polled: found.polled == 1,
	}, nil
}

// TopologyText is SetName, ElectionID or ErrorText of the topology; NoEntry where there is no such text.
func (t *Tx) TopologyText(which Text) (string, error) {
	return text(func(out *C.uint8_t, room C.size_t, needed *C.size_t) C.mdb_status {
		return C.mdb_topology_text(&t.slot, C.uint32_t(which), out, room, needed)
	})
}

// Server is what is known of the server at the place, in the order of the servers' addresses; NoEntry where there is none.
func (t *Tx) Server(place int) (Server, error) {
	var s C.mdb_server
	if err := failed(C.mdb_server_get(&t.slot, C.size_t(place), &s)); err != nil {
		return Server{}, err
	}
	return Server{
		Kind: ServerKind(s.kind), RoundTrip: uint64(s.round_trip), Updated: int64(s.updated), MinWire: int32(s.min_wire), MaxWire: int32(s.max_wire),
		SetVersion: int32(s.set_version), HasRoundTrip: s.has_round_trip == 1, HasUpdated: s.has_updated == 1, HasSetVersion: s.has_set_version == 1,
		HasError: s.has_error == 1,
	}, nil
}

// ServerAt is the place of the server with the address; NoEntry where there is none.
func (t *Tx) ServerAt(address string) (int, error) {
	var place C.size_t
	text := []byte(address)
	err := failed(C.mdb_server_at(&t.slot, start(text), C.size_t(len(text)), &place))
	return int(place), err
}

// ServerText is a text of the server at the place; NoEntry where there is no such text.
func (t *Tx) ServerText(place int, which Text) (string, error) {
	return text(func(out *C.uint8_t, room C.size_t, needed *C.size_t) C.mdb_status {
		return C.mdb_server_text(&t.slot, C.size_t(place), C.uint32_t(which), out, room, needed)
	})
}

// Stop is the step: the driver's pools and monitors are closed.
func (t *Tx) Stop(moment uint64) (Reply, error) {
	at := t.when(moment)
	return t.told(func(reply *C.mdb_reply) C.mdb_status { return C.mdb_stop(&t.slot, &at, reply) })
}

// EntryText is the text of the last entry, with its newline.
func (t *Tx) EntryText() (string, error) {
	return text(func(out *C.uint8_t, room C.size_t, needed *C.size_t) C.mdb_status {
		return C.mdb_entry_text(&t.slot, out, room, needed)
	})
}

// Facts are those of the last entry, in the order in which they became true.
func (t *Tx) Facts() ([]Fact, error) {
	var count C.size_t
	if err := failed(C.mdb_fact_count(&t.slot, &count)); err != nil {
		return nil, err
	}
	facts := make([]Fact, int(count))
	for i := range facts {
		if err := t.fact(C.size_t(i), &facts[i]); err != nil {
			return nil, err
		}
	}
	return facts, nil
}

func (t *Tx) fact(i C.size_t, into *Fact) error {
	var f C.mdb_fact
	if err := failed(C.mdb_fact_at(&t.slot, i, &f)); err != nil {
		return err
	}
	*into = Fact{
		Kind: FactKind(f.kind), Event: Event(f.event), Pool: uint32(f.pool), ID: uint32(f.id), Party: uint32(f.party), Why: uint32(f.why), Number: uint64(f.number),
	}
	var err error
	into.Text, err = text(func(out *C.uint8_t, room C.size_t, needed *C.size_t) C.mdb_status {
		return C.mdb_fact_text(&t.slot, i, out, room, needed)
	})
	if err != nil {
		return err
	}
	into.Address, err = text(func(out *C.uint8_t, room C.size_t, needed *C.size_t) C.mdb_status {
		return C.mdb_fact_address(&t.slot, i, out, room, needed)
	})
	if err != nil && err != NoEntry {
		return err
	}
	if into.Event != EventServerChanged && into.Event != EventTopologyChanged {
		return nil
	}
	var types C.mdb_types
	err = failed(C.mdb_fact_types(&t.slot, i, &types))
	into.Before, into.After = uint32(types.before), uint32(types.after)
	return err
}

// Warm is the step: one connection more for the pool of the address, where fewer live than its minimum.
func (t *Tx) Warm(moment uint64, party uint32, address string) (Reply, error) {
	at, text := t.when(moment), []byte(address)
	return t.told(func(reply *C.mdb_reply) C.mdb_status {
		return C.mdb_warm(&t.slot, &at, C.uint32_t(party), start(text), C.size_t(len(text)), reply)
	})
}

// Expire is the step: the callers of the pool of the address that waited for too long end.
func (t *Tx) Expire(moment uint64, address string) (Reply, error) {
	at, text := t.when(moment), []byte(address)
	return t.told(func(reply *C.mdb_reply) C.mdb_status {
		return C.mdb_expire(&t.slot, &at, start(text), C.size_t(len(text)), reply)
	})
}

// Pin is the step: a party pins its connection, which then stays at its pin when it comes back.
func (t *Tx) Pin(moment uint64, party uint32) (Reply, error) {
	at := t.when(moment)
	return t.told(func(reply *C.mdb_reply) C.mdb_status {
		return C.mdb_pin(&t.slot, &at, C.uint32_t(party), reply)
	})
}

// Replicate is the step: one pin more of a pinned connection.
func (t *Tx) Replicate(moment uint64, connection Connection) (Reply, error) {
	at, place := t.when(moment), connection.numbers()
	return t.told(func(reply *C.mdb_reply) C.mdb_status {
		return C.mdb_replicate(&t.slot, &at, &place, reply)
	})
}

// Take is the step: a new party takes a pinned connection from its pin.
func (t *Tx) Take(moment uint64, party uint32, connection Connection) (Reply, error) {
	at, place := t.when(moment), connection.numbers()
	return t.told(func(reply *C.mdb_reply) C.mdb_status {
		return C.mdb_take(&t.slot, &at, C.uint32_t(party), &place, reply)
	})
}

// Unpin is the step: one pin less of a pinned connection.
func (t *Tx) Unpin(moment uint64, connection Connection) (Reply, error) {
	at, place := t.when(moment), connection.numbers()
	return t.told(func(reply *C.mdb_reply) C.mdb_status {
		return C.mdb_unpin(&t.slot, &at, &place, reply)
	})
}

// Want is the step: a watcher wants the servers checked at once. Sleeping monitors are then to be woken.
func (t *Tx) Want(moment uint64, watcher uint32) (Reply, error) {
	at := t.when(moment)
	return t.told(func(reply *C.mdb_reply) C.mdb_status {
		return C.mdb_want(&t.slot, &at, C.uint32_t(watcher), reply)
	})
}

// Unwant is the step: a watcher no longer wants it.
func (t *Tx) Unwant(moment uint64, watcher uint32) (Reply, error) {
	at := t.when(moment)
	return t.told(func(reply *C.mdb_reply) C.mdb_status {
		return C.mdb_unwant(&t.slot, &at, C.uint32_t(watcher), reply)
	})
}

// LastMoment is the moment of the last step that was accepted.
func (t *Tx) LastMoment() (uint64, error) {
	var moment C.uint64_t
	err := failed(C.mdb_last_moment(&t.slot, &moment))
	return uint64(moment), err
}

// Published is how often an accepted step told of the topology, its opening included.
func (t *Tx) Published() (uint64, error) {
	var count C.uint64_t
	err := failed(C.mdb_published(&t.slot, &count))
	return uint64(count), err
}

// OpenPool is the number of the pool that is open at the address; NoEntry where there is none.
func (t *Tx) OpenPool(address string) (uint32, error) {
	var pool C.uint32_t
	text := []byte(address)
	err := failed(C.mdb_open_pool(&t.slot, start(text), C.size_t(len(text)), &pool))
	return uint32(pool), err
}

func (t *Tx) told(call func(*C.mdb_reply) C.mdb_status) (Reply, error) {
	var r C.mdb_reply
	if err := failed(call(&r)); err != nil {
		return Reply{}, err
	}
	return Reply{Kind(r.kind), uint32(r.pool), uint32(r.id), uint32(r.why), uint64(r.number)}, nil
}

func failed(status C.mdb_status) error {
	if status == C.MDB_OK {
		return nil
	}
	return Status(status)
}

func (t *Tx) when(moment uint64) C.mdb_at {
	return C.mdb_at{moment: C.uint64_t(moment), seat: C.uint32_t(t.Seat)}
}

func (c Connection) numbers() C.mdb_connection {
	return C.mdb_connection{pool: C.uint32_t(c.Pool), id: C.uint32_t(c.ID)}
}

// Where the bytes begin, which is never null.
func start(bytes []byte) *C.uint8_t {
	if len(bytes) == 0 {
		return new(C.uint8_t)
	}
	return (*C.uint8_t)(unsafe.Pointer(&bytes[0]))
}

func text(call func(*C.uint8_t, C.size_t, *C.size_t) C.mdb_status) (string, error) {
	out, needed := make([]byte, 1024), C.size_t(0)
	for {
		status := call(start(out), C.size_t(len(out)), &needed)
		if status != C.MDB_NO_ROOM {
			return string(out[:needed]), failed(status)
		}
		out = make([]byte, int(needed))
	}
}
