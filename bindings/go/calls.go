package mdb

// Each call of a Tx, with the lock held for it alone. A step that is made so has the seat 0.

// Line does the step that a line of a script spells, any but `open`, by the given seat.
func (d *Driver) Line(seat uint32, line string) (Reply, error) {
	d.turn.Lock()
	defer d.turn.Unlock()
	return d.tx.Line(seat, line)
}

// Request is the step: a caller asks for a connection to the address.
func (d *Driver) Request(moment uint64, party uint32, address string) (Reply, error) {
	d.turn.Lock()
	defer d.turn.Unlock()
	return d.tx.Request(moment, party, address)
}

// Collect is the step: the caller of a request asks how it stands.
func (d *Driver) Collect(moment uint64, party uint32) (Reply, error) {
	d.turn.Lock()
	defer d.turn.Unlock()
	return d.tx.Collect(moment, party)
}

// GiveUp is the step: the caller of a request no longer wants its connection.
func (d *Driver) GiveUp(moment uint64, party uint32) (Reply, error) {
	d.turn.Lock()
	defer d.turn.Unlock()
	return d.tx.GiveUp(moment, party)
}

// Return is the step: a party returns its connection.
func (d *Driver) Return(moment uint64, party uint32, used Use) (Reply, error) {
	d.turn.Lock()
	defer d.turn.Unlock()
	return d.tx.Return(moment, party, used)
}

// Claim is the step: a worker asks for a connection to establish.
func (d *Driver) Claim(moment uint64) (Reply, error) {
	d.turn.Lock()
	defer d.turn.Unlock()
	return d.tx.Claim(moment)
}

// JobAddress is the address to which a pending connection goes; NoEntry where it is not pending.
func (d *Driver) JobAddress(connection Connection) (string, error) {
	d.turn.Lock()
	defer d.turn.Unlock()
	return d.tx.JobAddress(connection)
}

// Established reports that a pending connection is ready. The service is that behind a load balancer in 24 hex digits, or empty; serverID is the server's own
// number of the connection, where it told one (the first of those given).
func (d *Driver) Established(moment uint64, connection Connection, wire int32, service string, serverID ...int64) (Reply, error) {
	d.turn.Lock()
	defer d.turn.Unlock()
	return d.tx.Established(moment, connection, wire, service, serverID...)
}

// Failed is the step: a pending connection failed: `pre ERROR` before the server's hello, `post ERROR` or `post sid=ID ERROR` after it.
func (d *Driver) Failed(moment uint64, connection Connection, outcome string) (Reply, error) {
	d.turn.Lock()
	defer d.turn.Unlock()
	return d.tx.Failed(moment, connection, outcome)
}

// Error is the step: an operation of a party met an error on its connection, as `network msg=reset`.
func (d *Driver) Error(moment uint64, party uint32, met string) (Reply, error) {
	d.turn.Lock()
	defer d.turn.Unlock()
	return d.tx.Error(moment, party, met)
}

// Hello is the step: what the hello of a monitor came to: `ok rtt=NANOSECONDS FIELD=VALUE ..` or `err ERROR`. The address has its port.
func (d *Driver) Hello(moment uint64, address string, pool uint32, outcome string) (Reply, error) {
	d.turn.Lock()
	defer d.turn.Unlock()
	return d.tx.Hello(moment, address, pool, outcome)
}

// Beat is the step: the monitor of the address begins a check, for the pool of this number.
func (d *Driver) Beat(moment uint64, address string, pool uint32) (Reply, error) {
	d.turn.Lock()
	defer d.turn.Unlock()
	return d.tx.Beat(moment, address, pool)
}

// Beaten is the step: the check of a monitor ended: its nanoseconds, and then `ok FIELD=VALUE ..`, `err ERROR` or `cancelled ERROR`. The address has its port.
func (d *Driver) Beaten(moment uint64, address string, pool uint32, outcome string) (Reply, error) {
	d.turn.Lock()
	defer d.turn.Unlock()
	return d.tx.Beaten(moment, address, pool, outcome)
}

// NextCheck is what the check of the server does that begins now, asked before Beat; NoEntry where no pool is open there.
func (d *Driver) NextCheck(address string) (Check, error) {
	d.turn.Lock()
	defer d.turn.Unlock()
	return d.tx.NextCheck(address)
}

// NextAfter is what follows a check that ends so, asked before Beaten, with the same words; NoEntry where no pool is open there.
func (d *Driver) NextAfter(address string, pool uint32, outcome string) (Next, error) {
	d.turn.Lock()
	defer d.turn.Unlock()
	return d.tx.NextAfter(address, pool, outcome)
}

// Maintain is the step: the timer of the pool of the address.
func (d *Driver) Maintain(moment uint64, address string) (Reply, error) {
	d.turn.Lock()
	defer d.turn.Unlock()
	return d.tx.Maintain(moment, address)
}

// RTT is the step: a round trip of so many nanoseconds was measured beside the checks of a monitor. The address has its port.
func (d *Driver) RTT(moment uint64, address string, pool uint32, nanos uint64) (Reply, error) {
	d.turn.Lock()
	defer d.turn.Unlock()
	return d.tx.RTT(moment, address, pool, nanos)
}

// Hosts is the step: DNS names these servers now: addresses with their ports, and commas between them.
func (d *Driver) Hosts(moment uint64, hosts string) (Reply, error) {
	d.turn.Lock()
	defer d.turn.Unlock()
	return d.tx.Hosts(moment, hosts)
}

// ClusterTime is the step: a reply told this time of the cluster.
func (d *Driver) ClusterTime(moment, time uint64) (Reply, error) {
	d.turn.Lock()
	defer d.turn.Unlock()
	return d.tx.ClusterTime(moment, time)
}

// Topology is what is known of the topology.
func (d *Driver) Topology() (Topology, error) {
	d.turn.Lock()
	defer d.turn.Unlock()
	return d.tx.Topology()
}

// TopologyText is SetName, ElectionID or ErrorText of the topology; NoEntry where there is no such text.
func (d *Driver) TopologyText(which Text) (string, error) {
	d.turn.Lock()
	defer d.turn.Unlock()
	return d.tx.TopologyText(which)
}

// Server is what is known of the server at the place, in the order of the servers' addresses; NoEntry where there is none.
func (d *Driver) Server(place int) (Server, error) {
	d.turn.Lock()
	defer d.turn.Unlock()
	return d.tx.Server(place)
}

// ServerAt is the place of the server with the address; NoEntry where there is none.
func (d *Driver) ServerAt(address string) (int, error) {
	d.turn.Lock()
	defer d.turn.Unlock()
	return d.tx.ServerAt(address)
}

// ServerText is a text of the server at the place; NoEntry where there is no such text.
func (d *Driver) ServerText(place int, which Text) (string, error) {
	d.turn.Lock()
	defer d.turn.Unlock()
	return d.tx.ServerText(place, which)
}

// Stop is the step: the driver's pools and monitors are closed.
func (d *Driver) Stop(moment uint64) (Reply, error) {
	d.turn.Lock()
	defer d.turn.Unlock()
	return d.tx.Stop(moment)
}

// EntryText is the text of the last entry, with its newline.
func (d *Driver) EntryText() (string, error) {
	d.turn.Lock()
	defer d.turn.Unlock()
	return d.tx.EntryText()
}

// Facts are those of the last entry, in the order in which they became true. Where goroutines share a driver another step may come between a step and
// this: ask within Do.
func (d *Driver) Facts() ([]Fact, error) {
	d.turn.Lock()
	defer d.turn.Unlock()
	return d.tx.Facts()
}

// Warm is the step: one connection more for the pool of the address, where fewer live than its minimum.
func (d *Driver) Warm(moment uint64, party uint32, address string) (Reply, error) {
	d.turn.Lock()
	defer d.turn.Unlock()
	return d.tx.Warm(moment, party, address)
}

// Expire is the step: the callers of the pool of the address that waited for too long end.
func (d *Driver) Expire(moment uint64, address string) (Reply, error) {
	d.turn.Lock()
	defer d.turn.Unlock()
	return d.tx.Expire(moment, address)
}

// Pin is the step: a party pins its connection, which then stays at its pin when it comes back.
func (d *Driver) Pin(moment uint64, party uint32) (Reply, error) {
	d.turn.Lock()
	defer d.turn.Unlock()
	return d.tx.Pin(moment, party)
}

// Replicate is the step: one pin more of a pinned connection.
func (d *Driver) Replicate(moment uint64, connection Connection) (Reply, error) {
	d.turn.Lock()
	defer d.turn.Unlock()
	return d.tx.Replicate(moment, connection)
}

// Take is the step: a new party takes a pinned connection from its pin.
func (d *Driver) Take(moment uint64, party uint32, connection Connection) (Reply, error) {
	d.turn.Lock()
	defer d.turn.Unlock()
	return d.tx.Take(moment, party, connection)
}

// Unpin is the step: one pin less of a pinned connection.
func (d *Driver) Unpin(moment uint64, connection Connection) (Reply, error) {
	d.turn.Lock()
	defer d.turn.Unlock()
	return d.tx.Unpin(moment, connection)
}

// Want is the step: a watcher wants the servers checked at once. Sleeping monitors are then to be woken.
func (d *Driver) Want(moment uint64, watcher uint32) (Reply, error) {
	d.turn.Lock()
	defer d.turn.Unlock()
	return d.tx.Want(moment, watcher)
}

// Unwant is the step: a watcher no longer wants it.
func (d *Driver) Unwant(moment uint64, watcher uint32) (Reply, error) {
	d.turn.Lock()
	defer d.turn.Unlock()
	return d.tx.Unwant(moment, watcher)
}

// LastMoment is the moment of the last step that was accepted.
func (d *Driver) LastMoment() (uint64, error) {
	d.turn.Lock()
	defer d.turn.Unlock()
	return d.tx.LastMoment()
}

// Published is how often an accepted step told of the topology, its opening included.
func (d *Driver) Published() (uint64, error) {
	d.turn.Lock()
	defer d.turn.Unlock()
	return d.tx.Published()
}

// OpenPool is the number of the pool that is open at the address; NoEntry where there is none.
func (d *Driver) OpenPool(address string) (uint32, error) {
	d.turn.Lock()
	defer d.turn.Unlock()
	return d.tx.OpenPool(address)
}
