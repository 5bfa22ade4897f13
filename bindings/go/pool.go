package mdb

/*
#include "mdb.h"
*/
import "C"

import (
	"fmt"
	"runtime"
	"sync"
	"unsafe"
)

// A Pool is one connection pool that stands alone, for a driver that watches its servers by itself: its user readies, clears and closes it. It may be shared by
// many goroutines. Each step tells its reply and appends its facts to a slice of the caller's, under one lock and with no allocation but the slice's. Moments are
// in milliseconds and never go back, parties are new numbers for each request, and a Pool has 2^32 of them. It is not copied.
//
// The error of a step wraps a Status, so errors.Is(err, mdb.Malformed) asks for one; nothing changed then. A refusal is no error but a reply.
type Pool struct {
	turn sync.Mutex
	slot C.mdb_pool_slot // these five are memory of Go's; the slot holds a pointer of C's alone
	at   C.mdb_at
	told C.mdb_told
	many []C.mdb_fact // room for the facts of a step that has more than a call tells
}

// PoolOptions are those of CMAP, "Connection Pool Options". Where MaxSize and MaxConnecting are 0 they are 10 and 2.
type PoolOptions struct {
	MaxIdle       uint64 // milliseconds after which an available connection is closed, 0 for no limit
	MaxWait       uint64 // milliseconds for which a caller may wait, 0 for no limit
	Number        uint32 // that replies and facts have of the pool
	MaxSize       uint32 // connections that callers make at most, up to 65535
	MinSize       uint32 // connections that Maintain keeps at least, up to 65535
	MaxConnecting uint32 // connections that are pending at a time, up to 65535
	LoadBalanced  bool   // whether the server is a load balancer: then the pool is ready when it is opened
}

// A PoolFact is what became true by a step of a Pool. A number that the kind does not have is 0.
type PoolFact struct {
	Kind       FactKind
	Event      Event // of FactPool
	Pool, ID   uint32
	Party      uint32 // of FactGranted and FactEnded
	Why        uint32 // read by End, CloseReason and FailReason
	Number     uint64 // milliseconds of EventConnectionReady, EventCheckedOut and EventCheckOutFailed; 1 of a clear that interrupts
	Service    [12]byte
	HasService bool // whether it names a service behind a load balancer
}

// End is how the party's request ended, of FactEnded, and else 0.
func (f PoolFact) End() End {
	if f.Kind != FactEnded {
		return 0
	}
	return End(f.Why)
}

// CloseReason is why the connection was closed, of EventConnectionClosed, and else 0.
func (f PoolFact) CloseReason() CloseReason {
	if f.Kind != FactPool || f.Event != EventConnectionClosed {
		return 0
	}
	return CloseReason(f.Why)
}

// FailReason is why the check-out failed, of EventCheckOutFailed, and else 0.
func (f PoolFact) FailReason() FailReason {
	if f.Kind != FactPool || f.Event != EventCheckOutFailed {
		return 0
	}
	return FailReason(f.Why)
}

// OpenPool opens a pool, which is new, or ready behind a load balancer. Malformed where an option is beyond its limit.
func OpenPool(options PoolOptions) (*Pool, error) {
	if C.mdb_abi() != C.MDB_ABI {
		return nil, fmt.Errorf("mdb: the library has the interface %d, and this package is for %d", C.mdb_abi(), C.MDB_ABI)
	}
	chosen := C.mdb_pool_options{
		max_idle: C.uint64_t(options.MaxIdle), max_wait: C.uint64_t(options.MaxWait), number: C.uint32_t(options.Number),
		max_size: 10, min_size: C.uint32_t(options.MinSize), max_connecting: 2,
	}
	if options.MaxSize != 0 {
		chosen.max_size = C.uint32_t(options.MaxSize)
	}
	if options.MaxConnecting != 0 {
		chosen.max_connecting = C.uint32_t(options.MaxConnecting)
	}
	if options.LoadBalanced {
		chosen.load_balanced = 1
	}
	p := new(Pool)
	if err := named("open", C.mdb_pool_open(&p.slot, &chosen)); err != nil {
		return nil, err
	}
	runtime.SetFinalizer(p, (*Pool).Free)
	return p, nil
}

// Free frees the pool's memory, which is no step. Each later call answers Closed; a second Free does nothing. The garbage collector frees one that is
// forgotten.
func (p *Pool) Free() {
	p.turn.Lock()
	defer p.turn.Unlock()
	C.mdb_pool_free(&p.slot)
}

// Request is the step: a caller asks for a connection. Its reply is Pooled, Establishing, Waiting, Ended or Refused.
func (p *Pool) Request(moment uint64, party uint32, facts []PoolFact) (Reply, []PoolFact, error) {
	p.begin(moment)
	defer p.turn.Unlock()
	return p.ended("request", C.mdb_pool_request(&p.slot, &p.at, C.uint32_t(party), &p.told), facts)
}

// Warm is the step: one connection more, where fewer live than the minimum.
func (p *Pool) Warm(moment uint64, party uint32, facts []PoolFact) (Reply, []PoolFact, error) {
	p.begin(moment)
	defer p.turn.Unlock()
	return p.ended("warm", C.mdb_pool_warm(&p.slot, &p.at, C.uint32_t(party), &p.told), facts)
}

// Collect is the step: the caller of a request asks how it stands. That it ended is told once.
func (p *Pool) Collect(moment uint64, party uint32, facts []PoolFact) (Reply, []PoolFact, error) {
	p.begin(moment)
	defer p.turn.Unlock()
	return p.ended("collect", C.mdb_pool_collect(&p.slot, &p.at, C.uint32_t(party), &p.told), facts)
}

// GiveUp is the step: the caller of a request no longer wants its connection.
func (p *Pool) GiveUp(moment uint64, party uint32, facts []PoolFact) (Reply, []PoolFact, error) {
	p.begin(moment)
	defer p.turn.Unlock()
	return p.ended("give up", C.mdb_pool_give_up(&p.slot, &p.at, C.uint32_t(party), &p.told), facts)
}

// Return is the step: a party returns its connection.
func (p *Pool) Return(moment uint64, party uint32, used Use, facts []PoolFact) (Reply, []PoolFact, error) {
	p.begin(moment)
	defer p.turn.Unlock()
	return p.ended("return", C.mdb_pool_return(&p.slot, &p.at, C.uint32_t(party), C.uint32_t(used), &p.told), facts)
}

// Claim is the step: a worker asks for a connection to establish. Its reply is Job or NoJob.
func (p *Pool) Claim(moment uint64, facts []PoolFact) (Reply, []PoolFact, error) {
	p.begin(moment)
	defer p.turn.Unlock()
	return p.ended("claim", C.mdb_pool_claim(&p.slot, &p.at, &p.told), facts)
}

// Established is the step: a pending connection is ready. The service is that behind a load balancer in 24 hex digits, or empty.
func (p *Pool) Established(moment uint64, id uint32, service string, facts []PoolFact) (Reply, []PoolFact, error) {
	p.begin(moment)
	defer p.turn.Unlock()
	where, size := read(service)
	return p.ended("established", C.mdb_pool_established(&p.slot, &p.at, C.uint32_t(id), where, size, &p.told), facts)
}

// Failed is the step: a pending connection could not be established. The service is as for Established.
func (p *Pool) Failed(moment uint64, id uint32, service string, facts []PoolFact) (Reply, []PoolFact, error) {
	p.begin(moment)
	defer p.turn.Unlock()
	where, size := read(service)
	return p.ended("failed", C.mdb_pool_failed(&p.slot, &p.at, C.uint32_t(id), where, size, &p.told), facts)
}

// Pin is the step: a party pins its connection, which then stays at its pin when it comes back.
func (p *Pool) Pin(moment uint64, party uint32, facts []PoolFact) (Reply, []PoolFact, error) {
	p.begin(moment)
	defer p.turn.Unlock()
	return p.ended("pin", C.mdb_pool_pin(&p.slot, &p.at, C.uint32_t(party), &p.told), facts)
}

// Replicate is the step: one pin more of a pinned connection.
func (p *Pool) Replicate(moment uint64, id uint32, facts []PoolFact) (Reply, []PoolFact, error) {
	p.begin(moment)
	defer p.turn.Unlock()
	return p.ended("replicate", C.mdb_pool_replicate(&p.slot, &p.at, C.uint32_t(id), &p.told), facts)
}

// Take is the step: a new party takes a pinned connection from its pin.
func (p *Pool) Take(moment uint64, party, id uint32, facts []PoolFact) (Reply, []PoolFact, error) {
	p.begin(moment)
	defer p.turn.Unlock()
	return p.ended("take", C.mdb_pool_take(&p.slot, &p.at, C.uint32_t(party), C.uint32_t(id), &p.told), facts)
}

// Unpin is the step: one pin less of a pinned connection.
func (p *Pool) Unpin(moment uint64, id uint32, facts []PoolFact) (Reply, []PoolFact, error) {
	p.begin(moment)
	defer p.turn.Unlock()
	return p.ended("unpin", C.mdb_pool_unpin(&p.slot, &p.at, C.uint32_t(id), &p.told), facts)
}

// Ready is the step: the pool may be used from now on. A closed one stays closed.
func (p *Pool) Ready(moment uint64, facts []PoolFact) (Reply, []PoolFact, error) {
	p.begin(moment)
	defer p.turn.Unlock()
	return p.ended("ready", C.mdb_pool_ready(&p.slot, &p.at, &p.told), facts)
}

// A Cause is why a pool is cleared.
type Cause uint32

const (
	CauseNetwork        Cause = C.MDB_CAUSE_NETWORK
	CauseNetworkTimeout Cause = C.MDB_CAUSE_NETWORK_TIMEOUT // the connections in use are interrupted
	CauseOther          Cause = C.MDB_CAUSE_OTHER
)

// Clear is the step: all connections become stale and the pool is paused, or, behind a load balancer, those of the service alone and nothing pauses.
func (p *Pool) Clear(moment uint64, cause Cause, service string, facts []PoolFact) (Reply, []PoolFact, error) {
	p.begin(moment)
	defer p.turn.Unlock()
	where, size := read(service)
	return p.ended("clear", C.mdb_pool_clear(&p.slot, &p.at, C.uint32_t(cause), where, size, &p.told), facts)
}

// Maintain is the step: stale and idle connections are closed, and missing ones are created.
func (p *Pool) Maintain(moment uint64, facts []PoolFact) (Reply, []PoolFact, error) {
	p.begin(moment)
	defer p.turn.Unlock()
	return p.ended("maintain", C.mdb_pool_maintain(&p.slot, &p.at, &p.told), facts)
}

// Expire is the step: callers that waited for MaxWait end.
func (p *Pool) Expire(moment uint64, facts []PoolFact) (Reply, []PoolFact, error) {
	p.begin(moment)
	defer p.turn.Unlock()
	return p.ended("expire", C.mdb_pool_expire(&p.slot, &p.at, &p.told), facts)
}

// Tick is the step of the timer that changes something at the moment, Expire before Maintain, and the error is NoEntry where neither does. So all that is
// due is done by calls until one answers an error or another reply than Done.
func (p *Pool) Tick(moment uint64, facts []PoolFact) (Reply, []PoolFact, error) {
	p.begin(moment)
	defer p.turn.Unlock()
	return p.ended("tick", C.mdb_pool_tick(&p.slot, &p.at, &p.told), facts)
}

// Close is the step: the pool is closed for good. What waits ends, and what is in use is closed as it comes back. Its memory stays until Free.
func (p *Pool) Close(moment uint64, facts []PoolFact) (Reply, []PoolFact, error) {
	p.begin(moment)
	defer p.turn.Unlock()
	return p.ended("close", C.mdb_pool_close(&p.slot, &p.at, &p.told), facts)
}

// A PoolPhase is where a pool stands (CMAP, "Connection Pool").
type PoolPhase uint32

const (
	PoolIsNew    PoolPhase = C.MDB_POOL_IS_NEW
	PoolIsReady  PoolPhase = C.MDB_POOL_IS_READY
	PoolIsPaused PoolPhase = C.MDB_POOL_IS_PAUSED
	PoolIsClosed PoolPhase = C.MDB_POOL_IS_CLOSED
)

// PoolState is what a pool has.
type PoolState struct {
	Generation uint64 // how often it was cleared as a whole
	Available  uint64 // how many connections nobody has
	InUse      uint64 // how many live that are neither available nor pending
	Pending    uint64 // how many are not established yet
	Waiting    uint64 // how many callers wait in the queue
	Number     uint32
	Phase      PoolPhase
}

// State is what the pool has. It is no step.
func (p *Pool) State() (PoolState, error) {
	p.turn.Lock()
	defer p.turn.Unlock()
	var s C.mdb_pool_state
	if err := named("state", C.mdb_pool_get(&p.slot, &s)); err != nil {
		return PoolState{}, err
	}
	return PoolState{
		uint64(s.generation), uint64(s.available), uint64(s.in_use), uint64(s.pending), uint64(s.waiting), uint32(s.number), PoolPhase(s.state),
	}, nil
}

// NextDue is when time changes something in the pool unless another step comes before: the first moment from the given one on, and false where no time
// brings it to that. It may be another after each step, and is none itself.
func (p *Pool) NextDue(moment uint64) (uint64, bool, error) {
	p.turn.Lock()
	defer p.turn.Unlock()
	var due C.uint64_t
	status := C.mdb_pool_next_due(&p.slot, C.uint64_t(moment), &due)
	if status == C.MDB_NO_ENTRY {
		return 0, false, nil
	}
	return uint64(due), status == C.MDB_OK, named("next due", status)
}

// Generation is how often the pool was cleared for the service, or as a whole where it is empty. It is no step.
func (p *Pool) Generation(service string) (uint64, error) {
	p.turn.Lock()
	defer p.turn.Unlock()
	var generation C.uint64_t
	where, size := read(service)
	err := named("generation", C.mdb_pool_generation(&p.slot, where, size, &generation))
	return uint64(generation), err
}

// Facts appends those of the last step, of whichever goroutine.
func (p *Pool) Facts(facts []PoolFact) ([]PoolFact, error) {
	p.turn.Lock()
	defer p.turn.Unlock()
	return p.all(facts)
}

// Takes the lock, and says when the step is made.
func (p *Pool) begin(moment uint64) {
	p.turn.Lock()
	p.at.moment = C.uint64_t(moment)
}

func (p *Pool) ended(step string, status C.mdb_status, facts []PoolFact) (Reply, []PoolFact, error) {
	if status != C.MDB_OK {
		return Reply{}, facts, named(step, status)
	}
	r := &p.told.reply
	reply := Reply{Kind(r.kind), uint32(r.pool), uint32(r.id), uint32(r.why), uint64(r.number)}
	if p.told.count > C.MDB_TOLD_FACTS {
		more, err := p.all(facts)
		return reply, more, err
	}
	return reply, added(facts, p.told.facts[:p.told.count]), nil
}

func (p *Pool) all(facts []PoolFact) ([]PoolFact, error) {
	for {
		var count C.size_t
		if len(p.many) == 0 {
			p.many = make([]C.mdb_fact, 64)
		}
		status := C.mdb_pool_facts(&p.slot, &p.many[0], C.size_t(len(p.many)), &count)
		if status == C.MDB_NO_ROOM {
			p.many = make([]C.mdb_fact, int(count))
			continue
		}
		if status != C.MDB_OK {
			return facts, named("facts", status)
		}
		return added(facts, p.many[:count]), nil
	}
}

func added(facts []PoolFact, told []C.mdb_fact) []PoolFact {
	for i := range told {
		f := &told[i]
		facts = append(facts, PoolFact{
			FactKind(f.kind), Event(f.event), uint32(f.pool), uint32(f.id), uint32(f.party), uint32(f.why), uint64(f.number),
			*(*[12]byte)(unsafe.Pointer(&f.service)), f.has_service == 1,
		})
	}
	return facts
}

func named(step string, status C.mdb_status) error {
	if status == C.MDB_OK {
		return nil
	}
	return fmt.Errorf("mdb: %s: %w", step, Status(status))
}

// Where the text's bytes stand, which is never null, and how many there are.
func read(text string) (*C.uint8_t, C.size_t) {
	bytes := []byte(text)
	return start(bytes), C.size_t(len(bytes))
}
