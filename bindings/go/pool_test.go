package mdb

import (
	"errors"
	"sync"
	"testing"
)

func readyPool(t testing.TB, options PoolOptions) *Pool {
	p, err := OpenPool(options)
	if err != nil {
		t.Fatal(err)
	}
	r, facts, err := p.Ready(1, nil)
	if err != nil || r.Kind != Done || len(facts) != 1 || facts[0].Event != EventPoolReady {
		t.Fatal(r, facts, err)
	}
	return p
}

// The events of the facts, in their order.
func events(facts []PoolFact) []Event {
	made := []Event{}
	for _, fact := range facts {
		if fact.Kind == FactPool {
			made = append(made, fact.Event)
		}
	}
	return made
}

func wants(t *testing.T, facts []PoolFact, expected ...Event) {
	t.Helper()
	made := events(facts)
	if len(made) != len(expected) {
		t.Fatal(made, expected)
	}
	for i := range made {
		if made[i] != expected[i] {
			t.Fatal(made, expected)
		}
	}
}

func TestPoolAlone(t *testing.T) {
	p := readyPool(t, PoolOptions{Number: 7, MaxSize: 2})
	defer p.Free()
	r, facts, err := p.Request(10, 1, nil)
	if err != nil || r.Kind != Establishing || r.Pool != 7 {
		t.Fatal(r, err)
	}
	wants(t, facts, EventCheckOutStarted, EventConnectionCreated)
	job, _, err := p.Claim(10, nil)
	if err != nil || job.Kind != Job || job.ID != r.ID {
		t.Fatal(job, err)
	}
	_, facts, err = p.Established(15, job.ID, "", nil)
	if err != nil {
		t.Fatal(err)
	}
	wants(t, facts, EventConnectionReady, EventCheckedOut)
	if r, _, err := p.Collect(15, 1, nil); err != nil || r.Kind != Pooled || r.ID != job.ID {
		t.Fatal(r, err)
	}
	_, facts, err = p.Clear(20, CauseNetwork, "", nil)
	if err != nil {
		t.Fatal(err)
	}
	wants(t, facts, EventPoolCleared)
	if state, err := p.State(); err != nil || state != (PoolState{Generation: 1, InUse: 1, Number: 7, Phase: PoolIsPaused}) {
		t.Fatal(state, err)
	}
	_, facts, err = p.Return(30, 1, Used, nil)
	if err != nil {
		t.Fatal(err)
	}
	wants(t, facts, EventCheckedIn, EventConnectionClosed)
	if last := facts[len(facts)-1]; last.CloseReason() != ClosedStale || last.FailReason() != 0 || last.End() != 0 {
		t.Fatal(last)
	}
	if r, _, err := p.Request(40, 2, nil); err != nil || r.End() != EndCleared {
		t.Fatal(r, err)
	}
	_, facts, err = p.Close(60, nil)
	if err != nil {
		t.Fatal(err)
	}
	wants(t, facts, EventPoolClosed)
}

func TestPoolErrorsWrapTheirStatus(t *testing.T) {
	if _, err := OpenPool(PoolOptions{MaxSize: 65536}); !errors.Is(err, Malformed) {
		t.Fatal(err)
	}
	p := readyPool(t, PoolOptions{})
	if _, _, err := p.Established(2, 1, "no service", nil); !errors.Is(err, Malformed) || err.Error() != "mdb: established: malformed" {
		t.Fatal(err)
	}
	if r, facts, err := p.Claim(0, nil); err != nil || r.Refusal() != WhyTimeBack || r.Number != 1 || len(facts) != 0 {
		t.Fatal(r, facts, err)
	}
	p.Free()
	p.Free()
	if _, _, err := p.Claim(2, nil); !errors.Is(err, Closed) {
		t.Fatal(err)
	}
	if _, err := p.State(); !errors.Is(err, Closed) {
		t.Fatal(err)
	}
}

// A step tells all of its facts, also where there are more than a call tells at once.
func TestPoolTellsManyFacts(t *testing.T) {
	p := readyPool(t, PoolOptions{MinSize: 100, MaxSize: 100, MaxConnecting: 100})
	defer p.Free()
	_, facts, err := p.Maintain(2, nil)
	if err != nil || len(events(facts)) != 100 {
		t.Fatal(len(facts), err)
	}
	again, err := p.Facts(nil)
	if err != nil || len(again) != len(facts) || again[99] != facts[99] {
		t.Fatal(len(again), err)
	}
}

func TestPoolOfALoadBalancer(t *testing.T) {
	p, err := OpenPool(PoolOptions{LoadBalanced: true})
	if err != nil {
		t.Fatal(err)
	}
	defer p.Free()
	const service = "0102030405060708090a0b0c"
	r, _, err := p.Request(1, 1, nil)
	if err != nil || r.Kind != Establishing {
		t.Fatal(r, err)
	}
	if _, _, err := p.Established(1, r.ID, service, nil); err != nil {
		t.Fatal(err)
	}
	if r, _, err := p.Clear(2, CauseOther, "", nil); err != nil || r.Refusal() != WhyWrongMode {
		t.Fatal(r, err)
	}
	_, facts, err := p.Clear(2, CauseOther, service, nil)
	if err != nil {
		t.Fatal(err)
	}
	for _, fact := range facts {
		if fact.Event == EventPoolCleared && (!fact.HasService || fact.Service != [12]byte{1, 2, 3, 4, 5, 6, 7, 8, 9, 10, 11, 12}) {
			t.Fatal(fact)
		}
	}
	if generation, err := p.Generation(service); err != nil || generation != 1 {
		t.Fatal(generation, err)
	}
}

// One connection, taken in turn by what waits: each fact of a grant reaches the step that made it true, so no goroutine waits for ever.
func TestPoolAmongGoroutines(t *testing.T) {
	p := readyPool(t, PoolOptions{MaxSize: 3})
	defer p.Free()
	var group sync.WaitGroup
	for seat := uint32(0); seat < 8; seat++ {
		group.Add(1)
		go func(first uint32) {
			defer group.Done()
			facts := make([]PoolFact, 0, 16)
			for party := first; party < first+300; party++ {
				r, told, err := p.Request(2, party, facts[:0])
				if err != nil || len(told) == 0 {
					t.Error(r, told, err)
					return
				}
				if r.Kind == Establishing {
					_, _, err = p.Established(2, r.ID, "", facts[:0])
				}
				if r.Kind == Waiting {
					_, _, err = p.GiveUp(2, party, facts[:0])
				} else if err == nil {
					_, _, err = p.Return(2, party, Used, facts[:0])
				}
				if err != nil {
					t.Error(err)
				}
			}
		}(seat * 1000)
	}
	group.Wait()
}

// One pair of steps of a pool with one available connection.
func pair(t testing.TB) (*Pool, func(party uint32)) {
	p := readyPool(t, PoolOptions{})
	r, _, err := p.Request(2, 0, nil)
	if err != nil {
		t.Fatal(err)
	}
	if _, _, err := p.Established(2, r.ID, "", nil); err != nil {
		t.Fatal(err)
	}
	if _, _, err := p.Return(2, 0, Used, nil); err != nil {
		t.Fatal(err)
	}
	facts := make([]PoolFact, 0, 16)
	return p, func(party uint32) {
		if r, _, err := p.Request(2, party, facts[:0]); err != nil || r.Kind != Pooled {
			t.Fatal(r, err)
		}
		if _, _, err := p.Return(2, party, Used, facts[:0]); err != nil {
			t.Fatal(err)
		}
	}
}

func TestPoolAllocatesNothingInGo(t *testing.T) {
	p, round := pair(t)
	defer p.Free()
	party := uint32(0)
	if made := testing.AllocsPerRun(1000, func() { party++; round(party) }); made != 0 {
		t.Fatal(made)
	}
}

func BenchmarkPool(b *testing.B) {
	p, round := pair(b)
	defer p.Free()
	b.ResetTimer()
	for n := 0; n < b.N; n++ {
		round(uint32(n) + 1)
	}
}

// What is due is told before, done at its moment and not earlier, and the callers that wait are counted.
func TestPoolTimers(t *testing.T) {
	p := readyPool(t, PoolOptions{Number: 7, MaxSize: 1, MaxWait: 50})
	defer p.Free()
	if _, found, err := p.NextDue(1); err != nil || found {
		t.Fatal(found, err)
	}
	for party := uint32(1); party <= 2; party++ {
		if _, _, err := p.Request(uint64(10*party), party, nil); err != nil {
			t.Fatal(err)
		}
	}
	s, err := p.State()
	if err != nil || s != (PoolState{Pending: 1, Waiting: 1, Number: 7, Phase: PoolIsReady}) {
		t.Fatal(s, err)
	}
	if due, found, err := p.NextDue(20); err != nil || !found || due != 70 {
		t.Fatal(due, found, err)
	}
	if _, _, err := p.Tick(69, nil); !errors.Is(err, NoEntry) {
		t.Fatal(err)
	}
	r, facts, err := p.Tick(70, nil)
	if err != nil || r.Kind != Done {
		t.Fatal(r, err)
	}
	wants(t, facts, EventCheckOutFailed)
	if s, err = p.State(); err != nil || s.Waiting != 0 || s.Pending != 1 {
		t.Fatal(s, err)
	}
}
