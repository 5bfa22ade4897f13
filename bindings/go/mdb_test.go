package mdb

import (
	"errors"
	"fmt"
	"strings"
	"sync"
	"syscall"
	"testing"
)

func opened(t testing.TB) *Driver {
	d, err := Open("open seeds=a:27017 max=100")
	if err != nil {
		t.Fatal(err)
	}
	if r, err := d.Line(0, "hello 1 a:27017 0 ok rtt=1000000 isWritablePrimary=true maxWireVersion=21"); err != nil || r.Kind != Changed {
		t.Fatal(r, err)
	}
	r, err := d.Request(2, 1, "a")
	if err != nil || r.Kind != Establishing {
		t.Fatal(r, err)
	}
	if address, err := d.JobAddress(r.Connection()); err != nil || address != "a:27017" {
		t.Fatal(address, err)
	}
	if made, err := d.Established(3, r.Connection(), 21, ""); err != nil || made.Kind != Done {
		t.Fatal(made, err)
	}
	return d
}

func TestOrdinaryPath(t *testing.T) {
	d := opened(t)
	defer d.Close()
	facts, err := d.Facts()
	if err != nil || len(facts) != 2 || facts[1].Text != "Pool 0 ConnectionCheckedOut a:27017 1 1" {
		t.Fatal(facts, err)
	}
	if r, err := d.Return(4, 1, Used); err != nil || r.Kind != Done {
		t.Fatal(r, err)
	}
	if text, err := d.EntryText(); err != nil || text != "return 4 1 ok | Done | Pool 0 ConnectionCheckedIn a:27017 1\n" {
		t.Fatal(text, err)
	}
}

func TestErrors(t *testing.T) {
	d := opened(t)
	if _, err := d.Request(4, 2, "a:0"); err != Malformed {
		t.Fatal(err)
	}
	if _, err := d.Line(0, ""); err != Malformed {
		t.Fatal(err)
	}
	if r, err := d.Hello(4, "a:27017", 0, "err network msg=x"); err != nil || r.Number != 1 {
		t.Fatal(r, err)
	}
	if r, err := d.Error(4, 1, "network msg=late"); err != nil || r.Kind != Changed || r.Number != 0 {
		t.Fatal(r, err)
	}
	if r, err := d.Failed(4, Connection{0, 9}, "pre other msg=x"); err != nil || r.Kind != Refused {
		t.Fatal(r, err)
	}
	if r, err := d.Claim(0); err != nil || r.Kind != Refused || r.Number != 4 {
		t.Fatal(r, err)
	}
	d.Close()
	d.Close()
	if _, err := d.Claim(5); err != Closed {
		t.Fatal(err)
	}
	if _, err := Open("claim 1"); err != Malformed {
		t.Fatal(err)
	}
}

func TestServers(t *testing.T) {
	d, err := Open("open seeds=a:1,b:2")
	if err != nil {
		t.Fatal(err)
	}
	defer d.Close()
	if r, err := d.Hello(3, "a:1", 0, "ok rtt=9 isWritablePrimary=true hosts=a:1,c:3 setVersion=7 setName=rs maxWireVersion=21"); err != nil || r.Number != 1 {
		t.Fatal(r, err)
	}
	if facts, err := d.Facts(); err != nil || len(facts) == 0 || facts[0].Address != "a:1" {
		t.Fatal(facts, err)
	}
	if topology, err := d.Topology(); err != nil || topology.Kind != 4 || topology.Servers != 2 || topology.MaxSetVersion != 7 || !topology.Compatible {
		t.Fatal(topology, err)
	}
	if name, err := d.TopologyText(SetName); err != nil || name != "rs" {
		t.Fatal(name, err)
	}
	if _, err := d.TopologyText(ErrorText); err != NoEntry {
		t.Fatal(err)
	}
	place, err := d.ServerAt("A:1")
	if err != nil || place != 0 {
		t.Fatal(place, err)
	}
	if server, err := d.Server(place); err != nil || server.Kind != 4 || server.RoundTrip != 9 || server.Updated != 3 || server.SetVersion != 7 || !server.HasRoundTrip {
		t.Fatal(server, err)
	}
	if hosts, err := d.ServerText(place, Hosts); err != nil || hosts != "a:1,c:3" {
		t.Fatal(hosts, err)
	}
	if _, err := d.Server(2); err != NoEntry {
		t.Fatal(err)
	}
	if r, err := d.ClusterTime(4, 5); err != nil || r.Kind != Done {
		t.Fatal(r, err)
	}
	if r, err := d.RTT(4, "a:1", 0, 7); err != nil || r.Kind != Count {
		t.Fatal(r, err)
	}
	if _, err := d.Hosts(4, "B:2"); err != Malformed {
		t.Fatal(err)
	}
}

func TestLongTexts(t *testing.T) {
	seeds := make([]string, 128)
	for i := range seeds {
		seeds[i] = fmt.Sprintf("h%d:1", i)
	}
	d, err := Open("open seeds=" + strings.Join(seeds, ","))
	if err != nil {
		t.Fatal(err)
	}
	defer d.Close()
	if text, err := d.EntryText(); err != nil || len(text) < 8192 {
		t.Fatal(len(text), err)
	}
}

func TestGoroutines(t *testing.T) {
	d := opened(t)
	defer d.Close()
	var crew sync.WaitGroup
	for seat := uint32(0); seat < 4; seat++ {
		crew.Add(1)
		go func(seat uint32) {
			defer crew.Done()
			for n := uint32(0); n < 300; n++ {
				party := 2 + seat*300 + n
				r, err := d.Request(5, party, "a:27017")
				if err != nil {
					t.Error(err)
					return
				}
				if r.Kind == Establishing {
					if _, err := d.Established(5, r.Connection(), 21, ""); err != nil {
						t.Error(err)
					}
				}
				if r.Kind == Waiting {
					if _, err := d.GiveUp(5, party); err != nil {
						t.Error(err)
					}
				} else if _, err := d.Return(5, party, Used); err != nil {
					t.Error(err)
				}
			}
		}(seat)
	}
	crew.Wait()
}

// The processor time of this process, in nanoseconds.
func spent() int64 {
	var used syscall.Rusage
	if err := syscall.Getrusage(syscall.RUSAGE_SELF, &used); err != nil {
		panic(err)
	}
	return used.Utime.Nano() + used.Stime.Nano()
}

func TestChecksAreToldBeforehand(t *testing.T) {
	d, err := Open("open seeds=a:1 connect=5000")
	if err != nil {
		t.Fatal(err)
	}
	defer d.Close()
	news := "9 ok isWritablePrimary=true helloOk=true maxWireVersion=21 topologyVersion=0102030405060708090a0b0c.7"
	first, err := d.NextCheck("A:1")
	if err != nil || first != (Check{Action: 1, Connection: first.Connection, Timeout: 5000, Legacy: true, Asks: true}) {
		t.Fatal(first, err)
	}
	if r, err := d.Beat(1, "a:1", 0); err != nil || r.Kind != Done {
		t.Fatal(r, err)
	}
	if facts, err := d.Facts(); err != nil || len(facts) != 1 || facts[0].ID != first.Connection {
		t.Fatal(facts, err)
	}
	if next, err := d.NextAfter("a:1", 0, news); err != nil || next != Continue {
		t.Fatal(next, err)
	}
	if r, err := d.Beaten(1, "a:1", 0, news); err != nil || r.Kind != Changed {
		t.Fatal(r, err)
	}
	second, err := d.NextCheck("a:1")
	process := [12]byte{1, 2, 3, 4, 5, 6, 7, 8, 9, 10, 11, 12}
	if err != nil || second != (Check{Action: 3, Connection: first.Connection, Timeout: 15000, Most: 10000, Process: process, Counter: 7, Awaits: true}) {
		t.Fatal(second, err)
	}
	if next, err := d.NextAfter("a:1", 0, "9 err network msg=x"); err != nil || next != Retry {
		t.Fatal(next, err)
	}
	if _, err := d.NextCheck("b:1"); err != NoEntry {
		t.Fatal(err)
	}
	if _, err := d.NextAfter("a:1", 0, "ok"); err != Malformed {
		t.Fatal(err)
	}
}

func TestRecordsAreJudged(t *testing.T) {
	name := "cluster.example.com"
	if hosts, err := AcceptedHosts(name, "b.example.com:1,a.evil.com:1", true); err != nil || hosts != "b.example.com:1" {
		t.Fatal(hosts, err)
	}
	why, err := AcceptedHosts(name, "a.evil.com:1", false)
	if err != BadRecords || why != "SRV lookup for cluster.example.com returned result a.evil.com, which does not match domain name example.com" {
		t.Fatal(why, err)
	}
	if options, err := TxtOptions(name, []string{"replicaSet=rs&AUTHSOURCE=admin"}); err != nil || options != "&authSource=admin&replicaSet=rs" {
		t.Fatal(options, err)
	}
	if _, err := TxtOptions(name, []string{"replicaSet=rs", "replicaSet=rs"}); err != BadRecords {
		t.Fatal(err)
	}
	if RescanSeconds(1, 5, 10) != 60 || RescanSeconds(1, 300, 10) != 300 || RescanSeconds(0, 300, 90) != 90 {
		t.Fatal("seconds")
	}
	d, err := Open("open seeds=a:1")
	if err != nil {
		t.Fatal(err)
	}
	defer d.Close()
	if told, err := d.Topology(); err != nil || !told.Polled {
		t.Fatal(told, err)
	}
}

// Times a round of a request and a return, and reports its processor time as the least of pieces of 500 rounds.
func timed(b *testing.B, round func(d *Driver, party uint32) error) {
	d := opened(b)
	defer d.Close()
	if _, err := d.Return(4, 1, Used); err != nil {
		b.Fatal(err)
	}
	least := int64(1) << 62
	b.ResetTimer()
	for n, began := 0, spent(); n < b.N; n++ {
		if err := round(d, uint32(n)+2); err != nil {
			b.Fatal(err)
		}
		if n%500 == 499 {
			if took := (spent() - began) / 500; took < least {
				least = took
			}
			began = spent()
		}
	}
	b.ReportMetric(float64(least), "least-cpu-ns/op")
}

func BenchmarkLines(b *testing.B) {
	timed(b, func(d *Driver, party uint32) error {
		if _, err := d.Line(0, fmt.Sprintf("request 5 %d a:27017", party)); err != nil {
			return err
		}
		_, err := d.Line(0, fmt.Sprintf("return 5 %d ok", party))
		return err
	})
}

func BenchmarkCalls(b *testing.B) {
	timed(b, func(d *Driver, party uint32) error {
		if _, err := d.Request(5, party, "a:27017"); err != nil {
			return err
		}
		_, err := d.Return(5, party, Used)
		return err
	})
}

func TestStepAndFactsBelongTogether(t *testing.T) {
	d := opened(t)
	defer d.Close()
	var group sync.WaitGroup
	for seat := uint32(1); seat <= 4; seat++ {
		group.Add(1)
		go func(seat uint32) {
			defer group.Done()
			for i := uint32(0); i < 200; i++ {
				party := seat*1000 + i
				err := d.Do(func(tx *Tx) error {
					tx.Seat = seat
					reply, err := tx.Request(5, party, "a:27017")
					if err != nil {
						return err
					}
					facts, err := tx.Facts()
					if err != nil {
						return err
					}
					granted := 0
					for _, fact := range facts {
						if fact.Kind == FactGranted && fact.Party == party {
							granted++
						}
					}
					if (reply.Kind == Pooled || reply.Kind == Establishing) != (granted == 1) {
						t.Errorf("party %d: %v with %v", party, reply, facts)
					}
					_, err = tx.GiveUp(5, party)
					return err
				})
				if err != nil {
					t.Error(err)
				}
			}
		}(seat)
	}
	group.Wait()
}

func TestErrorOfDoIsReturned(t *testing.T) {
	d := opened(t)
	defer d.Close()
	err := d.Do(func(tx *Tx) error {
		_, err := tx.Request(4, 2, "a:0")
		return fmt.Errorf("a caller: %w", err)
	})
	if !errors.Is(err, Malformed) {
		t.Fatal(err)
	}
}

func TestPins(t *testing.T) {
	d := opened(t)
	defer d.Close()
	place := Connection{0, 1}
	for _, step := range []struct {
		name string
		make func() (Reply, error)
		kind Kind
		why  Why
	}{
		{"unpin what has no pin", func() (Reply, error) { return d.Unpin(4, place) }, Refused, WhyUnpinned},
		{"pin", func() (Reply, error) { return d.Pin(4, 1) }, Done, 0},
		{"pin again", func() (Reply, error) { return d.Pin(4, 1) }, Refused, WhyPinState},
		{"replicate", func() (Reply, error) { return d.Replicate(4, place) }, Done, 0},
		{"take what is held", func() (Reply, error) { return d.Take(4, 2, place) }, Refused, WhyPinInUse},
		{"return to the pin", func() (Reply, error) { return d.Return(5, 1, Used) }, Done, 0},
		{"take from the pin", func() (Reply, error) { return d.Take(6, 2, place) }, Pooled, 0},
		{"return once more", func() (Reply, error) { return d.Return(7, 2, Used) }, Done, 0},
		{"unpin", func() (Reply, error) { return d.Unpin(7, place) }, Done, 0},
		{"unpin the last", func() (Reply, error) { return d.Unpin(8, place) }, Done, 0},
	} {
		if r, err := step.make(); err != nil || r.Kind != step.kind || r.Refusal() != step.why {
			t.Fatal(step.name, r, err)
		}
	}
	facts, err := d.Facts()
	if err != nil || len(facts) != 1 || facts[0].Event != EventCheckedIn {
		t.Fatal(facts, err)
	}
}

func TestTimersAndWatchers(t *testing.T) {
	d, err := Open("open seeds=a:27017 max=1 min=1 wait=5")
	if err != nil {
		t.Fatal(err)
	}
	defer d.Close()
	if r, err := d.Want(1, 9); err != nil || r.Kind != Count || r.Number != 1 {
		t.Fatal(r, err)
	}
	if r, err := d.Unwant(1, 9); err != nil || r.Kind != Count || r.Number != 0 {
		t.Fatal(r, err)
	}
	if r, err := d.Hello(2, "a:27017", 0, "ok rtt=1 maxWireVersion=21"); err != nil || r.Kind != Changed {
		t.Fatal(r, err)
	}
	facts, err := d.Facts()
	if err != nil {
		t.Fatal(err)
	}
	for _, fact := range facts {
		if fact.Event == EventServerChanged && (ServerKind(fact.Before) != ServerUnknown || ServerKind(fact.After) != ServerStandalone) {
			t.Fatal(fact)
		}
		if fact.Event == EventTopologyChanged && TopologyKind(fact.After) != TopologySingle {
			t.Fatal(fact)
		}
	}
	if r, err := d.Warm(2, 1, "a:27017"); err != nil || r.Kind != Establishing {
		t.Fatal(r, err)
	}
	if r, err := d.Request(3, 2, "a:27017"); err != nil || r.Kind != Waiting {
		t.Fatal(r, err)
	}
	if r, err := d.Expire(8, "a:27017"); err != nil || r.Kind != Done {
		t.Fatal(r, err)
	}
	if r, err := d.Collect(8, 2); err != nil || r.End() != EndTimedOut {
		t.Fatal(r, err)
	}
	moment, err := d.LastMoment()
	if err != nil || moment != 8 {
		t.Fatal(moment, err)
	}
	if count, err := d.Published(); err != nil || count != 2 {
		t.Fatal(count, err)
	}
	if pool, err := d.OpenPool("A"); err != nil || pool != 0 {
		t.Fatal(pool, err)
	}
	if _, err := d.OpenPool("b:1"); err != NoEntry {
		t.Fatal(err)
	}
}
