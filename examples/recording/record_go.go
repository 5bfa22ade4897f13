// Records what the Go driver tells of its pools, servers and topology, as JSON lines that mdb_recorded reads.
//
// usage: record_go URI SECONDS WORKERS > recording.jsonl      needs golang-mongodb-mongo-driver-dev; see run.py for how it is built
//
// `recorder` is all that your own program needs: its monitors are set by SetPoolMonitor and SetServerMonitor. The rest is a load:
// so many goroutines that insert for so long, whatever fails.
package main

import (
	"bufio"
	"context"
	"encoding/json"
	"fmt"
	"os"
	"strconv"
	"strings"
	"sync"
	"sync/atomic"
	"time"

	"go.mongodb.org/mongo-driver/bson"
	"go.mongodb.org/mongo-driver/event"
	"go.mongodb.org/mongo-driver/mongo"
	"go.mongodb.org/mongo-driver/mongo/description"
	"go.mongodb.org/mongo-driver/mongo/options"
	"go.mongodb.org/mongo-driver/version"
)

// What a line tells. The driver's words for events and reasons are those of CMAP, but for the end of a connection that failed.
type line struct {
	T       json.Number `json:"t"`
	Kind    string      `json:"kind"`
	Event   string      `json:"event"`
	Address string      `json:"address,omitempty"`
	From    string      `json:"from,omitempty"`
	To      string      `json:"to,omitempty"`
	ID      *uint64     `json:"connectionId,omitempty"`
	Reason  string      `json:"reason,omitempty"`
	Service string      `json:"serviceId,omitempty"`
	Max     *uint64     `json:"maxPoolSize,omitempty"`
	Min     *uint64     `json:"minPoolSize,omitempty"`
}

// Writes each event as a line, in the order in which the driver tells them.
type recorder struct {
	lock    sync.Mutex
	began   time.Time
	encoder *json.Encoder
}

func (r *recorder) tell(told line) {
	r.lock.Lock()
	defer r.lock.Unlock()
	told.T = json.Number(strconv.FormatFloat(time.Since(r.began).Seconds(), 'f', 6, 64))
	r.encoder.Encode(told)
}

func (r *recorder) pools() *event.PoolMonitor {
	return &event.PoolMonitor{Event: func(e *event.PoolEvent) {
		told := line{Kind: "pool", Event: e.Type, Address: e.Address, Reason: e.Reason}
		switch e.Type {
		case event.PoolCreated:
			told.Max, told.Min = &e.PoolOptions.MaxPoolSize, &e.PoolOptions.MinPoolSize
		case event.PoolCleared:
			if e.ServiceID != nil {
				told.Service = e.ServiceID.Hex()
			}
		case event.ConnectionCreated, event.ConnectionReady, event.ConnectionClosed, event.GetSucceeded, event.ConnectionReturned:
			told.ID = &e.ConnectionID
		}
		if e.Type == event.ConnectionClosed && e.Reason == event.ReasonConnectionErrored {
			told.Reason = "error"
		}
		r.tell(told)
	}}
}

// The kind of a server by its name in SDAM.
func kind(k description.ServerKind) string {
	if k == description.RSMember {
		return "RSOther"
	}
	return k.String()
}

// The address of a heartbeat's connection, whose name is host:port[-number].
func address(connection string) string {
	return strings.SplitN(connection, "[", 2)[0]
}

func (r *recorder) servers() *event.ServerMonitor {
	sdam := func(name, address string) { r.tell(line{Kind: "sdam", Event: name, Address: address}) }
	beat := func(name, connection string) { r.tell(line{Kind: "beat", Event: name, Address: address(connection)}) }
	return &event.ServerMonitor{
		ServerOpening: func(e *event.ServerOpeningEvent) { sdam("ServerOpening", e.Address.String()) },
		ServerClosed:  func(e *event.ServerClosedEvent) { sdam("ServerClosed", e.Address.String()) },
		ServerDescriptionChanged: func(e *event.ServerDescriptionChangedEvent) {
			r.tell(line{Kind: "sdam", Event: "ServerDescriptionChanged", Address: e.Address.String(), From: kind(e.PreviousDescription.Kind), To: kind(e.NewDescription.Kind)})
		},
		TopologyOpening:            func(*event.TopologyOpeningEvent) { sdam("TopologyOpening", "") },
		TopologyDescriptionChanged: func(*event.TopologyDescriptionChangedEvent) { sdam("TopologyDescriptionChanged", "") },
		TopologyClosed:             func(*event.TopologyClosedEvent) { sdam("TopologyClosed", "") },
		ServerHeartbeatStarted:     func(e *event.ServerHeartbeatStartedEvent) { beat("ServerHeartbeatStarted", e.ConnectionID) },
		ServerHeartbeatSucceeded:   func(e *event.ServerHeartbeatSucceededEvent) { beat("ServerHeartbeatSucceeded", e.ConnectionID) },
		ServerHeartbeatFailed:      func(e *event.ServerHeartbeatFailedEvent) { beat("ServerHeartbeatFailed", e.ConnectionID) },
	}
}

func main() {
	seconds, _ := strconv.ParseFloat(os.Args[2], 64)
	workers, _ := strconv.Atoi(os.Args[3])
	out := bufio.NewWriter(os.Stdout)
	defer out.Flush()
	told := &recorder{began: time.Now(), encoder: json.NewEncoder(out)}
	client, err := mongo.Connect(context.Background(), options.Client().ApplyURI(os.Args[1]).SetPoolMonitor(told.pools()).SetServerMonitor(told.servers()))
	if err != nil {
		fmt.Fprintln(os.Stderr, err)
		os.Exit(1)
	}
	var done, failed int64
	var all sync.WaitGroup
	until := time.Now().Add(time.Duration(seconds * float64(time.Second)))
	for i := 0; i < workers; i++ {
		all.Add(1)
		go func() {
			defer all.Done()
			for time.Now().Before(until) {
				ctx, cancel := context.WithTimeout(context.Background(), 2*time.Second)
				if _, err := client.Database("test").Collection("items").InsertOne(ctx, bson.D{{Key: "n", Value: 1}}); err != nil {
					atomic.AddInt64(&failed, 1)
					time.Sleep(10 * time.Millisecond)
				} else {
					atomic.AddInt64(&done, 1)
				}
				cancel()
			}
		}()
	}
	all.Wait()
	client.Disconnect(context.Background())
	fmt.Fprintf(os.Stderr, "Go driver %s: %d done, %d failed\n", version.Driver, done, failed)
}
