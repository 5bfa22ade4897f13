// A witness: what the Go driver describes of the servers of a connection string, a line at each change, in the form of mdb_live.
//
// usage: by_go URI SECONDS      built with GO111MODULE=off GOPATH=/usr/share/gocode (golang-mongodb-mongo-driver-dev)
package main

import (
	"context"
	"fmt"
	"os"
	"sort"
	"strconv"
	"strings"
	"time"

	"go.mongodb.org/mongo-driver/event"
	"go.mongodb.org/mongo-driver/mongo"
	"go.mongodb.org/mongo-driver/mongo/options"
)

func main() {
	began := time.Now()
	monitor := &event.ServerMonitor{TopologyDescriptionChanged: func(changed *event.TopologyDescriptionChangedEvent) {
		servers := []string{}
		for _, server := range changed.NewDescription.Servers {
			servers = append(servers, server.Addr.String()+"="+server.Kind.String())
		}
		sort.Strings(servers)
		shown := strings.Join(servers, ",")
		if shown == "" {
			shown = "-"
		}
		fmt.Printf("%.3f topology %s %s\n", time.Since(began).Seconds(), changed.NewDescription.Kind.String(), shown)
	}}
	_, err := mongo.Connect(context.Background(), options.Client().ApplyURI(os.Args[1]).SetServerMonitor(monitor))
	if err != nil {
		fmt.Fprintln(os.Stderr, err)
		os.Exit(1)
	}
	seconds, _ := strconv.ParseFloat(os.Args[2], 64)
	time.Sleep(time.Duration(seconds * float64(time.Second)))
}
