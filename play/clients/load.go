// A load by the Go driver: goroutines that insert documents, each with its own text, for some seconds.
// On a busy machine it goes on until each has 25 done, but for no longer than six times as long.
//
// usage: load SECONDS THREADS      MDB_URI says where
//
// Debian's driver is built without modules: GO111MODULE=off GOPATH=/usr/share/gocode go build load.go
package main

import (
	"context"
	"fmt"
	"os"
	"strconv"
	"sync"
	"sync/atomic"
	"time"

	"go.mongodb.org/mongo-driver/bson"
	"go.mongodb.org/mongo-driver/mongo"
	"go.mongodb.org/mongo-driver/mongo/options"
)

const least = 25

func work(items *mongo.Collection, thread int, seconds float64, done, failed *int64) {
	begin, mine := time.Now(), 0
	for number := 1; ; number++ {
		passed := time.Since(begin).Seconds()
		if passed >= 6*seconds || passed >= seconds && mine >= least {
			return
		}
		ctx, cancel := context.WithTimeout(context.Background(), 30*time.Second)
		_, err := items.InsertOne(ctx, bson.M{"text": fmt.Sprintf("%d %d", thread, number)})
		cancel()
		if err == nil {
			atomic.AddInt64(done, 1)
			mine++
		} else {
			atomic.AddInt64(failed, 1)
			time.Sleep(10 * time.Millisecond)
		}
		time.Sleep(10 * time.Millisecond)
	}
}

func main() {
	seconds, _ := strconv.ParseFloat(os.Args[1], 64)
	threads, _ := strconv.Atoi(os.Args[2])
	client, err := mongo.Connect(context.Background(), options.Client().ApplyURI(os.Getenv("MDB_URI")))
	if err != nil {
		fmt.Fprintln(os.Stderr, err)
		os.Exit(2)
	}
	var done, failed int64
	var workers sync.WaitGroup
	for thread := 0; thread < threads; thread++ {
		workers.Add(1)
		go func(thread int) {
			defer workers.Done()
			work(client.Database("test").Collection("items"), thread, seconds, &done, &failed)
		}(thread)
	}
	workers.Wait()
	client.Disconnect(context.Background())
	fmt.Fprintln(os.Stderr, "Go driver: done", done, "failed", failed)
}
