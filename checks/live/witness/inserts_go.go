// A load by the Go driver: goroutines that insert into the database `go`.
//
// usage: inserts_go URI SECONDS THREADS      built as by_go.go
package main

import (
	"context"
	"os"
	"strconv"
	"time"

	"go.mongodb.org/mongo-driver/bson"
	"go.mongodb.org/mongo-driver/mongo"
	"go.mongodb.org/mongo-driver/mongo/options"
)

func main() {
	client, err := mongo.Connect(context.Background(), options.Client().ApplyURI(os.Args[1]))
	if err != nil {
		panic(err)
	}
	seconds, _ := strconv.Atoi(os.Args[2])
	threads, _ := strconv.Atoi(os.Args[3])
	for i := 0; i < threads; i++ {
		go func() {
			for {
				client.Database("go").Collection("live").InsertOne(context.Background(), bson.D{})
				time.Sleep(20 * time.Millisecond)
			}
		}()
	}
	time.Sleep(time.Duration(seconds) * time.Second)
}
