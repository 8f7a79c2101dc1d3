// Command load measures a service with clients that send one request after another on connections that they keep.
//
//	load puts --targets http://HOST:PORT,.. --clients N --seconds S
//	load http --targets HOST:PORT,.. --clients N --seconds S --ask command|question|local [--close] [--tokens TOKEN,..]
//	load hold --targets HOST:PORT,.. --clients N --seconds S --ways idle,half,body,slow
//
// The first puts new keys into etcd. The second sends addUser and deleteUser in turn, each client with a user
// of its own, or checkAccess for the session s1. The third has connections that ask nothing or never finish asking.
package main

import (
	"context"
	"flag"
	"fmt"
	"log"
	"math/rand"
	"os"
	"sort"
	"strings"
	"sync"
	"time"

	"go.etcd.io/etcd/clientv3"
)

// An asker does one request of a client, and returns an error unless it was accepted.
type asker func(number int) error

type options struct {
	targets []string
	clients int
	seconds float64
	ask     string
	close   bool
	tokens  []string
}

func main() {
	log.SetFlags(0)
	if len(os.Args) < 2 {
		log.Fatal("usage: load puts|http|hold [flags]")
	}
	var o options
	flags := flag.NewFlagSet(os.Args[1], flag.ExitOnError)
	targets := flags.String("targets", "127.0.0.1:2379", "who is asked, separated by commas")
	flags.IntVar(&o.clients, "clients", 1, "how many clients ask at once")
	flags.Float64Var(&o.seconds, "seconds", 5, "for how long")
	flags.StringVar(&o.ask, "ask", "command", "command, question or local")
	flags.BoolVar(&o.close, "close", false, "make a connection for each request")
	tokens := flags.String("tokens", "", "bearer tokens of the clients, separated by commas")
	held := flags.String("ways", "idle", "how connections are held: idle, half, body and slow, separated by commas")
	_ = flags.Parse(os.Args[2:])
	o.targets, o.tokens = strings.Split(*targets, ","), strings.Split(*tokens, ",")

	var make func(client int) (asker, error)
	switch os.Args[1] {
	case "puts":
		client, err := clientv3.New(clientv3.Config{Endpoints: o.targets, DialTimeout: 5 * time.Second})
		if err != nil {
			log.Fatal(err)
		}
		make = func(int) (asker, error) { return puts(client), nil }
	case "http":
		make = func(client int) (asker, error) { return requests(o, client) }
	case "hold":
		if err := hold(o, strings.Split(*held, ",")); err != nil {
			log.Fatal(err)
		}
		return
	default:
		log.Fatalf("unknown mode %s", os.Args[1])
	}
	if err := measure(o, make); err != nil {
		log.Fatal(err)
	}
}

// puts returns an asker that puts a new key of the size of a command.
func puts(client *clientv3.Client) asker {
	return func(int) error {
		key := fmt.Sprintf("load/%016x%016x", rand.Uint64(), rand.Uint64())
		_, err := client.Put(context.Background(), key, `{"fn":"addUser","user":"u0123456789abcdef"}`)
		return err
	}
}

// measure makes all clients ask until the time is over, and prints the rate and the latencies in milliseconds.
func measure(o options, make func(client int) (asker, error)) error {
	var (
		mutex sync.Mutex
		all   []time.Duration
		fault error
		group sync.WaitGroup
	)
	start := time.Now()
	end := start.Add(time.Duration(o.seconds * float64(time.Second)))
	for client := 0; client < o.clients; client++ {
		ask, err := make(client)
		if err != nil {
			return err
		}
		group.Add(1)
		go func() {
			defer group.Done()
			taken, err := askUntil(ask, end)
			mutex.Lock()
			defer mutex.Unlock()
			all = append(all, taken...)
			if err != nil {
				fault = err
			}
		}()
	}
	group.Wait()
	if fault != nil {
		return fault
	}
	if len(all) == 0 {
		return fmt.Errorf("nothing was answered")
	}
	sort.Slice(all, func(i, j int) bool { return all[i] < all[j] })
	at := func(part float64) float64 {
		return float64(all[int(part*float64(len(all)-1))].Microseconds()) / 1000
	}
	fmt.Printf("%.0f a second, %.2f %.2f %.2f ms at 50, 99, 99.9 of 100, %d clients\n",
		float64(len(all))/time.Since(start).Seconds(), at(0.5), at(0.99), at(0.999), o.clients)
	return nil
}

// askUntil asks until the time is over, and returns how long each request took.
func askUntil(ask asker, end time.Time) ([]time.Duration, error) {
	var taken []time.Duration
	for number := 0; ; number++ {
		start := time.Now()
		if start.After(end) {
			return taken, nil
		}
		if err := ask(number); err != nil {
			return taken, err
		}
		taken = append(taken, time.Since(start))
	}
}
