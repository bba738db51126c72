// The owners of keys in Go, for questions.py: by the agent at the URL of the first argument, by the ring in process, and by groupcache's
// consistenthash over the same members, which names other owners. The keys are `rider 0/ü` to one below the number of the second argument. Each
// figure is the least of twenty rounds, in milliseconds.
package main

import (
	"context"
	"fmt"
	"log"
	"os"
	"strconv"
	"time"

	"github.com/golang/groupcache/consistenthash"
	"ringpop"
)

func least(look func()) float64 {
	best := time.Hour
	for i := 0; i < 20; i++ {
		begun := time.Now()
		look()
		if spent := time.Since(begun); spent < best {
			best = spent
		}
	}
	return float64(best.Microseconds()) / 1_000
}

func main() {
	client, err := ringpop.NewClient(os.Args[1])
	if err != nil {
		log.Fatal(err)
	}
	count, _ := strconv.Atoi(os.Args[2])
	keys := make([]string, count)
	for i := range keys {
		keys[i] = fmt.Sprintf("rider %d/ü", i)
	}
	ring, err := client.Ring(context.Background())
	if err != nil {
		log.Fatal(err)
	}
	other := consistenthash.New(ring.Replicas(), nil)
	for _, member := range ring.Serving() {
		other.Add(member.Address.String())
	}
	asked := least(func() {
		owners, err := client.Owners(context.Background(), keys, 1)
		if err != nil {
			log.Fatal(err)
		}
		for i, key := range keys {
			if owner, _ := ring.Owner(key); owners[i][0] != owner {
				log.Fatalf("%s is on %s, and not %s", key, owner, owners[i][0])
			}
		}
	})
	own := least(func() {
		for _, key := range keys {
			ring.Owner(key)
		}
	})
	peer := least(func() {
		for _, key := range keys {
			other.Get(key)
		}
	})
	fmt.Printf("Go: POST /owners with a look-up of each in process %.2f ms, ring in process %.2f ms, groupcache %.2f ms\n", asked, own, peer)
}
