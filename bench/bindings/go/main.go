// The owner of a key in Go, nanoseconds a call: the module ringpop and groupcache's consistenthash, by its own CRC-32 and by SHA-256 cut to
// the 32 bits that it takes, in turn in one run. The least of seven rounds, and how often the first goes into each other's.
package main

import (
	"crypto/sha256"
	"encoding/binary"
	"fmt"
	"log"
	"strings"
	"time"

	"github.com/golang/groupcache/consistenthash"
	"ringpop"
)

const points, rounds = 100, 7

func address(place int) string { return fmt.Sprintf("10.0.%d.%d:7946", place/256, place%256) }

func newRingpop(addresses []string) *ringpop.Ring {
	lines := new(strings.Builder)
	for _, it := range addresses {
		fmt.Fprintf(lines, `{"address":%q,"incarnationNumber":1,"source":%q,"sourceIncarnationNumber":1,"status":"alive"}`+"\n", it, it)
	}
	ring, err := ringpop.FromMembers([]byte(lines.String()), points)
	if err != nil {
		log.Fatal(err)
	}
	return ring
}

func newGroupcache(addresses []string, hash consistenthash.Hash) *consistenthash.Map {
	ring := consistenthash.New(points, hash)
	ring.Add(addresses...)
	return ring
}

func nanos(keys []string, look func(string)) float64 {
	start := time.Now()
	for _, key := range keys {
		look(key)
	}
	return float64(time.Since(start).Nanoseconds()) / float64(len(keys))
}

func cut(bytes []byte) uint32 {
	digest := sha256.Sum256(bytes)
	return binary.BigEndian.Uint32(digest[:4])
}

func measure(servers int, keys []string) {
	addresses := make([]string, servers)
	for place := range addresses {
		addresses[place] = address(place)
	}
	own, crc, sha := newRingpop(addresses), newGroupcache(addresses, nil), newGroupcache(addresses, cut)
	seen := 0
	looks := []func(string){
		func(key string) { owner, _ := own.Owner(key); seen += int(owner.Port()) },
		func(key string) { seen += len(crc.Get(key)) },
		func(key string) { seen += len(sha.Get(key)) },
	}
	var least [3]float64
	for round := 0; round < rounds; round++ {
		for i, look := range looks {
			if it := nanos(keys, look); round == 0 || it < least[i] {
				least[i] = it
			}
		}
	}
	fmt.Printf("go servers=%d", servers)
	for i, name := range []string{"ringpop", "groupcache_crc32", "groupcache_sha256"} {
		fmt.Printf(" %s=%.0f (%.2f)", name, least[i], least[i]/least[0])
	}
	fmt.Printf(" [%d]\n", seen)
}

func main() {
	keys := make([]string, 1<<15)
	for turn := range keys {
		keys[turn] = fmt.Sprintf("user:%019d", (uint64(turn)*0x9E3779B97F4A7C15)>>4)
	}
	for _, servers := range []int{10, 100, 1000} {
		measure(servers, keys)
	}
}
