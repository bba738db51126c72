// Rings of groupcache (package consistenthash) of 10, 100, 1,000 and 4,096 servers of 100 points, by its own CRC-32 and by SHA-256 cut
// to the 32 bits that it takes: nanoseconds an owner, microseconds an add, milliseconds a build, each the least of its
// rounds. It has no removal and no next owners.
package main

import (
	"crypto/sha256"
	"encoding/binary"
	"fmt"
	"sort"
	"time"

	"github.com/golang/groupcache/consistenthash"
)

const points = 100

func address(place int) string { return fmt.Sprintf("10.0.%d.%d:7946", place/256, place%256) }

func least(values []float64) float64 {
	sort.Float64s(values)
	return values[0]
}

func measure(name string, hash consistenthash.Hash, servers int, keys []string) {
	addresses := make([]string, servers)
	for place := range addresses {
		addresses[place] = address(place)
	}
	var ring *consistenthash.Map
	var builds, owners, adds []float64
	for round := 0; round < 3; round++ {
		start := time.Now()
		ring = consistenthash.New(points, hash)
		ring.Add(addresses...)
		builds = append(builds, float64(time.Since(start).Nanoseconds())/1e6)
	}
	bytes := 0
	for round := 0; round < 7; round++ {
		start := time.Now()
		for _, key := range keys {
			bytes += len(ring.Get(key))
		}
		owners = append(owners, float64(time.Since(start).Nanoseconds())/float64(len(keys)))
	}
	// One server more sorts all points again.
	for round := 0; round < 5; round++ {
		start := time.Now()
		ring.Add(address(servers + round))
		adds = append(adds, float64(time.Since(start).Nanoseconds())/1e3)
	}
	fmt.Printf("groupcache %s servers=%d build_ms=%.2f owner_ns=%.1f add_us=%.1f (%d)\n",
		name, servers, least(builds), least(owners), least(adds), bytes)
}

func main() {
	keys := make([]string, 1<<16)
	for turn := range keys {
		keys[turn] = fmt.Sprintf("user:%019d", (uint64(turn)*0x9E3779B97F4A7C15)>>4)
	}
	cut := func(bytes []byte) uint32 {
		digest := sha256.Sum256(bytes)
		return binary.BigEndian.Uint32(digest[:4])
	}
	for _, servers := range []int{10, 100, 1000, 4096} {
		measure("crc32", nil, servers, keys)
		measure("sha256", cut, servers, keys)
	}
}
