// Package ringpop names the owners of a cluster's keys: in process by a Ring, or by the agent that a Client asks.
//
//	client, err := ringpop.NewClient("http://127.0.0.1:7980") // an agent, `ringpop agent --http 127.0.0.1:7980 ..`
//	answer, err := client.Request(ctx, "trip-42", []byte("hello")) // of the service whose node owns the key
//	ring, err := client.Ring(ctx)
//	owner, found := ring.Owner("trip-42") // without asking anyone
//	for ring := range client.Watch(ctx) { .. } // now, and again after each change of the ring
//
// A HandOver is the handler of a service whose state follows the owners of its keys.
//
// It is written in Go alone: it calls no C, and needs nothing built.
package ringpop

import (
	"crypto/sha256"
	"encoding/binary"
	"encoding/hex"
	"fmt"
	"net/netip"
	"sort"
	"strconv"
	"strings"
)

const (
	// StandardReplicas is how many points a member has for each unit of its weight, if a cluster sets no other number.
	StandardReplicas = 100
	// MaxMembers of a cluster.
	MaxMembers = 4096
)

// A Member of the cluster. It serves, and so may own keys, while it is alive or suspect.
type Member struct {
	Address     netip.AddrPort
	Weight      int
	Status      string
	Incarnation uint64
}

// Serves is whether the member may own keys.
func (member Member) Serves() bool { return member.Status == "alive" || member.Status == "suspect" }

// A Move is a key whose owner is another one than before. The zero AddrPort stands for no owner: no member served.
type Move struct {
	Key           string
	Before, After netip.AddrPort
}

// A point of a server on the circle.
type point struct {
	hash   uint64
	server int
}

// A Ring names the owners of keys among members that do not change: for other members make another ring. It names the same owners, in the
// same order, as each node of a cluster with these members and this number of replicas, and as `ringpop owner`. Any number of goroutines may
// use it at a time, without waiting for one another. A nil ring has no owner of any key, and equals nil alone; its other methods panic.
type Ring struct {
	members  []Member
	serving  []Member
	replicas int
	own      netip.AddrPort
	points   []point
}

// NewRing makes the ring of members with different addresses; replicas is that of the cluster, 1 to 1,000. It answers ErrReplicas,
// ErrTooManyMembers, and ErrMember.
func NewRing(members []Member, replicas int) (*Ring, error) {
	if replicas < 1 || replicas > 1000 {
		return nil, fmt.Errorf("%w: it is %d", ErrReplicas, replicas)
	}
	if len(members) > MaxMembers {
		return nil, fmt.Errorf("%w: there are %d", ErrTooManyMembers, len(members))
	}
	ring := &Ring{members: append([]Member(nil), members...), replicas: replicas}
	sort.Slice(ring.members, func(i, j int) bool {
		one, other := ring.members[i].Address, ring.members[j].Address
		order := one.Addr().Compare(other.Addr())
		return order < 0 || order == 0 && one.Port() < other.Port()
	})
	for i, member := range ring.members {
		if _, known := ranks[member.Status]; !known || !isAddress(member.Address) || member.Weight < 1 || member.Weight > 8 {
			return nil, fmt.Errorf("%w: it needs an IPv4 address with a port, a weight of 1 to 8 and a status: %+v", ErrMember, member)
		}
		if i > 0 && member.Address == ring.members[i-1].Address {
			return nil, fmt.Errorf("%w: two have the address %s", ErrMember, member.Address)
		}
		if member.Serves() {
			ring.place(member)
		}
	}
	sort.Slice(ring.points, func(i, j int) bool {
		one, other := ring.points[i], ring.points[j]
		return one.hash < other.hash || one.hash == other.hash && one.server < other.server
	})
	return ring, nil
}

// place gives a server its points on the circle. At one hash the lower address comes first, which is the lower place among the servers.
func (ring *Ring) place(member Member) {
	text := []byte(member.Address.String())
	for i := 0; i < ring.replicas*member.Weight; i++ {
		ring.points = append(ring.points, point{hashOf(strconv.AppendInt(text, int64(i), 10)), len(ring.serving)})
	}
	ring.serving = append(ring.serving, member)
}

// hashOf is the first eight bytes of the SHA-256, the first of them the greatest.
func hashOf(text []byte) uint64 {
	sum := sha256.Sum256(text)
	return binary.BigEndian.Uint64(sum[:8])
}

// at is the place of the first point at or after the key's hash, wrapping around. Some member has to serve.
func (ring *Ring) at(key string) int {
	hash := hashOf([]byte(key))
	place := sort.Search(len(ring.points), func(i int) bool { return ring.points[i].hash >= hash })
	return place % len(ring.points)
}

// Owner is the address of the key's owner, and whether a member serves.
func (ring *Ring) Owner(key string) (netip.AddrPort, bool) {
	if ring == nil || len(ring.points) == 0 {
		return netip.AddrPort{}, false
	}
	return ring.serving[ring.points[ring.at(key)].server].Address, true
}

// Owners is the first n owners of the key, all different, the owner first, or all that serve if those are fewer. A negative n counts as 0.
func (ring *Ring) Owners(key string, n int) []netip.AddrPort {
	owners := []netip.AddrPort{}
	if ring == nil || len(ring.serving) == 0 || n < 1 {
		return owners
	}
	if n > len(ring.serving) {
		n = len(ring.serving)
	}
	named := make([]bool, len(ring.serving))
	for place := ring.at(key); len(owners) < n; place = (place + 1) % len(ring.points) {
		if server := ring.points[place].server; !named[server] {
			named[server] = true
			owners = append(owners, ring.serving[server].Address)
		}
	}
	return owners
}

// Moved is those keys that have another owner here than in another ring, such as the ring before: in their order, with both owners.
func (ring *Ring) Moved(keys []string, other *Ring) []Move {
	moves := []Move{}
	for _, key := range keys {
		before, _ := other.Owner(key)
		after, _ := ring.Owner(key)
		if before != after {
			moves = append(moves, Move{key, before, after})
		}
	}
	return moves
}

// Members are those that the ring was made of, ascending by address, those that do not serve included.
func (ring *Ring) Members() []Member { return append([]Member(nil), ring.members...) }

// Serving are the members that serve, ascending by address.
func (ring *Ring) Serving() []Member { return append([]Member(nil), ring.serving...) }

// Replicas is how many points a member has for each unit of its weight.
func (ring *Ring) Replicas() int { return ring.replicas }

// Own is the address of the node whose members they are, and the zero AddrPort if it is not known.
func (ring *Ring) Own() netip.AddrPort { return ring.own }

// Len is how many members the ring was made of, those that do not serve included.
func (ring *Ring) Len() int { return len(ring.members) }

// Digest is the ring's digest in 64 hexadecimal digits, as `GET /ring` of an agent gives it: equal digests, equal serving members.
func (ring *Ring) Digest() string {
	parts := make([]string, len(ring.serving))
	for i, member := range ring.serving {
		parts[i] = member.Address.String() + "alive0"
		if member.Weight > 1 {
			parts[i] += fmt.Sprintf("*%d", member.Weight)
		}
	}
	sum := sha256.Sum256([]byte(strings.Join(parts, ";")))
	return hex.EncodeToString(sum[:])
}

// Equal is whether two rings have the same serving members, weights and replicas, so that they name the same owners.
func (ring *Ring) Equal(other *Ring) bool {
	if ring == nil || other == nil {
		return ring == other
	}
	return ring.replicas == other.replicas && ring.Digest() == other.Digest()
}

// String says how many members a ring has, and the beginning of its digest.
func (ring *Ring) String() string {
	return fmt.Sprintf("ring of %d members, %d serving, %d replicas, digest %s", len(ring.members), len(ring.serving), ring.replicas, ring.Digest()[:8])
}
