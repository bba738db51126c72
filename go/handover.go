package ringpop

import (
	"bytes"
	"context"
	"encoding/json"
	"errors"
	"fmt"
	"io"
	"net/http"
	"net/netip"
	"net/url"
	"strconv"
	"strings"
	"sync"
	"syscall"
	"time"
)

const (
	// How many nodes are asked for the state of a key, and how often a request goes on from service to service, at most.
	mostAsked, mostHops = 3, 2
	// How many sweeps in a row have to find nothing.
	enough = 2
	// For how long a service that takes connections and does not answer may only be slow, and for how long one that is gone is not asked.
	slow, spared = 10 * time.Second, 5 * time.Second
)

// peers asks the services of other nodes.
var peers = &http.Client{Transport: keeping(), Timeout: 3 * time.Second}

// A Kept is what a service keeps of one key. A HandOver calls all that it has by one goroutine at a time, so no method should wait for anything.
type Kept interface {
	// Do does a client's request, and is the answer. An error is answered with status 400 and its text.
	Do(body []byte) ([]byte, error)
	// State is what Merge takes elsewhere, in JSON: the same bytes as long as nothing changes, and none if there is nothing to hand over. The body of
	// a request has to have room for it, 131,072 bytes.
	State() []byte
	// Merge adds the state that another node has. To merge it twice is to merge it once.
	Merge(state []byte) error
}

// A HandOver is the HTTP handler of a service that keeps state by key where the key's owner is. It hands the state over when the ring changes, as
// docs/HANDOVER.md says: a key's first request takes its state from the nodes that may hold it, requests for a key that another node took go on to
// that one, and what another node owns is pushed there. Set the fields, serve it, and call Run in a goroutine of its own, all before the agent starts.
type HandOver struct {
	// Client asks the agent of this node.
	Client *Client
	// Own is the address of this node.
	Own netip.AddrPort
	// Service is the URL of a node's service, as http://10.0.0.2:8146. There each node has a HandOver, or what does the same.
	Service func(node netip.AddrPort) string
	// New makes what is kept of a key, with nothing in it.
	New func(key string) Kept

	lock   sync.Mutex // of all that follows
	now    *Ring
	held   map[string]*holding
	dead   map[netip.AddrPort]time.Time // when a node is asked again whose service is gone
	silent map[netip.AddrPort]time.Time // since when a node's service has not answered
	left   int                          // how many keys of other nodes the last sweep found
	empty  int                          // how many sweeps in a row found none
	all    *Ring                        // of the members with this digest, as if each served
	digest string
}

// What is held of a key.
type holding struct {
	kept    Kept
	isWhole bool           // whether the nodes that may hold the key were asked
	taker   netip.AddrPort // the node that took the key since
}

// What services tell one another.
type word struct {
	Key   string          `json:"key,omitempty"`
	Merge json.RawMessage `json:"merge,omitempty"`
	By    *netip.AddrPort `json:"by,omitempty"`
	At    *netip.AddrPort `json:"at,omitempty"`
}

func (told word) answer() *Answer {
	text, err := json.Marshal(told)
	if err != nil {
		return failed(http.StatusInternalServerError, err)
	}
	return &Answer{Status: http.StatusOK, Body: text}
}

func failed(status int, err error) *Answer {
	return &Answer{Status: status, Body: []byte(err.Error() + "\n")}
}

// isNamed is whether an agent refused with a word.
func isNamed(err error, name string) bool {
	var refused *AgentError
	return errors.As(err, &refused) && refused.Name == name
}

// ServeHTTP answers what the agent passes on, `POST /keys/KEY`, and the services of other nodes; 404 is the answer to any other path.
func (over *HandOver) ServeHTTP(to http.ResponseWriter, from *http.Request) {
	body, err := io.ReadAll(http.MaxBytesReader(to, from.Body, mostBody))
	if err != nil {
		http.Error(to, err.Error(), http.StatusBadRequest)
		return
	}
	answer := over.respond(from, body)
	to.WriteHeader(answer.Status)
	to.Write(answer.Body)
}

// Run follows the ring, and sweeps on each change and each second until two sweeps in a row found nothing, until the context ends.
func (over *HandOver) Run(ctx context.Context) {
	noted := make(chan struct{}, 1)
	go func() {
		for ring := range over.Client.Watch(ctx) {
			over.note(ring)
			select {
			case noted <- struct{}{}:
			default:
			}
		}
	}()
	tick := time.NewTicker(pause)
	defer tick.Stop()
	for ctx.Err() == nil {
		over.sweep(ctx)
		select {
		case <-noted:
		case <-tick.C:
		case <-ctx.Done():
		}
	}
}

// Leave has the node leave the ring, and returns when two sweeps in a row found nothing; meanwhile Run has to run. Then the agent may be stopped, and
// after it the service, or the service may be restarted and Client.Rejoin called. The context's error says how many keys are left.
func (over *HandOver) Leave(ctx context.Context) error {
	if err := over.Client.Leave(ctx); err != nil && !isNamed(err, "already-left") {
		return err
	}
	for !over.isGone() {
		select {
		case <-time.After(pause / 10):
		case <-ctx.Done():
			return fmt.Errorf("%w: %d keys are left", ctx.Err(), over.Left())
		}
	}
	return nil
}

// Left is how many keys the last sweep found that another node owns.
func (over *HandOver) Left() int {
	over.lock.Lock()
	defer over.lock.Unlock()
	return over.left
}

// isGone is whether the node has left the ring, and sweeps found nothing since.
func (over *HandOver) isGone() bool {
	over.lock.Lock()
	defer over.lock.Unlock()
	if over.now == nil || over.empty < enough {
		return false
	}
	for _, member := range over.now.Serving() {
		if member.Address == over.Own {
			return false
		}
	}
	return true
}

// of is what is held of a key, with the lock.
func (over *HandOver) of(key string) *holding {
	if over.held == nil {
		over.held = map[string]*holding{}
		over.dead, over.silent = map[netip.AddrPort]time.Time{}, map[netip.AddrPort]time.Time{}
	}
	if over.held[key] == nil {
		over.held[key] = &holding{kept: over.New(key)}
	}
	return over.held[key]
}

// changing is what is held of a key, to which something is added, with the lock: if it is another node's, it has to be swept.
func (over *HandOver) changing(key string) *holding {
	if over.isElsewhere(key) {
		over.empty = 0
	}
	return over.of(key)
}

// isElsewhere is whether another node owns a key by the ring that was noted last, with the lock.
func (over *HandOver) isElsewhere(key string) bool {
	if over.now == nil {
		return false
	}
	owner, _ := over.now.Owner(key)
	return owner != over.Own
}

// respond is the answer to a client, or to the service of another node.
func (over *HandOver) respond(from *http.Request, body []byte) *Answer {
	var told word
	isTold := json.Unmarshal(body, &told) == nil && told.By != nil
	key := strings.TrimPrefix(from.URL.Path, "/keys/")
	switch {
	case from.URL.Path == "/take" && isTold:
		return over.give(told.Key, *told.By)
	case key == from.URL.Path:
		return failed(http.StatusNotFound, errors.New("nothing at this path"))
	case isTold && told.Merge != nil:
		return over.merge(key, told.Merge, *told.By)
	}
	hops, _ := strconv.Atoi(from.URL.Query().Get("hops"))
	return over.answer(from.Context(), key, body, hops)
}

// give is what is kept of a key, for the node that takes it: from here on requests go on to that one.
func (over *HandOver) give(key string, by netip.AddrPort) *Answer {
	over.lock.Lock()
	defer over.lock.Unlock()
	it := over.of(key)
	it.taker = by
	return word{Merge: it.kept.State()}.answer()
}

// merge adds what another node pushed.
func (over *HandOver) merge(key string, state []byte, by netip.AddrPort) *Answer {
	over.lock.Lock()
	defer over.lock.Unlock()
	it := over.changing(key)
	if err := it.kept.Merge(state); err != nil {
		return failed(http.StatusBadRequest, err)
	}
	if it.taker == by {
		it.taker, it.isWhole = netip.AddrPort{}, false
	}
	return word{At: &over.Own}.answer()
}

// answer has a client's request done where the key was taken to, or else here, once the key is whole.
func (over *HandOver) answer(ctx context.Context, key string, body []byte, hops int) *Answer {
	for {
		taker, isWhole := over.look(key)
		var err error
		if taker.IsValid() && hops < mostHops {
			var answer *Answer
			path := fmt.Sprintf("/keys/%s?hops=%d", url.PathEscape(key), hops+1)
			if answer, err = over.ask(ctx, taker, path, body); answer != nil {
				return answer
			}
		} else if !isWhole {
			err = over.fetch(ctx, key)
		}
		if err != nil {
			return failed(http.StatusServiceUnavailable, err)
		}
		if answer := over.do(key, taker, body); answer != nil {
			return answer
		}
	}
}

// ask is the answer of another node's service, and nil if that is gone. The error is that it may only be slow: then it may have what was acknowledged.
func (over *HandOver) ask(ctx context.Context, node netip.AddrPort, path string, body []byte) (*Answer, error) {
	answer, err := (&Client{over.Service(node), peers}).ask(ctx, http.MethodPost, path, body)
	over.lock.Lock()
	defer over.lock.Unlock()
	if err == nil {
		delete(over.silent, node)
	}
	if err == nil || ctx.Err() != nil {
		return answer, err
	}
	now := time.Now()
	if _, known := over.silent[node]; !known {
		over.silent[node] = now
	}
	if !errors.Is(err, syscall.ECONNREFUSED) && now.Sub(over.silent[node]) < slow {
		return nil, err
	}
	over.dead[node] = now.Add(spared)
	return nil, nil
}

// look is which node took a key, and whether the nodes that may hold it were asked.
func (over *HandOver) look(key string) (taker netip.AddrPort, isWhole bool) {
	over.lock.Lock()
	defer over.lock.Unlock()
	it := over.of(key)
	return it.taker, it.isWhole
}

// do does a request here, and forgets who took the key; it answers nil if the key has another taker by now, or is not whole.
func (over *HandOver) do(key string, taker netip.AddrPort, body []byte) *Answer {
	over.lock.Lock()
	defer over.lock.Unlock()
	it := over.changing(key)
	if it.taker != taker || !taker.IsValid() && !it.isWhole {
		return nil
	}
	it.taker = netip.AddrPort{}
	text, err := it.kept.Do(body)
	if err != nil {
		return failed(http.StatusBadRequest, err)
	}
	return &Answer{Status: http.StatusOK, Body: text}
}

// fetch takes a key's state from the nodes that may hold it: those that would be its first owners if all members served.
func (over *HandOver) fetch(ctx context.Context, key string) error {
	ring, err := over.everybody(ctx)
	if err != nil {
		return err
	}
	body, _ := json.Marshal(word{Key: key, By: &over.Own})
	states := []json.RawMessage{}
	for _, node := range ring.Owners(key, mostAsked) {
		if node == over.Own || over.isSpared(node) {
			continue
		}
		answer, err := over.ask(ctx, node, "/take", body)
		if err != nil {
			return err
		}
		var told word
		if answer != nil && parse(answer, &told) == nil && told.Merge != nil {
			states = append(states, told.Merge)
		}
	}
	over.lock.Lock()
	defer over.lock.Unlock()
	it := over.changing(key)
	for _, state := range states {
		if err := it.kept.Merge(state); err != nil {
			return err
		}
	}
	it.isWhole = true
	return nil
}

// everybody is the ring that there would be if each member served, also one that left or failed. It is kept until the members change.
func (over *HandOver) everybody(ctx context.Context) (*Ring, error) {
	var found told
	if err := over.Client.read(ctx, http.MethodGet, "/members", nil, &found); err != nil {
		return nil, err
	}
	over.lock.Lock()
	defer over.lock.Unlock()
	if over.all != nil && over.digest == found.Digest {
		return over.all, nil
	}
	for i := range found.Members {
		found.Members[i].Status = "alive"
	}
	all, err := ringOf(found.Members, found.Replicas, found.Address)
	if err == nil {
		over.all, over.digest = all, found.Digest
	}
	return all, err
}

func (over *HandOver) isSpared(node netip.AddrPort) bool {
	over.lock.Lock()
	defer over.lock.Unlock()
	return time.Now().Before(over.dead[node])
}

// note takes note of a ring. A key that this node owns again is asked for again.
func (over *HandOver) note(ring *Ring) {
	over.lock.Lock()
	defer over.lock.Unlock()
	over.now, over.empty = ring, 0
	for key, it := range over.held {
		if it.taker.IsValid() && !over.isElsewhere(key) {
			it.taker, it.isWhole = netip.AddrPort{}, false
		}
	}
}

// sweep pushes what another node owns to it, and passes over the other keys of a node that takes none.
func (over *HandOver) sweep(ctx context.Context) {
	silent := map[netip.AddrPort]bool{}
	for key, owner := range over.away() {
		if !silent[owner] && ctx.Err() == nil {
			err := over.push(ctx, key)
			silent[owner] = err != nil && !isNamed(err, "long-body")
		}
	}
}

// away is the owners of the held keys that another node owns. Those of which nothing is kept are forgotten.
func (over *HandOver) away() map[string]netip.AddrPort {
	over.lock.Lock()
	defer over.lock.Unlock()
	found := map[string]netip.AddrPort{}
	if over.now == nil || over.empty == enough {
		return found
	}
	for key, it := range over.held {
		if !over.isElsewhere(key) {
			continue
		}
		if len(it.kept.State()) == 0 {
			delete(over.held, key)
		} else {
			found[key], _ = over.now.Owner(key)
		}
	}
	over.left, over.empty = len(found), over.empty+1
	if over.left > 0 {
		over.empty = 0
	}
	return found
}

// push has the owner of a key merge its state, and forgets the key if that is another node, and its state still the same.
func (over *HandOver) push(ctx context.Context, key string) error {
	state := over.state(key)
	if len(state) == 0 {
		return nil
	}
	body, err := json.Marshal(word{Merge: state, By: &over.Own})
	if err != nil {
		return err
	}
	answer, err := over.Client.Request(ctx, key, body)
	if err != nil {
		return err
	}
	var told word
	if err := parse(answer, &told); err != nil {
		return err
	}
	if told.At == nil {
		return ErrAnswer
	}
	over.lock.Lock()
	defer over.lock.Unlock()
	if it := over.held[key]; it != nil && *told.At != over.Own && bytes.Equal(it.kept.State(), state) {
		delete(over.held, key)
	}
	return nil
}

// state is what is kept of a key, and none if it was forgotten.
func (over *HandOver) state(key string) []byte {
	over.lock.Lock()
	defer over.lock.Unlock()
	if it := over.held[key]; it != nil {
		return it.kept.State()
	}
	return nil
}
