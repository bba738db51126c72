package ringpop

import (
	"context"
	"encoding/json"
	"errors"
	"fmt"
	"io"
	"net/http"
	"net/http/httptest"
	"net/netip"
	"strings"
	"sync"
	"testing"
	"time"
)

// A tally is a set of words: each request adds its body, and the answer is how many there are.
type tally map[string]bool

func (it tally) Do(body []byte) ([]byte, error) {
	if string(body) == "bad" {
		return nil, errors.New("a bad word")
	}
	it[string(body)] = true
	return []byte(fmt.Sprint(len(it))), nil
}

func (it tally) State() []byte {
	if len(it) == 0 {
		return nil
	}
	text, _ := json.Marshal(it)
	return text
}

func (it tally) Merge(state []byte) error { return json.Unmarshal(state, &it) }

// A town has nodes with a service and an agent each. It plays the agents, all of which know of a change at once.
type town struct {
	lock    sync.Mutex
	members []Member
	urls    sync.Map // of the services, by node
}

func (all *town) ring() *Ring {
	all.lock.Lock()
	defer all.lock.Unlock()
	ring, _ := NewRing(all.members, StandardReplicas)
	return ring
}

// join adds a node, which runs until the test ends.
func (all *town) join(t *testing.T) *HandOver {
	own := netip.AddrPortFrom(netip.AddrFrom4([4]byte{10, 0, 0, byte(len(all.members) + 1)}), 7946)
	agent := httptest.NewServer(http.HandlerFunc(func(to http.ResponseWriter, from *http.Request) { all.agent(own, to, from) }))
	client, err := NewClient(agent.URL)
	if err != nil {
		t.Fatal(err)
	}
	over := &HandOver{Client: client, Own: own, Service: all.service, New: func(string) Kept { return tally{} }}
	service := httptest.NewServer(over)
	all.urls.Store(own, service.URL)
	ctx, stop := context.WithCancel(context.Background())
	for _, end := range []func(){agent.Close, service.Close, stop} {
		t.Cleanup(end)
	}
	go over.Run(ctx)
	all.lock.Lock()
	defer all.lock.Unlock()
	all.members = append(all.members, Member{own, 1, "alive", 1})
	return over
}

func (all *town) service(node netip.AddrPort) string {
	url, _ := all.urls.Load(node)
	return url.(string)
}

// agent answers for the agent of a node.
func (all *town) agent(own netip.AddrPort, to http.ResponseWriter, from *http.Request) {
	ring := all.ring()
	switch path := from.URL.Path; {
	case path == "/leave":
		all.lock.Lock()
		defer all.lock.Unlock()
		for i := range all.members {
			if all.members[i].Address == own {
				all.members[i].Status = "leave"
			}
		}
	case path == "/ring":
		for ring.Digest() == from.URL.Query().Get("after") && from.Context().Err() == nil {
			time.Sleep(10 * time.Millisecond)
			ring = all.ring()
		}
		json.NewEncoder(to).Encode(map[string]any{"own": own, "replicas": ring.Replicas(), "serving": ring.Serving()})
	case path == "/members":
		json.NewEncoder(to).Encode(map[string]any{"address": own, "digest": ring.String(), "replicas": ring.Replicas(), "members": ring.Members()})
	default:
		owner, found := ring.Owner(strings.TrimPrefix(path, "/keys/"))
		if !found {
			http.Error(to, nobody, http.StatusServiceUnavailable)
			return
		}
		to.Header().Set("X-Ringpop-Owner", owner.String())
		pass(to, all.service(owner)+from.URL.RequestURI(), from.Body)
	}
}

func pass(to http.ResponseWriter, url string, body io.Reader) {
	got, err := http.Post(url, "text/plain", body)
	if err != nil {
		http.Error(to, err.Error(), http.StatusBadGateway)
		return
	}
	defer got.Body.Close()
	to.WriteHeader(got.StatusCode)
	io.Copy(to, got.Body)
}

// asks has words added to keys, and each answer has to be this number.
func asks(t *testing.T, over *HandOver, keys []string, body string, wanted int) {
	t.Helper()
	for _, key := range keys {
		if answer, err := over.Client.Request(limited(t), key, []byte(body)); err != nil || string(answer.Body) != fmt.Sprint(wanted) {
			t.Fatalf("%s: %v, and not %d, %v", key, answer, wanted, err)
		}
	}
}

// holds is how many keys a node keeps some state of.
func (over *HandOver) holds() int {
	over.lock.Lock()
	defer over.lock.Unlock()
	count := 0
	for _, it := range over.held {
		if len(it.kept.State()) > 0 {
			count++
		}
	}
	return count
}

func within(t *testing.T, seconds int, isSo func() bool) {
	t.Helper()
	for i := 0; !isSo(); i++ {
		if i == 100*seconds {
			t.Fatalf("not within %d seconds", seconds)
		}
		time.Sleep(10 * time.Millisecond)
	}
}

func TestStateFollowsItsKeys(t *testing.T) {
	t.Parallel()
	all, keys := &town{}, []string{"/ü%?"}
	for i := 1; i < 100; i++ {
		keys = append(keys, fmt.Sprint("trip-", i))
	}
	one, two := all.join(t), all.join(t)
	asks(t, one, keys, "first", 1)
	three := all.join(t)
	asks(t, two, keys, "second", 2) // (before all is handed over)
	moved := len(all.ring().Moved(keys, made(t, change(1, 1, "alive"), change(2, 1, "alive"))))
	within(t, 10, func() bool { return three.holds() == moved && one.holds()+two.holds() == len(keys)-moved })
	if err := three.Leave(limited(t)); err != nil || moved == 0 || three.holds() != 0 || three.Left() != 0 {
		t.Fatal(moved, three.holds(), three.Left(), err)
	}
	asks(t, one, keys, "third", 3)
	if err := three.Leave(limited(t)); err != nil {
		t.Fatal(err)
	}
}

// Requests come to either of two services, as by older rings of other nodes: none is lost from sight, and in the end the owner has all.
func TestRequestsThatComeToANodeThatIsNoOwner(t *testing.T) {
	t.Parallel()
	all := &town{}
	one, two := all.join(t), all.join(t)
	key, others := "trip-1", map[netip.AddrPort]*HandOver{one.Own: two, two.Own: one}
	owner, _ := all.ring().Owner(key)
	for count := 1; count <= 40; count++ {
		over := []*HandOver{one, two, two}[count%3]
		answer, err := over.ask(limited(t), over.Own, "/keys/"+key, []byte(fmt.Sprint(count)))
		if err != nil || string(answer.Body) != fmt.Sprint(count) {
			t.Fatal(count, answer, err)
		}
		time.Sleep(time.Duration(count%4) * 50 * time.Millisecond)
	}
	within(t, 10, func() bool { return others[owner].holds() == 0 })
	asks(t, one, []string{key}, "last", 41)
}

func TestWhatAHandOverRefuses(t *testing.T) {
	t.Parallel()
	over := (&town{}).join(t)
	asks(t, over, []string{"trip-1"}, "first", 1)
	for _, ask := range []struct {
		path, body string
		status     int
	}{
		{"/keys/trip-1", "bad", 400},
		{"/keys/trip-1", `{"merge":["a"],"by":"10.0.0.9:7946"}`, 400},
		{"/keys/trip-1", `{"merge":{"first":true},"by":"10.0.0.9:7946"}`, 200},
		{"/moved", `{"by":"10.0.0.9:7946"}`, 404},
		{"/take", `{"key":"trip-1"}`, 404},
		{"/take", `{"key":"trip-1","by":"10.0.0.09:7946"}`, 404},
	} {
		if answer, err := over.ask(limited(t), over.Own, ask.path, []byte(ask.body)); err != nil || answer.Status != ask.status {
			t.Error(ask, answer, err)
		}
	}
	ctx, stop := context.WithTimeout(context.Background(), 2*time.Second)
	defer stop()
	if err := over.Leave(ctx); !errors.Is(err, context.DeadlineExceeded) || !strings.HasSuffix(err.Error(), "1 keys are left") {
		t.Fatal(err) // (nobody serves)
	}
}

// A node whose service is slow may have what was acknowledged, so nothing is answered without it; one whose service is gone has nothing.
func TestAServiceThatDoesNotAnswer(t *testing.T) {
	t.Parallel()
	all := &town{}
	one, two := all.join(t), all.join(t)
	key := "trip-1"
	for owner, _ := all.ring().Owner(key); owner != one.Own; owner, _ = all.ring().Owner(key) {
		key += "1"
	}
	hung := httptest.NewServer(http.HandlerFunc(func(http.ResponseWriter, *http.Request) { time.Sleep(4 * time.Second) }))
	defer hung.Close()
	all.urls.Store(two.Own, hung.URL)
	if answer, err := one.Client.Request(limited(t), key, []byte("first")); err != nil || answer.Status != http.StatusServiceUnavailable {
		t.Fatal(answer, err)
	}
	all.urls.Store(two.Own, "http://127.0.0.1:9")
	asks(t, one, []string{key}, "first", 1)
}
