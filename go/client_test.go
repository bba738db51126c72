package ringpop

import (
	"context"
	"encoding/json"
	"errors"
	"fmt"
	"net/http"
	"net/http/httptest"
	"os"
	"strings"
	"testing"
	"time"
)

// clients are those of the agents that scripts/rings runs.
func clients(t *testing.T) []*Client {
	t.Helper()
	agents := os.Getenv("RINGPOP_AGENTS")
	if agents == "" {
		t.Skip("RINGPOP_AGENTS names no agents: scripts/rings runs some")
	}
	found := []*Client{}
	for _, agent := range strings.Fields(agents) {
		client, err := NewClient("http://" + agent)
		if err != nil {
			t.Fatal(err)
		}
		found = append(found, client)
	}
	return found
}

func limited(t *testing.T) context.Context {
	ctx, stop := context.WithTimeout(context.Background(), time.Minute)
	t.Cleanup(stop)
	return ctx
}

func TestTheOwnerAnswers(t *testing.T) {
	ctx, key := limited(t), "trip 42/ü%"
	for _, client := range clients(t) {
		answer, err := client.Request(ctx, key, []byte("hello"))
		if err != nil || answer.Status != http.StatusOK || !strings.HasPrefix(string(answer.Body), key+": ") {
			t.Fatal(answer, err)
		}
		if owner, err := client.Owner(ctx, key); err != nil || owner != answer.Owner {
			t.Fatal(owner, answer.Owner, err)
		}
		if answer, err := client.Request(ctx, key, []byte("status 418")); err != nil || answer.Status != 418 {
			t.Fatal(answer, err)
		}
	}
}

func TestOwnersOfManyKeys(t *testing.T) {
	ctx, found, keys := limited(t), clients(t), []string{}
	for i := 0; i < 5000; i++ {
		keys = append(keys, fmt.Sprint("trip-", i))
	}
	ring, err := RingFromAgent(ctx, found[0].url)
	if err != nil {
		t.Fatal(err)
	}
	owners, err := found[1].Owners(ctx, keys, 2)
	if err != nil || len(owners) != len(keys) {
		t.Fatal(len(owners), err)
	}
	for i, key := range keys {
		if fmt.Sprint(owners[i]) != fmt.Sprint(ring.Owners(key, 2)) {
			t.Fatalf("%s: %v", key, owners[i])
		}
	}
}

func TestWatchSeesANodeLeaveAndReturn(t *testing.T) {
	ctx, found := limited(t), clients(t)
	watching, stop := context.WithCancel(ctx)
	rings := found[0].Watch(watching)
	first := <-rings
	if err := found[2].Leave(ctx); err != nil || len(first.Serving()) != 3 {
		t.Fatal(first, err)
	}
	if second := <-rings; len(second.Serving()) != 2 || second.Equal(first) {
		t.Fatal(second)
	}
	var refused *AgentError
	if err := found[2].Leave(ctx); !errors.Is(err, ErrRefused) || !errors.As(err, &refused) || refused.Status != http.StatusConflict {
		t.Fatal(err)
	}
	if err := found[2].Rejoin(ctx); err != nil {
		t.Fatal(err)
	}
	if third := <-rings; !third.Equal(first) {
		t.Fatal(third)
	}
	stop()
	if ring, open := <-rings; open {
		t.Fatal(ring)
	}
}

func TestRefused(t *testing.T) {
	ctx, client := limited(t), clients(t)[0]
	_, err := client.Request(ctx, "", nil)
	if wanted := (&AgentError{400, "bad key: not 1 to 1024 bytes of UTF-8", "bad-key", 0}); !errors.Is(err, wanted) {
		t.Fatal(err)
	}
	for _, size := range []int{131_073, mostBody + 1} {
		var refused *AgentError
		if _, err := client.Request(ctx, "trip", make([]byte, size)); !errors.As(err, &refused) || refused.Status != 413 || refused.Name != "long-body" {
			t.Fatal(size, err)
		}
	}
	if _, err := client.Owners(ctx, []string{"a", "\xff"}, 1); !errors.Is(err, ErrKey) {
		t.Fatal(err)
	}
}

// clientOf is a client of a server that answers so.
func clientOf(t *testing.T, answer http.HandlerFunc) *Client {
	t.Helper()
	server := httptest.NewServer(answer)
	t.Cleanup(server.Close)
	client, err := NewClient(server.URL)
	if err != nil {
		t.Fatal(err)
	}
	return client
}

// refuse answers as an agent that refuses.
func refuse(to http.ResponseWriter, status int, name, line string) {
	to.Header().Set("X-Ringpop-Error", name)
	http.Error(to, line, status)
}

// A refusal keeps what the answer has: its line or else the words of its status, its name, and when to ask again.
func TestWhatAnotherServerSays(t *testing.T) {
	const line = "the owner's application accepts no connection"
	client := clientOf(t, func(to http.ResponseWriter, from *http.Request) {
		switch from.URL.Path {
		case "/owner/trip":
			to.WriteHeader(http.StatusRequestEntityTooLarge)
		case "/keys/down":
			to.Header().Set("X-Ringpop-Owner", "10.0.0.1:7946")
			refuse(to, http.StatusBadGateway, "application-not-accepting", line)
		case "/keys/bad":
			to.Header().Set("X-Ringpop-Owner", "10.0.0.1:7946")
			http.Error(to, line, http.StatusBadGateway)
		default:
			to.Header().Set("Retry-After", "1")
			refuse(to, http.StatusServiceUnavailable, "no-member-serves", nobody)
		}
	})
	if _, err := client.Request(limited(t), "down", nil); !errors.Is(err, &AgentError{502, line, "application-not-accepting", 0}) {
		t.Fatal(err)
	}
	if answer, err := client.Request(limited(t), "bad", nil); err != nil || answer.Status != http.StatusBadGateway { // (of the service)
		t.Fatal(answer, err)
	}
	_, err := client.Request(limited(t), "trip", nil)
	if !errors.Is(err, &AgentError{503, nobody, "no-member-serves", time.Second}) || !errors.Is(err, ErrNobody) {
		t.Fatal(err)
	}
	if _, err = client.Owner(limited(t), "trip"); !errors.Is(err, &AgentError{413, "Request Entity Too Large", "", 0}) {
		t.Fatal(err)
	}
}

// tell answers what an agent tells of a ring, and of its members.
func tell(to http.ResponseWriter, replicas int, addresses ...string) {
	members := make([]map[string]any, len(addresses))
	for i, address := range addresses {
		members[i] = map[string]any{"address": address, "weight": 1}
	}
	own := addresses[0]
	json.NewEncoder(to).Encode(map[string]any{"own": own, "address": own, "replicas": replicas, "serving": members, "members": members})
}

// The members that the agent holds before are itself alone.
func TestARingWaitsUntilTheHostsWereAsked(t *testing.T) {
	client := clientOf(t, func(to http.ResponseWriter, from *http.Request) {
		if from.URL.Path == "/members" {
			tell(to, 100, "10.0.0.1:7946")
			return
		}
		refuse(to, http.StatusServiceUnavailable, "not-joined", "no host has answered")
	})
	wanted := &AgentError{503, "no host has answered", "not-joined", 0}
	if ring, err := client.Ring(limited(t)); !errors.Is(err, wanted) {
		t.Fatal(ring, err)
	}
	if ring, err := RingFromAgent(limited(t), client.url); !errors.Is(err, wanted) {
		t.Fatal(ring, err)
	}
	if members, err := client.Members(limited(t)); err != nil || len(members) != 1 {
		t.Fatal(members, err)
	}
	older := clientOf(t, func(to http.ResponseWriter, from *http.Request) {
		if from.URL.Path == "/members" {
			tell(to, 100, "10.0.0.1:7946", "10.0.0.2:7946")
			return
		}
		refuse(to, http.StatusNotFound, "not-found", "nothing at this path")
	})
	if ring, err := older.Ring(limited(t)); err != nil || ring.Len() != 2 {
		t.Fatal(ring, err)
	}
}

// And it asks for the whole ring then: all agents may have been started again with other replicas, which the digest does not tell.
func TestWatchGoesOnAfterEachFailure(t *testing.T) {
	asked, replicas, both := 0, 100, []string{"10.0.0.1:7946", "10.0.0.2:7946"}
	client := clientOf(t, func(to http.ResponseWriter, from *http.Request) {
		asked++
		switch isQuestion := from.URL.RawQuery != ""; {
		case asked == 1:
			refuse(to, http.StatusServiceUnavailable, "not-joined", "no host has answered")
		case asked == 2:
			to.Write([]byte("null"))
		case !isQuestion:
			tell(to, replicas, both...)
		case replicas == 100:
			replicas = 50
			to.WriteHeader(http.StatusInternalServerError)
		case asked < 10:
			to.WriteHeader(http.StatusNotModified)
		default:
			tell(to, replicas, both[0])
		}
	})
	rings := client.Watch(limited(t))
	for _, wanted := range []int{100, 50} {
		if ring := <-rings; ring.Replicas() != wanted || len(ring.Serving()) != 2 {
			t.Fatal(ring)
		}
	}
}

func TestURLs(t *testing.T) {
	bad := []string{"127.0.0.1:7980", "https://a", "http://", "http://:7980", "http://a/x", "http://a?q", "http://a:0", "http://a:99999", "http://a:x", "http://a b"}
	for _, url := range bad {
		if client, err := NewClient(url); !errors.Is(err, ErrURL) {
			t.Error(url, client, err)
		}
	}
	client, err := NewClient("http://10.0.0.1")
	if err != nil || client.HTTP.Transport.(*http.Transport).Proxy != nil {
		t.Fatal("it would ask a proxy", err)
	}
}

func TestNoAgent(t *testing.T) {
	client, err := NewClient("http://127.0.0.1:9")
	if err != nil {
		t.Fatal(err)
	}
	if _, err := client.Owner(limited(t), "trip-42"); !errors.Is(err, ErrUnreachable) {
		t.Fatal(err)
	}
	ctx, stop := context.WithCancel(context.Background())
	stop()
	if _, err := client.Owner(ctx, "trip-42"); !errors.Is(err, context.Canceled) {
		t.Fatal(err)
	}
}
