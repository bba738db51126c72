package ringpop

import (
	"bytes"
	"context"
	"encoding/json"
	"errors"
	"fmt"
	"io"
	"net/http"
	"net/netip"
	"net/url"
	"strconv"
	"strings"
	"time"
	"unicode/utf8"
)

const (
	// The keys that an agent names the owners of in one request, at most.
	mostKeys = 4096
	// The bytes of JSON in one request for owners, at most; an agent takes 1,048,576.
	mostBytes = 1_000_000
	// The bytes of a body that an agent reads at most: it closes a connection over which more are announced. Of a key's request it takes 131,072.
	mostBody = 1 << 20
	// How long an agent holds a question of Watch, and how long Watch waits before it asks one again that does not answer.
	wait, pause = 30 * time.Second, time.Second
)

// A Client asks an agent over HTTP. Any number of goroutines may use it at a time.
type Client struct {
	url string
	// HTTP makes the requests. Its Timeout is zero: the context of a call limits it. After a crash a request for a key takes nine seconds.
	HTTP *http.Client
}

// An Answer is what the service of a key's owner answered.
type Answer struct {
	Status int
	Body   []byte
	Owner  netip.AddrPort
	Header http.Header
}

// NewClient makes a client of the agent at a URL, as http://127.0.0.1:7980. It answers ErrURL for another form.
func NewClient(where string) (*Client, error) {
	parts, err := url.Parse(where)
	if err != nil || parts.Scheme != "http" || parts.Hostname() == "" || !isPort(parts.Port()) || strings.Trim(parts.Path, "/") != "" || parts.RawQuery != "" {
		return nil, fmt.Errorf("%w, and not %q", ErrURL, where)
	}
	return &Client{"http://" + parts.Host, &http.Client{Transport: keeping()}}, nil
}

// isPort is whether the port of a URL is left out, or from 1 to 65,535.
func isPort(text string) bool {
	port, err := strconv.ParseUint(text, 10, 16)
	return text == "" || err == nil && port > 0
}

// keeping keeps connections for less than the 30 seconds after which an agent closes an idle one, and asks the agent itself, not a proxy.
func keeping() *http.Transport {
	kept := http.DefaultTransport.(*http.Transport).Clone()
	kept.Proxy, kept.IdleConnTimeout, kept.MaxIdleConnsPerHost = nil, 20*time.Second, 64
	return kept
}

// String is the URL of its agent.
func (client *Client) String() string { return client.url }

// RingFromAgent makes the ring of the members that serve, as the agent at a URL sees it now.
func RingFromAgent(ctx context.Context, where string) (*Ring, error) {
	client, err := NewClient(where)
	if err != nil {
		return nil, err
	}
	return client.Ring(ctx)
}

// Request has the service of the key's owner answer a POST, and returns its answer, whatever its status. It answers ErrUnreachable, and an
// *AgentError if the agent refuses, and if the service gave no answer: its Status is 502 then, and its Name says why (HTTP.md).
// A request may be done twice, and may have been done after an error: give what may not be repeated an id.
func (client *Client) Request(ctx context.Context, key string, body []byte) (*Answer, error) {
	answer, err := client.ask(ctx, http.MethodPost, "/keys/"+url.PathEscape(key), body)
	if err != nil {
		return nil, err
	}
	owner, err := netip.ParseAddrPort(answer.Header.Get("X-Ringpop-Owner"))
	if err != nil || answer.Header.Get("X-Ringpop-Error") != "" {
		return nil, refusal(answer)
	}
	answer.Owner = owner
	return answer, nil
}

// Owner is the address of the key's owner, as the agent sees it now. It answers ErrNobody if no member serves.
func (client *Client) Owner(ctx context.Context, key string) (netip.AddrPort, error) {
	var told struct{ Owners []netip.AddrPort }
	err := client.read(ctx, http.MethodGet, "/owner/"+url.PathEscape(key), nil, &told)
	if err == nil && len(told.Owners) == 0 {
		err = ErrAnswer
	}
	if err != nil {
		return netip.AddrPort{}, err
	}
	return told.Owners[0], nil
}

// Owners is the first n owners of each key, in the order of the keys; those of each request are of one moment: 4,096 keys, or some megabyte of
// them. Each has none if no member serves. An agent that knows no `POST /owners` is asked for its ring instead. It answers ErrKey for a key that
// is not UTF-8.
func (client *Client) Owners(ctx context.Context, keys []string, n int) ([][]netip.AddrPort, error) {
	for _, key := range keys {
		if !utf8.ValidString(key) {
			return nil, fmt.Errorf("%w: %q", ErrKey, key)
		}
	}
	owners := make([][]netip.AddrPort, 0, len(keys))
	for start, end := 0, 0; start < len(keys); start = end {
		end = endOfPart(keys, start)
		body, err := json.Marshal(keys[start:end])
		if err != nil {
			return nil, err
		}
		var told struct{ Owners [][]netip.AddrPort }
		err = client.read(ctx, http.MethodPost, "/owners?n="+strconv.Itoa(n), body, &told)
		if isUnknown(err) {
			return client.ownersByRing(ctx, keys, n)
		}
		if err != nil {
			return nil, err
		}
		owners = append(owners, told.Owners...)
	}
	return owners, nil
}

// The end of the keys from start on that fit one request for owners.
func endOfPart(keys []string, start int) int {
	size := 0
	for end := start; end < len(keys); end++ {
		// (at most six bytes for each of a key as JSON, two quotes and a comma)
		size += 6*len(keys[end]) + 3
		if end-start == mostKeys || (end > start && size > mostBytes) {
			return end
		}
	}
	return len(keys)
}

func (client *Client) ownersByRing(ctx context.Context, keys []string, n int) ([][]netip.AddrPort, error) {
	ring, err := client.Ring(ctx)
	if err != nil {
		return nil, err
	}
	owners := make([][]netip.AddrPort, len(keys))
	for i, key := range keys {
		owners[i] = ring.Owners(key, n)
	}
	return owners, nil
}

// isUnknown is whether an agent knows no such path.
func isUnknown(err error) bool {
	var refused *AgentError
	return errors.As(err, &refused) && (refused.Status == http.StatusNotFound || refused.Status == http.StatusMethodNotAllowed)
}

// Members are those that the agent holds, ascending by address, those that do not serve included.
func (client *Client) Members(ctx context.Context) ([]Member, error) {
	ring, err := client.all(ctx)
	if err != nil {
		return nil, err
	}
	return ring.Members(), nil
}

// all is the ring of all members, those that do not serve included.
func (client *Client) all(ctx context.Context) (*Ring, error) {
	var answer told
	if err := client.read(ctx, http.MethodGet, "/members", nil, &answer); err != nil {
		return nil, err
	}
	return ringOf(answer.Members, answer.Replicas, answer.Address)
}

// What an agent answers to GET /members and to GET /ring.
type told struct {
	Own, Address     netip.AddrPort
	Digest           string
	Replicas         int
	Members, Serving []Member
}

// Ring is the ring of the members that serve, as the agent sees it now. It answers an *AgentError with 503 until the agent has asked its hosts.
func (client *Client) Ring(ctx context.Context) (*Ring, error) {
	answer, err := client.ask(ctx, http.MethodGet, "/ring", nil)
	if err != nil {
		return nil, err
	}
	if answer.Status == http.StatusNotFound {
		return client.all(ctx) // (of an agent that knows no `GET /ring`)
	}
	return serving(answer)
}

// serving is the ring that an answer to GET /ring has.
func serving(answer *Answer) (*Ring, error) {
	var found told
	if err := parse(answer, &found); err != nil {
		return nil, err
	}
	return ringOf(found.Serving, found.Replicas, found.Own)
}

func ringOf(members []Member, replicas int, own netip.AddrPort) (*Ring, error) {
	for i := range members {
		if members[i].Status == "" {
			members[i].Status = "alive"
		}
	}
	ring, err := NewRing(members, replicas)
	if err != nil {
		return nil, fmt.Errorf("%w: %v", ErrAnswer, err)
	}
	ring.own = own
	return ring, nil
}

// Watch gives the ring now, and from then on each other ring, until the context ends, which closes the channel. An agent that does not answer,
// refuses, or answers what cannot be read is asked again after a second. One that knows `GET /ring` answers as soon as it has another ring; one that
// does not is asked for its members each second. A ring that did not last until it was asked for is passed over.
func (client *Client) Watch(ctx context.Context) <-chan *Ring {
	rings := make(chan *Ring)
	go func() {
		defer close(rings)
		var ring, known *Ring // the last one given; what the agent told, nil once it may have been started again, maybe with other replicas
		for ctx.Err() == nil {
			found, err := client.later(ctx, known)
			if err != nil {
				known = nil
				rest(ctx)
				continue
			}
			known = found
			if known.Equal(ring) {
				continue
			}
			select {
			case rings <- known:
				ring, known = known, nil
			case <-ctx.Done():
			}
		}
	}()
	return rings
}

func rest(ctx context.Context) {
	select {
	case <-time.After(pause):
	case <-ctx.Done():
	}
}

// later is the ring as soon as it is another one than this, and this one after the wait. The digest does not tell the replicas.
func (client *Client) later(ctx context.Context, known *Ring) (*Ring, error) {
	if known == nil {
		return client.Ring(ctx)
	}
	asked := time.Now()
	answer, err := client.ask(ctx, http.MethodGet, fmt.Sprintf("/ring?after=%s&wait=%d", known.Digest(), wait/time.Second), nil)
	switch {
	case err != nil:
		return nil, err
	case answer.Status != http.StatusNotModified:
		return serving(answer)
	case time.Since(asked) >= pause:
		return known, nil
	}
	rest(ctx) // (it did not wait)
	return client.Ring(ctx)
}

// Leave has the node leave the ring: it owns no key from then on, and still passes requests to their owners.
func (client *Client) Leave(ctx context.Context) error { return client.tell(ctx, "/leave") }

// Rejoin has the node come back to the ring.
func (client *Client) Rejoin(ctx context.Context) error { return client.tell(ctx, "/rejoin") }

func (client *Client) tell(ctx context.Context, path string) error {
	answer, err := client.ask(ctx, http.MethodPost, path, nil)
	if err == nil && answer.Status != http.StatusOK {
		return refusal(answer)
	}
	return err
}

// read reads the JSON of an answer.
func (client *Client) read(ctx context.Context, method, path string, body []byte, into any) error {
	answer, err := client.ask(ctx, method, path, body)
	if err != nil {
		return err
	}
	return parse(answer, into)
}

func parse(answer *Answer, into any) error {
	if answer.Status != http.StatusOK {
		return refusal(answer)
	}
	if err := json.Unmarshal(answer.Body, into); err != nil {
		return fmt.Errorf("%w: %v", ErrAnswer, err)
	}
	return nil
}

func refusal(answer *Answer) error {
	line := strings.TrimSuffix(string(answer.Body), "\n")
	if line == "" {
		line = http.StatusText(answer.Status)
	}
	after, _ := strconv.Atoi(answer.Header.Get("Retry-After"))
	return &AgentError{answer.Status, line, answer.Header.Get("X-Ringpop-Error"), time.Duration(after) * time.Second}
}

// ask is the answer to a request. The end of the context is its error, and else it is ErrUnreachable that none came.
func (client *Client) ask(ctx context.Context, method, path string, body []byte) (*Answer, error) {
	if len(body) > mostBody {
		line := fmt.Sprintf("bad body: it has %d bytes, and an agent reads no more than %d", len(body), mostBody)
		return nil, &AgentError{http.StatusRequestEntityTooLarge, line, "long-body", 0}
	}
	request, err := http.NewRequestWithContext(ctx, method, client.url+path, bytes.NewReader(body))
	if err != nil {
		return nil, err
	}
	got, err := client.HTTP.Do(request)
	if err == nil {
		defer got.Body.Close()
		body, err = io.ReadAll(got.Body)
	}
	if ctx.Err() != nil {
		return nil, ctx.Err()
	}
	if err != nil {
		return nil, &unreachable{client.url, err}
	}
	return &Answer{Status: got.StatusCode, Body: body, Header: got.Header}, nil
}
