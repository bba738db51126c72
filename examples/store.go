// A service that keeps each rider's trips where the rider's owner is, and hands them over when the ring changes: `store NODE AGENT`. NODE is the
// address of the agent's node, AGENT where the agent answers HTTP. It answers what store.py answers, and the two may run in one cluster. `go build
// store.go` in this folder; docs/HANDOVER.md explains it.
package main

import (
	"context"
	"encoding/json"
	"log"
	"net/http"
	"net/netip"
	"os"
	"os/signal"
	"syscall"
	"time"

	"ringpop"
)

// A rider has trips, and each of them once.
type rider struct {
	trips []string
	has   map[string]bool
}

func newRider(string) ringpop.Kept { return &rider{has: map[string]bool{}} }

func (it *rider) add(trip string) {
	if !it.has[trip] {
		it.has[trip], it.trips = true, append(it.trips, trip)
	}
}

// Do adds a trip, if one is named, and answers how many there are.
func (it *rider) Do(body []byte) ([]byte, error) {
	var ask struct{ Trip string }
	if err := json.Unmarshal(body, &ask); err != nil {
		return nil, err
	}
	if ask.Trip != "" {
		it.add(ask.Trip)
	}
	return json.Marshal(map[string]int{"trips": len(it.trips)})
}

// State is the list of trips.
func (it *rider) State() []byte {
	if len(it.trips) == 0 {
		return nil
	}
	text, _ := json.Marshal(it.trips)
	return text
}

// Merge adds the trips of a list.
func (it *rider) Merge(state []byte) error {
	var trips []string
	err := json.Unmarshal(state, &trips)
	for _, trip := range trips {
		it.add(trip)
	}
	return err
}

// The service beside a node listens 200 above the node's port, so that services find one another.
func service(node netip.AddrPort) string {
	return netip.AddrPortFrom(node.Addr(), node.Port()+200).String()
}

func main() {
	own := netip.MustParseAddrPort(os.Args[1])
	agent, err := ringpop.NewClient(os.Args[2])
	if err != nil {
		log.Fatal(err)
	}
	store := &ringpop.HandOver{
		Client:  agent,
		Own:     own,
		Service: func(node netip.AddrPort) string { return "http://" + service(node) },
		New:     newRider,
	}
	go store.Run(context.Background())
	go func() { log.Fatal(http.ListenAndServe(service(own), store)) }()
	told, stop := signal.NotifyContext(context.Background(), syscall.SIGTERM, os.Interrupt)
	<-told.Done()
	stop() // (a second signal ends it at once)
	within, cancel := context.WithTimeout(context.Background(), time.Minute)
	defer cancel()
	if err := store.Leave(within); err != nil {
		log.Fatal(err)
	}
}
