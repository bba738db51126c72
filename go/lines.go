package ringpop

import (
	"bytes"
	"encoding/json"
	"fmt"
	"net/netip"
	"strconv"
	"unicode/utf8"
)

const (
	maxLine   = 1 << 20
	maxNumber = 1<<53 - 1
)

// ranks has by which status of two at one incarnation the greater counts.
var ranks = map[string]int{"alive": 0, "suspect": 1, "faulty": 2, "leave": 3, "tombstone": 4}

// FromMembers makes the ring of change lines, as `ringpop members --lines` prints them; replicas is that of the cluster, 1 to 1,000. Of the
// changes of one member the greatest counts, wherever it stands. It answers a *LineError at the first line that is not a change, ErrReplicas,
// and ErrTooManyMembers.
func FromMembers(lines []byte, replicas int) (*Ring, error) {
	held := map[netip.AddrPort]Member{}
	for number := 1; len(lines) > 0; number++ {
		line, rest, _ := bytes.Cut(lines, []byte{'\n'})
		member, reason := memberOf(line)
		if reason != "" {
			return nil, &LineError{number, reason}
		}
		if known, found := held[member.Address]; !found || isLess(known, member) {
			held[member.Address] = member
		}
		lines = rest
	}
	members := make([]Member, 0, len(held))
	for _, member := range held {
		members = append(members, member)
	}
	return NewRing(members, replicas)
}

// isLess is whether the second of two changes of one member overrides the first: by incarnation, then status, then weight.
func isLess(one, other Member) bool {
	if one.Incarnation != other.Incarnation {
		return one.Incarnation < other.Incarnation
	}
	if ranks[one.Status] != ranks[other.Status] {
		return ranks[one.Status] < ranks[other.Status]
	}
	return one.Weight < other.Weight
}

// memberOf is the member that a change line tells of, or why the line is none.
func memberOf(line []byte) (Member, string) {
	member := Member{Weight: 1}
	if len(line) > maxLine {
		return member, "the line is too long"
	}
	var fields map[string]json.RawMessage
	if !utf8.Valid(line) || !json.Valid(line) {
		return member, "not JSON"
	}
	if json.Unmarshal(line, &fields) != nil || fields == nil {
		return member, "not an object"
	}
	for _, name := range []string{"address", "incarnationNumber", "source", "sourceIncarnationNumber", "status", "tombstone", "weight"} {
		value, found := fields[name]
		switch {
		case name == "tombstone" && member.Status != "faulty" || !found && (name == "tombstone" || name == "weight"):
		case !found:
			return member, fmt.Sprintf("the field %s is missing", name)
		case !member.take(name, value):
			return member, fmt.Sprintf("the field %s is bad: %s", name, value)
		}
	}
	return member, ""
}

// take reads a field, and answers whether it is good.
func (member *Member) take(name string, value json.RawMessage) bool {
	var ok bool
	switch name {
	case "address":
		member.Address, ok = addressOf(value)
	case "source":
		_, ok = addressOf(value)
	case "incarnationNumber":
		member.Incarnation, ok = numberOf(value, 0, maxNumber)
	case "sourceIncarnationNumber":
		_, ok = numberOf(value, 0, maxNumber)
	case "weight":
		var weight uint64
		weight, ok = numberOf(value, 1, 8)
		member.Weight = int(weight)
	case "status":
		text, isText := textOf(value)
		_, isStatus := ranks[text]
		member.Status, ok = text, isText && isStatus
	case "tombstone":
		ok = string(value) == "true" || string(value) == "false"
		if string(value) == "true" {
			member.Status = "tombstone"
		}
	}
	return ok
}

func textOf(value json.RawMessage) (string, bool) {
	var text string
	if len(value) == 0 || value[0] != '"' || json.Unmarshal(value, &text) != nil {
		return "", false
	}
	return text, true
}

// addressOf reads the one text of an IPv4 address with a port from 1.
func addressOf(value json.RawMessage) (netip.AddrPort, bool) {
	text, isText := textOf(value)
	address, err := netip.ParseAddrPort(text)
	return address, isText && err == nil && isAddress(address) && address.String() == text
}

// isAddress is whether a node may have the address: IPv4 and a port from 1.
func isAddress(address netip.AddrPort) bool { return address.Addr().Is4() && address.Port() > 0 }

// numberOf reads a whole number in a range.
func numberOf(value json.RawMessage, least, most uint64) (uint64, bool) {
	number, err := strconv.ParseUint(string(value), 10, 64)
	return number, err == nil && least <= number && number <= most
}
