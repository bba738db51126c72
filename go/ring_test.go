package ringpop

import (
	"errors"
	"fmt"
	"net/netip"
	"os"
	"path/filepath"
	"strings"
	"sync"
	"testing"
)

// change is the line of a change of 10.0.0.LAST:7946.
func change(last, incarnation int, status string) string {
	return fmt.Sprintf(`{"address":"10.0.0.%d:7946","incarnationNumber":%d,"source":"10.0.0.1:7946","sourceIncarnationNumber":1,"status":%q}`,
		last, incarnation, status)
}

func made(t *testing.T, lines ...string) *Ring {
	t.Helper()
	ring, err := FromMembers([]byte(strings.Join(lines, "\n")), StandardReplicas)
	if err != nil {
		t.Fatal(err)
	}
	return ring
}

// The members, keys and answers of the program, which scripts/rings makes.
func read(t *testing.T, name string) string {
	t.Helper()
	folder := os.Getenv("RINGPOP_ANSWERS")
	if folder == "" {
		t.Skip("RINGPOP_ANSWERS names no folder: scripts/rings makes one")
	}
	text, err := os.ReadFile(filepath.Join(folder, name))
	if err != nil {
		t.Fatal(err)
	}
	return string(text)
}

func TestTheProgramsAnswers(t *testing.T) {
	ring, err := FromMembers([]byte(read(t, "members")), StandardReplicas)
	if err != nil {
		t.Fatal(err)
	}
	answers := strings.Split(strings.TrimSuffix(read(t, "answers"), "\n"), "\n")
	if len(answers) != 10000 {
		t.Fatalf("%d answers", len(answers))
	}
	for _, line := range answers {
		key, wanted, _ := strings.Cut(line, "\t")
		owners := ring.Owners(key, 3)
		if said := strings.Trim(fmt.Sprint(owners), "[]"); said != wanted {
			t.Fatalf("%q is on %s, and not %s", key, said, wanted)
		}
		if owner, found := ring.Owner(key); !found || owner != owners[0] {
			t.Fatalf("%q has another owner, %s", key, owner)
		}
	}
	if digest := strings.TrimSuffix(read(t, "digest"), "\n"); ring.Digest() != digest {
		t.Fatalf("the digest is %s, and not %s", ring.Digest(), digest)
	}
}

func TestServersAlone(t *testing.T) {
	ring := made(t, change(1, 1, "alive"), change(2, 1, "suspect"), change(3, 1, "faulty"), change(4, 1, "leave"), change(1, 2, "faulty"), change(1, 1, "alive"))
	if owners := ring.Owners("trip-42", 9); fmt.Sprint(owners) != "[10.0.0.2:7946]" || ring.Len() != 4 || len(ring.Serving()) != 1 {
		t.Fatalf("%v of %d", owners, ring.Len())
	}
	if owners := ring.Owners("", -1); len(owners) != 0 {
		t.Fatalf("%v", owners)
	}
	if owner, found := made(t).Owner("trip-42"); found || len(made(t).Owners("trip-42", 3)) != 0 {
		t.Fatalf("an owner, %s, where there is no member", owner)
	}
}

func TestMoved(t *testing.T) {
	before, after := made(t, change(1, 1, "alive"), change(2, 1, "alive")), made(t, change(1, 1, "alive"), change(2, 1, "suspect"), change(3, 1, "alive"))
	keys, moved := []string{}, map[string]Move{}
	for i := 0; i < 300; i++ {
		keys = append(keys, fmt.Sprint("trip-", i))
	}
	for _, move := range after.Moved(keys, before) {
		moved[move.Key] = move
	}
	for _, key := range keys {
		old, _ := before.Owner(key)
		now, _ := after.Owner(key)
		if move, found := moved[key]; found != (old != now) || found && (move.Before != old || move.After != now) {
			t.Fatalf("%s: %v, and it was on %s and is on %s", key, move, old, now)
		}
	}
	if len(moved) == 0 || len(moved) == len(keys) {
		t.Fatalf("%d moved", len(moved))
	}
	if same := made(t, change(2, 7, "suspect"), change(1, 1, "alive"), change(4, 1, "leave")); !same.Equal(before) || before.Equal(after) || before.Equal(nil) {
		t.Fatal("rings are equal, or not, and should be the other")
	}
	if more, err := NewRing(before.Members(), 99); err != nil || more.Equal(before) {
		t.Fatalf("rings with other replicas are equal, %v", err)
	}
}

func TestFaults(t *testing.T) {
	good := change(1, 1, "alive")
	for wanted, line := range map[string]string{
		"line 2: not an object":                                  `[]`,
		"line 2: not JSON":                                       `{"address":`,
		"line 2: the field address is missing":                   `{}`,
		`line 2: the field address is bad: "10.0.0.01:7946"`:     strings.Replace(good, "10.0.0.1:7946", "10.0.0.01:7946", 1),
		"line 2: the field incarnationNumber is bad: 1.0":        strings.Replace(good, `"incarnationNumber":1`, `"incarnationNumber":1.0`, 1),
		`line 2: the field status is bad: "Alive"`:               strings.Replace(good, "alive", "Alive", 1),
		"line 2: the field weight is bad: 9":                     strings.Replace(good, "{", `{"weight":9,`, 1),
		"line 2: the field tombstone is bad: 1":                  strings.Replace(change(1, 1, "faulty"), "{", `{"tombstone":1,`, 1),
		"line 2: the field sourceIncarnationNumber is bad: null": strings.Replace(good, `"sourceIncarnationNumber":1`, `"sourceIncarnationNumber":null`, 1),
	} {
		_, err := FromMembers([]byte(good+"\n"+line+"\n"), StandardReplicas)
		var fault *LineError
		if !errors.Is(err, ErrLine) || !errors.As(err, &fault) || err.Error() != "ringpop: "+wanted || !errors.Is(err, &LineError{2, fault.Reason}) {
			t.Errorf("%v, and not %s", err, wanted)
		}
	}
	for _, replicas := range []int{0, 1001, -1} {
		if _, err := FromMembers(nil, replicas); !errors.Is(err, ErrReplicas) || !strings.HasSuffix(err.Error(), fmt.Sprint(replicas)) {
			t.Error(err)
		}
	}
	if _, err := NewRing(make([]Member, MaxMembers+1), 1); !errors.Is(err, ErrTooManyMembers) {
		t.Error(err)
	}
}

func TestANilRing(t *testing.T) {
	var none *Ring
	ring := made(t, change(1, 1, "alive"))
	if owner, found := none.Owner("trip"); found || len(none.Owners("trip", 2)) != 0 || none.Equal(ring) || ring.Equal(none) || !none.Equal(nil) {
		t.Fatal(owner)
	}
	owner, _ := ring.Owner("trip")
	if moves := ring.Moved([]string{"trip"}, none); len(moves) != 1 || moves[0] != (Move{Key: "trip", After: owner}) {
		t.Fatal(moves)
	}
}

func TestManyGoroutines(t *testing.T) {
	ring := made(t, change(1, 1, "alive"), change(2, 1, "alive"), change(3, 1, "alive"))
	owner, _ := ring.Owner("trip-42")
	var group sync.WaitGroup
	for i := 0; i < 8; i++ {
		group.Add(1)
		go func() {
			defer group.Done()
			for j := 0; j < 1000; j++ {
				if said, found := ring.Owner("trip-42"); !found || said != owner {
					t.Errorf("%s, and not %s", said, owner)
					return
				}
			}
		}()
	}
	group.Wait()
}

func BenchmarkOwner(b *testing.B) {
	members := make([]Member, 100)
	for i := range members {
		text := strings.Replace(change(1, 1, "alive"), "10.0.0.1:7946", fmt.Sprintf("10.1.0.%d:7946", i), 1)
		members[i], _ = memberOf([]byte(text))
	}
	ring, err := NewRing(members, StandardReplicas)
	if err != nil {
		b.Fatal(err)
	}
	b.ReportAllocs()
	for i := 0; i < b.N; i++ {
		ring.Owner("trip-42")
	}
}

func TestBadMembers(t *testing.T) {
	at := netip.MustParseAddrPort
	one, other := at("10.0.0.1:7946"), at("10.0.0.2:7946")
	good, six, mapped, none := Member{one, 1, "alive", 0}, at("[::1]:7946"), at("[::ffff:10.0.0.2]:7946"), at("10.0.0.2:0")
	for _, bad := range []Member{
		{}, good, {other, 9, "alive", 0}, {other, 0, "alive", 0}, {other, 1, "up", 0}, {six, 1, "alive", 0}, {mapped, 1, "alive", 0}, {none, 1, "alive", 0},
	} {
		if ring, err := NewRing([]Member{good, bad}, 1); !errors.Is(err, ErrMember) {
			t.Fatal(bad, ring, err)
		}
	}
}
