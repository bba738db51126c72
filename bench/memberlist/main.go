// Members of memberlist as processes: paused, parted, killed and started at once as scripts/many does with nodes.
// Takes root, unshare and ip; on Debian golang-github-hashicorp-memberlist-dev. In this folder:
// GO111MODULE=off GOPATH=/usr/share/gocode go build -o /tmp/members main.go && /tmp/members pause|partition|mass|kill [COUNT]
// A probe and gossip each 200 ms, as nodes make rounds; with STANDARD=1 in the environment memberlist's own LAN settings.
package main

import (
	"bufio"
	"fmt"
	"io"
	"log"
	"net"
	"os"
	"os/exec"
	"strconv"
	"strings"
	"sync"
	"syscall"
	"time"

	"github.com/hashicorp/memberlist"
)

const period = 200 * time.Millisecond

var sides = []string{"10.9.0.1", "10.9.0.2"}

// serve is a member as a process: HOST PORT [FIRST]. It joins the hosts of each line, if any,
// and answers by the members that it holds as alive or suspect.
func serve(words []string) {
	conf := memberlist.DefaultLANConfig()
	port, _ := strconv.Atoi(words[1])
	conf.Name, conf.Logger = net.JoinHostPort(words[0], words[1]), log.New(io.Discard, "", 0)
	conf.BindAddr, conf.AdvertiseAddr, conf.BindPort, conf.AdvertisePort = words[0], words[0], port, port
	if os.Getenv("STANDARD") == "" {
		conf.ProbeInterval, conf.ProbeTimeout, conf.GossipInterval = period, period/2, period
	}
	list, err := memberlist.Create(conf)
	if err == nil && len(words) > 2 {
		_, err = list.Join(words[2:])
	}
	must(err)
	fmt.Println("serving")
	for in := bufio.NewScanner(os.Stdin); in.Scan(); {
		if hosts := strings.Fields(in.Text()); len(hosts) > 0 {
			list.Join(hosts)
		}
		var names []string
		for _, it := range list.Members() {
			names = append(names, it.Name)
		}
		fmt.Println(strings.Join(names, " "))
	}
}

// member is a process of the cluster, and what it was last seen to hold.
type member struct {
	name    string
	process *os.Process
	in      io.Writer
	out     *bufio.Reader
	held    map[string]bool
}

func must(err error) {
	if err != nil {
		fmt.Fprintln(os.Stderr, "FAILED:", err)
		os.Exit(1)
	}
}

func run(line string) {
	words := strings.Fields(line)
	must(exec.Command(words[0], words[1:]...).Run())
}

// start starts a member, in the network of its side if it has one, and waits until it serves.
func start(before []string, host string, port int, hosts ...string) *member {
	self, _ := os.Executable()
	line := append(append(append([]string{}, before...), self, "serve", host, strconv.Itoa(port)), hosts...)
	command := exec.Command(line[0], line[1:]...)
	command.Stderr = os.Stderr
	in, _ := command.StdinPipe()
	out, _ := command.StdoutPipe()
	must(command.Start())
	it := &member{name: net.JoinHostPort(host, strconv.Itoa(port)), process: command.Process, in: in, out: bufio.NewReader(out)}
	_, err := it.out.ReadString('\n')
	must(err)
	return it
}

// look asks members what they hold.
func look(members []*member) {
	together(len(members), len(members), func(place int) {
		it := members[place]
		fmt.Fprintln(it.in)
		said, err := it.out.ReadString('\n')
		must(err)
		it.held = map[string]bool{}
		for _, name := range strings.Fields(said) {
			it.held[name] = true
		}
	})
}

// together calls a function for each number below count, at most so many at once.
func together(count, most int, do func(int)) {
	var all sync.WaitGroup
	room := make(chan bool, most)
	all.Add(count)
	for place := 0; place < count; place++ {
		room <- true
		go func(place int) { do(place); <-room; all.Done() }(place)
	}
	all.Wait()
}

// wait looks each 100 milliseconds until it is so, and says after how long.
func wait(what string, limit time.Duration, members []*member, isSo func() bool) {
	for begun := time.Now(); time.Since(begun) < limit; time.Sleep(100 * time.Millisecond) {
		look(members)
		if isSo() {
			fmt.Printf("%s after %.2f s\n", what, time.Since(begun).Seconds())
			return
		}
	}
	fmt.Printf("not %s within %.0f s\n", what, limit.Seconds())
}

// holds tells whether these members hold exactly those.
func holds(members, those []*member) func() bool {
	return func() bool {
		for _, it := range members {
			for _, other := range those {
				if !it.held[other.name] || len(it.held) != len(those) {
					return false
				}
			}
		}
		return true
	}
}

// cluster starts members on loopback: the first, then the others, at most so many at once, which join it.
func cluster(count, most int) []*member {
	members := make([]*member, count)
	members[0] = start(nil, "127.0.0.1", 20000)
	together(count-1, most, func(place int) {
		members[place+1] = start(nil, "127.0.0.1", 20001+place, members[0].name)
	})
	return members
}

// settled starts members, and waits until they agree, and their news are spent.
func settled(count int) []*member {
	members := cluster(count, 8)
	wait("agreed", time.Minute, members, holds(members, members))
	time.Sleep(12 * time.Second)
	return members
}

func signal(members []*member, what syscall.Signal) {
	for _, it := range members {
		must(it.process.Signal(what))
	}
}

func pause(count int) {
	members := settled(count)
	others, stopped := members[:count-count/10], members[count-count/10:]
	signal(stopped, syscall.SIGSTOP)
	wait("faulty", 100*time.Second, others, holds(others, others))
	signal(stopped, syscall.SIGCONT)
	wait("all alive", 90*time.Second, members, holds(members, members))
}

func kill(count int) {
	members := settled(count)
	others := members[:count-1]
	signal(members[count-1:], syscall.SIGKILL)
	wait("known by all", time.Minute, others, holds(others, others))
}

// sent answers how many bytes loopback has carried.
func sent() int {
	text, _ := os.ReadFile("/proc/net/dev")
	_, counts, _ := strings.Cut(string(text), "lo:")
	bytes, _ := strconv.Atoi(strings.Fields(counts)[0])
	return bytes
}

func mass(count int) {
	before, begun := sent(), time.Now()
	members := cluster(count, count)
	fmt.Printf("all serve after %.2f s\n", time.Since(begun).Seconds())
	few := []*member{members[0], members[count/2], members[count-1]} // looked at first, so that looks take little of the machine
	wait("three agreed", time.Minute, few, holds(few, members))
	wait("agreed", time.Minute, members, holds(members, members))
	fmt.Printf("%d kB a member, and %.2f s from the first start until then\n", (sent()-before)/count/1000, time.Since(begun).Seconds())
}

func partition(half int) {
	for _, line := range []string{"mount -t tmpfs tmpfs /run", "ip link add bridge type bridge", "ip link set bridge up"} {
		run(line)
	}
	members, hosts := []*member{}, []string{}
	for side, host := range sides {
		for _, line := range []string{"netns add s%d", "link add p%d type veth peer name e%[1]d", "link set e%d netns s%[1]d",
			"link set p%d master bridge up", "-n s%d link set lo up", "-n s%d link set e%[1]d up", "-n s%d addr add " + host + "/24 dev e%[1]d"} {
			run("ip " + fmt.Sprintf(line, side))
		}
	}
	time.Sleep(time.Second)
	for place := 0; place < 2*half; place++ {
		own := []string{"ip", "netns", "exec", fmt.Sprintf("s%d", place/half)}
		members = append(members, start(own, sides[place/half], 30000+place, hosts...))
		hosts = []string{members[0].name}
	}
	wait("agreed", 30*time.Second, members, holds(members, members))
	time.Sleep(8 * time.Second)
	run("ip link set p1 nomaster")
	begun := time.Now()
	left, right := members[:half], members[half:]
	wait("parted", time.Minute, members, func() bool { return holds(left, left)() && holds(right, right)() })
	time.Sleep(13*time.Second - time.Since(begun))
	run("ip link set p1 master bridge")
	wait("whole", 70*time.Second, members, holds(members, members))
	fmt.Fprintln(members[half].in, members[0].name) // as an operator does
	members[half].out.ReadString('\n')
	wait("whole by a join", 70*time.Second, members, holds(members, members))
}

func main() {
	if os.Args[1] == "serve" {
		serve(os.Args[2:])
		return
	}
	if os.Getenv("OWN_NETWORK") == "" {
		os.Setenv("OWN_NETWORK", "yes")
		line := append(strings.Fields("unshare --net --mount --pid --fork --kill-child --mount-proc"), os.Args...)
		must(syscall.Exec("/usr/bin/unshare", line, os.Environ()))
	}
	run("ip link set lo up")
	count := map[string]int{"pause": 30, "partition": 3, "mass": 100, "kill": 30}[os.Args[1]]
	if len(os.Args) > 2 {
		count, _ = strconv.Atoi(os.Args[2])
	}
	map[string]func(int){"pause": pause, "partition": partition, "mass": mass, "kill": kill}[os.Args[1]](count)
}
