// Three nodes in one process, by cgo. scripts/c-examples says how it is linked.
package main

// #include "ringpop.h"
import "C"

import (
	"fmt"
	"log"
	"unsafe"
)

const port = 7946

// A Node is a handle, which stays where it is, and the buffer that its lines are written into.
type Node struct {
	handle *C.ringpop_node
	ip     C.uint32_t
	out    []byte
}

func check(what string, code C.uint32_t, wanted C.uint32_t) {
	if code != wanted {
		log.Fatalf("%s: %s", what, C.GoString(C.ringpop_code_text(code)))
	}
}

// bytes is where a slice begins, which the library wants also where the slice is empty.
func bytes(slice []byte) *C.uint8_t {
	if len(slice) == 0 {
		return (*C.uint8_t)(unsafe.Pointer(new(byte)))
	}
	return (*C.uint8_t)(unsafe.Pointer(&slice[0]))
}

func newNode(last uint32, weight uint8) *Node {
	node := &Node{new(C.ringpop_node), C.uint32_t(0x0A000000 + last), make([]byte, C.RINGPOP_MAX_LINE)}
	var config C.ringpop_config
	C.ringpop_config_standard(&config)
	config.weight = C.uint8_t(weight)
	check("new", C.ringpop_node_new(node.handle, &config, node.ip, port, 7, C.uint64_t(last), 1000), C.RINGPOP_DONE)
	return node
}

func (node *Node) join() []byte {
	var count C.size_t
	check("join", C.ringpop_node_join(node.handle, bytes(node.out), C.size_t(len(node.out)), &count), C.RINGPOP_DONE)
	return node.out[:count]
}

func (node *Node) ping(to *Node) []byte {
	var count C.size_t
	check("ping", C.ringpop_node_ping(node.handle, to.ip, port, bytes(node.out), C.size_t(len(node.out)), &count), C.RINGPOP_DONE)
	return node.out[:count]
}

func (node *Node) receive(line []byte, wanted C.uint32_t) []byte {
	var count C.size_t
	code := C.ringpop_node_receive(node.handle, bytes(line), C.size_t(len(line)), 1001, bytes(node.out), C.size_t(len(node.out)), &count)
	check("receive", code, wanted)
	return node.out[:count]
}

func (node *Node) owner(key string) uint32 {
	var ip C.uint32_t
	var at C.uint16_t
	check("owner", C.ringpop_node_owner(node.handle, bytes([]byte(key)), C.size_t(len(key)), &ip, &at), C.RINGPOP_DONE)
	return uint32(ip)
}

func (node *Node) owners(key string, wanted int) []C.ringpop_address {
	places, room, count := make([]C.ringpop_address, wanted), C.size_t(wanted), C.size_t(0)
	code := C.ringpop_node_owners(node.handle, bytes([]byte(key)), C.size_t(len(key)), room, &places[0], room, &count)
	check("owners", code, C.RINGPOP_DONE)
	return places[:count]
}

// expectSource fails where a line is of another kind, or from another node.
func expectSource(line []byte, wanted C.uint8_t, from *Node) {
	var kind C.uint8_t
	var ip C.uint32_t
	var at C.uint16_t
	check("source", C.ringpop_line_source(bytes(line), C.size_t(len(line)), &kind, &ip, &at), C.RINGPOP_DONE)
	if kind != wanted || ip != from.ip || at != port {
		log.Fatalf("a line of kind %d from %d:%d", kind, ip, at)
	}
}

// talk brings a line to a node, and its answer, of this kind, back.
func talk(one, other *Node, line []byte, kind C.uint8_t) {
	answer := other.receive(line, C.RINGPOP_DONE)
	expectSource(answer, kind, other)
	one.receive(answer, C.RINGPOP_NOTHING)
}

func main() {
	nodes := []*Node{newNode(1, 1), newNode(2, 2), newNode(3, 1)}
	talk(nodes[1], nodes[0], nodes[1].join(), C.RINGPOP_JOINED)
	talk(nodes[2], nodes[0], nodes[2].join(), C.RINGPOP_JOINED)
	talk(nodes[0], nodes[1], nodes[0].ping(nodes[1]), C.RINGPOP_ACK)
	talk(nodes[0], nodes[2], nodes[0].ping(nodes[2]), C.RINGPOP_ACK)
	for i := 0; i < 8; i++ {
		key := fmt.Sprintf("trip-%d", i)
		owner := nodes[0].owner(key)
		if nodes[1].owner(key) != owner || nodes[2].owner(key) != owner {
			log.Fatalf("the nodes differ on %s", key)
		}
		if owners := nodes[0].owners(key, 4); len(owners) != 3 || uint32(owners[0].ip) != owner {
			log.Fatalf("other owners of %s", key)
		}
		fmt.Printf("%s is on 10.0.0.%d\n", key, owner&255)
	}
	for _, node := range nodes {
		check("free", C.ringpop_node_free(node.handle), C.RINGPOP_DONE)
	}
}
