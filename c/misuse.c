/* Calls that are refused, each with its code: nothing is touched, and nothing leaks. Every code is met but MEMORY and UNANSWERED,
   which memory.c meets, and SPENT, which comes after 2^53 probes. */
#include <stdio.h>
#include <string.h>

#include "ringpop.h"

static uint8_t out[RINGPOP_MAX_LINE], longest[RINGPOP_MAX_LINE + 1];
static int faults = 0;
static bool seen[RINGPOP_BAD_WORD + 1];

static void expect(const char *what, uint32_t code, uint32_t wanted) {
  const char *text = ringpop_code_text(code);
  printf("%s: %u, %s\n", what, code, text != NULL ? text : "no code");
  if (code != wanted) {
    printf("not %u\n", wanted);
    faults++;
  }
  if (code <= RINGPOP_BAD_WORD) seen[code] = true;
}

static void expect_count(const char *what, size_t count, size_t wanted) {
  printf("%s: %zu\n", what, count);
  faults += count != wanted;
}

static uint32_t receive(ringpop_node *node, const char *line) {
  size_t count = 0;
  return ringpop_node_receive(node, (const uint8_t *)line, strlen(line), 2000, out, sizeof out, &count);
}

static uint32_t take(ringpop_node *node, uint32_t ip, uint64_t incarnation, const char *status) {
  char line[256];
  int length = snprintf(line, sizeof line,
                        "{\"address\":\"10.0.0.%u:7946\",\"incarnationNumber\":%llu,\"source\":\"10.0.0.9:7946\","
                        "\"sourceIncarnationNumber\":1,\"status\":\"%s\"}",
                        ip, (unsigned long long)incarnation, status);
  return ringpop_node_take(node, (const uint8_t *)line, (size_t)length, 2000);
}

static void refuse_empty(ringpop_node *node) {
  size_t count = 0;
  uint64_t number = 0;
  uint32_t ip = 0;
  uint16_t port = 0;
  ringpop_entry entry;
  ringpop_address owner;
  ringpop_view view = RINGPOP_VIEW_EMPTY;
  expect("take by an empty handle", take(node, 2, 1, "alive"), RINGPOP_NO_NODE);
  expect("own by an empty handle", ringpop_node_own(node, &ip, &port, &entry), RINGPOP_NO_NODE);
  expect("member by an empty handle", ringpop_node_member(node, 1, 1, &entry), RINGPOP_NO_NODE);
  expect("len by an empty handle", ringpop_node_len(node, &count), RINGPOP_NO_NODE);
  expect("digest by an empty handle", ringpop_node_digest(node, out, sizeof out, &count), RINGPOP_NO_NODE);
  expect("members by an empty handle", ringpop_node_members(node, out, sizeof out, &count), RINGPOP_NO_NODE);
  expect("ping by an empty handle, in a short buffer", ringpop_node_ping(node, 1, 1, out, 3, &count), RINGPOP_NO_NODE);
  expect("expire by an empty handle", ringpop_node_expire(node, 1, &ip, &port, &entry), RINGPOP_NO_NODE);
  expect("rejoin by an empty handle", ringpop_node_rejoin(node), RINGPOP_NO_NODE);
  expect("probe by an empty handle", ringpop_node_probe(node, &number, &ip, &port), RINGPOP_NO_NODE);
  expect("running by an empty handle", ringpop_node_running(node, &number, &ip, &port), RINGPOP_NO_NODE);
  expect("free of an empty handle", ringpop_node_free(node), RINGPOP_NO_NODE);
  expect("leave of an empty handle", ringpop_node_leave(node), RINGPOP_NO_NODE);
  expect("join of an empty handle", ringpop_node_join(node, out, sizeof out, &count), RINGPOP_NO_NODE);
  expect("line for an empty handle", receive(node, "{}"), RINGPOP_NO_NODE);
  expect("owner by an empty handle", ringpop_node_owner(node, out, 1, &ip, &port), RINGPOP_NO_NODE);
  expect("owners by an empty handle, in a short buffer", ringpop_node_owners(node, out, 1, 2, &owner, 0, &count), RINGPOP_NO_NODE);
  expect("ping_req by an empty handle", ringpop_node_ping_req(node, 1, 1, 2, 1, out, sizeof out, &count), RINGPOP_NO_NODE);
  expect("ping_req_ack by an empty handle", ringpop_node_ping_req_ack(node, 1, 1, 2, 1, true, out, sizeof out, &count), RINGPOP_NO_NODE);
  expect("ack by an empty handle", ringpop_node_acked(node, 1), RINGPOP_NO_NODE);
  expect("loss by an empty handle", ringpop_node_lost(node, 1, 1, &entry), RINGPOP_NO_NODE);
  expect("waiting by an empty handle", ringpop_node_waiting(node, &number, &ip, &port), RINGPOP_NO_NODE);
  expect("word by an empty handle", ringpop_node_helper_said(node, 1, 1, 1, 0, 1, &entry), RINGPOP_NO_NODE);
  expect("view of an empty handle", ringpop_view_new(&view, node), RINGPOP_NO_NODE);
  expect("owner by an empty view", ringpop_view_owner(&view, out, 1, &ip, &port), RINGPOP_NO_NODE);
}

static void refuse_new(ringpop_node *node, ringpop_config config) {
  expect("port 0", ringpop_node_new(node, &config, 1, 0, 7, 1, 1), RINGPOP_BAD_ADDRESS);
  expect("incarnation 2^53", ringpop_node_new(node, &config, 1, 1, (uint64_t)1 << 53, 1, 1), RINGPOP_BAD_NUMBER);
  expect("moment 2^53", ringpop_node_new(node, &config, 1, 1, 7, 1, (uint64_t)1 << 53), RINGPOP_BAD_NUMBER);
  config.weight = 9;
  expect("weight 9", ringpop_node_new(node, &config, 1, 1, 7, 1, 1), RINGPOP_BAD_WEIGHT);
  config.weight = 1;
  ringpop_config bad = config;
  bad.replicas = 0;
  expect("no points", ringpop_node_new(node, &bad, 1, 1, 7, 1, 1), RINGPOP_BAD_REPLICAS);
  bad = config, bad.max_members = 4097;
  expect("4,097 members", ringpop_node_new(node, &bad, 1, 1, 7, 1, 1), RINGPOP_BAD_MAX_MEMBERS);
  bad = config, bad.suspect_ms = 0;
  expect("no time to refute", ringpop_node_new(node, &bad, 1, 1, 7, 1, 1), RINGPOP_BAD_SUSPECT_MS);
  bad = config, bad.faulty_ms = 0;
  expect("no time as faulty", ringpop_node_new(node, &bad, 1, 1, 7, 1, 1), RINGPOP_BAD_FAULTY_MS);
  bad = config, bad.helpers = 17;
  expect("17 helpers", ringpop_node_new(node, &bad, 1, 1, 7, 1, 1), RINGPOP_BAD_HELPERS);
  bad = config, bad.piggyback = 0;
  expect("no change goes out", ringpop_node_new(node, &bad, 1, 1, 7, 1, 1), RINGPOP_BAD_PIGGYBACK);
  bad = config, bad.per_message = 0;
  expect("no change in a message", ringpop_node_new(node, &bad, 1, 1, 7, 1, 1), RINGPOP_BAD_PER_MESSAGE);
}

static void refuse_lines(ringpop_node *node) {
  expect("no JSON", receive(node, "ping"), RINGPOP_BAD_JSON);
  expect("no object", receive(node, "[]"), RINGPOP_NOT_OBJECT);
  expect("no kind", receive(node, "{}"), RINGPOP_MISSING_FIELD);
  expect("unknown kind", receive(node, "{\"kind\":\"hello\"}"), RINGPOP_UNKNOWN_KIND);
  expect("kind that is no text", receive(node, "{\"kind\":1}"), RINGPOP_BAD_FIELD);
  expect("request", receive(node, "{\"kind\":\"refused\",\"source\":\"10.0.0.2:7946\",\"sourceIncarnationNumber\":1,\"reason\":\"full\"}"),
         RINGPOP_NOT_GOSSIP);
  size_t count = 0;
  memset(longest, ' ', sizeof longest);
  expect("long line", ringpop_node_receive(node, longest, sizeof longest, 2000, out, sizeof out, &count), RINGPOP_LINE_TOO_LONG);
  expect("long change", ringpop_node_take(node, longest, sizeof longest, 2000), RINGPOP_LINE_TOO_LONG);
}

static uint32_t kind_of(const char *line, uint8_t *kind) {
  uint32_t ip = 0;
  uint16_t port = 0;
  uint32_t code = ringpop_line_source((const uint8_t *)line, strlen(line), kind, &ip, &port);
  if (code == RINGPOP_DONE && (ip != 0x0A000002 || port != 7946)) expect("source", 1, 0);
  return code;
}

#define FROM "\"source\":\"10.0.0.2:7946\",\"sourceIncarnationNumber\":1"

/* Lines that are read without a node. */
static void read_lines(void) {
  static const char *requests[4] = {"{\"kind\":\"forward\"," FROM ",\"keys\":[\"a\"],\"body\":\"\"}",
                                    "{\"kind\":\"reply\"," FROM ",\"body\":\"\"}", "{\"kind\":\"not-owner\"," FROM "}",
                                    "{\"kind\":\"refused\"," FROM ",\"reason\":\"full\"}"};
  uint8_t kind = 77;
  uint32_t ip = 0;
  uint16_t port = 0;
  bool reached = false;
  expect("source of no JSON", kind_of("ping", &kind), RINGPOP_BAD_JSON);
  expect_count("and no kind", kind, 77);
  for (uint8_t i = 0; i < 4; i++) {
    expect("source of a request", kind_of(requests[i], &kind), RINGPOP_DONE);
    expect_count("its kind", kind, (size_t)(RINGPOP_FORWARD + i));
  }
  const uint8_t *reply = (const uint8_t *)requests[1];
  expect("target of a reply", ringpop_line_target(reply, strlen(requests[1]), &ip, &port), RINGPOP_NOTHING);
  expect("word of a reply", ringpop_line_reached(reply, strlen(requests[1]), &ip, &port, &reached), RINGPOP_NOTHING);
  expect("word of no object", ringpop_line_reached((const uint8_t *)"[]", 2, &ip, &port, &reached), RINGPOP_NOT_OBJECT);
}

static void refuse_many(ringpop_node *node) {
  size_t length = (size_t)snprintf((char *)longest, sizeof longest,
                                   "{\"kind\":\"ping\",\"source\":\"10.0.0.2:7946\",\"sourceIncarnationNumber\":1,"
                                   "\"checksum\":\"%064d\",\"changes\":[0",
                                   0);
  for (int i = 0; i < 4096; i++) {
    longest[length++] = ',';
    longest[length++] = '0';
  }
  longest[length++] = ']';
  longest[length++] = '}';
  size_t count = 0;
  expect("4,097 changes", ringpop_node_receive(node, longest, length, 2000, out, sizeof out, &count), RINGPOP_TOO_MANY);
}

static void take_changes(ringpop_node *node) {
  size_t count = 0;
  uint32_t ip = 0;
  uint16_t port = 0;
  ringpop_entry entry;
  expect("take a change", take(node, 2, 5, "faulty"), RINGPOP_DONE);
  expect("take it again", take(node, 2, 5, "faulty"), RINGPOP_NOTHING);
  expect("take at 2^53", ringpop_node_take(node, out, 1, (uint64_t)1 << 53), RINGPOP_BAD_NUMBER);
  expect("take what would be the third member", take(node, 3, 5, "alive"), RINGPOP_FULL);
  expect("member", ringpop_node_member(node, 0x0A000002, 7946, &entry), RINGPOP_DONE);
  if (entry.incarnation != 5 || entry.status != RINGPOP_FAULTY || entry.weight != 1) expect("entry", 1, 0);
  expect("no member", ringpop_node_member(node, 0x0A000003, 7946, &entry), RINGPOP_NOTHING);
  expect("member of port 0", ringpop_node_member(node, 0x0A000003, 0, &entry), RINGPOP_BAD_ADDRESS);
  expect("len", ringpop_node_len(node, &count), RINGPOP_DONE);
  expect_count("members", count, 2);
  expect("digest in a short buffer", ringpop_node_digest(node, out, 31, &count), RINGPOP_SHORT_BUFFER);
  expect_count("which asks for", count, 32);
  expect("digest", ringpop_node_digest(node, out, 32, &count), RINGPOP_DONE);
  expect("own", ringpop_node_own(node, &ip, &port, &entry), RINGPOP_DONE);
  if (ip != 0x0A000001 || port != 7946 || entry.incarnation != 7 || entry.status != RINGPOP_ALIVE) expect("own entry", 1, 0);
  expect("take a slander at the last incarnation", take(node, 1, ((uint64_t)1 << 53) - 1, "faulty"), RINGPOP_EXHAUSTED);
}

static void refuse_probes(ringpop_node *node) {
  uint64_t number = 0;
  uint32_t ip = 0;
  uint16_t port = 0;
  ringpop_entry entry = {0, 0, 0};
  expect("probe with nobody to ping", ringpop_node_probe(node, &number, &ip, &port), RINGPOP_NOTHING);
  expect("ack of no probe", ringpop_node_acked(node, 1), RINGPOP_STALE_PROBE);
  expect("loss of no probe", ringpop_node_lost(node, 1, 2500, &entry), RINGPOP_STALE_PROBE);
  expect("word 3", ringpop_node_helper_said(node, 1, 1, 1, 3, 2500, &entry), RINGPOP_BAD_WORD);
  expect("word of port 0", ringpop_node_helper_said(node, 1, 1, 0, 0, 2500, &entry), RINGPOP_BAD_ADDRESS);
  expect("word for no probe", ringpop_node_helper_said(node, 1, 1, 1, 0, 2500, &entry), RINGPOP_STALE_PROBE);
  if (entry.weight != 0) expect("no entry is written", entry.weight, 0);
}

/* Owners of a key among four. */
static void refuse_owners(ringpop_node *node) {
  ringpop_address owners[4] = {{0, 0}};
  ringpop_view view = RINGPOP_VIEW_EMPTY;
  size_t count = 0;
  expect("owners in a short buffer", ringpop_node_owners(node, out, 1, SIZE_MAX, owners, 3, &count), RINGPOP_SHORT_BUFFER);
  expect_count("which asks for", count, 4);
  if (owners[0].port != 0) expect("nothing is written", 1, 0);
  expect("no owners", ringpop_node_owners(node, out, 1, 0, owners, 0, &count), RINGPOP_DONE);
  expect_count("owners", count, 0);
  expect("owners", ringpop_node_owners(node, out, 1, SIZE_MAX, owners, 4, &count), RINGPOP_DONE);
  expect_count("owners", count, 4);
  expect("owners by an empty view", ringpop_view_owners(&view, out, 1, 2, owners, 4, &count), RINGPOP_NO_NODE);
  expect("view", ringpop_view_new(&view, node), RINGPOP_DONE);
  expect("owners by a view in a short buffer", ringpop_view_owners(&view, out, 1, 2, owners, 1, &count), RINGPOP_SHORT_BUFFER);
  expect_count("which asks for", count, 2);
  expect("free of a view", ringpop_view_free(&view), RINGPOP_DONE);
}

/* What was written is this entry of a member. */
static void expect_entry(const char *what, ringpop_entry entry, uint64_t incarnation, uint8_t status, uint8_t weight) {
  if (entry.incarnation != incarnation || entry.status != status || entry.weight != weight) expect(what, 1, 0);
}

/* A suspect expires, and is told. */
static void expire_suspect(ringpop_node *node, uint32_t target, uint16_t target_port) {
  uint32_t ip = 5;
  uint16_t port = 6;
  ringpop_entry entry = {7, 8, 9}, held = {0, 0, 0};
  expect("expire before the deadline", ringpop_node_expire(node, 6999, &ip, &port, &entry), RINGPOP_NOTHING);
  if (ip != 5 || port != 6) expect("nobody is told", 1, 0);
  expect_entry("nothing is told", entry, 7, 8, 9);
  expect("expire at the deadline", ringpop_node_expire(node, 7000, &ip, &port, &entry), RINGPOP_DONE);
  if (ip != target || port != target_port) expect("the suspect is told", 1, 0);
  expect_entry("which is faulty", entry, 1, RINGPOP_FAULTY, 1);
  expect("member", ringpop_node_member(node, ip, port, &held), RINGPOP_DONE);
  expect_entry("and held so", held, 1, RINGPOP_FAULTY, 1);
  expect("expire again", ringpop_node_expire(node, 7000, &ip, &port, &entry), RINGPOP_NOTHING);
}

/* A node with three others. */
static void probe_others(ringpop_config config) {
  ringpop_node node = RINGPOP_NODE_EMPTY;
  uint64_t number = 0, running = 0;
  uint32_t ip = 0, helper = 0;
  uint16_t port = 0, helper_port = 0;
  ringpop_entry entry = {0, 0, 0};
  expect("new", ringpop_node_new(&node, &config, 0x0A000001, 7946, 7, 1, 1), RINGPOP_DONE);
  for (uint32_t last = 2; last < 5; last++) expect("take", take(&node, last, 1, "alive"), RINGPOP_DONE);
  refuse_owners(&node);
  expect("probe", ringpop_node_probe(&node, &number, &ip, &port), RINGPOP_DONE);
  expect("second probe", ringpop_node_probe(&node, &running, &helper, &helper_port), RINGPOP_BUSY);
  expect("running", ringpop_node_running(&node, &running, &helper, &helper_port), RINGPOP_DONE);
  if (running != number || helper != ip || helper_port != port) expect("the running probe", 1, 0);
  expect("lost at 2^53", ringpop_node_lost(&node, number, (uint64_t)1 << 53, &entry), RINGPOP_BAD_NUMBER);
  expect("lost", ringpop_node_lost(&node, number, 2000, &entry), RINGPOP_DONE);
  expect("word of the target", ringpop_node_helper_said(&node, number, ip, port, 2, 2000, &entry), RINGPOP_NOT_ASKED);
  expect("word at 2^53", ringpop_node_helper_said(&node, number, ip, port, 2, (uint64_t)1 << 53, &entry), RINGPOP_BAD_NUMBER);
  expect("waiting", ringpop_node_waiting(&node, &running, &helper, &helper_port), RINGPOP_DONE);
  expect("one failed", ringpop_node_helper_said(&node, running, helper, helper_port, 2, 2000, &entry), RINGPOP_WAITING);
  expect("waiting", ringpop_node_waiting(&node, &running, &helper, &helper_port), RINGPOP_DONE);
  expect("all failed", ringpop_node_helper_said(&node, running, helper, helper_port, 2, 2000, &entry), RINGPOP_INCONCLUSIVE);
  expect("probe", ringpop_node_probe(&node, &number, &ip, &port), RINGPOP_DONE);
  expect("lost", ringpop_node_lost(&node, number, 2000, &entry), RINGPOP_DONE);
  expect("waiting", ringpop_node_waiting(&node, &running, &helper, &helper_port), RINGPOP_DONE);
  expect("not reached", ringpop_node_helper_said(&node, running, helper, helper_port, 1, 2000, &entry), RINGPOP_WAITING);
  expect("waiting", ringpop_node_waiting(&node, &running, &helper, &helper_port), RINGPOP_DONE);
  expect_entry("no suspect until then", entry, 0, 0, 0);
  expect("and the other failed", ringpop_node_helper_said(&node, running, helper, helper_port, 2, 2000, &entry), RINGPOP_SUSPECTED);
  expect_entry("the suspect", entry, 1, RINGPOP_SUSPECT, 1);
  expire_suspect(&node, ip, port);
  expect("free", ringpop_node_free(&node), RINGPOP_DONE);
}

/* A target is lost without a helper to ask, and again when it is suspect already. */
static void lose_without_helpers(ringpop_config config) {
  ringpop_node node = RINGPOP_NODE_EMPTY;
  uint64_t number = 0;
  uint32_t ip = 0;
  uint16_t port = 0;
  ringpop_entry first = {0, 0, 0}, second = {0, 0, 0};
  config.helpers = 0;
  expect("new", ringpop_node_new(&node, &config, 0x0A000001, 7946, 7, 1, 1), RINGPOP_DONE);
  expect("take", take(&node, 2, 4, "alive"), RINGPOP_DONE);
  expect("probe", ringpop_node_probe(&node, &number, &ip, &port), RINGPOP_DONE);
  expect("lost with nobody to ask", ringpop_node_lost(&node, number, 2000, &first), RINGPOP_SUSPECTED);
  expect_entry("the suspect", first, 4, RINGPOP_SUSPECT, 1);
  expect("probe of the suspect", ringpop_node_probe(&node, &number, &ip, &port), RINGPOP_DONE);
  expect("lost again", ringpop_node_lost(&node, number, 2000, &second), RINGPOP_SUSPECTED);
  expect_entry("nothing is written", second, 0, 0, 0);
  expect("free", ringpop_node_free(&node), RINGPOP_DONE);
}

int main(void) {
  ringpop_node node = RINGPOP_NODE_EMPTY;
  ringpop_config config;
  size_t count = 0;
  uint32_t ip = 0;
  uint16_t port = 0;
  ringpop_entry entry = {0, 0, 0};
  ringpop_config_standard(&config);
  probe_others(config);
  lose_without_helpers(config);
  read_lines();
  config.max_members = 2;
  refuse_empty(&node);
  refuse_new(&node, config);
  expect("new", ringpop_node_new(&node, &config, 0x0A000001, 7946, 7, 1, 1), RINGPOP_DONE);
  expect("second new", ringpop_node_new(&node, &config, 0x0A000001, 7946, 7, 1, 1), RINGPOP_HAS_NODE);
  expect("ping in a short buffer", ringpop_node_ping(&node, 0x0A000002, 7946, out, 3, &count), RINGPOP_SHORT_BUFFER);
  expect_count("which asks for", count, RINGPOP_MAX_LINE);
  expect("ping of port 0", ringpop_node_ping(&node, 0x0A000002, 0, out, sizeof out, &count), RINGPOP_BAD_ADDRESS);
  expect("ping_req of helper port 0", ringpop_node_ping_req(&node, 1, 0, 2, 1, out, sizeof out, &count), RINGPOP_BAD_ADDRESS);
  expect("ping_req of target port 0", ringpop_node_ping_req(&node, 1, 1, 2, 0, out, sizeof out, &count), RINGPOP_BAD_ADDRESS);
  expect("ping_req_ack in a short buffer", ringpop_node_ping_req_ack(&node, 1, 1, 2, 1, true, out, 3, &count), RINGPOP_SHORT_BUFFER);
  refuse_lines(&node);
  refuse_many(&node);
  refuse_probes(&node);
  expect("members in a short buffer", ringpop_node_members(&node, out, 3, &count), RINGPOP_SHORT_BUFFER);
  take_changes(&node);
  expect("expire at 2^53", ringpop_node_expire(&node, (uint64_t)1 << 53, &ip, &port, &entry), RINGPOP_BAD_NUMBER);
  expect("expire", ringpop_node_expire(&node, 3000, &ip, &port, &entry), RINGPOP_NOTHING);
  expect("rejoin before it left", ringpop_node_rejoin(&node), RINGPOP_NOT_LEFT);
  expect("leave", ringpop_node_leave(&node), RINGPOP_DONE);
  expect("second leave", ringpop_node_leave(&node), RINGPOP_ALREADY_LEFT);
  expect("free", ringpop_node_free(&node), RINGPOP_DONE);
  expect("second free", ringpop_node_free(&node), RINGPOP_NO_NODE);
  for (uint32_t code = 0; code <= RINGPOP_BAD_WORD; code++)
    if (!seen[code] && code != RINGPOP_MEMORY && code != RINGPOP_UNANSWERED && code != RINGPOP_SPENT) expect("not met", code, 0);
  if (ringpop_code_text(RINGPOP_BAD_WORD + 1) != NULL) expect("text of no code", 1, 0);
  return faults != 0;
}
