/* Three nodes in one process talk by lines until they name one owner; then look-ups are counted. */
#include <stdio.h>
#include <string.h>
#include <time.h>

#include "ringpop.h"

#define IP(last) (0x0A000000u + (uint32_t)(last))
#define PORT 7946
#define LOOKUPS 1000000

static ringpop_node nodes[3] = {RINGPOP_NODE_EMPTY, RINGPOP_NODE_EMPTY, RINGPOP_NODE_EMPTY};
static uint8_t line[RINGPOP_MAX_LINE], answer[RINGPOP_MAX_LINE];
static uint64_t moment = 1000;
static int faults = 0;

static void expect(const char *what, uint32_t code, uint32_t wanted) {
  if (code != wanted) {
    printf("%s: code %u, not %u\n", what, code, wanted);
    faults++;
  }
}

/* A line is of this kind, and from this node. */
static void expect_source(const uint8_t *said, size_t length, uint8_t wanted, int from) {
  uint8_t kind = 0;
  uint32_t ip = 0;
  uint16_t port = 0;
  expect("source", ringpop_line_source(said, length, &kind, &ip, &port), RINGPOP_DONE);
  expect("kind", kind, wanted);
  expect("from", ip, IP(from + 1));
  expect("its port", port, PORT);
}

/* One node sends a line to another, which answers. */
static void talk(int from, int to, bool join) {
  size_t length = 0, answered = 0;
  uint32_t code = join ? ringpop_node_join(&nodes[from], line, sizeof line, &length)
                       : ringpop_node_ping(&nodes[from], IP(to + 1), PORT, line, sizeof line, &length);
  expect("say", code, RINGPOP_DONE);
  expect("receive", ringpop_node_receive(&nodes[to], line, length, ++moment, answer, sizeof answer, &answered), RINGPOP_DONE);
  expect_source(line, length, join ? RINGPOP_JOIN : RINGPOP_PING, from);
  expect_source(answer, answered, join ? RINGPOP_JOINED : RINGPOP_ACK, to);
  expect("answer", ringpop_node_receive(&nodes[from], answer, answered, ++moment, line, sizeof line, &length), RINGPOP_NOTHING);
}

/* Passes the line that a node just wrote, and that needs no answer, to another node. */
static void tell(uint32_t written, int to, size_t length) {
  size_t answered = 0;
  expect("say", written, RINGPOP_DONE);
  expect("hear", ringpop_node_receive(&nodes[to], line, length, ++moment, answer, sizeof answer, &answered), RINGPOP_NOTHING);
}

/* A helper does what the line just written asks: it pings the target, and reports to the requester, which the line names. */
static size_t help(int helper, size_t length) {
  uint8_t kind = 0;
  uint32_t requester_ip = 0, target_ip = 0;
  uint16_t requester_port = 0, target_port = 0;
  expect("requester", ringpop_line_source(line, length, &kind, &requester_ip, &requester_port), RINGPOP_DONE);
  expect("kind", kind, RINGPOP_PING_REQ);
  expect("target", ringpop_line_target(line, length, &target_ip, &target_port), RINGPOP_DONE);
  talk(helper, (int)(target_ip - IP(1)), false);
  expect("answer to a requester",
         ringpop_node_ping_req_ack(&nodes[helper], requester_ip, requester_port, target_ip, target_port, true, line, sizeof line, &length),
         RINGPOP_DONE);
  expect_source(line, length, RINGPOP_PING_REQ_ACK, helper);
  return length;
}

/* A probe whose target answers no ping, until a helper reaches it. */
static void probe_by_helper(int prober) {
  uint64_t number = 0, running = 0;
  uint32_t target_ip = 0, helper_ip = 0, said_ip = 0;
  uint16_t target_port = 0, helper_port = 0, said_port = 0;
  size_t length = 0;
  bool reached = false;
  ringpop_entry entry = {0, 0, 0};
  expect("probe", ringpop_node_probe(&nodes[prober], &number, &target_ip, &target_port), RINGPOP_DONE);
  expect("lost", ringpop_node_lost(&nodes[prober], number, ++moment, &entry), RINGPOP_DONE);
  expect("waiting", ringpop_node_waiting(&nodes[prober], &running, &helper_ip, &helper_port), RINGPOP_DONE);
  int helper = (int)(helper_ip - IP(1));
  uint32_t code =
      ringpop_node_ping_req(&nodes[prober], helper_ip, helper_port, target_ip, target_port, line, sizeof line, &length);
  tell(code, helper, length);
  length = help(helper, length);
  tell(RINGPOP_DONE, prober, length);
  expect("reached", ringpop_line_reached(line, length, &said_ip, &said_port, &reached), RINGPOP_DONE);
  if (!reached || said_ip != target_ip || said_port != target_port) expect("the target was reached", 0, 1);
  expect("helper said", ringpop_node_helper_said(&nodes[prober], running, helper_ip, helper_port, 0, ++moment, &entry), RINGPOP_DONE);
  if (entry.weight != 0) expect("nobody is suspect", entry.weight, 0);
  expect("no probe runs", ringpop_node_running(&nodes[prober], &running, &helper_ip, &helper_port), RINGPOP_NOTHING);
}

/* A probe whose target answers. */
static void probe(int prober) {
  uint64_t number = 0;
  uint32_t ip = 0;
  uint16_t port = 0;
  expect("probe", ringpop_node_probe(&nodes[prober], &number, &ip, &port), RINGPOP_DONE);
  talk(prober, (int)(ip - IP(1)), false);
  expect("acked", ringpop_node_acked(&nodes[prober], number), RINGPOP_DONE);
}

static void compare_members(void) {
  size_t length = 0, other = 0;
  expect("members", ringpop_node_members(&nodes[0], line, sizeof line, &length), RINGPOP_DONE);
  for (int i = 1; i < 3; i++) {
    expect("members", ringpop_node_members(&nodes[i], answer, sizeof answer, &other), RINGPOP_DONE);
    if (other != length || memcmp(line, answer, length) != 0) {
      printf("the members differ\n");
      faults++;
    }
  }
}

static uint32_t owner_of(int node, const char *key) {
  uint32_t ip = 0;
  uint16_t port = 0;
  expect("owner", ringpop_node_owner(&nodes[node], (const uint8_t *)key, strlen(key), &ip, &port), RINGPOP_DONE);
  return port == PORT ? ip : 0;
}

/* The first owners of a key by a node: how many there are. */
static size_t owners_of(int node, const char *key, ringpop_address *owners, size_t wanted) {
  size_t count = 0;
  uint32_t code = ringpop_node_owners(&nodes[node], (const uint8_t *)key, strlen(key), wanted, owners, wanted, &count);
  expect("owners", code, RINGPOP_DONE);
  return count;
}

static void expect_same(const char *what, const ringpop_address *these, const ringpop_address *those, size_t count) {
  for (size_t i = 0; i < count; i++)
    if (these[i].ip != those[i].ip || these[i].port != those[i].port) expect(what, 1, 0);
}

/* The nodes name all three as owners of a key, in one order. */
static void compare_owners(const char *key) {
  ringpop_address owners[4], others[4];
  expect("three owners", (uint32_t)owners_of(0, key, owners, 4), 3);
  expect("the owner first", owners[0].ip, owner_of(0, key));
  if (owners[0].ip == owners[1].ip || owners[0].ip == owners[2].ip || owners[1].ip == owners[2].ip) expect("different", 1, 0);
  for (int i = 1; i < 3; i++) {
    expect("two owners", (uint32_t)owners_of(i, key, others, 2), 2);
    expect_same("the same owners", owners, others, 2);
  }
}

static void count_lookups(void) {
  uint32_t ip = 0, sum = 0;
  uint16_t port = 0;
  clock_t begin = clock();
  for (uint32_t i = 0; i < LOOKUPS; i++) {
    uint8_t key[12] = "trip-000";
    memcpy(key + 8, &i, sizeof i);
    ringpop_node_owner(&nodes[0], key, sizeof key, &ip, &port);
    sum += ip;
  }
  double seconds = (double)(clock() - begin) / CLOCKS_PER_SEC;
  size_t members = 0;
  expect("len", ringpop_node_len(&nodes[0], &members), RINGPOP_DONE);
  fprintf(stderr, "%zu members: %.0f look-ups a second of processor time (%u)\n", members, LOOKUPS / seconds, sum);
}

/* Gives the first node members, until it holds this many. */
static void tell_members(size_t wanted) {
  for (size_t i = 4; i <= wanted; i++) {
    int length = snprintf((char *)line, sizeof line,
                          "{\"address\":\"10.0.%zu.%zu:7946\",\"incarnationNumber\":1,\"source\":\"10.0.0.2:7946\","
                          "\"sourceIncarnationNumber\":7,\"status\":\"alive\"}",
                          i >> 8, i & 255);
    expect("take", ringpop_node_take(&nodes[0], line, (size_t)length, moment), RINGPOP_DONE);
  }
}

/* A view names the owners that there were when it was made. */
static void view_before_a_leave(void) {
  ringpop_view view = RINGPOP_VIEW_EMPTY;
  uint32_t ip = 0, was = owner_of(2, "trip-3");
  uint16_t port = 0;
  ringpop_address owners[3], left[3];
  size_t count = 0;
  expect("view", ringpop_view_new(&view, &nodes[2]), RINGPOP_DONE);
  expect("second view", ringpop_view_new(&view, &nodes[2]), RINGPOP_HAS_NODE);
  expect("leave", ringpop_node_leave(&nodes[2]), RINGPOP_DONE);
  if (owner_of(2, "trip-3") == was) expect("the owner left", 1, 0);
  expect("view's owner", ringpop_view_owner(&view, (const uint8_t *)"trip-3", 6, &ip, &port), RINGPOP_DONE);
  if (ip != was || port != PORT) expect("the owner then", 1, 0);
  expect("view's owners", ringpop_view_owners(&view, (const uint8_t *)"trip-3", 6, 3, owners, 3, &count), RINGPOP_DONE);
  if (count != 3 || owners[0].ip != was) expect("the owners then", 1, 0);
  expect("owners that are left", (uint32_t)owners_of(2, "trip-3", left, 3), 2);
  expect_same("the others in their order", owners + 1, left, 2);
  expect("view's own", ringpop_view_own(&view, &ip, &port), RINGPOP_DONE);
  if (ip != IP(3) || port != PORT) expect("own", 1, 0);
  expect("free of a view", ringpop_view_free(&view), RINGPOP_DONE);
  expect("second free of a view", ringpop_view_free(&view), RINGPOP_NO_NODE);
  expect("view by an empty handle", ringpop_view_own(&view, &ip, &port), RINGPOP_NO_NODE);
}

int main(int words, char **word) {
  ringpop_config config;
  for (int i = 0; i < 3; i++) {
    ringpop_config_standard(&config);
    config.weight = i == 1 ? 2 : 1;
    expect("new", ringpop_node_new(&nodes[i], &config, IP(i + 1), PORT, 7, (uint64_t)i, moment), RINGPOP_DONE);
  }
  talk(1, 0, true);
  talk(2, 0, true);
  talk(0, 1, false);
  talk(0, 2, false);
  compare_members();
  probe(0);
  probe_by_helper(0);
  for (int i = 0; i < 8; i++) {
    char key[16];
    snprintf(key, sizeof key, "trip-%d", i);
    uint32_t owner = owner_of(0, key);
    printf("%s is on 10.0.0.%u\n", key, owner & 255);
    if (owner != owner_of(1, key) || owner != owner_of(2, key)) {
      printf("the nodes differ\n");
      faults++;
    }
    compare_owners(key);
  }
  if (words > 1 && strcmp(word[1], "count") == 0) {
    count_lookups();
    tell_members(1000);
    count_lookups();
  }
  view_before_a_leave();
  expect("rejoin", ringpop_node_rejoin(&nodes[2]), RINGPOP_DONE);
  for (int i = 0; i < 3; i++) expect("free", ringpop_node_free(&nodes[i]), RINGPOP_DONE);
  return faults != 0;
}
