/* Three nodes agree on one owner though an allocation fails, each in turn by scripts/c-examples: a call that returns MEMORY changes
   nothing, and is made again. UNANSWERED is printed on standard error, and the line comes again. */
#include <stdio.h>
#include <string.h>

#include "ringpop.h"

#define IP(last) (0x0A000000u + (uint32_t)(last))
#define PORT 7946

static ringpop_node nodes[3] = {RINGPOP_NODE_EMPTY, RINGPOP_NODE_EMPTY, RINGPOP_NODE_EMPTY};
static uint8_t line[RINGPOP_MAX_LINE], answer[RINGPOP_MAX_LINE];
static uint64_t moment = 1000;
static int faults = 0;

static void expect(const char *what, uint32_t code, uint32_t wanted) {
  if (code != wanted) {
    fprintf(stderr, "%s: code %u, not %u\n", what, code, wanted);
    faults++;
  }
}

/* Writes the members of a node as text; returns its number of bytes, 0 of an empty handle. */
static size_t members(int at, uint8_t *text, size_t room) {
  size_t length = 0;
  uint32_t code = ringpop_node_members(&nodes[at], text, room, &length);
  if (code == RINGPOP_MEMORY) code = ringpop_node_members(&nodes[at], text, room, &length);
  return code == RINGPOP_DONE ? length : 0;
}

/* Makes a call of a node, and again if it was out of memory, when the members have to be those before. */
#define AGAIN(at, code, call)                                                                              \
  do {                                                                                                     \
    uint8_t before[1024], after[1024];                                                                     \
    size_t held = members(at, before, sizeof before);                                                      \
    code = call;                                                                                           \
    if (code == RINGPOP_MEMORY) {                                                                          \
      size_t now = members(at, after, sizeof after);                                                       \
      expect("members after MEMORY", now == held && memcmp(before, after, held) == 0, 1);                  \
      code = call;                                                                                         \
    }                                                                                                      \
  } while (0)

/* One node sends a line to another, which answers. If it is out of memory for the answer, none comes. */
static void talk(int from, int to, bool join) {
  size_t length = 0, answered = 0;
  uint32_t code;
  AGAIN(from, code,
        join ? ringpop_node_join(&nodes[from], line, sizeof line, &length)
             : ringpop_node_ping(&nodes[from], IP(to + 1), PORT, line, sizeof line, &length));
  expect("say", code, RINGPOP_DONE);
  moment++;
  code = ringpop_node_receive(&nodes[to], line, length, moment, answer, sizeof answer, &answered);
  if (code == RINGPOP_UNANSWERED) fputs("unanswered\n", stderr);
  if (code == RINGPOP_MEMORY || code == RINGPOP_UNANSWERED)
    code = ringpop_node_receive(&nodes[to], line, length, moment, answer, sizeof answer, &answered);
  expect("receive", code, RINGPOP_DONE);
  code = ringpop_node_receive(&nodes[from], answer, answered, moment, line, sizeof line, &length);
  if (code == RINGPOP_MEMORY) code = ringpop_node_receive(&nodes[from], answer, answered, moment, line, sizeof line, &length);
  expect("answer", code, RINGPOP_NOTHING);
}

static void probe_nobody_answers(int prober) {
  uint64_t number = 0;
  uint32_t code, ip = 0;
  uint16_t port = 0;
  ringpop_entry entry = {0, 0, 0};
  AGAIN(prober, code, ringpop_node_probe(&nodes[prober], &number, &ip, &port));
  expect("probe", code, RINGPOP_DONE);
  AGAIN(prober, code, ringpop_node_lost(&nodes[prober], number, moment, &entry));
  expect("lost", code, RINGPOP_DONE);
  AGAIN(prober, code, ringpop_node_waiting(&nodes[prober], &number, &ip, &port));
  expect("waiting", code, RINGPOP_DONE);
  AGAIN(prober, code, ringpop_node_helper_said(&nodes[prober], number, ip, port, 1, moment, &entry));
  expect("helper said", code, RINGPOP_SUSPECTED);
  expect("the target is suspect", entry.status, RINGPOP_SUSPECT);
  AGAIN(prober, code, ringpop_node_expire(&nodes[prober], moment + 5000, &ip, &port, &entry));
  expect("expire", code, RINGPOP_DONE);
  expect("the target is faulty", entry.status, RINGPOP_FAULTY);
}

/* The owners of a key by a node, and by a view of it. */
static void list_owners(int at) {
  ringpop_view view = RINGPOP_VIEW_EMPTY;
  ringpop_address owners[3], then[3];
  size_t count = 0, counted = 0;
  uint32_t code;
  AGAIN(at, code, ringpop_node_owners(&nodes[at], line, 1, 3, owners, 3, &count));
  expect("owners", code, RINGPOP_DONE);
  AGAIN(at, code, ringpop_view_new(&view, &nodes[at]));
  expect("view", code, RINGPOP_DONE);
  AGAIN(at, code, ringpop_view_owners(&view, line, 1, 3, then, 3, &counted));
  expect("owners by the view", code, RINGPOP_DONE);
  expect("three owners", count == 3 && counted == 3, 1);
  for (int i = 0; i < 3; i++) expect("the same owners", owners[i].ip == then[i].ip && owners[i].port == then[i].port, 1);
  expect("free of the view", ringpop_view_free(&view), RINGPOP_DONE);
}

static void compare(void) {
  uint8_t first[1024], other[1024];
  size_t length = members(0, first, sizeof first);
  expect("members", length > 0, 1);
  for (int i = 1; i < 3; i++) {
    size_t now = members(i, other, sizeof other);
    expect("the same members", now == length && memcmp(first, other, length) == 0, 1);
  }
}

int main(void) {
  ringpop_config config;
  uint32_t code;
  for (int i = 0; i < 3; i++) {
    ringpop_config_standard(&config);
    AGAIN(i, code, ringpop_node_new(&nodes[i], &config, IP(i + 1), PORT, 7, (uint64_t)i, moment));
    expect("new", code, RINGPOP_DONE);
  }
  talk(1, 0, true);
  talk(2, 0, true);
  talk(0, 1, false);
  talk(0, 2, false);
  talk(1, 2, false);
  talk(2, 0, false);
  compare();
  list_owners(1);
  probe_nobody_answers(0);
  AGAIN(2, code, ringpop_node_leave(&nodes[2]));
  expect("leave", code, RINGPOP_DONE);
  AGAIN(2, code, ringpop_node_rejoin(&nodes[2]));
  expect("rejoin", code, RINGPOP_DONE);
  for (int i = 0; i < 3; i++) expect("free", ringpop_node_free(&nodes[i]), RINGPOP_DONE);
  return faults != 0;
}
