/* The proved node of one thread, for C and C++. docs/C.md lists which call follows which.

   Proved of the library, by the contract of each export (crates/ringpop_c):
   - A call ends, and touches no memory but its handle, its buffers and its own heap.
   - It makes one step of the node in the handle and returns that step's code, or it makes none and returns why. Each call below names
     its codes other than DONE. Errors are named in the order of checks, and the first that applies is returned. For a line that is an
     object, UNKNOWN_KIND, MISSING_FIELD, BAD_FIELD and TOO_MANY have no order: its fields are checked one after another
     (docs/FORMATS.md), and the first error is returned.
   - The value behind an output pointer is unchanged if the code is not DONE, with three exceptions: a count at SHORT_BUFFER, the
     number of ringpop_node_waiting, and a suspect's entry at SUSPECTED.
   - After the first count bytes of a buffer, or the first count addresses of an array, nothing changes.
   - A written line is read as exactly the message that the step made, has at most RINGPOP_MAX_LINE bytes, and no newline.
   - Calls of one handle, one after another, are a run of the node's own calls (docs/GUARANTEES.md has the theorems about those).
   Not proved: that MEMORY and UNANSWERED are returned only if an allocation failed, that free gives all memory back, that views share
   one copy of the ring, and this header itself.

   What C owes, which nothing checks:
   - A handle is RINGPOP_NODE_EMPTY or RINGPOP_VIEW_EMPTY at first. Only the library writes its members; a full one is never
     copied, though it may be moved, and is freed before it is dropped.
   - One call at a time uses a handle, lookups too. Another thread may make the next call, if a lock, a start or join of a thread, or
     a sequentially consistent atomic orders it after the last: that a handle may go to it is proved.
   - No pointer is null, even if its length is 0. Each is aligned as its type requires, and points to the given number of values; none
     of these overlap in a call. A bool, also one behind a pointer, is true or false.
   - malloc, realloc and free are one allocator's, and align a block to each power of two up to 16 that divides its size.
   - No call from a signal handler, or from the forked child of a process with threads.

   Units and bounds. A moment is in milliseconds since a start that the caller chooses, the same for all calls of a node; one before
   the last that the node was given is read as the last. Moments and incarnations are 0 to 2^53 - 1. An address is an IPv4 number, the
   first part in the highest eight bits, and a port of 1 to 65,535: 10.0.0.1 is 0x0A000001. A line is one JSON object, of at most
   RINGPOP_MAX_LINE bytes, with no newline. A key is any bytes, also none. */
#ifndef RINGPOP_H
#define RINGPOP_H
#include <stdbool.h>
#include <stddef.h>
#include <stdint.h>
#if SIZE_MAX != UINT64_MAX
#error "the library is built for 64 bits"
#endif
#ifdef __cplusplus
extern "C" {
#endif

/* The version of the library and of this header. */
#define RINGPOP_VERSION "1.0.0-dev"

/* A node's handle: empty, or full with a node. */
typedef struct ringpop_node {
  void *at;
  bool full;
} ringpop_node;
#define RINGPOP_NODE_EMPTY {NULL, false}

/* The handle of a view: empty, or full with the ring that a node had when the view was made. */
typedef struct ringpop_view {
  void *at;
  bool full;
} ringpop_view;
#define RINGPOP_VIEW_EMPTY {NULL, false}

/* The configuration of a node. ringpop_config_standard fills it. */
typedef struct ringpop_config {
  uint32_t replicas;    /* points of the ring for each unit of weight, 1 to 1,000 */
  uint32_t piggyback;   /* how often a change goes out, for each digit of the number of serving members, 1 to 1,000 */
  size_t max_members;   /* the greatest number of members, 1 to 4,096 */
  uint64_t suspect_ms;  /* until a suspect is faulty, 1 to 2^53 - 1 */
  uint64_t faulty_ms;   /* until a faulty member is a tombstone, 1 to 2^53 - 1 */
  size_t helpers;       /* helpers asked about a target that did not answer, 0 to 16 */
  size_t per_message;   /* the greatest number of changes in a message, 1 to 4,096 */
  uint8_t weight;       /* shares of the ring, 1 to 8 */
} ringpop_config;

/* The entry of a member. */
typedef struct ringpop_entry {
  uint64_t incarnation; /* 0 to 2^53 - 1 */
  uint8_t status;       /* one of ringpop_status */
  uint8_t weight;       /* shares of the ring, 1 to 8 */
} ringpop_entry;

/* The address of a node. */
typedef struct ringpop_address {
  uint32_t ip;          /* the first part in the highest eight bits */
  uint16_t port;        /* 1 to 65,535 */
} ringpop_address;

/* In the order of precedence at one incarnation. A member serves while it is alive or suspect. */
enum ringpop_status {
  RINGPOP_ALIVE = 0,
  RINGPOP_SUSPECT = 1,
  RINGPOP_FAULTY = 2,
  RINGPOP_LEAVE = 3,
  RINGPOP_TOMBSTONE = 4
};

/* The kinds of messages. */
enum ringpop_kind {
  RINGPOP_JOIN = 0,
  RINGPOP_JOINED = 1,       /* the answer to a join */
  RINGPOP_PING = 2,
  RINGPOP_ACK = 3,          /* the answer to a ping */
  RINGPOP_PING_REQ = 4,     /* asks a helper to ping a target */
  RINGPOP_PING_REQ_ACK = 5, /* a helper's report on a target */
  RINGPOP_FORWARD = 6,      /* this and the rest are of requests, not of the membership */
  RINGPOP_REPLY = 7,
  RINGPOP_NOT_OWNER = 8,
  RINGPOP_REFUSED = 9
};

/* The codes that calls return. After DONE, NOTHING, UNANSWERED, SUSPECTED, WAITING and INCONCLUSIVE the call's step was made. After
   each other code the node is unchanged, except at EXHAUSTED, FULL and MEMORY of a call whose comment specifies it. */
enum ringpop_code {
  RINGPOP_DONE = 0,
  RINGPOP_NOTHING = 1,          /* done, and there is no output */
  RINGPOP_NO_NODE = 2,          /* the handle is empty */
  RINGPOP_HAS_NODE = 3,         /* the handle is full */
  RINGPOP_SHORT_BUFFER = 4,     /* the room is too small; the output is the count alone, which is needed */
  RINGPOP_BAD_ADDRESS = 5,      /* port 0 */
  RINGPOP_BAD_NUMBER = 6,       /* an incarnation or a moment over 2^53 - 1 */
  RINGPOP_BAD_WEIGHT = 7,       /* this and the next seven: a value of the configuration that is out of its range */
  RINGPOP_BAD_REPLICAS = 8,
  RINGPOP_BAD_MAX_MEMBERS = 9,
  RINGPOP_BAD_SUSPECT_MS = 10,
  RINGPOP_BAD_FAULTY_MS = 11,
  RINGPOP_BAD_HELPERS = 12,
  RINGPOP_BAD_PIGGYBACK = 13,
  RINGPOP_BAD_PER_MESSAGE = 14,
  RINGPOP_EXHAUSTED = 15,       /* no incarnation is left */
  RINGPOP_FULL = 16,            /* no room for another member */
  RINGPOP_ALREADY_LEFT = 17,    /* the node has left */
  RINGPOP_NOT_LEFT = 18,        /* the node has not left */
  RINGPOP_BUSY = 19,            /* a probe is running */
  RINGPOP_SPENT = 20,           /* no probe number is left */
  RINGPOP_STALE_PROBE = 21,     /* the probe is not the running one */
  RINGPOP_NOT_ASKED = 22,       /* the helper was not asked, or has answered */
  RINGPOP_MEMORY = 23,          /* an allocation failed: call again */
  RINGPOP_LINE_TOO_LONG = 24,   /* a line over 1,048,576 bytes */
  RINGPOP_BAD_JSON = 25,        /* a line that is not one JSON value in UTF-8 */
  RINGPOP_NOT_OBJECT = 26,      /* a JSON value that is not an object */
  RINGPOP_UNKNOWN_KIND = 27,    /* a message of an unknown kind */
  RINGPOP_MISSING_FIELD = 28,   /* a field that has to be there is absent */
  RINGPOP_BAD_FIELD = 29,       /* a field of another form than it has to be */
  RINGPOP_TOO_MANY = 30,        /* more than 4,096 changes, or more than 256 keys */
  RINGPOP_NOT_GOSSIP = 31,      /* a message that is not of the membership */
  RINGPOP_UNANSWERED = 32,      /* the message's changes are processed; out of memory for its answer */
  RINGPOP_SUSPECTED = 33,       /* the probe has ended against its target, which is suspect if it was alive */
  RINGPOP_WAITING = 34,         /* another helper has not answered */
  RINGPOP_INCONCLUSIVE = 35,    /* every helper failed */
  RINGPOP_BAD_WORD = 36         /* a helper's report that is not 0 to 2 */
};

/* Returns the meaning of a code in English. NULL if it is not a code. */
static inline const char *ringpop_code_text(uint32_t code) {
  switch (code) {
    case RINGPOP_DONE: return "done";
    case RINGPOP_NOTHING: return "done, and there is nothing to tell";
    case RINGPOP_NO_NODE: return "the handle is empty";
    case RINGPOP_HAS_NODE: return "the handle is full";
    case RINGPOP_SHORT_BUFFER: return "the buffer is too short";
    case RINGPOP_BAD_ADDRESS: return "the port is 0";
    case RINGPOP_BAD_NUMBER: return "an incarnation or a moment is over 2^53 - 1";
    case RINGPOP_BAD_WEIGHT: return "the weight is not 1 to 8";
    case RINGPOP_BAD_REPLICAS: return "replicas is out of its range";
    case RINGPOP_BAD_MAX_MEMBERS: return "max_members is out of its range";
    case RINGPOP_BAD_SUSPECT_MS: return "suspect_ms is out of its range";
    case RINGPOP_BAD_FAULTY_MS: return "faulty_ms is out of its range";
    case RINGPOP_BAD_HELPERS: return "helpers is out of its range";
    case RINGPOP_BAD_PIGGYBACK: return "piggyback is out of its range";
    case RINGPOP_BAD_PER_MESSAGE: return "per_message is out of its range";
    case RINGPOP_EXHAUSTED: return "no incarnation is left";
    case RINGPOP_FULL: return "too many members";
    case RINGPOP_ALREADY_LEFT: return "the node has left already";
    case RINGPOP_NOT_LEFT: return "the node has not left";
    case RINGPOP_BUSY: return "a probe is running";
    case RINGPOP_SPENT: return "no probe number is left";
    case RINGPOP_STALE_PROBE: return "the probe is not the running one";
    case RINGPOP_NOT_ASKED: return "the helper was not asked, or has answered";
    case RINGPOP_MEMORY: return "out of memory";
    case RINGPOP_LINE_TOO_LONG: return "the line is too long";
    case RINGPOP_BAD_JSON: return "not JSON";
    case RINGPOP_NOT_OBJECT: return "not an object";
    case RINGPOP_UNKNOWN_KIND: return "an unknown kind";
    case RINGPOP_MISSING_FIELD: return "a field is missing";
    case RINGPOP_BAD_FIELD: return "a field is bad";
    case RINGPOP_TOO_MANY: return "too many changes or keys";
    case RINGPOP_NOT_GOSSIP: return "no message of the membership";
    case RINGPOP_UNANSWERED: return "applied, but out of memory for the answer";
    case RINGPOP_SUSPECTED: return "the probe has ended against its target";
    case RINGPOP_WAITING: return "another helper has not answered";
    case RINGPOP_INCONCLUSIVE: return "every helper failed";
    case RINGPOP_BAD_WORD: return "a helper's word is not 0 to 2";
    default: return NULL;
  }
}

/* The room in bytes that a call which writes a message needs, checked before the node is touched: a shorter buffer is refused, so
   that no message is made and lost. */
#define RINGPOP_MAX_LINE 1048576

/* Writes a configuration that suits most clusters: 100 points, 15 times, 4,096 members, 5 seconds, a day, 3 helpers, 64 changes,
   weight 1. */
void ringpop_config_standard(ringpop_config *config);

/* Makes a node, alone in its cluster, into an empty handle. Its incarnation has to be above all that its address had before, the
   node's refutations counted; the seed, any number, decides its random choices; the moment is the first that it is given.
   HAS_NODE, BAD_ADDRESS, BAD_NUMBER, BAD_WEIGHT, BAD_REPLICAS, BAD_MAX_MEMBERS, BAD_SUSPECT_MS, BAD_FAULTY_MS, BAD_HELPERS,
   BAD_PIGGYBACK, BAD_PER_MESSAGE, MEMORY: the handle is unchanged. */
uint32_t ringpop_node_new(ringpop_node *node, const ringpop_config *config, uint32_t ip, uint16_t port, uint64_t incarnation,
                          uint64_t seed, uint64_t moment);
/* Frees the node: the handle is empty then, and can be used again. NO_NODE. */
uint32_t ringpop_node_free(ringpop_node *node);

/* Writes the line that joins a cluster at any of its members. NO_NODE, SHORT_BUFFER, MEMORY. */
uint32_t ringpop_node_join(ringpop_node *node, uint8_t *out, size_t room, size_t *count);
/* Writes the line that pings a member, with the changes to pass on to it. BAD_ADDRESS, NO_NODE, SHORT_BUFFER, MEMORY: then these
   changes may count as sent. */
uint32_t ringpop_node_ping(ringpop_node *node, uint32_t ip, uint16_t port, uint8_t *out, size_t room, size_t *count);
/* Writes the line that asks a helper to ping a target. BAD_ADDRESS of either, NO_NODE, SHORT_BUFFER, MEMORY: the changes in it may
   count as sent to the helper. */
uint32_t ringpop_node_ping_req(ringpop_node *node, uint32_t helper_ip, uint16_t helper_port, uint32_t target_ip,
                               uint16_t target_port, uint8_t *out, size_t room, size_t *count);
/* Writes the line of a helper's report to a requester on whether its target was reached. BAD_ADDRESS of either, NO_NODE,
   SHORT_BUFFER, MEMORY: the changes in it may count as sent to the requester. */
uint32_t ringpop_node_ping_req_ack(ringpop_node *node, uint32_t requester_ip, uint16_t requester_port, uint32_t target_ip,
                                   uint16_t target_port, bool reached, uint8_t *out, size_t room, size_t *count);
/* Receives a line that came at this moment. DONE: an answer is written, which goes back to the sender. NOTHING: it needs none.
   BAD_NUMBER, NO_NODE, SHORT_BUFFER; of the line LINE_TOO_LONG, BAD_JSON, NOT_OBJECT, UNKNOWN_KIND, MISSING_FIELD, BAD_FIELD,
   TOO_MANY, and MEMORY if it could not be read; NOT_GOSSIP; of its changes, processed one after another, EXHAUSTED, FULL, MEMORY:
   those before the one that fails are applied completely, the rest not at all, and the moment counts. UNANSWERED: all are
   processed; out of memory for the answer; the changes in it may count as sent. */
uint32_t ringpop_node_receive(ringpop_node *node, const uint8_t *line, size_t length, uint64_t moment, uint8_t *out, size_t room,
                              size_t *count);

/* Processes the line of one change at this moment. DONE: it altered an entry, itself or by the node's refutation. NOTHING: it is
   old. BAD_NUMBER, NO_NODE; of the line LINE_TOO_LONG, BAD_JSON, NOT_OBJECT, MISSING_FIELD, BAD_FIELD, and MEMORY if it could not be
   read; of the change EXHAUSTED, FULL, MEMORY: no entry is altered, but the moment counts. */
uint32_t ringpop_node_take(ringpop_node *node, const uint8_t *line, size_t length, uint64_t moment);

/* The next three read a line without a node: the line goes to ringpop_node_receive as well. LINE_TOO_LONG, BAD_JSON, NOT_OBJECT,
   UNKNOWN_KIND, MISSING_FIELD, BAD_FIELD, TOO_MANY, MEMORY.
   Writes its kind, one of ringpop_kind, and the address of its source. */
uint32_t ringpop_line_source(const uint8_t *line, size_t length, uint8_t *kind, uint32_t *ip, uint16_t *port);
/* Writes the target that a PING_REQ asks to ping: the answer, which ringpop_node_ping_req_ack makes, goes to the line's source.
   NOTHING: it is another kind. */
uint32_t ringpop_line_target(const uint8_t *line, size_t length, uint32_t *ip, uint16_t *port);
/* Writes the target of a PING_REQ_ACK, and whether it was reached: about another target than the probe's it is not a report on the
   probe. NOTHING: it is another kind. */
uint32_t ringpop_line_reached(const uint8_t *line, size_t length, uint32_t *ip, uint16_t *port, bool *reached);

/* Gives the first entry at its deadline its next status. DONE: its address and the new entry are written; call again. NOTHING: none
   is due. BAD_NUMBER, NO_NODE, MEMORY. */
uint32_t ringpop_node_expire(ringpop_node *node, uint64_t moment, uint32_t *ip, uint16_t *port, ringpop_entry *entry);
/* Leaves the cluster: the node passes that on in its messages, and owns no key. NO_NODE, ALREADY_LEFT, MEMORY. */
uint32_t ringpop_node_leave(ringpop_node *node);
/* Comes back, at the next incarnation. NO_NODE, NOT_LEFT, EXHAUSTED, MEMORY: the node is unchanged. */
uint32_t ringpop_node_rejoin(ringpop_node *node);

/* Starts a probe: writes its number, and the address to ping. NOTHING: no member is pingable. NO_NODE, BUSY, SPENT, MEMORY. */
uint32_t ringpop_node_probe(ringpop_node *node, uint64_t *number, uint32_t *ip, uint16_t *port);
/* Writes the number and the target of the running probe. NOTHING: none runs. NO_NODE. */
uint32_t ringpop_node_running(ringpop_node *node, uint64_t *number, uint32_t *ip, uint16_t *port);
/* Ends the probe of this number: its target answered, by an ACK whose source it is. NO_NODE, STALE_PROBE. */
uint32_t ringpop_node_acked(ringpop_node *node, uint64_t number);
/* Reports that the target did not answer by this moment. DONE: helpers have to be asked. SUSPECTED: there are none, and the probe
   ends: if the target was alive it is suspect from now on, and its entry is written, else no entry is; as below.
   BAD_NUMBER, NO_NODE, STALE_PROBE, also if it was called for this probe before, MEMORY. */
uint32_t ringpop_node_lost(ringpop_node *node, uint64_t number, uint64_t moment, ringpop_entry *entry);
/* Writes the running probe's number, and the helper of least address that has to be asked and has not answered. NOTHING: there is
   none; the number is written if a probe runs. NO_NODE. */
uint32_t ringpop_node_waiting(ringpop_node *node, uint64_t *number, uint32_t *ip, uint16_t *port);
/* Processes a helper's report, by this moment: 0, it reached the target; 1, it did not; 2, the helper failed. DONE: the target was
   reached. SUSPECTED: all have answered, and one did not reach it. INCONCLUSIVE: all failed. At these three the probe ends.
   WAITING: another helper has not answered. BAD_ADDRESS, BAD_WORD, BAD_NUMBER, NO_NODE, STALE_PROBE, NOT_ASKED, MEMORY. */
uint32_t ringpop_node_helper_said(ringpop_node *node, uint64_t number, uint32_t ip, uint16_t port, uint8_t word, uint64_t moment,
                                  ringpop_entry *entry);

/* Writes the node's own address and entry. NO_NODE. */
uint32_t ringpop_node_own(ringpop_node *node, uint32_t *ip, uint16_t *port, ringpop_entry *entry);
/* Writes the entry of an address. NOTHING: no member has it. BAD_ADDRESS, NO_NODE. */
uint32_t ringpop_node_member(ringpop_node *node, uint32_t ip, uint16_t port, ringpop_entry *entry);
/* Writes the number of members, the node among them. NO_NODE. */
uint32_t ringpop_node_len(ringpop_node *node, size_t *count);
/* Writes the members as one line of text. Each list of members has a different text: nodes that agree have the same. A member takes
   49 bytes at most. NO_NODE, MEMORY, SHORT_BUFFER. */
uint32_t ringpop_node_members(ringpop_node *node, uint8_t *out, size_t room, size_t *count);
/* Writes the 32 bytes of that text's SHA-256. NO_NODE, MEMORY, SHORT_BUFFER. */
uint32_t ringpop_node_digest(ringpop_node *node, uint8_t *out, size_t room, size_t *count);
/* Writes the owner of a key. NOTHING: no member serves. NO_NODE. */
uint32_t ringpop_node_owner(ringpop_node *node, const uint8_t *key, size_t length, uint32_t *ip, uint16_t *port);
/* Writes the first owners of a key, all different, the owner first: as many as are wanted, or all that serve if those are fewer,
   which may be none. room and count are numbers of addresses. NO_NODE, MEMORY, SHORT_BUFFER. */
uint32_t ringpop_node_owners(ringpop_node *node, const uint8_t *key, size_t length, size_t wanted, ringpop_address *out,
                             size_t room, size_t *count);

/* Makes the view of a node into an empty handle. It names owners as the node does now, whatever changes afterwards, and also once the
   node is freed. A view has one call at a time, as a node has; another thread needs a separate view, which needs no lock: views
   between two changes of the ring share one copy of it. HAS_NODE if the view's handle is full, NO_NODE if the node's is empty,
   MEMORY: the view's handle is unchanged. */
uint32_t ringpop_view_new(ringpop_view *view, ringpop_node *node);
/* Frees the view: the handle is empty then. NO_NODE. */
uint32_t ringpop_view_free(ringpop_view *view);
/* Writes the address of the node whose view it is. NO_NODE. */
uint32_t ringpop_view_own(ringpop_view *view, uint32_t *ip, uint16_t *port);
/* Writes the owner of a key. NOTHING: no member served. NO_NODE. */
uint32_t ringpop_view_owner(ringpop_view *view, const uint8_t *key, size_t length, uint32_t *ip, uint16_t *port);
/* Writes the first owners of a key, as of a node. NO_NODE, MEMORY, SHORT_BUFFER. */
uint32_t ringpop_view_owners(ringpop_view *view, const uint8_t *key, size_t length, size_t wanted, ringpop_address *out,
                             size_t room, size_t *count);
#ifdef __cplusplus
}
#endif
#endif
