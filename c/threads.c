/* Threads share a node: each of its calls is made under one lock, by any thread, and each thread looks keys up in a separate view
   without a lock, while the node changes. */
#define _POSIX_C_SOURCE 200809L
#include <pthread.h>
#include <stdio.h>
#include <stdlib.h>
#include <string.h>

#include "ringpop.h"

#define THREADS 4
#define KEYS 64
#define ROUNDS 100

static pthread_mutex_t lock = PTHREAD_MUTEX_INITIALIZER;
static ringpop_node node = RINGPOP_NODE_EMPTY; /* under the lock */
static int faults = 0;                         /* under the lock */

static void expect(const char *what, uint32_t code, uint32_t wanted) {
  if (code == wanted) return;
  pthread_mutex_lock(&lock);
  fprintf(stderr, "%s: code %u, not %u\n", what, code, wanted);
  faults++;
  pthread_mutex_unlock(&lock);
}

/* Gives the node a change about a member. */
static void hear_of(unsigned last) {
  char line[256];
  int length = snprintf(line, sizeof line,
                        "{\"address\":\"10.0.0.%u:7946\",\"incarnationNumber\":1,\"source\":\"10.0.0.9:7946\","
                        "\"sourceIncarnationNumber\":1,\"status\":\"alive\"}",
                        last);
  pthread_mutex_lock(&lock);
  uint32_t code = ringpop_node_take(&node, (const uint8_t *)line, (size_t)length, 1);
  pthread_mutex_unlock(&lock);
  expect("take", code, RINGPOP_DONE);
}

/* Makes a view, and notes which node owns each key at that moment. */
static void look(ringpop_view *view, uint32_t *owners) {
  uint32_t made = 0, named = 0;
  uint16_t port = 0;
  pthread_mutex_lock(&lock);
  made = ringpop_view_new(view, &node);
  for (uint8_t key = 0; key < KEYS; key++) named += ringpop_node_owner(&node, &key, 1, &owners[key], &port);
  pthread_mutex_unlock(&lock);
  expect("view", made, RINGPOP_DONE);
  expect("owners", named, RINGPOP_DONE);
}

/* Looks keys up in view after view. */
static void *serve(void *nothing) {
  for (int round = 0; round < ROUNDS; round++) {
    ringpop_view view = RINGPOP_VIEW_EMPTY;
    uint32_t owners[KEYS] = {0}, ip = 0;
    uint16_t port = 0;
    look(&view, owners);
    for (uint8_t key = 0; key < KEYS; key++) {
      expect("owner", ringpop_view_owner(&view, &key, 1, &ip, &port), RINGPOP_DONE);
      expect("the owner at that moment", ip, owners[key]);
    }
    expect("free of a view", ringpop_view_free(&view), RINGPOP_DONE);
  }
  return nothing;
}

/* Looks keys up in a view that another thread made, after the node was freed, and frees it. */
static void *end(void *given) {
  uint32_t ip = 0;
  uint16_t port = 0;
  expect("owner", ringpop_view_owner(given, (const uint8_t *)"trip-42", 7, &ip, &port), RINGPOP_DONE);
  expect("free of a view", ringpop_view_free(given), RINGPOP_DONE);
  return NULL;
}

/* Starts a thread that does this; the program ends if there is none. */
static pthread_t started(void *(*work)(void *), void *given) {
  pthread_t thread;
  int fault = pthread_create(&thread, NULL, work, given);
  if (fault != 0) {
    fprintf(stderr, "no thread: %s\n", strerror(fault));
    exit(1);
  }
  return thread;
}

int main(void) {
  ringpop_config config;
  ringpop_view last = RINGPOP_VIEW_EMPTY;
  pthread_t threads[THREADS];
  size_t members = 0;
  ringpop_config_standard(&config);
  expect("new", ringpop_node_new(&node, &config, 0x0A000001, 7946, 7, 1, 1), RINGPOP_DONE);
  for (int i = 0; i < THREADS; i++) threads[i] = started(serve, NULL);
  for (unsigned i = 2; i <= 40; i++) hear_of(i);
  for (int i = 0; i < THREADS; i++) expect("join", (uint32_t)pthread_join(threads[i], NULL), 0);
  expect("len", ringpop_node_len(&node, &members), RINGPOP_DONE);
  expect("forty members", (uint32_t)members, 40);
  expect("view", ringpop_view_new(&last, &node), RINGPOP_DONE);
  expect("free", ringpop_node_free(&node), RINGPOP_DONE);
  expect("join", (uint32_t)pthread_join(started(end, &last), NULL), 0);
  printf("%d threads: %d views, each with the owners of its moment\n", THREADS, THREADS * ROUNDS);
  return faults != 0;
}
