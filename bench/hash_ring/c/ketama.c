/* The ketama ring of libmemcached, of 10, 50 and 96 servers by MD5: nanoseconds an owner, microseconds an add (which
   makes the whole ring again), milliseconds a build, each the least of its rounds. Needs -lmemcached. */
#define _POSIX_C_SOURCE 200809L
#include <libmemcached/memcached.h>
#include <stdio.h>
#include <stdlib.h>
#include <time.h>

#define KEYS 65536
#define KEY_BYTES 24

static char keys[KEYS][KEY_BYTES + 1];

static double now(void) {
  struct timespec moment;
  clock_gettime(CLOCK_MONOTONIC, &moment);
  return moment.tv_sec * 1e9 + moment.tv_nsec;
}

static double least(const double *values, size_t count) {
  double found = values[0];
  for (size_t i = 1; i < count; i++)
    if (values[i] < found) found = values[i];
  return found;
}

/* A ring of that many servers; how long it took goes to *nanos. */
static memcached_st *build(int servers, double *nanos) {
  memcached_return_t refused;
  memcached_st *ring = memcached_create(NULL);
  memcached_server_st *list = NULL;
  memcached_behavior_set(ring, MEMCACHED_BEHAVIOR_KETAMA, 1);
  for (int place = 0; place < servers; place++) {
    char host[32];
    snprintf(host, sizeof host, "10.0.%d.%d", place / 256, place % 256);
    list = memcached_server_list_append(list, host, 7946, &refused);
  }
  double start = now();
  refused = memcached_server_push(ring, list);
  *nanos = now() - start;
  memcached_server_list_free(list);
  if (refused != MEMCACHED_SUCCESS) {
    printf("ketama: %s\n", memcached_strerror(ring, refused));
    exit(1);
  }
  return ring;
}

static void measure(int servers) {
  double builds[3], owners[7], adds[3];
  unsigned long sum = 0;
  memcached_st *ring = NULL;
  for (int round = 0; round < 3; round++) {
    if (ring) memcached_free(ring);
    ring = build(servers, &builds[round]);
  }
  for (int round = 0; round < 7; round++) {
    double start = now();
    for (int turn = 0; turn < KEYS; turn++) sum += memcached_generate_hash(ring, keys[turn], KEY_BYTES);
    owners[round] = (now() - start) / KEYS;
  }
  for (int round = 0; round < 3; round++) {
    char host[32];
    snprintf(host, sizeof host, "10.1.0.%d", round);
    double start = now();
    memcached_server_add(ring, host, 7946);
    adds[round] = (now() - start) / 1e3;
  }
  printf("ketama servers=%d build_ms=%.2f owner_ns=%.1f add_us=%.1f (%lu)\n", servers, least(builds, 3) / 1e6, least(owners, 7),
         least(adds, 3), sum);
  memcached_free(ring);
}

int main(void) {
  int sizes[] = {10, 50, 96};
  for (unsigned long turn = 0; turn < KEYS; turn++)
    snprintf(keys[turn], sizeof keys[turn], "user:%019lu", (turn * 0x9E3779B97F4A7C15UL) >> 4);
  for (int i = 0; i < 3; i++) measure(sizes[i]);
  return 0;
}
