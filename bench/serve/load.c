/* N connections from C clients, one line out and one in each: how many a second, and how long they take.
   usage: load PORT CLIENTS CONNECTIONS LINE */
#include <arpa/inet.h>
#include <pthread.h>
#include <stdio.h>
#include <stdlib.h>
#include <string.h>
#include <sys/socket.h>
#include <time.h>
#include <unistd.h>

static struct sockaddr_in at;
static char *line;
static size_t size;
static long each;
static double *took;

static double now(void) {
  struct timespec t;
  clock_gettime(CLOCK_MONOTONIC, &t);
  return (double)t.tv_sec * 1e6 + (double)t.tv_nsec / 1e3;
}

static int is_answered(int peer) {
  char answer[4096];
  size_t length = 0;
  if (connect(peer, (struct sockaddr *)&at, sizeof at) || write(peer, line, size) != (ssize_t)size) return 0;
  while (length < sizeof answer && (length == 0 || answer[length - 1] != '\n')) {
    ssize_t got = read(peer, answer + length, sizeof answer - length);
    if (got <= 0) return 0;
    length += (size_t)got;
  }
  return length > 1;
}

static void *ask(void *first) {
  for (double *it = first; it < (double *)first + each; it++) {
    double begun = now();
    int peer = socket(AF_INET, SOCK_STREAM, 0);
    if (!is_answered(peer)) {
      fprintf(stderr, "no answer\n");
      exit(1);
    }
    close(peer);
    *it = now() - begun;
  }
  return 0;
}

static int compare(const void *a, const void *b) { return (*(double *)a > *(double *)b) - (*(double *)a < *(double *)b); }

int main(int count, char **words) {
  if (count != 5) return 2;
  int clients = atoi(words[2]);
  each = atol(words[3]) / clients;
  size = strlen(words[4]) + 1;
  line = malloc(size + 1);
  sprintf(line, "%s\n", words[4]);
  at = (struct sockaddr_in){.sin_family = AF_INET, .sin_port = htons((uint16_t)atoi(words[1])), .sin_addr.s_addr = htonl(INADDR_LOOPBACK)};
  long all = each * clients;
  took = calloc((size_t)all, sizeof *took);
  pthread_t threads[clients];
  double begun = now();
  for (int i = 0; i < clients; i++) pthread_create(&threads[i], 0, ask, took + i * each);
  for (int i = 0; i < clients; i++) pthread_join(threads[i], 0);
  double spent = now() - begun;
  qsort(took, (size_t)all, sizeof *took, compare);
  printf("%.0f %.1f %.1f\n", (double)all / spent * 1e6, took[all / 2], took[all * 99 / 100]);
}
