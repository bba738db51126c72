/* A server that writes back the line that it reads, one a connection, with W threads that accept. usage: echo PORT W */
#include <arpa/inet.h>
#include <pthread.h>
#include <stdlib.h>
#include <sys/socket.h>
#include <unistd.h>

static int listener;

static void *work(void *unused) {
  static __thread char line[1 << 20];
  for (;;) {
    int peer = accept(listener, 0, 0);
    size_t length = 0;
    while (length < sizeof line && (length == 0 || line[length - 1] != '\n')) {
      ssize_t got = read(peer, line + length, sizeof line - length);
      if (got <= 0) break;
      length += (size_t)got;
    }
    if (write(peer, line, length) < 0) length = 0;
    close(peer);
  }
  return unused;
}

int main(int count, char **words) {
  if (count != 3) return 2;
  struct sockaddr_in at = {.sin_family = AF_INET, .sin_port = htons((uint16_t)atoi(words[1])), .sin_addr.s_addr = htonl(INADDR_LOOPBACK)};
  int on = 1;
  listener = socket(AF_INET, SOCK_STREAM, 0);
  setsockopt(listener, SOL_SOCKET, SO_REUSEADDR, &on, sizeof on);
  if (bind(listener, (struct sockaddr *)&at, sizeof at) || listen(listener, 128)) return 1;
  for (int i = 1; i < atoi(words[2]); i++) {
    pthread_t thread;
    pthread_create(&thread, 0, work, 0);
  }
  work(0);
}
