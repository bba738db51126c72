/* Preloaded into a program: refuses its Nth thread, N being FAIL_THREAD, as the system does that has none left. */
#define _GNU_SOURCE
#include <dlfcn.h>
#include <errno.h>
#include <pthread.h>
#include <stdatomic.h>
#include <stdlib.h>

typedef int (*create)(pthread_t *, const pthread_attr_t *, void *(*)(void *), void *);

static atomic_ulong count;

int pthread_create(pthread_t *thread, const pthread_attr_t *attributes, void *(*body)(void *), void *given) {
    const char *word = getenv("FAIL_THREAD");
    unsigned long failing = word ? strtoul(word, NULL, 10) : 0;
    if (atomic_fetch_add(&count, 1) + 1 == failing)
        return EAGAIN;
    create real = (create)dlsym(RTLD_NEXT, "pthread_create");
    return real ? real(thread, attributes, body, given) : EAGAIN;
}
