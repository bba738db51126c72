/* Preloaded into a program: makes its Nth allocation fail, N being FAIL_ALLOC, and none if that is absent; with FAIL_ALLOC_LENGTH = L the
   L allocations from the Nth on. If FAIL_ALLOC_COUNT names a file, two numbers are written to it at the end: how many allocations were asked for,
   and how many of them were refused. */
#define _GNU_SOURCE
#include <errno.h>
#include <fcntl.h>
#include <stdatomic.h>
#include <stdio.h>
#include <stdlib.h>
#include <sys/syscall.h>
#include <unistd.h>

void *__libc_malloc(size_t size);
void *__libc_realloc(void *from, size_t size);

static atomic_ulong count, refused;
static unsigned long failing, length;

static unsigned long number_of(const char *name, unsigned long other) {
    const char *word = getenv(name);
    return word ? strtoul(word, NULL, 10) : other;
}

__attribute__((constructor)) static void start(void) {
    failing = number_of("FAIL_ALLOC", 0);
    length = number_of("FAIL_ALLOC_LENGTH", 1);
    atomic_store(&count, 0);
}

static int fails(void) {
    unsigned long number = atomic_fetch_add(&count, 1) + 1;
    int is_refused = failing && number >= failing && number - failing < length;
    if (is_refused)
        atomic_fetch_add(&refused, 1);
    return is_refused;
}

void *malloc(size_t size) {
    if (fails()) {
        errno = ENOMEM;
        return NULL;
    }
    return __libc_malloc(size);
}

void *realloc(void *from, size_t size) {
    if (fails()) {
        errno = ENOMEM;
        return NULL;
    }
    return __libc_realloc(from, size);
}

/* (by calls that take no memory, which may still be refused) */
static void tell(void) {
    const char *name = getenv("FAIL_ALLOC_COUNT");
    int file = name ? open(name, O_WRONLY | O_CREAT | O_TRUNC, 0644) : -1;
    if (file >= 0) {
        dprintf(file, "%lu %lu\n", atomic_load(&count), atomic_load(&refused));
        close(file);
    }
}

__attribute__((destructor)) static void end(void) { tell(); }

/* A program with threads ends so, and no destructor runs. */
void _exit(int status) {
    tell();
    syscall(SYS_exit_group, status);
    __builtin_unreachable();
}
