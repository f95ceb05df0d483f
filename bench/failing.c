/* The allocator of a program, of which the allocation with the number FAIL_AT, from 1, fails; without it the program tells on standard
 * error how many it made. memory.sh builds it as a library and loads it before the C library. */
#define _GNU_SOURCE
#include <dlfcn.h>
#include <errno.h>
#include <stdatomic.h>
#include <stddef.h>
#include <stdio.h>
#include <stdlib.h>
#include <sys/syscall.h>
#include <unistd.h>

static atomic_ulong made;
static unsigned long failing;
static void *(*next_malloc)(size_t), *(*next_realloc)(void *, size_t);

__attribute__((constructor)) static void begin(void) {
    const char *number = getenv("FAIL_AT");
    failing = number ? strtoul(number, NULL, 10) : 0;
    atomic_store(&made, 0);
}

__attribute__((destructor)) static void end(void) {
    if (!failing) fprintf(stderr, "allocations %lu\n", atomic_load(&made));
}

/* A program with threads ends so. */
void _exit(int status) {
    end();
    for (;;) syscall(SYS_exit_group, status);
}

static int fails(void) {
    if (atomic_fetch_add(&made, 1) + 1 != failing) return 0;
    errno = ENOMEM;
    return 1;
}

void *malloc(size_t size) {
    if (!next_malloc) next_malloc = (void *(*)(size_t))dlsym(RTLD_NEXT, "malloc");
    return fails() ? NULL : next_malloc(size);
}

void *realloc(void *block, size_t size) {
    if (!next_realloc) next_realloc = (void *(*)(void *, size_t))dlsym(RTLD_NEXT, "realloc");
    return fails() ? NULL : next_realloc(block, size);
}
