/* Refuses a program one of its requests for memory, and counts them all. refusals.py compiles it and has it loaded before the C library.
 * REFUSE_AT is the number of the request that is refused, from 1, or 0. The file REQUESTS, which is as long as a counter, holds the count. */
#define _GNU_SOURCE
#include <dlfcn.h>
#include <fcntl.h>
#include <stdatomic.h>
#include <stdlib.h>
#include <sys/mman.h>

static atomic_long *requests;
static long refused;

__attribute__((constructor)) static void begin(void) {
    int file = open(getenv("REQUESTS"), O_RDWR);
    void *shared = mmap(NULL, sizeof *requests, PROT_READ | PROT_WRITE, MAP_SHARED, file, 0);
    if (file < 0 || shared == MAP_FAILED)
        abort();
    refused = atol(getenv("REFUSE_AT"));
    requests = shared;
}

/* Counts a request, and returns whether it is the one to be refused. */
static int is_refused(void) {
    return requests && atomic_fetch_add(requests, 1) + 1 == refused;
}

void *malloc(size_t size) {
    static void *(*real)(size_t);
    if (!real)
        real = dlsym(RTLD_NEXT, "malloc");
    return is_refused() ? NULL : real(size);
}

void *realloc(void *old, size_t size) {
    static void *(*real)(void *, size_t);
    if (!real)
        real = dlsym(RTLD_NEXT, "realloc");
    return is_refused() ? NULL : real(old, size);
}
