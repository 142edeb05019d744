/* A disk whose sync takes 10 milliseconds, loaded before a program by LD_PRELOAD. Each sync writes a byte to the file that SYNCED names. */
#define _GNU_SOURCE
#include <dlfcn.h>
#include <fcntl.h>
#include <stdlib.h>
#include <unistd.h>

enum { SYNC_MICROSECONDS = 10000 };

static int slow(const char *name, int file) {
    int (*real)(int) = (int (*)(int))dlsym(RTLD_NEXT, name);
    const char *synced = getenv("SYNCED");
    int count = synced == NULL ? -1 : open(synced, O_WRONLY | O_APPEND | O_CREAT | O_CLOEXEC, 0600);
    usleep(SYNC_MICROSECONDS);
    if (count >= 0) {
        (void)!write(count, ".", 1);
        close(count);
    }
    return real(file);
}

int fsync(int file) {
    return slow("fsync", file);
}

int fdatasync(int file) {
    return slow("fdatasync", file);
}
