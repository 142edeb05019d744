/* Makes a program's standard input and output fail, and move few bytes at a time. devices.py compiles it and has it loaded before the C library.
 * READ_MOST and WRITE_MOST are the most bytes that one call moves. READ_AT and WRITE_AT are the number of the call that fails, from 1, or 0; if
 * STAYS is 1, all later ones fail too. FAULT is the error of such a call, or 0 for a call that moves no byte. The file CALLS gets a letter for
 * each call, r or w, in their order. */
#define _GNU_SOURCE
#include <dlfcn.h>
#include <errno.h>
#include <fcntl.h>
#include <stdlib.h>
#include <unistd.h>

typedef ssize_t (*reading)(int, void *, size_t);
typedef ssize_t (*writing)(int, const void *, size_t);

struct device {
    size_t most;
    long fails_at, calls;
};

static reading real_read;
static writing real_write;
static struct device input, output;
static int fault, stays, calls;

static struct device device_of(const char *most, const char *at) {
    return (struct device){.most = strtoul(getenv(most), NULL, 10), .fails_at = strtol(getenv(at), NULL, 10)};
}

__attribute__((constructor)) static void begin(void) {
    real_read = (reading)dlsym(RTLD_NEXT, "read");
    real_write = (writing)dlsym(RTLD_NEXT, "write");
    input = device_of("READ_MOST", "READ_AT");
    output = device_of("WRITE_MOST", "WRITE_AT");
    fault = atoi(getenv("FAULT"));
    stays = atoi(getenv("STAYS"));
    calls = open(getenv("CALLS"), O_WRONLY | O_APPEND);
    if (calls < 0 || !real_read || !real_write)
        abort();
}

/* Notes a call, and returns whether it fails. */
static int fails(struct device *device, const char *letter) {
    if (real_write(calls, letter, 1) != 1)
        abort();
    device->calls++;
    errno = fault;
    return device->calls == device->fails_at || (stays && device->fails_at && device->calls > device->fails_at);
}

static size_t least(size_t count, size_t most) {
    return count < most ? count : most;
}

ssize_t read(int file, void *bytes, size_t count) {
    if (file != STDIN_FILENO)
        return real_read(file, bytes, count);
    if (fails(&input, "r"))
        return fault ? -1 : 0;
    return real_read(file, bytes, least(count, input.most));
}

ssize_t write(int file, const void *bytes, size_t count) {
    if (file != STDOUT_FILENO)
        return real_write(file, bytes, count);
    if (fails(&output, "w"))
        return fault ? -1 : 0;
    return real_write(file, bytes, least(count, output.most));
}
