/* Writes each line back as soon as it has come, to measure the cost of a conversation over two pipes alone. */
#include <string.h>
#include <unistd.h>

int main(void) {
    char bytes[65536];
    size_t held = 0;
    for (;;) {
        ssize_t got = read(0, bytes + held, sizeof bytes - held);
        if (got <= 0) return 0;
        held += got;
        char *last = memrchr(bytes, '\n', held);
        if (!last) continue;
        size_t whole = last - bytes + 1;
        if (write(1, bytes, whole) != (ssize_t)whole) return 1;
        memmove(bytes, bytes + whole, held - whole);
        held -= whole;
    }
}
