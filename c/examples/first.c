/* One thread asks what to check, checks it, and reports the result. */
#include "nagsched.h"
#include <stdio.h>
#include <string.h>

int main(void) {
    const char *document = "{\"hosts\":[{\"name\":\"gateway\",\"max_check_attempts\":3}]}";
    struct nagsched_setup setup = NAGSCHED_EMPTY;
    struct nagsched_pass pass = NAGSCHED_EMPTY;
    struct nagsched_book book = NAGSCHED_EMPTY;
    struct nagsched_refusal refusal;
    struct nagsched_reply reply;
    uint64_t now = 0; /* milliseconds, from a clock of yours */
    if (nagsched_version() != NAGSCHED_VERSION) return 1;
    if (nagsched_read(document, strlen(document), &setup, &refusal) != NAGSCHED_OK) return 1;
    if (nagsched_open(&setup.handle, now, 1000, &pass, 1) != NAGSCHED_OK) return 1;
    if (nagsched_take(&pass, now, &reply) != NAGSCHED_OK || reply.kind != NAGSCHED_REPLY_TAKEN) return 1;
    printf("check object %u as run %u\n", (unsigned)reply.object, (unsigned)reply.run);

    /* Run the plugin here. This one returned 2. */
    if (nagsched_report(&pass, reply.object, reply.run, NAGSCHED_CODE_CRITICAL, &reply) != NAGSCHED_OK) return 1;
    printf("state %u, next check at %u ms\n", (unsigned)reply.standing.state, (unsigned)reply.time);
    if (nagsched_close(&pass, &book) != NAGSCHED_OK) return 1; /* the book has the history of both calls */
    return nagsched_free(&book.handle) == NAGSCHED_OK ? 0 : 1;
}
