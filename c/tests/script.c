/* Makes the calls of a script by the library, and writes each reply as text, as `nagsched run` does for the same calls.
 *
 * Standard input: a line with the start, a line with the setup, and a line for each call: take NOW, report RUN CODE NAME,
 * abandon RUN NOW NAME, reschedule TIME FORCED NAME, enable ON NAME, status NAME. Names go to the end of the line.
 */
#define _POSIX_C_SOURCE 200809L
#include "nagsched.h"

#include <inttypes.h>
#include <stdio.h>
#include <stdlib.h>
#include <string.h>

static void must(uint32_t status, const char *what) {
    if (status == NAGSCHED_OK) return;
    fprintf(stderr, "script: %s: status %" PRIu32 "\n", what, status);
    exit(1);
}

/* Makes the call of a line: its command, two numbers at most, and a name. */
static enum nagsched_result make(struct nagsched_pass *pass, const char *line, size_t bytes, struct nagsched_call *call, struct nagsched_reply *reply) {
    uint64_t first = 0, second = 0;
    uint32_t object;
    int name = 0;
    memset(call, 0, sizeof *call);
    if (sscanf(line, "take %" SCNu64, &first) == 1) return nagsched_take(pass, first, reply);
    if (sscanf(line, "report %" SCNu64 " %" SCNu64 "%n", &first, &second, &name) == 2) call->kind = NAGSCHED_CALL_REPORT;
    else if (sscanf(line, "abandon %" SCNu64 " %" SCNu64 "%n", &first, &second, &name) == 2) call->kind = NAGSCHED_CALL_ABANDON;
    else if (sscanf(line, "reschedule %" SCNu64 " %" SCNu64 "%n", &first, &second, &name) == 2) call->kind = NAGSCHED_CALL_RESCHEDULE;
    else if (sscanf(line, "enable %" SCNu64 "%n", &first, &name) == 1) call->kind = NAGSCHED_CALL_ENABLE;
    else name = (int)strlen("status"), call->kind = NAGSCHED_CALL_STATUS;
    name++;
    must(nagsched_number(&pass->handle, line + name, bytes - (size_t)name, &object), line);
    call->object = object;
    switch (call->kind) {
    case NAGSCHED_CALL_REPORT: return nagsched_report(pass, object, first, (enum nagsched_code)second, reply);
    case NAGSCHED_CALL_ABANDON: return nagsched_abandon(pass, object, first, second, reply);
    case NAGSCHED_CALL_RESCHEDULE: return nagsched_reschedule(pass, object, first, (uint32_t)second, reply);
    case NAGSCHED_CALL_ENABLE: return nagsched_enable(pass, object, (uint32_t)first, reply);
    default: return nagsched_status(pass, object, reply);
    }
}

int main(void) {
    struct nagsched_setup setup = NAGSCHED_EMPTY;
    struct nagsched_pass pass = NAGSCHED_EMPTY;
    struct nagsched_book book = NAGSCHED_EMPTY;
    struct nagsched_call call;
    struct nagsched_reply reply;
    struct nagsched_refusal refusal;
    char *line = NULL;
    char text[1024];
    size_t room = 0, length;
    ssize_t bytes;
    uint64_t start;
    if (getline(&line, &room, stdin) < 0 || sscanf(line, "%" SCNu64, &start) != 1) return 2;
    if ((bytes = getline(&line, &room, stdin)) < 1) return 2;
    must(nagsched_read(line, (size_t)bytes - 1, &setup, &refusal), "read");
    must(nagsched_open(&setup.handle, start, 0, &pass, 1), "open");
    while ((bytes = getline(&line, &room, stdin)) > 0) {
        line[bytes - 1] = 0;
        must(make(&pass, line, (size_t)bytes - 1, &call, &reply), line);
        must(nagsched_reply_text(&pass.handle, &call, &reply, text, sizeof text, &length), "reply_text");
        fwrite(text, 1, length, stdout);
    }
    must(nagsched_close(&pass, &book), "close");
    must(nagsched_free(&book.handle), "free");
    free(line);
    return 0;
}
