/* Writes the lines of replies that no conformance case has, from their structs: the last run, the highest attempt, an object that flaps,
 * and each refusal of a call.
 */
#include "counted.h"

#define LAST_RUN ((uint64_t)1 << 60)

static struct nagsched_setup setup = NAGSCHED_EMPTY;

/* The reply to a status call for the service has this line. */
static void is_told(struct nagsched_reply reply, const char *line) {
    const struct nagsched_call status = {.kind = NAGSCHED_CALL_STATUS, .object = 1};
    char text[80];
    size_t length = 0;
    GIVES(OK, nagsched_reply_text(&setup.handle, &status, &reply, text, sizeof text, &length));
    has_to_be(length == strlen(line) && memcmp(text, line, length) == 0, line, __FILE__, __LINE__);
}

/* The standing of a service that was checked. */
static struct nagsched_standing standing(uint32_t state, uint32_t kind, uint32_t attempt, uint32_t flapping) {
    return (struct nagsched_standing){
        .checked = 1, .state = state, .kind = kind, .attempt = attempt, .last_hard = NAGSCHED_STATE_OK, .flapping = flapping};
}

static void standings(void) {
    struct nagsched_reply reply = {.kind = NAGSCHED_REPLY_STANDING, .time = 1260000, .has_time = 1, .changed = 1};
    reply.standing = standing(NAGSCHED_STATE_OK, NAGSCHED_HARD, 1, 1);
    is_told(reply, "standing OK HARD 1 yes FLAPPING 1260000 h;s\n");
    reply = (struct nagsched_reply){.kind = NAGSCHED_REPLY_STANDING};
    reply.standing = standing(NAGSCHED_STATE_CRITICAL, NAGSCHED_SOFT, 255, 0);
    is_told(reply, "standing CRITICAL SOFT 255 no STEADY none h;s\n");
}

static void runs(void) {
    is_told((struct nagsched_reply){.kind = NAGSCHED_REPLY_TAKEN, .object = 0, .run = LAST_RUN}, "taken 1152921504606846976 h\n");
    is_told((struct nagsched_reply){.kind = NAGSCHED_REPLY_FREED, .has_time = 1}, "freed 0 h;s\n");
}

static void refusals(void) {
    const char *const lines[] = {"refused C1 UnknownObject\n", "refused C2 TimeRange\n", "refused C3 NotRunning\n", "refused C4 WrongRun\n",
                                 "refused C5 RunsSpent\n"};
    for (uint32_t at = 0; at < 5; at++) is_told((struct nagsched_reply){.kind = NAGSCHED_REPLY_UNKNOWN_OBJECT + at}, lines[at]);
}

int main(void) {
    GIVES(OK, read_setup(&setup));
    standings();
    runs();
    refusals();
    GIVES(OK, nagsched_free(&setup.handle));
    return told("texts");
}
