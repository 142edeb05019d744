/* Desks of several passes: calls out of the order of their numbers, the order of refusals, and spent passes. Also the most passes and hosts
 * that a desk can have, two threads that make calls, and one that glances while the other reports.
 */
#include "counted.h"

#include <pthread.h>

#define PASSES 1024
#define HOSTS 4096
#define CALLS 100
#define CHECKS 190
#define GLANCES 10000

/* One millisecond past the last moment. */
#define TOO_LATE ((UINT64_C(1) << 60) + 1)

static struct nagsched_pass passes[PASSES];
static struct nagsched_book book;

/* Opens a desk on a document for this many passes, with this many calls each. */
static void open_desk(const char *document, size_t count, uint64_t calls) {
    struct nagsched_setup setup = NAGSCHED_EMPTY;
    struct nagsched_refusal refusal;
    GIVES(OK, nagsched_read(document, strlen(document), &setup, &refusal));
    GIVES(OK, nagsched_open_with(&setup.handle, 0, 0, calls, passes, count));
}

/* Gathers the passes and closes their desk, whose book has this many entries. */
static void close_desk(size_t count, uint64_t wanted) {
    uint64_t entries, refused;
    for (size_t at = 1; at < count; at++) GIVES(OK, nagsched_gather(&passes[0], &passes[at]));
    GIVES(OK, nagsched_close(&passes[0], &book));
    GIVES(OK, nagsched_entries(&book.handle, &entries));
    GIVES(OK, nagsched_refused(&book, &refused));
    IS(entries == wanted && refused == 0);
}

static struct nagsched_entry entry(uint64_t index) {
    struct nagsched_entry found;
    GIVES(OK, nagsched_entry(&book.handle, index, &found));
    return found;
}

static void is_critical(const struct nagsched_reply *reply, uint32_t changed) {
    IS(reply->kind == NAGSCHED_REPLY_STANDING && reply->changed == changed && reply->has_time == 1 && reply->time == 60000);
    IS(reply->standing.state == NAGSCHED_STATE_CRITICAL && reply->standing.kind == NAGSCHED_SOFT && reply->standing.attempt == 1);
}

static void out_of_order(void) {
    struct nagsched_reply reply;
    open_desk(ONE_SERVICE, 3, 10);
    GIVES(OK, nagsched_take(&passes[2], 0, &reply));
    IS(reply.kind == NAGSCHED_REPLY_TAKEN && reply.object == 1 && reply.run == 1);
    GIVES(OK, nagsched_report(&passes[0], 1, 1, NAGSCHED_CODE_CRITICAL, &reply));
    is_critical(&reply, 1);
    GIVES(OK, nagsched_status(&passes[1], 1, &reply));
    is_critical(&reply, 0);
    GIVES(MISSING, nagsched_close(&passes[0], &book));
    close_desk(3, 3);
    IS(entry(0).pass == 2 && entry(1).pass == 0 && entry(2).pass == 1);
    GIVES(OK, nagsched_free(&book.handle));
}

/* An unknown object is refused before a moment past the last one, and that before another run's number. */
static void first_refusals(void) {
    struct nagsched_reply reply;
    open_desk(ONE_SERVICE, 1, 20);
    GIVES(OK, nagsched_report(&passes[0], 2, 1, NAGSCHED_CODE_OK, &reply));
    IS(reply.kind == NAGSCHED_REPLY_UNKNOWN_OBJECT);
    GIVES(OK, nagsched_abandon(&passes[0], 2, 1, TOO_LATE, &reply));
    IS(reply.kind == NAGSCHED_REPLY_UNKNOWN_OBJECT);
    GIVES(OK, nagsched_reschedule(&passes[0], 2, TOO_LATE, 0, &reply));
    IS(reply.kind == NAGSCHED_REPLY_UNKNOWN_OBJECT);
    GIVES(OK, nagsched_enable(&passes[0], 2, 1, &reply));
    IS(reply.kind == NAGSCHED_REPLY_UNKNOWN_OBJECT);
    GIVES(OK, nagsched_status(&passes[0], 2, &reply));
    IS(reply.kind == NAGSCHED_REPLY_UNKNOWN_OBJECT);
    GIVES(OK, nagsched_abandon(&passes[0], 1, 1, TOO_LATE, &reply));
    IS(reply.kind == NAGSCHED_REPLY_TIME_RANGE);
    GIVES(OK, nagsched_take(&passes[0], 0, &reply));
    IS(reply.kind == NAGSCHED_REPLY_TAKEN && reply.object == 1 && reply.run == 1);
    GIVES(OK, nagsched_abandon(&passes[0], 1, 2, TOO_LATE, &reply));
    IS(reply.kind == NAGSCHED_REPLY_TIME_RANGE);
    close_desk(1, 8);
    GIVES(OK, nagsched_free(&book.handle));
}

static void spent(void) {
    struct nagsched_reply reply;
    open_desk(ONE_SERVICE, 2, 2);
    for (int made = 0; made < 2; made++) GIVES(OK, nagsched_status(&passes[0], 1, &reply));
    GIVES(SPENT, nagsched_status(&passes[0], 1, &reply));
    close_desk(2, 2);
    IS(entry(0).pass == 0 && entry(1).pass == 0);
    GIVES(OK, nagsched_free(&book.handle));
}

static void most_passes(void) {
    struct nagsched_reply reply;
    open_desk(ONE_SERVICE, PASSES, 1);
    for (size_t at = 0; at < PASSES; at++) GIVES(OK, nagsched_status(&passes[at], 0, &reply));
    close_desk(PASSES, PASSES);
    for (size_t at = 0; at < PASSES; at++) IS(entry(at).pass == at);
    GIVES(OK, nagsched_free(&book.handle));
}

static void most_hosts(void) {
    static char document[HOSTS * 48];
    struct nagsched_standing standing;
    size_t length = (size_t)sprintf(document, "{\"hosts\":[");
    for (int host = 0; host < HOSTS; host++)
        length += (size_t)sprintf(document + length, "%s{\"name\":\"h%d\",\"max_check_attempts\":3}", host ? "," : "", host);
    sprintf(document + length, "]}");
    open_desk(document, 1, 1);
    GIVES(OK, nagsched_glance(&passes[0], HOSTS - 1, &standing));
    IS(standing.checked == 0 && standing.state == NAGSCHED_STATE_UP);
    GIVES(WRONG, nagsched_glance(&passes[0], HOSTS, &standing));
    close_desk(1, 0);
    GIVES(OK, nagsched_free(&book.handle));
}

static void *call_often(void *pass) {
    struct nagsched_reply reply;
    for (int made = 0; made < CALLS; made++)
        if (nagsched_status(pass, 1, &reply) != NAGSCHED_OK) return NULL;
    return pass;
}

static void two_threads(void) {
    pthread_t threads[2];
    void *ended;
    uint64_t of_first = 0;
    open_desk(ONE_SERVICE, 2, CALLS);
    for (int at = 0; at < 2; at++) IS(pthread_create(&threads[at], NULL, call_often, &passes[at]) == 0);
    for (int at = 0; at < 2; at++) IS(pthread_join(threads[at], &ended) == 0 && ended == &passes[at]);
    close_desk(2, 2 * CALLS);
    for (uint64_t at = 0; at < 2 * CALLS; at++) of_first += entry(at).pass == 0;
    IS(of_first == CALLS);
    GIVES(OK, nagsched_free(&book.handle));
}

/* Takes and reports the service many times. After each report its standing is another than before. */
static void *report_often(void *pass) {
    static const enum nagsched_code codes[] = {NAGSCHED_CODE_CRITICAL, NAGSCHED_CODE_WARNING, NAGSCHED_CODE_OK};
    struct nagsched_reply reply;
    for (uint64_t check = 0; check < CHECKS; check++) {
        if (nagsched_take(pass, check * 600000, &reply) != NAGSCHED_OK || reply.kind != NAGSCHED_REPLY_TAKEN) return NULL;
        if (nagsched_report(pass, reply.object, reply.run, codes[check % 3], &reply) != NAGSCHED_OK) return NULL;
    }
    return pass;
}

static int is_same(const struct nagsched_standing *one, const struct nagsched_standing *other) {
    return memcmp(one, other, sizeof *one) == 0;
}

/* Each standing that is read while another thread reports is in the history, and the standings come in the history's order. */
static void glances(void) {
    static struct nagsched_standing seen[GLANCES];
    pthread_t thread;
    void *ended;
    size_t told = 1;
    uint64_t at = 0;
    open_desk(ONE_SERVICE, 2, 2 * CHECKS);
    GIVES(OK, nagsched_glance(&passes[1], 1, &seen[0]));
    IS(seen[0].checked == 0);
    IS(pthread_create(&thread, NULL, report_often, &passes[0]) == 0);
    for (int made = 1; made < GLANCES; made++)
        if (nagsched_glance(&passes[1], 1, &seen[told]) == NAGSCHED_OK && !is_same(&seen[told], &seen[told - 1])) told++;
    IS(pthread_join(thread, &ended) == 0 && ended == &passes[0]);
    close_desk(2, 2 * CHECKS);
    for (size_t glance = 1; glance < told; glance++) {
        struct nagsched_entry next = {0};
        while (at < 2 * CHECKS && !(next.reply.kind == NAGSCHED_REPLY_STANDING && is_same(&next.reply.standing, &seen[glance]))) next = entry(at++);
        IS(next.reply.kind == NAGSCHED_REPLY_STANDING && is_same(&next.reply.standing, &seen[glance]));
    }
    GIVES(OK, nagsched_free(&book.handle));
}

int main(void) {
    out_of_order();
    first_refusals();
    spent();
    most_passes();
    most_hosts();
    two_threads();
    glances();
    return told("desks");
}
