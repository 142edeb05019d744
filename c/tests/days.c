/* Four threads and an operator watch a room for days. Each day is a generation: in the evening a check is running, the desk is closed, and
 * its state is saved as text. Another book resumes that state, and its operator ends the check. All days together are the history of one
 * scheduler, which gives the same replies to their calls.
 */
#include "counted.h"

#include <pthread.h>

enum { DAYS = 10, WORKERS = 4, OPERATOR = WORKERS, MOMENTS = 48, OBJECTS = 4, SERVICE = 3, MOST = DAYS * (2 * WORKERS * MOMENTS + 3 * OBJECTS + 8) };
static const uint64_t HALF_HOUR = 1800000, DAY = 86400000, EVENING = 85500000;

/* Two hosts, the first of them the parent of the second, and a service of each: objects 0 to 3. All are due every four hours. */
#define OFTEN "\"check_interval\":240,\"retry_interval\":30,\"max_check_attempts\":3}"
static const char ROOM[] = "{\"options\":{\"service_inter_check_delay_method\":\"n\",\"host_inter_check_delay_method\":\"n\"},"
                           "\"hosts\":[{\"name\":\"a\"," OFTEN ",{\"name\":\"b\",\"parents\":[\"a\"]," OFTEN "],"
                           "\"services\":[{\"host\":\"a\",\"description\":\"s\"," OFTEN ",{\"host\":\"b\",\"description\":\"s\"," OFTEN "]}";

struct worker {
    struct nagsched_pass *pass;
    uint64_t morning;
    pthread_t thread;
};

static struct nagsched_entry history[MOST];
static size_t entries;
static uint64_t runs, out[OBJECTS];             /* the number of runs handed out, and the run under which each object is being checked */
static struct nagsched_standing board[OBJECTS]; /* as it was shown in the evening */

static void read_room(struct nagsched_setup *setup) {
    struct nagsched_refusal refusal;
    GIVES(OK, nagsched_read(ROOM, strlen(ROOM), setup, &refusal));
}

/* The code that a machine reports: OK, except for some hours of each 31. */
static enum nagsched_code code_at(uint32_t object, uint64_t moment) {
    const uint64_t hour = (moment / (2 * HALF_HOUR) + 7 * object) % 31;
    return hour < 5 ? NAGSCHED_CODE_CRITICAL : hour < 7 ? NAGSCHED_CODE_WARNING : NAGSCHED_CODE_OK;
}

/* A worker's day: every half hour it takes a check, and reports it. */
static void *work(void *given) {
    struct worker *me = given;
    struct nagsched_reply reply;
    for (uint64_t now = me->morning; now < me->morning + MOMENTS * HALF_HOUR; now += HALF_HOUR) {
        if (nagsched_take(me->pass, now, &reply) != NAGSCHED_OK) return NULL;
        if (reply.kind != NAGSCHED_REPLY_TAKEN) continue;
        if (nagsched_report(me->pass, reply.object, reply.run, code_at(reply.object, now), &reply) != NAGSCHED_OK) return NULL;
    }
    return me;
}

/* The board shows each object as in the evening before. */
static void is_shown(struct nagsched_pass *pass) {
    for (uint32_t object = 0; object < OBJECTS; object++) {
        struct nagsched_standing standing;
        GIVES(OK, nagsched_glance(pass, object, &standing));
        IS(memcmp(&standing, &board[object], sizeof standing) == 0);
    }
}

/* The operator ends the check that has been running since the evening: by a report, and every third day by an abandon. */
static void end_the_night(struct nagsched_pass *pass, uint64_t day, uint64_t run) {
    struct nagsched_reply reply;
    if (day % 3 == 2) GIVES(OK, nagsched_abandon(pass, SERVICE, run, day * DAY, &reply));
    else GIVES(OK, nagsched_report(pass, SERVICE, run, NAGSCHED_CODE_WARNING, &reply));
    IS(reply.kind == (day % 3 == 2 ? NAGSCHED_REPLY_FREED : NAGSCHED_REPLY_STANDING));
}

/* The operator has the service checked in the evening, when nothing else is due, and that check stays running. The board shows the
 * standing of the status reply.
 */
static void begin_the_night(struct nagsched_pass *pass, uint64_t day) {
    const uint64_t now = day * DAY + EVENING;
    struct nagsched_reply reply;
    GIVES(OK, nagsched_reschedule(pass, SERVICE, now, 1, &reply));
    GIVES(OK, nagsched_take(pass, now, &reply));
    for (int others = 1; others < OBJECTS && reply.kind == NAGSCHED_REPLY_TAKEN && reply.object != SERVICE; others++) {
        GIVES(OK, nagsched_report(pass, reply.object, reply.run, code_at(reply.object, now), &reply));
        GIVES(OK, nagsched_take(pass, now, &reply));
    }
    IS(reply.kind == NAGSCHED_REPLY_TAKEN && reply.object == SERVICE);
    for (uint32_t object = 0; object < OBJECTS; object++) {
        GIVES(OK, nagsched_status(pass, object, &reply));
        board[object] = reply.standing;
    }
    is_shown(pass);
}

/* Adds the entries of a closed desk to those of the days before. Run numbers continue, no object is taken while its check is running, and
 * each worker took at each of its moments once. */
static void keep(const struct nagsched_book *book, uint64_t day) {
    uint64_t count = 0, refused = 9, moments[WORKERS] = {0};
    GIVES(OK, nagsched_entries(&book->handle, &count));
    GIVES(OK, nagsched_refused(book, &refused));
    IS(refused == 0 && entries + count <= MOST);
    for (uint64_t at = 0; at < count && entries < MOST; at++, entries++) {
        const struct nagsched_entry *entry = &history[entries];
        GIVES(OK, nagsched_entry(&book->handle, at, &history[entries]));
        if (entry->call.kind == NAGSCHED_CALL_TAKE && entry->pass < WORKERS)
            IS(entry->call.moment == day * DAY + moments[entry->pass]++ * HALF_HOUR);
        if (entry->reply.kind == NAGSCHED_REPLY_TAKEN) {
            IS(entry->reply.run == ++runs && out[entry->reply.object] == 0);
            out[entry->reply.object] = runs;
        } else if (entry->call.kind == NAGSCHED_CALL_REPORT || entry->call.kind == NAGSCHED_CALL_ABANDON) {
            IS(out[entry->call.object] == entry->call.run);
            out[entry->call.object] = 0;
        }
    }
    for (size_t worker = 0; worker < WORKERS; worker++) IS(moments[worker] == MOMENTS);
}

/* Saves the book as text, ends it, and resumes the text over the same document in its place. */
static void restart(struct nagsched_book *book, uint64_t start) {
    static char text[8192];
    struct nagsched_setup setup = NAGSCHED_EMPTY;
    struct nagsched_refusal refusal;
    size_t length = 0;
    GIVES(OK, nagsched_save(book, text, sizeof text, &length));
    GIVES(OK, nagsched_free(&book->handle));
    read_room(&setup);
    GIVES(OK, nagsched_resume(&setup, text, length, start, 0, book, &refusal));
}

/* A day: the first on the setup, each later one on the book, which becomes the next day's book. */
static void watch(struct nagsched_setup *setup, struct nagsched_book *book, uint64_t day) {
    struct nagsched_pass passes[WORKERS + 1] = {NAGSCHED_EMPTY};
    struct worker workers[WORKERS];
    struct nagsched_reply reply;
    uint64_t run = 0, since = 0;
    void *ended;
    if (day > 0) GIVES(OK, nagsched_running(book, SERVICE, &run, &since));
    IS(run == out[SERVICE] && since == (day > 0 ? (day - 1) * DAY + EVENING : 0));
    GIVES(OK, nagsched_open(day > 0 ? &book->handle : &setup->handle, 0, 0, passes, WORKERS + 1));
    is_shown(&passes[OPERATOR]);
    if (day > 0) end_the_night(&passes[OPERATOR], day, run);
    for (size_t at = 0; at < WORKERS; at++) {
        workers[at] = (struct worker){.pass = &passes[at], .morning = day * DAY};
        IS(pthread_create(&workers[at].thread, NULL, work, &workers[at]) == 0);
    }
    GIVES(OK, nagsched_enable(&passes[OPERATOR], 2, day % 3 != 1, &reply));
    for (size_t at = 0; at < WORKERS; at++) {
        IS(pthread_join(workers[at].thread, &ended) == 0 && ended == &workers[at]);
        GIVES(OK, nagsched_gather(&passes[OPERATOR], &passes[at]));
    }
    begin_the_night(&passes[OPERATOR], day);
    GIVES(OK, nagsched_close(&passes[OPERATOR], book));
    keep(book, day);
    restart(book, day * DAY + EVENING);
}

/* Makes a call again. */
static enum nagsched_result make(struct nagsched_pass *pass, const struct nagsched_call *call, struct nagsched_reply *reply) {
    switch (call->kind) {
    case NAGSCHED_CALL_TAKE: return nagsched_take(pass, call->moment, reply);
    case NAGSCHED_CALL_REPORT: return nagsched_report(pass, call->object, call->run, call->code, reply);
    case NAGSCHED_CALL_ABANDON: return nagsched_abandon(pass, call->object, call->run, call->moment, reply);
    case NAGSCHED_CALL_RESCHEDULE: return nagsched_reschedule(pass, call->object, call->moment, call->flag, reply);
    case NAGSCHED_CALL_ENABLE: return nagsched_enable(pass, call->object, call->flag, reply);
    default: return nagsched_status(pass, call->object, reply);
    }
}

/* One scheduler, which never ended, gives the same replies to the calls of all days. */
static void make_again(void) {
    struct nagsched_pass pass = NAGSCHED_EMPTY;
    struct nagsched_setup setup = NAGSCHED_EMPTY;
    struct nagsched_reply reply;
    size_t same = 0;
    read_room(&setup);
    GIVES(OK, nagsched_open(&setup.handle, 0, 0, &pass, 1));
    for (size_t at = 0; at < entries; at++)
        same += make(&pass, &history[at].call, &reply) == NAGSCHED_OK && memcmp(&reply, &history[at].reply, sizeof reply) == 0;
    IS(same == entries && entries > DAYS * WORKERS * MOMENTS);
    is_shown(&pass);
    GIVES(OK, nagsched_free(&pass.handle));
}

int main(void) {
    struct nagsched_setup setup = NAGSCHED_EMPTY;
    struct nagsched_book book = NAGSCHED_EMPTY;
    for (uint32_t object = 0; object < OBJECTS; object++)
        board[object] = (struct nagsched_standing){.state = object < 2 ? NAGSCHED_STATE_UP : NAGSCHED_STATE_OK, .kind = NAGSCHED_HARD, .attempt = 1,
                                                   .last_hard = object < 2 ? NAGSCHED_STATE_UP : NAGSCHED_STATE_OK};
    read_room(&setup);
    for (uint64_t day = 0; day < DAYS; day++) watch(&setup, &book, day);
    GIVES(OK, nagsched_free(&book.handle));
    make_again();
    return told("days");
}
