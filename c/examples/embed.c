/* Four workers and an operator share one scheduler, each in a thread of its own.
 *
 *     tools/build_c.sh && cc -O2 -Ic c/examples/embed.c out/c/lib/libnagsched.a -lpthread -o embed && ./embed
 *
 * It writes the setup, and then a line for each call of the history: the call, a tab, the caller and the answer. The
 * calls are as `nagsched run` reads them: `./embed | cut -f 1 | nagsched run` writes the same answers.
 */
#include "nagsched.h"

#include <inttypes.h>
#include <pthread.h>
#include <stdio.h>
#include <stdlib.h>
#include <string.h>

#define AT(type, field, offset) _Static_assert(offsetof(struct type, field) == (offset), #type "." #field)
#define SIZE(type, bytes) _Static_assert(sizeof(struct type) == (bytes), #type)
SIZE(nagsched_handle, 16); SIZE(nagsched_setup, 16); SIZE(nagsched_pass, 16); SIZE(nagsched_book, 16); SIZE(nagsched_history, 16);
SIZE(nagsched_refusal, 24); AT(nagsched_refusal, has_index, 8); AT(nagsched_refusal, index, 16);
SIZE(nagsched_standing, 24); AT(nagsched_standing, attempt, 12); AT(nagsched_standing, flapping, 20);
SIZE(nagsched_call, 32); AT(nagsched_call, run, 8); AT(nagsched_call, moment, 16); AT(nagsched_call, code, 24); AT(nagsched_call, flag, 28);
SIZE(nagsched_reply, 56); AT(nagsched_reply, run, 8); AT(nagsched_reply, time, 16); AT(nagsched_reply, has_time, 24);
AT(nagsched_reply, changed, 28); AT(nagsched_reply, standing, 32);
SIZE(nagsched_entry, 96); AT(nagsched_entry, call, 8); AT(nagsched_entry, reply, 40);

enum { WORKERS = 4, PASSES = WORKERS + 1, MINUTE = 60000 };

/* A machine room, which is never checked, and its thermometers. */
static const char ROOM[] = "{\"options\":{\"service_inter_check_delay_method\":\"n\"},"
                           "\"hosts\":[{\"name\":\"room\",\"check_interval\":0,\"max_check_attempts\":1}],"
                           "\"services\":[{\"host\":\"room\",\"description\":\"door\",\"check_interval\":1,\"max_check_attempts\":3},"
                           "{\"host\":\"room\",\"description\":\"rack\",\"check_interval\":1,\"max_check_attempts\":3}]}";

struct thread {
    struct nagsched_pass *pass;
    uint32_t object;   /* the operator's: the thermometer at the door */
    uint64_t minutes;
    pthread_t id;
};

/* Ends the program if a function returned another status than OK. */
static void must(uint32_t status, const char *what) {
    if (status == NAGSCHED_OK) return;
    fprintf(stderr, "embed: %s: status %u\n", what, (unsigned)status);
    exit(1);
}

/* The plugin: a model of a check that takes its time. No one waits for it, since no turn is held meanwhile. */
static enum nagsched_code check(uint64_t run) {
    return run % 5 < 3 ? NAGSCHED_CODE_OK : NAGSCHED_CODE_CRITICAL;
}

/* A worker: takes each check that is due at each minute, runs it, and reports its result. */
static void *work(void *given) {
    struct thread *me = given;
    struct nagsched_reply reply;
    for (uint64_t minute = 0; minute < me->minutes; minute++) {
        must(nagsched_take(me->pass, minute * MINUTE, &reply), "take");
        if (reply.kind != NAGSCHED_REPLY_TAKEN) continue;
        must(nagsched_report(me->pass, reply.object, reply.run, check(reply.run), &reply), "report");
    }
    return NULL;
}

/* The operator: looks at the door, has it checked at once, or abandons a check that was taken. */
static void *operate(void *given) {
    struct thread *me = given;
    struct nagsched_reply reply;
    struct nagsched_standing door;
    for (uint64_t minute = 0; minute < me->minutes; minute++) {
        must(nagsched_glance(me->pass, me->object, &door), "glance");
        must(nagsched_enable(me->pass, me->object, door.state == NAGSCHED_STATE_OK, &reply), "enable");
        must(nagsched_reschedule(me->pass, me->object, minute * MINUTE, 1, &reply), "reschedule");
        must(nagsched_take(me->pass, minute * MINUTE, &reply), "take");
        if (reply.kind == NAGSCHED_REPLY_TAKEN) {
            must(nagsched_abandon(me->pass, reply.object, reply.run, minute * MINUTE, &reply), "abandon");
        }
        must(nagsched_status(me->pass, me->object, &reply), "status");
    }
    return NULL;
}

/* Writes a call as `nagsched run` reads it. A name with a quote or a backslash in it would need JSON's escapes. */
static void write_call(const struct nagsched_book *book, const struct nagsched_call *call) {
    char name[512];
    size_t length = 0;
    if (call->kind != NAGSCHED_CALL_TAKE) must(nagsched_name(&book->handle, call->object, name, sizeof name, &length), "name");
    switch (call->kind) {
    case NAGSCHED_CALL_TAKE: printf("[\"take\",%" PRIu64 "]", call->moment); break;
    case NAGSCHED_CALL_REPORT: printf("[\"report\",\"%.*s\",%" PRIu64 ",%" PRIu32 "]", (int)length, name, call->run, call->code); break;
    case NAGSCHED_CALL_ABANDON: printf("[\"abandon\",\"%.*s\",%" PRIu64 ",%" PRIu64 "]", (int)length, name, call->run, call->moment); break;
    case NAGSCHED_CALL_RESCHEDULE:
        printf("[\"reschedule\",\"%.*s\",%" PRIu64 ",%s]", (int)length, name, call->moment, call->flag ? "true" : "false");
        break;
    case NAGSCHED_CALL_ENABLE: printf("[\"enable\",\"%.*s\",%s]", (int)length, name, call->flag ? "true" : "false"); break;
    case NAGSCHED_CALL_STATUS: printf("[\"status\",\"%.*s\"]", (int)length, name); break;
    }
}

/* Writes the history: each call, followed by its caller and its answer. */
static void write_history(const struct nagsched_book *book) {
    uint64_t count;
    char text[1024];
    size_t length;
    struct nagsched_entry entry;
    must(nagsched_entries(&book->handle, &count), "entries");
    for (uint64_t index = 0; index < count; index++) {
        must(nagsched_entry(&book->handle, index, &entry), "entry");
        write_call(book, &entry.call);
        must(nagsched_entry_text(&book->handle, &entry, text, sizeof text, &length), "entry_text");
        printf("\t%.*s", (int)length, text);
    }
}

int main(int argc, char **argv) {
    const uint64_t minutes = argc > 1 ? strtoull(argv[1], NULL, 10) : 3;
    struct nagsched_setup setup = NAGSCHED_EMPTY;
    struct nagsched_pass passes[PASSES];
    struct nagsched_book book = NAGSCHED_EMPTY;
    struct nagsched_refusal refusal;
    struct thread threads[PASSES];
    uint32_t door;
    if (nagsched_version() != NAGSCHED_VERSION) return 1;
    memset(passes, 0, sizeof passes);
    must(nagsched_read(ROOM, strlen(ROOM), &setup, &refusal), "read");
    must(nagsched_number(&setup.handle, "room;door", strlen("room;door"), &door), "number");
    must(nagsched_open(&setup.handle, 0, 1000, passes, PASSES), "open");
    for (size_t at = 0; at < PASSES; at++) {
        threads[at] = (struct thread){.pass = &passes[at], .object = door, .minutes = minutes};
        if (pthread_create(&threads[at].id, NULL, at < WORKERS ? work : operate, &threads[at]) != 0) return 1;
    }
    for (size_t at = 0; at < PASSES; at++) pthread_join(threads[at].id, NULL);
    for (size_t at = 1; at < PASSES; at++) must(nagsched_gather(&passes[0], &passes[at]), "gather");
    must(nagsched_close(&passes[0], &book), "close");
    puts(ROOM);
    write_history(&book);
    must(nagsched_free(&book.handle), "free");
    return 0;
}
