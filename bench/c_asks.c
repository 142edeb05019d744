/* Calls over the C library by threads that wait for each other, and locks of C with the same work inside. The scripts
 * bench/asks.sh, bench/glance.sh and bench/instructions.sh build it.
 *
 *     c_asks WORKLOAD THREADS OBJECTS TAKES [untimed]     prints ns=TIME ops=CALLS sum=SUM, the slowest thread's time
 *
 * one     one pass takes a check at the time of the first object and reports it: the calls of the workload `cycle` of nagsched_bench
 * turns   as one, by two passes in one thread that share no cache line, each for one check in alternation
 * desk    TAKES takes, each with its report, divided among the threads, each by a pass of its own
 * apart   as desk, but the passes that are used don't share a cache line
 * ticket  as desk, but all threads use one pass, with a ticket lock that yields while it waits
 * mutex   the same with a mutex
 * glance  each thread glances TAKES times, while one thread more takes and reports; with 0 threads one glances alone
 * entry   makes no call: prints the bytes that an entry of the history takes, by what a desk with room for TAKES of them asks for
 */
#define _GNU_SOURCE
#include "nagsched.h"

#include <inttypes.h>
#include <malloc.h>
#include <pthread.h>
#include <stdatomic.h>
#include <stdio.h>
#include <stdlib.h>
#include <string.h>
#include <time.h>

enum { MOST_THREADS = 64, APART = 8, MINUTES_5 = 300000, GLANCES_A_CHECK = 20 };

static const char *workload;
static uint32_t objects;
static uint64_t takes;
static struct nagsched_pass passes[MOST_THREADS * APART];
static pthread_mutex_t mutex = PTHREAD_MUTEX_INITIALIZER;
static struct { _Alignas(128) atomic_ullong next; _Alignas(128) atomic_ullong served; } ticket;
static pthread_barrier_t all_there;

struct thread {
    _Alignas(128) struct nagsched_pass *pass;
    uint64_t takes, calls, sum, ns;
    pthread_t id;
};

static int is(const char *name) {
    return strcmp(workload, name) == 0;
}

static void must(uint32_t status) {
    if (status == NAGSCHED_OK) return;
    fprintf(stderr, "c_asks: status %" PRIu32 "\n", status);
    exit(1);
}

static uint64_t now_ns(void) {
    struct timespec at;
    clock_gettime(CLOCK_MONOTONIC, &at);
    return (uint64_t)at.tv_sec * 1000000000u + (uint64_t)at.tv_nsec;
}

/* A host that is never due, and its services, all due at 0. */
static void read_setup(struct nagsched_setup *setup) {
    struct nagsched_refusal refusal;
    char *document = malloc(objects * 80u + 300u), *end = document;
    if (!document) exit(1);
    end += sprintf(end, "{\"options\":{\"service_inter_check_delay_method\":\"n\"},"
                        "\"hosts\":[{\"name\":\"h\",\"check_interval\":0,\"max_check_attempts\":3}],\"services\":[");
    for (uint32_t service = 1; service < objects; service++) {
        end += sprintf(end, "%s{\"host\":\"h\",\"description\":\"s%06" PRIu32 "\",\"max_check_attempts\":3}", service == 1 ? "" : ",", service);
    }
    end += sprintf(end, "]}");
    must(nagsched_read(document, (size_t)(end - document), setup, &refusal));
    free(document);
}

/* A take and its report, with this way to make each of the two calls. */
#define CYCLE(me, now, TAKE, REPORT)                                    \
    do {                                                                \
        struct nagsched_reply reply;                                    \
        must(TAKE((me)->pass, (now), &reply));                        \
        (me)->calls++;                                                  \
        if (reply.kind == NAGSCHED_REPLY_TAKEN) {                       \
            const uint32_t object = reply.object;                       \
            must(REPORT((me)->pass, object, reply.run, NAGSCHED_CODE_OK, &reply));   \
            (me)->calls++;                                              \
            (me)->sum = ((me)->sum ^ object) * 0x100000001B3u;          \
        }                                                               \
    } while (0)

#define LOCKED(LOCK, UNLOCK, call) \
    do {                           \
        LOCK;                      \
        status = (call);           \
        UNLOCK;                    \
    } while (0)

static uint64_t ticket_lock(void) {
    const uint64_t mine = atomic_fetch_add_explicit(&ticket.next, 1, memory_order_relaxed);
    while (atomic_load_explicit(&ticket.served, memory_order_acquire) != mine) sched_yield();
    return mine;
}

static enum nagsched_result ticket_take(struct nagsched_pass *pass, uint64_t now, struct nagsched_reply *reply) {
    enum nagsched_result status;
    uint64_t mine;
    LOCKED(mine = ticket_lock(), atomic_store_explicit(&ticket.served, mine + 1, memory_order_release), nagsched_take(pass, now, reply));
    return status;
}

static enum nagsched_result ticket_report(struct nagsched_pass *pass, uint32_t object, uint64_t run, enum nagsched_code code, struct nagsched_reply *reply) {
    enum nagsched_result status;
    uint64_t mine;
    LOCKED(mine = ticket_lock(), atomic_store_explicit(&ticket.served, mine + 1, memory_order_release), nagsched_report(pass, object, run, code, reply));
    return status;
}

static enum nagsched_result mutex_take(struct nagsched_pass *pass, uint64_t now, struct nagsched_reply *reply) {
    enum nagsched_result status;
    LOCKED(pthread_mutex_lock(&mutex), pthread_mutex_unlock(&mutex), nagsched_take(pass, now, reply));
    return status;
}

static enum nagsched_result mutex_report(struct nagsched_pass *pass, uint32_t object, uint64_t run, enum nagsched_code code, struct nagsched_reply *reply) {
    enum nagsched_result status;
    LOCKED(pthread_mutex_lock(&mutex), pthread_mutex_unlock(&mutex), nagsched_report(pass, object, run, code, reply));
    return status;
}

/* One pass's checks, each taken when the first object is due. */
static void report_often(struct thread *me) {
    uint64_t now = 0;
    uint32_t left = objects - 1;
    const int by_turns = is("turns");
    for (uint64_t cycle = 0; cycle < me->takes; cycle++) {
        if (left == 0) left = objects - 1, now += MINUTES_5;
        left--;
        if (by_turns) me->pass = &passes[cycle % 2 * APART];
        CYCLE(me, now, nagsched_take, nagsched_report);
    }
}

static void glance_often(struct thread *me) {
    struct nagsched_standing standing;
    for (uint64_t glance = 0; glance < me->takes; glance++) {
        must(nagsched_glance(me->pass, (uint32_t)(glance % objects), &standing));
        me->sum += standing.attempt;
    }
    me->calls = me->takes;
}

static void *work(void *given) {
    struct thread *me = given;
    pthread_barrier_wait(&all_there);
    const uint64_t begun = now_ns();
    uint64_t now = 0;
    if (is("one") || is("turns") || (is("glance") && me->pass == passes && me[1].pass)) {
        report_often(me);
    } else if (is("glance")) {
        glance_often(me);
    } else if (is("ticket")) {
        for (uint64_t take = 0; take < me->takes; take++, now += MINUTES_5) CYCLE(me, now, ticket_take, ticket_report);
    } else if (is("mutex")) {
        for (uint64_t take = 0; take < me->takes; take++, now += MINUTES_5) CYCLE(me, now, mutex_take, mutex_report);
    } else {
        for (uint64_t take = 0; take < me->takes; take++, now += MINUTES_5) CYCLE(me, now, nagsched_take, nagsched_report);
    }
    me->ns = now_ns() - begun;
    return NULL;
}

int main(int argc, char **argv) {
    static struct thread threads[MOST_THREADS + 2];
    struct nagsched_setup setup = NAGSCHED_EMPTY;
    uint64_t calls = 0, sum = 0, ns = 0;
    if (argc < 5) return 2;
    workload = argv[1], objects = (uint32_t)atoi(argv[3]), takes = strtoull(argv[4], NULL, 10);
    const int glances = is("glance"), apart = is("apart") ? APART : 1, asked = atoi(argv[2]);
    /* The thread that reports while others glance is the first one. */
    const int count = is("one") || is("turns") ? 1 : asked + glances, shared = is("ticket") || is("mutex");
    if (count < 1 || count > MOST_THREADS || objects < 2) return 2;
    read_setup(&setup);
    if (is("entry")) {
        const size_t before = mallinfo2().hblkhd;
        must(nagsched_open(&setup.handle, 0, (size_t)takes, passes, 1));
        printf("%zu\n", (mallinfo2().hblkhd - before) / (size_t)takes);
        return 0;
    }
    must(nagsched_open(&setup.handle, 0, glances ? 0 : (size_t)takes * 2, passes, (size_t)(shared ? 1 : is("turns") ? APART + 1 : count * apart)));
    pthread_barrier_init(&all_there, NULL, (unsigned)count);
    for (int at = 0; at < count; at++) {
        threads[at].pass = &passes[shared ? 0 : at * apart];
        threads[at].sum = !glances;
        threads[at].takes = glances && at == 0 && count > 1 ? takes / GLANCES_A_CHECK : glances ? takes : takes / (uint64_t)count;
    }
    for (int at = 1; at < count; at++) {
        if (pthread_create(&threads[at].id, NULL, work, &threads[at]) != 0) return 1;
    }
    work(&threads[0]);
    for (int at = 1; at < count; at++) pthread_join(threads[at].id, NULL);
    for (int at = glances && count > 1; at < count; at++) {
        calls += threads[at].calls, sum += threads[at].sum;
        if (threads[at].ns > ns) ns = threads[at].ns;
    }
    if (argc > 5) printf("ops=%" PRIu64 " sum=%016" PRIx64 "\n", calls, sum);
    else printf("ns=%" PRIu64 " ops=%" PRIu64 " sum=%016" PRIx64 "\n", ns, calls, sum);
    return 0;
}
