/* A scheduler in C, for bench/anchor.sh to compare nagsched's with. It makes the takes and reports of the workloads
 * `cycle` and `vary` of nagsched_bench, over one host that is never due and services that are checked every 5 minutes.
 * Its queue is a tournament, as nagsched's is: a leaf for each number, and above two nodes the first of both.
 *   anchor WORKLOAD N CYCLES [untimed]
 * It has no dependencies, no limit and no operators' calls, and hosts only as the objects that services belong to. */
#define _POSIX_C_SOURCE 199309L
#include <inttypes.h>
#include <stdbool.h>
#include <stdio.h>
#include <stdlib.h>
#include <string.h>
#include <time.h>

enum state { OK, WARNING, CRITICAL, UNKNOWN, UP, DOWN, UNREACHABLE };
enum kind { SOFT, HARD };
enum { CHECK_INTERVAL = 300000, RETRY_INTERVAL = 60000, MAX_ATTEMPTS = 3, LOW_THRESHOLD = 20, HIGH_THRESHOLD = 30 };
enum { RESULTS = 21, CHANGES = RESULTS - 1, OLDEST_WEIGHT = 57, NEWEST_WEIGHT = 95, WEIGHT_OF_ALL = 1520 };
#define NEVER UINT64_MAX

struct standing {
    bool checked, flapping;
    uint8_t state, kind, attempt, last_hard;
};

struct object {
    uint64_t next; /* when it is due; NEVER while it runs */
    uint64_t run;  /* the number of its run, 0 if it doesn't run */
    uint64_t started;
    uint32_t changes; /* a bit for each of the last 20 changes, the newest the lowest */
    uint16_t weight;  /* the sum of their weights */
    uint8_t changed;  /* the number of changes */
    uint8_t results;  /* the number of results, at most 21 */
    struct standing standing;
};

struct entry {
    uint64_t time;
    uint64_t number;
};

/* For a number that doesn't wait: it comes after all others. */
static const struct entry BLANK = { NEVER, UINT64_MAX };

struct scheduler {
    struct object *objects;
    struct entry *nodes; /* the second half are the leaves; node i has the first of nodes 2i and 2i + 1 */
    uint32_t count;
    uint64_t runs;
};

enum answer { TAKEN, IDLE, STANDING, REFUSED };

struct reply {
    enum answer answer;
    uint32_t object;
    uint64_t run;
    uint64_t next;
    struct standing standing;
};

/* ---- the queue */

/* The two words of an entry as one number, so that comparing two takes a subtraction and no branch. */
static inline unsigned __int128 rank(struct entry e) {
    return (unsigned __int128)e.time << 64 | e.number;
}

/* Puts an entry at the leaf of a number. From there up each node gets the first of the two below, until nothing changes. */
static void put(struct scheduler *s, uint32_t number, struct entry entry) {
    size_t node = (size_t)s->count + number;
    s->nodes[node] = entry;
    while ((node /= 2) > 0) {
        struct entry left = s->nodes[2 * node], right = s->nodes[2 * node + 1];
        struct entry first = rank(right) < rank(left) ? right : left;
        if (rank(first) == rank(s->nodes[node]))
            return;
        s->nodes[node] = first;
    }
}

/* ---- the rules */

static inline bool is_problem(uint8_t state) {
    return state != OK && state != UP;
}

/* Stores one more result: the oldest change is dropped, each other one weighs 2 less, and the new one weighs 95. */
static void keep_result(struct object *o, uint8_t found) {
    uint32_t is_new = o->results > 0 && found != o->standing.state;
    uint32_t oldest = o->changes >> (CHANGES - 1);
    uint32_t others = o->changed - oldest;
    o->weight = (uint16_t)(o->weight - oldest * OLDEST_WEIGHT - 2 * others + is_new * NEWEST_WEIGHT);
    o->changes = (o->changes << 1 | is_new) & ((1u << CHANGES) - 1);
    o->changed = (uint8_t)(others + is_new);
    o->results += o->results < RESULTS;
}

static bool flaps(const struct object *o) {
    uint32_t percent = o->results == RESULTS ? 100u * o->weight / WEIGHT_OF_ALL : 0;
    return percent >= (o->standing.flapping ? LOW_THRESHOLD : HIGH_THRESHOLD);
}

static struct standing verdict(struct standing before, uint8_t found, bool host_up, bool flapping) {
    struct standing after = { .checked = true, .flapping = flapping, .state = found, .last_hard = before.last_hard };
    bool was_soft_problem = is_problem(before.state) && before.kind == SOFT;
    after.attempt = was_soft_problem ? before.attempt + 1 : 1;
    if (!is_problem(found)) {
        after.kind = was_soft_problem ? SOFT : HARD;
    } else {
        if (!host_up || (is_problem(before.state) && before.kind == HARD))
            after.attempt = MAX_ATTEMPTS;
        after.kind = after.attempt == MAX_ATTEMPTS ? HARD : SOFT;
    }
    if (after.kind == HARD)
        after.last_hard = found;
    return after;
}

/* ---- the calls */

__attribute__((noinline)) static void take(struct scheduler *s, uint64_t now, struct reply *reply) {
    struct entry first = s->nodes[1];
    if (first.time > now) {
        reply->answer = IDLE;
        reply->next = first.time;
        return;
    }
    uint32_t number = (uint32_t)first.number;
    struct object *o = &s->objects[number];
    put(s, number, BLANK);
    o->next = NEVER;
    o->run = ++s->runs;
    o->started = now;
    reply->answer = TAKEN;
    reply->object = number;
    reply->run = o->run;
}

__attribute__((noinline)) static void report(struct scheduler *s, uint32_t number, uint64_t run, uint32_t code, struct reply *reply) {
    struct object *o = &s->objects[number];
    if (number >= s->count || run == 0 || o->run != run) {
        reply->answer = REFUSED;
        return;
    }
    uint8_t found = (uint8_t)code;
    const struct standing *host = &s->objects[0].standing;
    bool host_up = !host->checked || host->state == UP;
    keep_result(o, found);
    o->standing = verdict(o->standing, found, host_up, flaps(o));
    bool retries = is_problem(found) && o->standing.kind == SOFT;
    o->run = 0;
    o->next = o->started + (retries ? RETRY_INTERVAL : CHECK_INTERVAL);
    put(s, number, (struct entry){ o->next, number });
    reply->answer = STANDING;
    reply->standing = o->standing;
    reply->next = o->next;
}

/* ---- the workloads */

static uint64_t random_state = 42;

static uint64_t draw(void) {
    uint64_t drawn = random_state += UINT64_C(0x9E3779B97F4A7C15);
    drawn = (drawn ^ drawn >> 30) * UINT64_C(0xBF58476D1CE4E5B9);
    drawn = (drawn ^ drawn >> 27) * UINT64_C(0x94D049BB133111EB);
    return drawn ^ drawn >> 31;
}

static uint64_t mixed(uint64_t sum, uint64_t value) {
    return (sum ^ value) * UINT64_C(0x100000001B3);
}

static uint64_t word_of(struct standing s) {
    return s.checked + 2u * s.state + 16u * s.kind + 32u * s.attempt + 8192u * s.last_hard + 65536u * s.flapping;
}

static uint64_t cycle(struct scheduler *s, uint64_t cycles) {
    uint64_t services = s->count > 2 ? s->count - 1 : 1, left = services, now = 0, sum = 1;
    struct reply reply;
    while (cycles-- > 0) {
        if (left == 0) {
            now += CHECK_INTERVAL;
            left = services;
        }
        left--;
        take(s, now, &reply);
        if (reply.answer == TAKEN) {
            uint32_t object = reply.object;
            report(s, object, reply.run, OK, &reply);
            sum = mixed(sum, object);
        }
    }
    return sum;
}

static uint64_t vary(struct scheduler *s, uint64_t cycles) {
    uint64_t now = 0, sum = 1;
    struct reply reply;
    while (cycles-- > 0) {
        take(s, now, &reply);
        if (reply.answer == IDLE && reply.next != NEVER) {
            now = reply.next;
            take(s, now, &reply);
        }
        if (reply.answer == TAKEN) {
            uint32_t object = reply.object;
            report(s, object, reply.run, (uint32_t)(draw() % 4), &reply);
            sum = mixed(sum, word_of(reply.standing) * 4096 + object);
            sum = mixed(sum, reply.next);
        }
    }
    return sum;
}

static bool make(struct scheduler *s, uint32_t count) {
    *s = (struct scheduler){ .count = count };
    s->objects = calloc(count, sizeof *s->objects);
    s->nodes = malloc(2 * (size_t)count * sizeof *s->nodes);
    if (!s->objects || !s->nodes)
        return false;
    for (size_t node = 0; node < 2 * (size_t)count; node++)
        s->nodes[node] = BLANK;
    for (uint32_t number = 0; number < count; number++) {
        uint8_t fine = number == 0 ? UP : OK;
        s->objects[number].next = number == 0 ? NEVER : 0;
        s->objects[number].standing = (struct standing){ .state = fine, .kind = HARD, .attempt = 1, .last_hard = fine };
        if (number > 0)
            put(s, number, (struct entry){ 0, number });
    }
    return true;
}

static uint64_t nanoseconds(void) {
    struct timespec at;
    clock_gettime(CLOCK_MONOTONIC, &at);
    return (uint64_t)at.tv_sec * 1000000000u + (uint64_t)at.tv_nsec;
}

int main(int argc, char **argv) {
    if (argc < 4)
        return 2;
    bool varies = strcmp(argv[1], "vary") == 0;
    uint32_t count = (uint32_t)strtoul(argv[2], NULL, 10);
    uint64_t cycles = strtoull(argv[3], NULL, 10);
    struct scheduler s;
    if (count == 0 || (!varies && strcmp(argv[1], "cycle") != 0) || !make(&s, count))
        return 2;
    uint64_t begun = nanoseconds();
    uint64_t sum = varies ? vary(&s, cycles) : cycle(&s, cycles);
    uint64_t taken = nanoseconds() - begun;
    if (argc > 4)
        printf("ops=%" PRIu64 " sum=%016" PRIx64 "\n", cycles, sum);
    else
        printf("ns=%" PRIu64 " ops=%" PRIu64 " sum=%016" PRIx64 "\n", taken, cycles, sum);
    return 0;
}
