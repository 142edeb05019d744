/* Passes gathered in other orders than that of their numbers, some from several threads at once, and their state afterwards. Also passes
 * of two desks, after any gatherings at either desk, and which pass can end a desk.
 */
#include "counted.h"

#include <pthread.h>

#define MANY 64
#define PARTS 4
#define PART (MANY / PARTS)

static struct nagsched_pass passes[MANY], others[MANY];

/* The book of a desk that was closed, and an empty handle otherwise. */
static struct nagsched_book book;

/* Opens a desk for this many passes. */
static void open_on(struct nagsched_pass *of, size_t count) {
    struct nagsched_setup setup = NAGSCHED_EMPTY;
    struct nagsched_refusal refusal;
    GIVES(OK, nagsched_read(ONE_SERVICE, strlen(ONE_SERVICE), &setup, &refusal));
    GIVES(OK, nagsched_open(&setup.handle, 0, 0, of, count));
}

/* Each of these passes makes a call, and its number is in the entry. */
static void call_by(struct nagsched_pass *pass) {
    struct nagsched_reply reply;
    GIVES(OK, nagsched_status(pass, 1, &reply));
}

/* Ends the desk by this pass: its book has entries of these passes, in this order. */
static void is_closed(struct nagsched_pass *pass, const uint64_t *by, uint64_t count) {
    struct nagsched_entry entry;
    uint64_t entries = 99;
    GIVES(OK, nagsched_close(pass, &book));
    GIVES(OK, nagsched_entries(&book.handle, &entries));
    IS(entries == count);
    for (uint64_t at = 0; at < entries && at < count; at++) {
        GIVES(OK, nagsched_entry(&book.handle, at, &entry));
        IS(entry.pass == by[at]);
    }
    GIVES(OK, nagsched_free(&book.handle));
}

/* A desk of two, gathered in each order: the first of the two stays, under its own number, and closes the desk. */
static void two(size_t first) {
    struct nagsched_pass *one = &passes[first], *other = &passes[1 - first];
    open_on(passes, 2);
    call_by(other);
    GIVES(MISSING, nagsched_close(one, &book));
    GIVES(MISSING, nagsched_close(other, &book));
    GIVES(OK, nagsched_gather(one, other));
    IS(one->handle.full == 1 && other->handle.full == 0);
    GIVES(WRONG, nagsched_gather(one, other));
    GIVES(WRONG, nagsched_gather(other, one));
    GIVES(WRONG, nagsched_close(other, &book));
    call_by(one);
    call_by(one);
    is_closed(one, (const uint64_t[]){1 - first, first, first}, 3);
}

/* A desk of three, gathered in each order by each of its passes, directly and through the second. */
static void three(size_t first, size_t second, int by_way) {
    struct nagsched_pass *one = &passes[first], *other = &passes[second], *last = &passes[3 - first - second];
    open_on(passes, 3);
    GIVES(OK, by_way ? nagsched_gather(other, last) : nagsched_gather(one, other));
    GIVES(MISSING, nagsched_close(one, &book));
    GIVES(MISSING, nagsched_close(by_way ? other : last, &book));
    call_by(by_way ? other : one);
    GIVES(OK, nagsched_gather(one, by_way ? other : last));
    call_by(one);
    is_closed(one, (const uint64_t[]){by_way ? second : first, first}, 2);
}

static void orders(void) {
    for (size_t first = 0; first < 2; first++) two(first);
    for (size_t first = 0; first < 3; first++)
        for (size_t second = 0; second < 3; second++)
            for (int by_way = 0; by_way < 2; by_way++)
                if (first != second) three(first, second, by_way);
}

/* Pairs, and then pairs of those that have gathered, up to one pass of many. */
static void pairs(void) {
    struct nagsched_pass *left[MANY];
    open_on(passes, MANY);
    for (size_t at = 0; at < MANY; at++) left[at] = &passes[at];
    for (size_t count = MANY; count > 1; count /= 2)
        for (size_t at = 0; at < count / 2; at++) {
            GIVES(MISSING, nagsched_close(left[2 * at + 1], &book));
            GIVES(OK, nagsched_gather(left[2 * at + 1], left[2 * at]));
            left[at] = left[2 * at + 1];
        }
    call_by(left[0]);
    is_closed(left[0], (const uint64_t[]){MANY - 1}, 1);
}

/* Passes of two desks are never gathered, in either order, after any gatherings at either desk. */
static void are_apart(struct nagsched_pass *one, struct nagsched_pass *other) {
    const struct nagsched_pass one_was = *one, other_was = *other;
    for (int times = 0; times < 20; times++) {
        GIVES(WRONG, nagsched_gather(one, other));
        GIVES(WRONG, nagsched_gather(other, one));
    }
    IS(memcmp(&one_was, one, sizeof one_was) == 0 && memcmp(&other_was, other, sizeof other_was) == 0);
}

static void two_desks(void) {
    for (size_t mine = 1; mine < MANY; mine += 9)
        for (size_t theirs = 1; theirs < MANY; theirs += 7) {
            open_on(passes, MANY);
            open_on(others, MANY);
            for (size_t at = 1; at < mine; at++) GIVES(OK, nagsched_gather(&passes[0], &passes[at]));
            GIVES(WRONG, nagsched_gather(&passes[0], &others[0]));
            for (size_t at = 1; at < theirs; at++) GIVES(OK, nagsched_gather(&others[0], &others[at]));
            are_apart(&passes[0], &others[0]);
            are_apart(&passes[MANY - 1], &others[MANY - 1]);
            for (size_t at = 0; at < MANY; at++) nagsched_free(&passes[at].handle), nagsched_free(&others[at].handle);
        }
}

/* A desk that is opened after another has ended is a different desk, though it has the same address. So is a desk on its renewed book. */
static void desks_after_another(void) {
    struct nagsched_history history = NAGSCHED_EMPTY;
    struct nagsched_pass next = NAGSCHED_EMPTY;
    open_on(others, 1);
    for (int times = 0; times < 20; times++) {
        open_on(passes, 1);
        are_apart(&passes[0], &others[0]);
        GIVES(OK, nagsched_close(&passes[0], &book));
        GIVES(OK, nagsched_renew(&book, 0, &history));
        GIVES(OK, nagsched_open(&book.handle, 0, 0, &next, 1));
        are_apart(&next, &others[0]);
        GIVES(OK, nagsched_free(&history.handle));
        GIVES(OK, nagsched_free(&next.handle));
    }
    GIVES(OK, nagsched_free(&others[0].handle));
}

/* A thread's part of a desk's passes: it gathers them while the other threads gather theirs. */
static void *gather_part(void *given) {
    struct nagsched_pass *mine = given;
    struct nagsched_reply reply;
    for (size_t at = 1; at < PART; at++) {
        if (nagsched_status(&mine[at], 1, &reply) != NAGSCHED_OK) return NULL;
        if (nagsched_gather(&mine[0], &mine[at]) != NAGSCHED_OK) return NULL;
        if (nagsched_close(&mine[0], &book) != NAGSCHED_MISSING) return NULL;
    }
    return given;
}

static void in_threads(void) {
    pthread_t threads[PARTS];
    void *ended;
    uint64_t entries = 0;
    open_on(passes, MANY);
    for (size_t part = 0; part < PARTS; part++) IS(pthread_create(&threads[part], NULL, gather_part, &passes[part * PART]) == 0);
    for (size_t part = 0; part < PARTS; part++) IS(pthread_join(threads[part], &ended) == 0 && ended == &passes[part * PART]);
    for (size_t part = PARTS - 1; part > 0; part--) {
        GIVES(MISSING, nagsched_close(&passes[0], &book));
        GIVES(OK, nagsched_gather(&passes[0], &passes[part * PART]));
    }
    GIVES(OK, nagsched_close(&passes[0], &book));
    GIVES(OK, nagsched_entries(&book.handle, &entries));
    IS(entries == MANY - PARTS);
    GIVES(OK, nagsched_free(&book.handle));
}

/* If a pass was freed, no other pass can end the desk. */
static void one_is_gone(void) {
    open_on(passes, 3);
    GIVES(OK, nagsched_free(&passes[1].handle));
    GIVES(OK, nagsched_gather(&passes[0], &passes[2]));
    call_by(&passes[0]);
    GIVES(MISSING, nagsched_close(&passes[0], &book));
    GIVES(OK, nagsched_free(&passes[0].handle));
}

int main(void) {
    orders();
    pairs();
    two_desks();
    desks_after_another();
    in_threads();
    one_is_gone();
    return told("gatherings");
}
