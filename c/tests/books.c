/* Books: calls past their room, and renewed books. A renewed book is compared with a book that never ended. Books with many entries and
 * without entries, large rooms and large documents.
 */
#include "counted.h"

#define CALLS 200
#define RESULTS 37

/* A desk of one pass, and its book when it has ended. */
struct desk {
    struct nagsched_pass pass;
    struct nagsched_book book;
};

#define NO_DESK {NAGSCHED_EMPTY, NAGSCHED_EMPTY}

static void close_desk(struct desk *desk) { GIVES(OK, nagsched_close(&desk->pass, &desk->book)); }

/* Opens the next desk on the book. */
static void open_next(struct desk *desk) { GIVES(OK, nagsched_open(&desk->book.handle, 0, 0, &desk->pass, 1)); }

/* Opens a desk whose book has this room. */
static void open_desk(struct desk *desk, size_t room) {
    struct nagsched_setup setup = NAGSCHED_EMPTY;
    struct nagsched_refusal refusal;
    GIVES(OK, nagsched_read(ONE_SERVICE, strlen(ONE_SERVICE), &setup, &refusal));
    GIVES(OK, nagsched_open(&setup.handle, 0, room, &desk->pass, 1));
}

static void is_of(const struct nagsched_handle *book_or_history, uint64_t wanted) {
    uint64_t entries;
    GIVES(OK, nagsched_entries(book_or_history, &entries));
    IS(entries == wanted);
}

/* Ends the desk, renews its book and opens the next desk: the recorded entries are in the history. */
static void renew(struct desk *desk, size_t room, struct nagsched_history *history) {
    close_desk(desk);
    GIVES(OK, nagsched_renew(&desk->book, room, history));
    is_of(&desk->book.handle, 0);
    open_next(desk);
}

static int is_same(const struct nagsched_reply *one, const struct nagsched_reply *other) { return memcmp(one, other, sizeof *one) == 0; }

/* Calls past the room are stored like those within it, each with its reply. */
static void past_the_room(size_t room, uint64_t calls) {
    struct desk desk = NO_DESK;
    struct nagsched_reply reply = {0};
    struct nagsched_entry entry;
    uint64_t refused;
    open_desk(&desk, room);
    for (uint64_t made = 0; made < calls; made++) GIVES(OK, nagsched_status(&desk.pass, 1, &reply));
    close_desk(&desk);
    is_of(&desk.book.handle, calls);
    GIVES(OK, nagsched_refused(&desk.book, &refused));
    GIVES(OK, nagsched_entry(&desk.book.handle, calls - 1, &entry));
    IS(refused == 0 && entry.pass == 0 && entry.call.kind == NAGSCHED_CALL_STATUS && entry.call.object == 1 && is_same(&entry.reply, &reply));
    GIVES(OK, nagsched_free(&desk.book.handle));
}

/* The call of this number, from 0 on: takes and reports of the service in turn, reports in two states, some under an old run. */
static void call(struct nagsched_pass *pass, uint64_t made, struct nagsched_reply *reply) {
    if (made % 2 == 0) GIVES(OK, nagsched_take(pass, made * 300000, reply));
    else GIVES(OK, nagsched_report(pass, 1, made / 2 + 1, made % 8 < 4 ? NAGSCHED_CODE_CRITICAL : NAGSCHED_CODE_OK, reply));
}

/* Makes 200 calls to both, and compares the replies. */
static void call_both(struct desk *whole, struct desk *part, uint64_t from) {
    for (uint64_t made = from; made < from + CALLS; made++) {
        struct nagsched_reply one, other;
        call(&whole->pass, made, &one);
        call(&part->pass, made, &other);
        IS(is_same(&one, &other));
    }
}

/* The entries of a book or a history are those of the whole book from this one on. */
static void stands_in(const struct nagsched_handle *part, const struct nagsched_handle *whole, uint64_t from) {
    is_of(part, CALLS);
    for (uint64_t at = 0; at < CALLS; at++) {
        struct nagsched_entry one, other;
        GIVES(OK, nagsched_entry(part, at, &one));
        GIVES(OK, nagsched_entry(whole, from + at, &other));
        IS(memcmp(&one, &other, sizeof one) == 0);
    }
}

static void goes_on(void) {
    struct desk whole = NO_DESK, part = NO_DESK;
    struct nagsched_history history = NAGSCHED_EMPTY;
    open_desk(&whole, 2 * CALLS);
    open_desk(&part, CALLS);
    call_both(&whole, &part, 0);
    renew(&part, CALLS, &history);
    call_both(&whole, &part, CALLS);
    close_desk(&whole);
    close_desk(&part);
    is_of(&whole.book.handle, 2 * CALLS);
    stands_in(&history.handle, &whole.book.handle, 0);
    stands_in(&part.book.handle, &whole.book.handle, CALLS);
    GIVES(OK, nagsched_free(&whole.book.handle));
    GIVES(OK, nagsched_free(&part.book.handle));
    GIVES(OK, nagsched_free(&history.handle));
}

/* A check that is running when the book is renewed isn't taken again, is refused under another run, and is reported afterwards. */
static void check_is_out(void) {
    struct desk desk = NO_DESK;
    struct nagsched_history history = NAGSCHED_EMPTY;
    struct nagsched_reply reply;
    open_desk(&desk, 4);
    GIVES(OK, nagsched_take(&desk.pass, 0, &reply));
    IS(reply.kind == NAGSCHED_REPLY_TAKEN && reply.object == 1 && reply.run == 1);
    renew(&desk, 4, &history);
    is_of(&history.handle, 1);
    GIVES(OK, nagsched_take(&desk.pass, 1000000, &reply));
    IS(reply.kind == NAGSCHED_REPLY_IDLE && !reply.has_time);
    GIVES(OK, nagsched_report(&desk.pass, 1, 2, NAGSCHED_CODE_OK, &reply));
    IS(reply.kind == NAGSCHED_REPLY_WRONG_RUN);
    GIVES(OK, nagsched_report(&desk.pass, 1, 1, NAGSCHED_CODE_CRITICAL, &reply));
    IS(reply.kind == NAGSCHED_REPLY_STANDING);
    GIVES(OK, nagsched_take(&desk.pass, 1000000, &reply));
    IS(reply.kind == NAGSCHED_REPLY_TAKEN && reply.run == 2);
    close_desk(&desk);
    GIVES(OK, nagsched_free(&desk.book.handle));
    GIVES(OK, nagsched_free(&history.handle));
}

/* The 16th, 18th and 20th of 37 results are CRITICAL, the others OK: the service flaps from the 21st to the 36th, though the book is
 * renewed after each. */
static void flaps(void) {
    struct desk desk = NO_DESK;
    struct nagsched_history history = NAGSCHED_EMPTY;
    struct nagsched_reply reply;
    open_desk(&desk, 2);
    for (uint64_t check = 0; check < RESULTS; check++) {
        enum nagsched_code code = check == 15 || check == 17 || check == 19 ? NAGSCHED_CODE_CRITICAL : NAGSCHED_CODE_OK;
        GIVES(OK, nagsched_take(&desk.pass, check * 300000, &reply));
        GIVES(OK, nagsched_report(&desk.pass, 1, check + 1, code, &reply));
        IS(reply.kind == NAGSCHED_REPLY_STANDING && reply.standing.flapping == (20 <= check && check < 36));
        renew(&desk, 2, &history);
        is_of(&history.handle, 2);
        GIVES(OK, nagsched_free(&history.handle));
    }
    close_desk(&desk);
    GIVES(OK, nagsched_free(&desk.book.handle));
}

/* Makes the calls of a history again, and compares the replies. */
static void make_again(struct nagsched_pass *pass, const struct nagsched_history *history) {
    for (uint64_t at = 0; at < CALLS; at++) {
        struct nagsched_entry entry;
        struct nagsched_reply reply;
        GIVES(OK, nagsched_entry(&history->handle, at, &entry));
        if (entry.call.kind == NAGSCHED_CALL_TAKE) GIVES(OK, nagsched_take(pass, entry.call.moment, &reply));
        else GIVES(OK, nagsched_report(pass, entry.call.object, entry.call.run, entry.call.code, &reply));
        IS(is_same(&reply, &entry.reply));
    }
}

/* After a restart, the calls of the old book are made again to a new one, which is then in the same state. */
static void made_again(void) {
    struct desk desks[] = {NO_DESK, NO_DESK, NO_DESK}, *whole = &desks[0], *part = &desks[1], *again = &desks[2];
    struct nagsched_history history = NAGSCHED_EMPTY, copy = NAGSCHED_EMPTY;
    for (int at = 0; at < 3; at++) open_desk(&desks[at], CALLS);
    call_both(whole, part, 0);
    renew(part, CALLS, &history);
    make_again(&again->pass, &history);
    renew(again, CALLS, &copy);
    call_both(part, again, CALLS);
    for (int at = 0; at < 3; at++) {
        close_desk(&desks[at]);
        GIVES(OK, nagsched_free(&desks[at].book.handle));
    }
    GIVES(OK, nagsched_free(&history.handle));
    GIVES(OK, nagsched_free(&copy.handle));
}

/* A book of many entries, with many requests for memory: it has all entries, and no call was refused. */
static void many_entries(uint64_t calls) {
    struct desk desk = NO_DESK;
    struct nagsched_history history = NAGSCHED_EMPTY;
    struct nagsched_reply reply;
    struct nagsched_entry entry;
    uint64_t made = 0, right = 0, refused = 9;
    open_desk(&desk, 0);
    while (made < calls && nagsched_status(&desk.pass, made % 2, &reply) == NAGSCHED_OK) made++;
    IS(made == calls);
    close_desk(&desk);
    is_of(&desk.book.handle, calls);
    GIVES(OK, nagsched_refused(&desk.book, &refused));
    IS(refused == 0);
    for (uint64_t at = 0; at < made; at++) right += nagsched_entry(&desk.book.handle, at, &entry) == NAGSCHED_OK && entry.call.object == at % 2;
    IS(right == calls);
    GIVES(OK, nagsched_renew(&desk.book, 0, &history));
    is_of(&desk.book.handle, 0);
    is_of(&history.handle, calls);
    GIVES(OK, nagsched_free(&history.handle));
    GIVES(OK, nagsched_free(&desk.book.handle));
}

/* A book without entries is renewed like any other, with each room, many times, and its state stays the same. */
static void without_entries(void) {
    static const size_t rooms[] = {4, 0, 0, 1000001, 0, 1};
    struct desk desk = NO_DESK;
    struct nagsched_history history = NAGSCHED_EMPTY;
    struct nagsched_reply reply;
    open_desk(&desk, 0);
    for (size_t at = 0; at < sizeof rooms / sizeof *rooms; at++) {
        close_desk(&desk);
        GIVES(OK, nagsched_renew(&desk.book, rooms[at], &history));
        is_of(&history.handle, 0);
        GIVES(OK, nagsched_free(&history.handle));
        GIVES(OK, nagsched_renew(&desk.book, rooms[at], &history));
        GIVES(OK, nagsched_free(&history.handle));
        open_next(&desk);
    }
    GIVES(OK, nagsched_take(&desk.pass, 0, &reply));
    IS(reply.kind == NAGSCHED_REPLY_TAKEN && reply.run == 1);
    renew(&desk, 0, &history);
    is_of(&history.handle, 1);
    GIVES(OK, nagsched_report(&desk.pass, 1, 1, NAGSCHED_CODE_OK, &reply));
    IS(reply.kind == NAGSCHED_REPLY_STANDING);
    GIVES(OK, nagsched_free(&history.handle));
    close_desk(&desk);
    is_of(&desk.book.handle, 1);
    GIVES(OK, nagsched_free(&desk.book.handle));
}

/* A document of this many bytes, and a room for this many entries. */
static void large(size_t bytes, size_t room) {
    struct nagsched_setup setup = NAGSCHED_EMPTY;
    struct nagsched_pass pass = NAGSCHED_EMPTY;
    struct nagsched_refusal refusal;
    struct nagsched_reply reply;
    char *document = malloc(bytes);
    memset(document, ' ', bytes);
    memcpy(document + bytes - strlen(ONE_SERVICE), ONE_SERVICE, strlen(ONE_SERVICE));
    GIVES(OK, nagsched_read(document, bytes, &setup, &refusal));
    free(document);
    GIVES(OK, nagsched_open(&setup.handle, 0, room, &pass, 1));
    GIVES(OK, nagsched_take(&pass, 0, &reply));
    IS(reply.kind == NAGSCHED_REPLY_TAKEN && reply.object == 1);
    GIVES(OK, nagsched_free(&pass.handle));
}

int main(void) {
    past_the_room(4, CALLS);
    past_the_room(1000, 5000);
    goes_on();
    check_is_out();
    flaps();
    made_again();
    many_entries(200000);
    without_entries();
    large(((size_t)1 << 20) + 1, 1000001);
    large((size_t)16 << 20, 2000000);
    return told("books");
}
