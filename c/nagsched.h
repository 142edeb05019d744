/* nagsched: the proved scheduler of active checks, for C and for every language that can call C.
 *
 * Any number of threads share one desk. Each has a pass of its own, a handle by which it makes the six
 * calls: take, report, abandon, reschedule, enable, status. The replies are those that one thread would get
 * if it made all calls one after another. The desk stores all calls and replies, in that order.
 *
 *     struct nagsched_setup setup = NAGSCHED_EMPTY;
 *     struct nagsched_pass passes[2] = {NAGSCHED_EMPTY, NAGSCHED_EMPTY};
 *     struct nagsched_book book = NAGSCHED_EMPTY;
 *     struct nagsched_refusal refusal;
 *     nagsched_read(document, bytes, &setup, &refusal);     REFUSED: nagsched_refusal_text says why
 *     nagsched_open(&setup.handle, now, 1000, passes, 2);   a desk, and a pass for each of two threads
 *     nagsched_take(&passes[0], now, &reply);               in a thread, which then handles the reply
 *     nagsched_gather(&passes[0], &passes[1]);              when the threads have ended
 *     nagsched_close(&passes[0], &book);                    a book, with the history
 *     nagsched_free(&book.handle);
 *
 * The history grows by an entry of 56 bytes with each call, even with a take whose reply is IDLE. So a program that runs for months repeats these
 * steps: let no call be made for a moment, gather, close, save, renew the book (nagsched_renew hands the entries out), and open a desk on it. The
 * new passes have all their calls again. Plugins may run meanwhile. examples/loop.c is such a program.
 *
 * Moments and times are milliseconds of one clock that the caller chooses, 0 to 2^60. A next check may be as late as 2^61. Moments needn't rise from
 * call to call: each call uses its own. A saved state has moments in it, so its clock has to continue over restarts of program and machine: begin
 * at the wall clock, and continue with a clock that nobody sets. The next check after a report is counted from the moment of the take that began
 * its run.
 *
 * Every function except nagsched_version returns a status (enum nagsched_result) and writes its results through pointers. A text that the
 * caller passes is a pointer and a length, without a zero at the end (strlen(text), not sizeof). A text for the caller goes into a buffer of the
 * caller's in the same form. No pointer may be NULL, even for an empty text or buffer, and one call must not get the same pointer for two
 * arguments of one type: both are WRONG. Results stay valid for as long as the caller keeps their memory: no function returns memory of its own.
 *
 * Which calls may run at the same time:
 *
 *     with different handles            any, also with passes of the same desk
 *     with the same handle, const       all that take it as const, in any number of threads
 *     with the same handle, otherwise   one at a time; another thread may make the next call if a lock, a thread start or a join
 *                                       puts it after the first
 *
 * The library relies on these rules, which it can't test:
 *   - a handle is zeroed (NAGSCHED_EMPTY) before its first use, and never copied, read or written;
 *   - calls run at the same time only as above;
 *   - a try that returned NAGSCHED_WAIT is made again, with the same arguments, until it returns another status: all other passes
 *     wait for its turn;
 *   - no call is made from a signal handler, or in a child after fork with a handle from before the fork;
 *   - the memory at a pointer is as large as its type, or as the length says, and no two pointers of a call lead to the same memory;
 *   - the process has one allocator (malloc, free) for the whole life of a handle.
 *
 * The library starts no thread, never sleeps, opens no file and reads no clock. The pages named here are installed in share/doc/nagsched.
 */
#ifndef NAGSCHED_H
#define NAGSCHED_H

#include <stddef.h>
#include <stdint.h>
#include <sys/select.h>

#ifdef __cplusplus
extern "C" {
#endif

/* The number of this interface. Compare it once with nagsched_version(): if they differ, the header and the library don't belong together. */
#define NAGSCHED_VERSION 3u

/* Refers to a setup, a pass, a book or a history. All zeros means empty. */
struct nagsched_handle {
    void *at;
    uint64_t full;
};

/* A handle of each kind. A function that takes more than one kind gets the handle inside: &setup.handle. */
struct nagsched_setup { struct nagsched_handle handle; };
struct nagsched_pass { struct nagsched_handle handle; };
struct nagsched_book { struct nagsched_handle handle; };
struct nagsched_history { struct nagsched_handle handle; };

#define NAGSCHED_EMPTY {{0, 0}}

/* The statuses. After NAGSCHED_SPENT, NAGSCHED_WRONG and NAGSCHED_MISSING everything is as it was before the call, except that a length is
 * written if a buffer is too small. After NAGSCHED_REFUSED only the refusal was written. After NAGSCHED_NO_MEMORY nothing was changed
 * either, except that one of the six calls is counted, and its pass has seen the history so far. */
enum nagsched_result {
    NAGSCHED_OK = 0,
    NAGSCHED_WAIT = 1,      /* another pass is first: make the same call again */
    NAGSCHED_SPENT = 2,     /* the pass has no call left */
    NAGSCHED_NO_MEMORY = 3, /* out of memory; one of the six calls wasn't made, but is counted (nagsched_refused) */
    NAGSCHED_REFUSED = 4,   /* the document isn't a setup, or the text isn't a saved state; the refusal has the reason and the place */
    NAGSCHED_MISSING = 5,   /* passes aren't gathered yet, no object has that name, the object is a host, or no check of it is running */
    NAGSCHED_WRONG = 6      /* a mistake of the caller's: a handle, a pointer or a number that this function doesn't take */
};

/* The return code of a check. */
enum nagsched_code { NAGSCHED_CODE_OK = 0, NAGSCHED_CODE_WARNING = 1, NAGSCHED_CODE_CRITICAL = 2, NAGSCHED_CODE_UNKNOWN = 3 };

/* The state of a service, OK to UNKNOWN, or of a host, UP to UNREACHABLE. */
enum nagsched_state {
    NAGSCHED_STATE_OK = 0,
    NAGSCHED_STATE_WARNING = 1,
    NAGSCHED_STATE_CRITICAL = 2,
    NAGSCHED_STATE_UNKNOWN = 3,
    NAGSCHED_STATE_UP = 4,
    NAGSCHED_STATE_DOWN = 5,
    NAGSCHED_STATE_UNREACHABLE = 6
};

enum nagsched_kind { NAGSCHED_SOFT = 0, NAGSCHED_HARD = 1 };

/* The standing of an object. */
struct nagsched_standing {
    uint32_t checked;   /* 1: a result has come in; 0: never yet */
    uint32_t state;     /* nagsched_state; never checked: OK or UP */
    uint32_t kind;      /* nagsched_kind */
    uint32_t attempt;   /* 1 to the object's maximum */
    uint32_t last_hard; /* nagsched_state: the state of the last result whose state was hard */
    uint32_t flapping;  /* 1: the state keeps changing; 0 */
};

enum nagsched_call_kind {
    NAGSCHED_CALL_TAKE = 0,
    NAGSCHED_CALL_REPORT = 1,
    NAGSCHED_CALL_ABANDON = 2,
    NAGSCHED_CALL_RESCHEDULE = 3,
    NAGSCHED_CALL_ENABLE = 4,
    NAGSCHED_CALL_STATUS = 5
};

/* A call, as the history stores it. A field that its kind doesn't use is 0. */
struct nagsched_call {
    uint32_t kind;   /* nagsched_call_kind */
    uint32_t object; /* all but take */
    uint64_t run;    /* report, abandon */
    uint64_t moment; /* take, abandon: now; reschedule: the time */
    uint32_t code;   /* report: nagsched_code */
    uint32_t flag;   /* reschedule: forced; enable: on; 0 or 1 */
};

enum nagsched_reply_kind {
    NAGSCHED_REPLY_TAKEN = 0,          /* object, run: check it now, and report under this run */
    NAGSCHED_REPLY_PUT_OFF = 1,        /* object, time: a dependency fails; time: its next check */
    NAGSCHED_REPLY_IDLE = 2,           /* nothing is due; time: when the next check will be */
    NAGSCHED_REPLY_AT_LIMIT = 3,       /* the limit of running checks of services is reached */
    NAGSCHED_REPLY_STANDING = 4,       /* standing, changed, time: the next check */
    NAGSCHED_REPLY_FREED = 5,          /* the run ended without a result; time: the next check */
    NAGSCHED_REPLY_DONE = 6,
    NAGSCHED_REPLY_UNKNOWN_OBJECT = 101, /* from 100 on: the call was refused, and has changed nothing */
    NAGSCHED_REPLY_TIME_RANGE = 102,
    NAGSCHED_REPLY_NOT_RUNNING = 103,
    NAGSCHED_REPLY_WRONG_RUN = 104,
    NAGSCHED_REPLY_RUNS_SPENT = 105
};

/* The reply to a call. A field that its kind doesn't name is 0. */
struct nagsched_reply {
    uint32_t kind;     /* nagsched_reply_kind */
    uint32_t object;
    uint64_t run;
    uint64_t time;     /* if has_time is 1 */
    uint32_t has_time; /* 0 or 1 */
    uint32_t changed;  /* 1: the state differs from the one before; 0 */
    struct nagsched_standing standing;
};

/* An entry of a history: the number of the pass that made the call (its place in the array of nagsched_open), the call, the reply. */
struct nagsched_entry {
    uint64_t pass;
    struct nagsched_call call;
    struct nagsched_reply reply;
};

/* The number of a refusal is that of its line: 205 for L5, 304 for K4. New refusals get new numbers in the same hundred. */
enum nagsched_refusal_kind {
    NAGSCHED_REFUSAL_NOT_JSON = 201, /* from 200 on: the document is no setup */
    NAGSCHED_REFUSAL_SHAPE = 202,
    NAGSCHED_REFUSAL_TOO_MANY = 203,
    NAGSCHED_REFUSAL_BAD_NAME = 204,
    NAGSCHED_REFUSAL_DUPLICATE = 205,
    NAGSCHED_REFUSAL_UNKNOWN_HOST = 206,
    NAGSCHED_REFUSAL_UNKNOWN_MASTER = 207,
    NAGSCHED_REFUSAL_RANGE = 208,
    NAGSCHED_REFUSAL_DEPENDENCY_CYCLE = 209,
    NAGSCHED_REFUSAL_PARENT_CYCLE = 210,
    NAGSCHED_REFUSAL_TOO_LONG = 212,
    NAGSCHED_REFUSAL_SAVED_TOO_LONG = 301, /* from 300 on: the text is no saved state */
    NAGSCHED_REFUSAL_SAVED_NOT_JSON = 302,
    NAGSCHED_REFUSAL_SAVED_VERSION = 303,
    NAGSCHED_REFUSAL_SAVED_SHAPE = 304,
    NAGSCHED_REFUSAL_SAVED_TOO_MANY = 305,
    NAGSCHED_REFUSAL_SAVED_BAD_NAME = 306,
    NAGSCHED_REFUSAL_SAVED_DUPLICATE = 307,
    NAGSCHED_REFUSAL_SAVED_RANGE = 308,
    NAGSCHED_REFUSAL_SAVED_UNLAWFUL = 309
};

enum nagsched_part {
    NAGSCHED_PART_NONE = 0,
    NAGSCHED_PART_DOCUMENT = 1,
    NAGSCHED_PART_OPTIONS = 2,
    NAGSCHED_PART_HOSTS = 3,
    NAGSCHED_PART_SERVICES = 4,
    NAGSCHED_PART_SERVICE_DEPENDENCIES = 5,
    NAGSCHED_PART_HOST_DEPENDENCIES = 6
};

/* The reason for which a document or the text of a saved state is refused, and the place or the object of the fault. */
struct nagsched_refusal {
    uint32_t kind;      /* nagsched_refusal_kind */
    uint32_t part;      /* nagsched_part; NONE if the kind has no place, and for a saved state */
    uint64_t has_index; /* 0 or 1 */
    uint64_t index;     /* in the part's list, or in the saved state's list of objects, from 0 */
};

/* Returns the version of the library's interface: NAGSCHED_VERSION of its own header. This is not a status. Any thread, at any time. */
uint32_t nagsched_version(void);

/* Reads a JSON document (docs/setup.md) of the given number of bytes, and makes a setup of it in an empty handle. The
 * document isn't used after the call.
 *
 * OK. REFUSED: the document breaks a rule. refusal has the first fault, in the order of docs/errors.md, and nagsched_refusal_text its
 * line. The program's `nagsched check` explains it in words. NO_MEMORY. WRONG: the handle isn't empty. Only REFUSED writes refusal.
 * Allocates; takes longer with more bytes. */
enum nagsched_result nagsched_read(const char *document, size_t bytes, struct nagsched_setup *setup, struct nagsched_refusal *refusal);

/* The lines that the program nagsched writes, each with its line feed: for a refusal, for the reply to a call as `run` writes it, and for an
 * entry as `drill` writes it. They go into room bytes at text, and length is the length of the whole line. 1,024 bytes are enough for each.
 * named is a setup, a pass (also one that waits) or a book, and its objects have the names. A number without an object has no name in the
 * line.
 *
 * OK. WRONG, with length: the line is longer than room, and nothing else is written. WRONG: a struct that no function returns. NO_MEMORY.
 * They allocate memory, and free it before they return. */
enum nagsched_result nagsched_refusal_text(const struct nagsched_refusal *refusal, char *text, size_t room, size_t *length);
enum nagsched_result nagsched_reply_text(const struct nagsched_handle *named, const struct nagsched_call *call, const struct nagsched_reply *reply,
                                         char *text, size_t room, size_t *length);
enum nagsched_result nagsched_entry_text(const struct nagsched_handle *named, const struct nagsched_entry *entry, char *text, size_t room,
                                         size_t *length);

/* Objects by number, from 0: hosts first, in the order of their names' bytes, then services, in the order of their hosts' names and then of
 * their descriptions. A full name is the name of a host, or HOST;DESCRIPTION of a service: at most 511 bytes of UTF-8. named is a setup, a
 * pass (also one that waits) or a book. Its numbers never change.
 *
 *     nagsched_count      the number of objects, and the number of hosts among them
 *     nagsched_number     the number of the object with this full name. MISSING: there is no such object
 *     nagsched_name       the full name of an object. WRONG, with length: it is longer than room, and nothing else is written
 *     nagsched_host_of    the host of a service. MISSING: the object is a host
 *
 * OK. WRONG: the handle has no setup, pass or book, or no object has this number. They allocate nothing. */
enum nagsched_result nagsched_count(const struct nagsched_handle *named, uint32_t *objects, uint32_t *hosts);
enum nagsched_result nagsched_number(const struct nagsched_handle *named, const char *name, size_t bytes, uint32_t *number);
enum nagsched_result nagsched_name(const struct nagsched_handle *named, uint32_t number, char *name, size_t room, size_t *length);
enum nagsched_result nagsched_host_of(const struct nagsched_handle *named, uint32_t number, uint32_t *host);

/* Opens a desk: a scheduler for several threads, one for each pass. Each of count handles, 1 to 1,024 empty ones in an array, gets a pass,
 * whose number is its place in the array. The handle of the setup or book is empty afterwards.
 *
 *     on a setup    start, 0 to 2^60, is the moment at which scheduling starts: first checks are spread from it. room is the number of
 *                   entries for which the history has memory at once. It is no limit: a call past it allocates
 *     on a book     without entries, as nagsched_renew and nagsched_resume leave one: start and room are the book's own, and must be 0
 *
 * A pass has 2^32 - 1 calls, or with nagsched_open_with calls of them, 1 to 2^32 - 1.
 *
 * OK. NO_MEMORY: all handles are as they were. WRONG: a handle of another kind or a pass handle that isn't empty, a book with entries, or a
 * number out of its limits. Both allocate. (Proofs don't exclude one case, which no machine can reach: a 63-bit count of the desk's owners is
 * full. Then setup_or_book would be the desk's only pass.) */
enum nagsched_result nagsched_open(struct nagsched_handle *setup_or_book, uint64_t start, size_t room, struct nagsched_pass *passes, size_t count);
enum nagsched_result nagsched_open_with(struct nagsched_handle *setup_or_book, uint64_t start, size_t room, uint64_t calls,
                                        struct nagsched_pass *passes, size_t count);

/* The six calls, one try each; nagsched_take and so on below try until the turn has come.
 *
 *     take         asks which object is to be checked at the moment now. TAKEN: its check begins; run it, and report or abandon it under
 *                  this run. PUT_OFF: it was due, but a dependency forbids its check; take again. IDLE: nothing is due before time,
 *                  unless a report, abandon, reschedule or enable of any pass makes something due sooner: sleep until time, and wake the
 *                  sleeping threads after each of these. AT_LIMIT: a service is due, but the limit of running checks is reached: take
 *                  again after a report. TIME_RANGE, RUNS_SPENT
 *     report       the check of object under this run returned code, 0 to 3. STANDING: the object's standing, whether its state changed (a
 *                  soft problem that becomes hard has the same state: compare kind, too), and its next check. NOT_RUNNING, WRONG_RUN: the
 *                  result comes too late
 *     abandon      the check of object under this run is abandoned at the moment now, and no result will come. FREED, with its next check.
 *                  NOT_RUNNING, WRONG_RUN, TIME_RANGE
 *     reschedule   the next check of object is at this time; forced: even if its checks are off or a dependency forbids it. DONE.
 *                  TIME_RANGE
 *     enable       the active checks of object are on, or off. DONE
 *     status       the object's standing, and its next check. STANDING, with changed 0
 *
 * A refused call (UNKNOWN_OBJECT to RUNS_SPENT) changes nothing, is recorded like any other, and its status is OK.
 *
 * OK: the call was made and recorded, and reply has the reply. WAIT: another pass's turn comes first. The call wasn't made: make the same
 * try again (meanwhile any other call with this pass is WRONG). SPENT: the pass has no call left. NO_MEMORY: the call wasn't made, and is
 * counted (nagsched_refused). WRONG: the handle has no pass, a code is above 3, or a flag is neither 0 nor 1. A number without an object
 * gets the reply UNKNOWN_OBJECT. A try never waits. It allocates only if the history has reached its room. */
enum nagsched_result nagsched_try_take(struct nagsched_pass *pass, uint64_t now, struct nagsched_reply *reply);
enum nagsched_result nagsched_try_report(struct nagsched_pass *pass, uint32_t object, uint64_t run, enum nagsched_code code,
                                         struct nagsched_reply *reply);
enum nagsched_result nagsched_try_abandon(struct nagsched_pass *pass, uint32_t object, uint64_t run, uint64_t now, struct nagsched_reply *reply);
enum nagsched_result nagsched_try_reschedule(struct nagsched_pass *pass, uint32_t object, uint64_t time, uint32_t forced,
                                             struct nagsched_reply *reply);
enum nagsched_result nagsched_try_enable(struct nagsched_pass *pass, uint32_t object, uint32_t on, struct nagsched_reply *reply);
enum nagsched_result nagsched_try_status(struct nagsched_pass *pass, uint32_t object, struct nagsched_reply *reply);

/* Reads an object's standing without a turn: it never waits for another call. The standing is that after some history that begins with all
 * that this pass has seen, so that glances never go back. A pass sees its own reports.
 *
 * OK. WRONG: the handle has no pass, or one that waits, or no object has this number. Allocates nothing; one load of memory. */
enum nagsched_result nagsched_glance(struct nagsched_pass *pass, uint32_t object, struct nagsched_standing *standing);

/* Joins another pass of the same desk to this one, in any order of their numbers, when the other's thread makes no more calls. The other handle
 * is empty afterwards. This pass keeps its own number.
 *
 * OK. WRONG: a handle has no pass, or one that waits, or the passes are of two desks. Allocates nothing. */
enum nagsched_result nagsched_gather(struct nagsched_pass *pass, struct nagsched_pass *other);

/* Ends the desk: the pass in which all others are gathered becomes the desk's book, in an empty handle. The pass's handle is empty
 * afterwards.
 *
 * OK. MISSING: other passes have to be gathered first. WRONG: the handle has no pass, or one that waits, or the book's isn't empty. Allocates
 * nothing. */
enum nagsched_result nagsched_close(struct nagsched_pass *pass, struct nagsched_book *book);

/* The history: the number of entries of a book or an old history, and the entry with an index from 0, in the order in which the calls were
 * made. nagsched_refused: the number of calls that a book didn't make because it was out of memory.
 *
 * OK. WRONG: the handle has neither, or no entry has this index. They allocate nothing. */
enum nagsched_result nagsched_entries(const struct nagsched_handle *book_or_history, uint64_t *count);
enum nagsched_result nagsched_entry(const struct nagsched_handle *book_or_history, uint64_t index, struct nagsched_entry *entry);
enum nagsched_result nagsched_refused(const struct nagsched_book *book, uint64_t *count);

/* Moves the entries of a book into the empty handle history. The book then has no entries and its scheduler is as it was. It has memory for
 * room entries at once, and nagsched_open opens a desk on it.
 *
 * OK. NO_MEMORY: the book still has its entries. WRONG: the handle has no book, or history isn't empty. Allocates room entries of 56 bytes, and
 * takes no longer with more entries. */
enum nagsched_result nagsched_renew(struct nagsched_book *book, size_t room, struct nagsched_history *history);

/* Writes the saved state of a book's scheduler, for nagsched_resume: all its knowledge, without its setup and its entries. A program saves
 * a book when it ends, and perhaps at each renewal, and stores the text with its own files.
 *
 * The text is one line of JSON without a line feed, of at most 16777216 bytes, written into room bytes at text. length is the length of the
 * whole text. The library doesn't keep the buffer. The book isn't changed: it can be renewed, opened or saved again.
 *
 * OK: the whole text was written. WRONG, with length: the text is longer than room, and only length was written, so that a program can pass
 * room 0 to learn the length. WRONG: the handle has no book (close the desk first). NO_MEMORY: nothing was written.
 * Allocates memory for any room, and frees it before it returns; takes longer with more objects. Any thread, also while others read
 * the book by functions that take it as const. */
enum nagsched_result nagsched_save(const struct nagsched_book *book, char *text, size_t room, size_t *length);

/* Makes a book that resumes a saved state, in an empty handle, over a setup of the same document or of another one (docs/saved-states.md
 * says what each object keeps). The setup's handle is empty afterwards. The text isn't used after the call.
 *
 * start, 0 to 2^60 milliseconds, is the present moment: an object that the saved state doesn't have is first checked from then on. room
 * is the number of entries for which the book has memory at once. It has no entries yet, and nagsched_open opens a desk on it, with 0 for
 * start and room. A check that was running is still running: report or abandon it under its run's number. nagsched_running lists the
 * running checks. Run numbers continue from the saved ones.
 *
 * OK. REFUSED: the text is no saved state. refusal, which every other status leaves as it was, has the reason (SAVED_TOO_LONG to
 * SAVED_UNLAWFUL) and the object, and nagsched_refusal_text has its line. NO_MEMORY: nothing is known of the text. WRONG: the handle has no
 * setup, the book's handle isn't empty, or start is later than 2^60. With every status except OK the setup stays in its handle.
 * Allocates; takes longer with more bytes. Any thread, while no other call is made with the two handles. */
enum nagsched_result nagsched_resume(struct nagsched_setup *setup, const char *text, size_t bytes, uint64_t start, size_t room,
                                     struct nagsched_book *book, struct nagsched_refusal *refusal);

/* The running check of a book's object: the number of its run, and the moment at which it was taken, in milliseconds. Call it for each
 * object, from 0 to nagsched_count's objects, to get all running checks without reading an entry. On an open desk the thread that took a
 * check knows of it.
 *
 * OK: run and start are written. MISSING: no check of the object is running. WRONG: the handle has no book, or the book no such object.
 * With these two statuses run and start are as they were. Allocates nothing, and takes the same time for every book. Any thread, also
 * while others read the book by functions that take it as const. The result holds until a desk on the book makes a call. */
enum nagsched_result nagsched_running(const struct nagsched_book *book, uint32_t object, uint64_t *run, uint64_t *start);

/* Frees what a handle refers to, and makes the handle empty. An empty handle stays empty. If a pass is freed, its desk can't be closed any
 * more: its history is freed with the last of its passes.
 *
 * OK. WRONG: the handle has a pass that waits. */
enum nagsched_result nagsched_free(struct nagsched_handle *handle);

/* How a call waits for its turn. nagsched_wait waits between two tries: seven pauses, each twice as long as the one before, then sleeps of 10 to 100
 * microseconds. It never yields: next to a busy program, a thread that yields gets its processor back only after milliseconds, and all later callers
 * would wait for it. nagsched_rest follows the last try. If the call slept, it sleeps 16 times as long, 50 milliseconds at most: without rests, each
 * call of waiting threads would take a sleep. A call begins with {0, 0}. */
struct nagsched_patience {
    uint32_t pauses;
    uint32_t slept; /* microseconds */
};

static inline void nagsched_wait(struct nagsched_patience *patience) {
    uint32_t left, slept = patience->slept;
    struct timeval time = {0, slept < 10 ? 10 : slept < 100 ? slept : 100};
    if (patience->pauses < 7) {
        for (left = 1u << patience->pauses++; left > 0; left--) __builtin_ia32_pause();
        return;
    }
    if (slept < 50000) patience->slept += (uint32_t)time.tv_usec;
    select(0, NULL, NULL, NULL, &time);
}

static inline void nagsched_rest(const struct nagsched_patience *patience) {
    struct timeval time = {0, patience->slept < 3125 ? 16 * patience->slept : 50000};
    if (patience->slept > 0) select(0, NULL, NULL, NULL, &time);
}

/* The six calls, each tried until its turn has come; a thread that waits for more than some microseconds sleeps, and rests before it returns. The
 * statuses are those of a try, without WAIT. A program with its own way to wait, such as coroutines, makes the tries itself. */
static inline enum nagsched_result nagsched_take(struct nagsched_pass *pass, uint64_t now, struct nagsched_reply *reply) {
    struct nagsched_patience patience = {0, 0};
    enum nagsched_result status;
    while ((status = nagsched_try_take(pass, now, reply)) == NAGSCHED_WAIT) nagsched_wait(&patience);
    nagsched_rest(&patience);
    return status;
}

static inline enum nagsched_result nagsched_report(struct nagsched_pass *pass, uint32_t object, uint64_t run, enum nagsched_code code,
                                                   struct nagsched_reply *reply) {
    struct nagsched_patience patience = {0, 0};
    enum nagsched_result status;
    while ((status = nagsched_try_report(pass, object, run, code, reply)) == NAGSCHED_WAIT) nagsched_wait(&patience);
    nagsched_rest(&patience);
    return status;
}

static inline enum nagsched_result nagsched_abandon(struct nagsched_pass *pass, uint32_t object, uint64_t run, uint64_t now,
                                                    struct nagsched_reply *reply) {
    struct nagsched_patience patience = {0, 0};
    enum nagsched_result status;
    while ((status = nagsched_try_abandon(pass, object, run, now, reply)) == NAGSCHED_WAIT) nagsched_wait(&patience);
    nagsched_rest(&patience);
    return status;
}

static inline enum nagsched_result nagsched_reschedule(struct nagsched_pass *pass, uint32_t object, uint64_t time, uint32_t forced,
                                                       struct nagsched_reply *reply) {
    struct nagsched_patience patience = {0, 0};
    enum nagsched_result status;
    while ((status = nagsched_try_reschedule(pass, object, time, forced, reply)) == NAGSCHED_WAIT) nagsched_wait(&patience);
    nagsched_rest(&patience);
    return status;
}

static inline enum nagsched_result nagsched_enable(struct nagsched_pass *pass, uint32_t object, uint32_t on, struct nagsched_reply *reply) {
    struct nagsched_patience patience = {0, 0};
    enum nagsched_result status;
    while ((status = nagsched_try_enable(pass, object, on, reply)) == NAGSCHED_WAIT) nagsched_wait(&patience);
    nagsched_rest(&patience);
    return status;
}

static inline enum nagsched_result nagsched_status(struct nagsched_pass *pass, uint32_t object, struct nagsched_reply *reply) {
    struct nagsched_patience patience = {0, 0};
    enum nagsched_result status;
    while ((status = nagsched_try_status(pass, object, reply)) == NAGSCHED_WAIT) nagsched_wait(&patience);
    nagsched_rest(&patience);
    return status;
}

#ifdef __cplusplus
}
#endif

#endif
