/* Makes each mistake that nagsched.h names. Each returns WRONG and changes nothing: no handle and no result, and at the end the
 * history has only the entries of good calls.
 *
 * Linked with -Wl,--wrap=malloc,--wrap=realloc: while a call that requests memory holds its turn, another thread makes its own call, which
 * has to wait.
 */
#include "counted.h"

#include <pthread.h>

#define LATEST ((uint64_t)1 << 60)

/* All handles, and everything that a call can write. */
static struct everything {
    struct nagsched_handle empty, two[2];
    struct nagsched_setup setup;
    struct nagsched_pass of_desk[2], theirs;
    struct nagsched_book book;
    struct nagsched_history history;
    struct nagsched_refusal refusal;
    struct nagsched_reply reply;
    struct nagsched_standing standing;
    struct nagsched_call call;
    struct nagsched_entry entry;
    uint64_t count, run;
    uint32_t number, hosts;
    size_t length;
    char text[64];
} it, was;

/* The saved state of a book. */
static char saved[1024];
static size_t saved_length;

/* The two passes of one desk. */
#define MINE (&it.of_desk[0])
#define YOURS (&it.of_desk[1])

/* A mistake: the status is WRONG, and everything is as it was. */
#define WRONG(mistake)                                                               \
    do {                                                                             \
        memcpy(&was, &it, sizeof it);                                                \
        GIVES(WRONG, mistake);                                                       \
        has_to_be(memcmp(&was, &it, sizeof it) == 0, #mistake " changes nothing", __FILE__, __LINE__); \
    } while (0)

/* A handle in the place of one of another type, which the compiler would refuse without the cast. */
#define AS(type, handle) ((struct nagsched_##type *)(handle))

/* A function that needs a handle of a type gets an empty handle, and a handle of another kind. */
#define NOT_BY(function, type, handle, ...)                \
    do {                                                   \
        WRONG(function(AS(type, &it.empty), __VA_ARGS__)); \
        WRONG(function(AS(type, handle), __VA_ARGS__));    \
    } while (0)

void *__real_malloc(size_t size);
void *__real_realloc(void *old, size_t size);
static int waits_for_memory;
static enum nagsched_result status_meanwhile;

/* Another thread's try, while this one holds the turn. */
static void *meanwhile(void *given) {
    (void)given;
    status_meanwhile = nagsched_try_take(YOURS, 7, &it.reply);
    return NULL;
}

static void let_others_try(void) {
    pthread_t other;
    if (!waits_for_memory) return;
    waits_for_memory = 0;
    if (pthread_create(&other, NULL, meanwhile, NULL) == 0) pthread_join(other, NULL);
}

void *__wrap_malloc(size_t size) {
    let_others_try();
    return __real_malloc(size);
}

void *__wrap_realloc(void *old, size_t size) {
    let_others_try();
    return __real_realloc(old, size);
}

static void readings(void) {
    const char *document = SETUP;
    WRONG(nagsched_read(document, strlen(SETUP), &it.setup, &it.refusal));
}

/* For a text without room the function reports the length, and writes nothing else. */
#define NO_ROOM(wanted, call)                            \
    do {                                                 \
        memcpy(&was, &it, sizeof it);                    \
        GIVES(WRONG, call);                              \
        IS(it.length == (wanted));                       \
        it.length = was.length;                          \
        IS(memcmp(&was, &it, sizeof it) == 0);           \
    } while (0)

static void texts(void) {
    struct nagsched_refusal refused = {NAGSCHED_REFUSAL_DUPLICATE, NAGSCHED_PART_HOSTS, 1, 1}, none = refused;
    const size_t length = strlen("refused L5 Duplicate hosts 1\n"), taken = strlen("taken 1 h\n");
    none.kind = NAGSCHED_REFUSAL_SAVED_UNLAWFUL + 1;
    WRONG(nagsched_refusal_text(&none, it.text, sizeof it.text, &it.length));
    none.kind = NAGSCHED_REFUSAL_SAVED_DUPLICATE;
    WRONG(nagsched_refusal_text(&none, it.text, sizeof it.text, &it.length));
    none = refused, none.part = NAGSCHED_PART_HOST_DEPENDENCIES + 1;
    WRONG(nagsched_refusal_text(&none, it.text, sizeof it.text, &it.length));
    none = refused, none.has_index = 2;
    WRONG(nagsched_refusal_text(&none, it.text, sizeof it.text, &it.length));
    NO_ROOM(length, nagsched_refusal_text(&refused, it.text, length - 1, &it.length));
    NO_ROOM(length, nagsched_refusal_text(&refused, it.text, 0, &it.length));
    GIVES(OK, nagsched_refusal_text(&refused, it.text, length, &it.length));
    IS(it.length == length && memcmp(it.text, "refused L5 Duplicate hosts 1\n", length) == 0);

    memset(&it.call, 0, sizeof it.call), memset(&it.reply, 0, sizeof it.reply);
    it.reply.run = 1;
    NOT_BY(nagsched_reply_text, handle, &it.history, &it.call, &it.reply, it.text, sizeof it.text, &it.length);
    NO_ROOM(taken, nagsched_reply_text(&it.setup.handle, &it.call, &it.reply, it.text, taken - 1, &it.length));
    GIVES(OK, nagsched_reply_text(&it.setup.handle, &it.call, &it.reply, it.text, sizeof it.text, &it.length));
    IS(it.length == taken && memcmp(it.text, "taken 1 h\n", taken) == 0);
    it.reply.kind = NAGSCHED_REPLY_RUNS_SPENT + 1;
    WRONG(nagsched_reply_text(&it.setup.handle, &it.call, &it.reply, it.text, sizeof it.text, &it.length));
    it.reply.kind = 0, it.call.kind = NAGSCHED_CALL_STATUS + 1;
    WRONG(nagsched_reply_text(&it.setup.handle, &it.call, &it.reply, it.text, sizeof it.text, &it.length));

    GIVES(OK, nagsched_entry(&it.history.handle, 0, &it.entry));
    NOT_BY(nagsched_entry_text, handle, &it.history, &it.entry, it.text, sizeof it.text, &it.length);
    NO_ROOM(taken + 2, nagsched_entry_text(&it.book.handle, &it.entry, it.text, taken + 1, &it.length));
    it.entry.reply.kind = NAGSCHED_REPLY_RUNS_SPENT + 1;
    WRONG(nagsched_entry_text(&it.book.handle, &it.entry, it.text, sizeof it.text, &it.length));
}

static void names(void) {
    const char *name = "h;s";
    NOT_BY(nagsched_count, handle, &it.history, &it.number, &it.hosts);
    NOT_BY(nagsched_number, handle, &it.history, name, 3, &it.number);
    NOT_BY(nagsched_name, handle, &it.history, 0, it.text, sizeof it.text, &it.length);
    WRONG(nagsched_name(&it.setup.handle, 2, it.text, sizeof it.text, &it.length));
    NO_ROOM(3, nagsched_name(&it.setup.handle, 1, it.text, 2, &it.length));
    NOT_BY(nagsched_host_of, handle, &it.history, 1, &it.number);
    WRONG(nagsched_host_of(&it.setup.handle, 2, &it.number));
    memcpy(&was, &it, sizeof it);
    GIVES(MISSING, nagsched_number(&it.setup.handle, name, 2, &it.number));
    GIVES(MISSING, nagsched_host_of(&it.setup.handle, 0, &it.number));
    IS(memcmp(&was, &it, sizeof it) == 0);
}

static void openings(void) {
    NOT_BY(nagsched_open, handle, MINE, 0, 0, AS(pass, it.two), 2);
    WRONG(nagsched_open(&it.history.handle, 0, 0, AS(pass, it.two), 2));
    WRONG(nagsched_open(&it.setup.handle, LATEST + 1, 0, AS(pass, it.two), 2));
    WRONG(nagsched_open(&it.setup.handle, 0, 0, AS(pass, it.two), 0));
    WRONG(nagsched_open(&it.setup.handle, 0, 0, AS(pass, it.two), 1025));
    WRONG(nagsched_open(&it.setup.handle, 0, 0, AS(pass, &it.book), 1));
    WRONG(nagsched_open(&it.setup.handle, 0, 0, MINE, 1));
    WRONG(nagsched_open_with(&it.setup.handle, 0, 0, 0, AS(pass, it.two), 2));
    WRONG(nagsched_open_with(&it.setup.handle, 0, 0, (uint64_t)1 << 32, AS(pass, it.two), 2));
    WRONG(nagsched_open_with(&MINE->handle, 0, 0, 1, AS(pass, it.two), 2));
    WRONG(nagsched_open(&it.book.handle, 0, 0, AS(pass, it.two), 2));
    GIVES(OK, read_setup(AS(setup, &it.two[1])));
    WRONG(nagsched_open(&it.setup.handle, 0, 0, AS(pass, it.two), 2));
    GIVES(OK, nagsched_free(&it.two[1]));
    memcpy(&was, &it, sizeof it);
    GIVES(NO_MEMORY, nagsched_open(&it.setup.handle, 0, SIZE_MAX, AS(pass, it.two), 2));
    GIVES(NO_MEMORY, nagsched_renew(&it.book, SIZE_MAX, AS(history, &it.empty)));
    IS(memcmp(&was, &it, sizeof it) == 0);
}

/* States that can't be saved or resumed, and checks that can't be running. */
static void savings(void) {
    const char *document = SETUP;
    NOT_BY(nagsched_save, book, &it.setup, it.text, sizeof it.text, &it.length);
    WRONG(nagsched_save(AS(book, MINE), it.text, sizeof it.text, &it.length));
    WRONG(nagsched_save(AS(book, &it.history), it.text, sizeof it.text, &it.length));
    GIVES(OK, nagsched_save(&it.book, saved, sizeof saved, &saved_length));
    NO_ROOM(saved_length, nagsched_save(&it.book, it.text, sizeof it.text, &it.length));
    NO_ROOM(saved_length, nagsched_save(&it.book, it.text, 0, &it.length));
    NOT_BY(nagsched_resume, setup, MINE, saved, saved_length, 0, 0, AS(book, &it.two[0]), &it.refusal);
    WRONG(nagsched_resume(AS(setup, &it.book), saved, saved_length, 0, 0, AS(book, &it.two[0]), &it.refusal));
    WRONG(nagsched_resume(AS(setup, &it.history), saved, saved_length, 0, 0, AS(book, &it.two[0]), &it.refusal));
    WRONG(nagsched_resume(&it.setup, saved, saved_length, LATEST + 1, 0, AS(book, &it.two[0]), &it.refusal));
    WRONG(nagsched_resume(&it.setup, saved, saved_length, 0, 0, &it.book, &it.refusal));
    WRONG(nagsched_resume(&it.setup, saved, saved_length, 0, 0, AS(book, MINE), &it.refusal));
    memcpy(&was, &it, sizeof it);
    GIVES(NO_MEMORY, nagsched_resume(&it.setup, saved, saved_length, 0, SIZE_MAX, AS(book, &it.two[0]), &it.refusal));
    IS(memcmp(&was, &it, sizeof it) == 0);
    GIVES(REFUSED, nagsched_resume(&it.setup, document, strlen(SETUP), 0, 0, AS(book, &it.two[0]), &it.refusal));
    IS(it.refusal.kind == NAGSCHED_REFUSAL_SAVED_SHAPE && it.refusal.part == NAGSCHED_PART_NONE && it.refusal.has_index == 0);
    it.refusal = was.refusal;
    IS(memcmp(&was, &it, sizeof it) == 0);
    NOT_BY(nagsched_running, book, &it.setup, 0, &it.count, &it.run);
    WRONG(nagsched_running(AS(book, MINE), 0, &it.count, &it.run));
    WRONG(nagsched_running(&it.book, 2, &it.count, &it.run));
    WRONG(nagsched_running(&it.book, UINT32_MAX, &it.count, &it.run));
    memcpy(&was, &it, sizeof it);
    GIVES(MISSING, nagsched_running(&it.book, 0, &it.count, &it.run));
    IS(memcmp(&was, &it, sizeof it) == 0);
}

static void no_document(void) {
    const char *document = SETUP;
    WRONG(nagsched_read(NULL, strlen(SETUP), AS(setup, &it.empty), &it.refusal));
    WRONG(nagsched_read(NULL, 0, AS(setup, &it.empty), &it.refusal));
    WRONG(nagsched_read(document, strlen(SETUP), NULL, &it.refusal));
    WRONG(nagsched_read(document, strlen(SETUP), AS(setup, &it.empty), NULL));
    WRONG(nagsched_free(NULL));
}

/* A function that writes a text: no text, though there is no room either, and no length. */
#define NO_TEXT(function, ...)                                          \
    do {                                                                \
        WRONG(function(__VA_ARGS__, NULL, sizeof it.text, &it.length)); \
        WRONG(function(__VA_ARGS__, NULL, 0, &it.length));              \
        WRONG(function(__VA_ARGS__, it.text, sizeof it.text, NULL));    \
    } while (0)

static void no_texts(void) {
    struct nagsched_refusal refused = {NAGSCHED_REFUSAL_NOT_JSON, NAGSCHED_PART_NONE, 0, 0};
    memset(&it.call, 0, sizeof it.call), memset(&it.reply, 0, sizeof it.reply), memset(&it.entry, 0, sizeof it.entry);
    WRONG(nagsched_refusal_text(NULL, it.text, sizeof it.text, &it.length));
    NO_TEXT(nagsched_refusal_text, &refused);
    WRONG(nagsched_reply_text(NULL, &it.call, &it.reply, it.text, sizeof it.text, &it.length));
    WRONG(nagsched_reply_text(&it.setup.handle, NULL, &it.reply, it.text, sizeof it.text, &it.length));
    WRONG(nagsched_reply_text(&it.setup.handle, &it.call, NULL, it.text, sizeof it.text, &it.length));
    NO_TEXT(nagsched_reply_text, &it.setup.handle, &it.call, &it.reply);
    WRONG(nagsched_entry_text(NULL, &it.entry, it.text, sizeof it.text, &it.length));
    WRONG(nagsched_entry_text(&it.setup.handle, NULL, it.text, sizeof it.text, &it.length));
    NO_TEXT(nagsched_entry_text, &it.setup.handle, &it.entry);
}

static void no_names(void) {
    const char *name = "h;s";
    WRONG(nagsched_count(NULL, &it.number, &it.hosts));
    WRONG(nagsched_count(&it.setup.handle, NULL, &it.hosts));
    WRONG(nagsched_count(&it.setup.handle, &it.number, NULL));
    WRONG(nagsched_number(NULL, name, 3, &it.number));
    WRONG(nagsched_number(&it.setup.handle, NULL, 3, &it.number));
    WRONG(nagsched_number(&it.setup.handle, NULL, 0, &it.number));
    WRONG(nagsched_number(&it.setup.handle, name, 3, NULL));
    WRONG(nagsched_name(NULL, 1, it.text, sizeof it.text, &it.length));
    NO_TEXT(nagsched_name, &it.setup.handle, 1);
    WRONG(nagsched_host_of(NULL, 1, &it.number));
    WRONG(nagsched_host_of(&it.setup.handle, 1, NULL));
}

/* A call, as a try and whole: no pass, and no reply. */
#define NO_CALL(call, ...)                                            \
    do {                                                              \
        WRONG(nagsched_try_##call(NULL, __VA_ARGS__, &it.reply));     \
        WRONG(nagsched_try_##call(MINE, __VA_ARGS__, NULL));          \
        WRONG(nagsched_##call(NULL, __VA_ARGS__, &it.reply));         \
        WRONG(nagsched_##call(MINE, __VA_ARGS__, NULL));              \
    } while (0)

static void no_calls(void) {
    NO_CALL(take, 0);
    NO_CALL(report, 0, 1, 0);
    NO_CALL(abandon, 0, 1, 0);
    NO_CALL(reschedule, 0, 0, 0);
    NO_CALL(enable, 0, 1);
    NO_CALL(status, 0);
    WRONG(nagsched_glance(NULL, 0, &it.standing));
    WRONG(nagsched_glance(MINE, 0, NULL));
}

static void no_handles(void) {
    WRONG(nagsched_open(NULL, 0, 0, AS(pass, it.two), 2));
    WRONG(nagsched_open(&it.setup.handle, 0, 0, NULL, 2));
    WRONG(nagsched_open(&it.setup.handle, 0, 0, NULL, 0));
    WRONG(nagsched_open_with(NULL, 0, 0, 1, AS(pass, it.two), 2));
    WRONG(nagsched_open_with(&it.setup.handle, 0, 0, 1, NULL, 2));
    WRONG(nagsched_gather(NULL, MINE));
    WRONG(nagsched_gather(MINE, NULL));
    WRONG(nagsched_close(NULL, AS(book, &it.empty)));
    WRONG(nagsched_close(MINE, NULL));
    WRONG(nagsched_entries(NULL, &it.count));
    WRONG(nagsched_entries(&it.book.handle, NULL));
    WRONG(nagsched_entry(NULL, 0, &it.entry));
    WRONG(nagsched_entry(&it.book.handle, 0, NULL));
    WRONG(nagsched_refused(NULL, &it.count));
    WRONG(nagsched_refused(&it.book, NULL));
    WRONG(nagsched_renew(NULL, 0, AS(history, &it.empty)));
    WRONG(nagsched_renew(&it.book, 0, NULL));
}

static void no_savings(void) {
    NO_TEXT(nagsched_save, &it.book);
    WRONG(nagsched_save(NULL, it.text, sizeof it.text, &it.length));
    WRONG(nagsched_resume(NULL, saved, saved_length, 0, 0, AS(book, &it.empty), &it.refusal));
    WRONG(nagsched_resume(&it.setup, NULL, saved_length, 0, 0, AS(book, &it.empty), &it.refusal));
    WRONG(nagsched_resume(&it.setup, NULL, 0, 0, 0, AS(book, &it.empty), &it.refusal));
    WRONG(nagsched_resume(&it.setup, saved, saved_length, 0, 0, NULL, &it.refusal));
    WRONG(nagsched_resume(&it.setup, saved, saved_length, 0, 0, AS(book, &it.empty), NULL));
    WRONG(nagsched_running(NULL, 0, &it.count, &it.run));
    WRONG(nagsched_running(&it.book, 0, NULL, &it.run));
    WRONG(nagsched_running(&it.book, 0, &it.count, NULL));
}

/* One pointer for two arguments. A setup next to the passes' handles is different from them. */
static void one_for_two(void) {
    WRONG(nagsched_count(&it.setup.handle, &it.number, &it.number));
    WRONG(nagsched_gather(MINE, MINE));
    WRONG(nagsched_renew(&it.book, 0, AS(history, &it.book)));
    WRONG(nagsched_resume(&it.setup, saved, saved_length, 0, 0, AS(book, &it.setup), &it.refusal));
    WRONG(nagsched_running(&it.book, 0, &it.count, &it.count));
    WRONG(nagsched_open(&it.setup.handle, 0, 0, AS(pass, &it.setup), 1));
    WRONG(nagsched_open_with(&it.setup.handle, 0, 0, 1, AS(pass, &it.setup), 1));
    for (size_t source = 0; source < 2; source++) {
        struct nagsched_pass *pass = AS(pass, &it.two[1 - source]);
        GIVES(OK, read_setup(AS(setup, &it.two[source])));
        WRONG(nagsched_open(&it.two[source], 0, 0, AS(pass, it.two), 2));
        WRONG(nagsched_open_with(&it.two[source], 0, 0, 1, AS(pass, it.two), 2));
        GIVES(OK, nagsched_open(&it.two[source], 0, 0, pass, 1));
        IS(it.two[source].full == 0 && pass->handle.full != 0);
        GIVES(OK, nagsched_free(&pass->handle));
    }
}

/* Pointers that are NULL, and pointers that are the same. */
static void pointers(void) {
    no_document();
    no_texts();
    no_names();
    no_calls();
    no_handles();
    no_savings();
    one_for_two();
}

static void calls(struct nagsched_handle *other_kind) {
    NOT_BY(nagsched_try_take, pass, other_kind, 0, &it.reply);
    NOT_BY(nagsched_try_report, pass, other_kind, 0, 1, 0, &it.reply);
    NOT_BY(nagsched_try_abandon, pass, other_kind, 0, 1, 0, &it.reply);
    NOT_BY(nagsched_try_reschedule, pass, other_kind, 0, 0, 0, &it.reply);
    NOT_BY(nagsched_try_enable, pass, other_kind, 0, 1, &it.reply);
    NOT_BY(nagsched_try_status, pass, other_kind, 0, &it.reply);
    NOT_BY(nagsched_glance, pass, other_kind, 0, &it.standing);
    WRONG(nagsched_gather(MINE, AS(pass, other_kind)));
    WRONG(nagsched_gather(AS(pass, other_kind), MINE));
    WRONG(nagsched_close(AS(pass, other_kind), AS(book, &it.empty)));
}

static void arguments(void) {
    WRONG(nagsched_try_report(MINE, 0, 1, 4, &it.reply));
    WRONG(nagsched_try_reschedule(MINE, 0, 0, 2, &it.reply));
    WRONG(nagsched_try_enable(MINE, 0, 2, &it.reply));
    WRONG(nagsched_glance(MINE, 2, &it.standing));
}

/* Passes that can't be gathered, and a desk that can't be closed. */
static void gatherings(void) {
    WRONG(nagsched_gather(AS(pass, &it.empty), MINE));
    WRONG(nagsched_gather(MINE, AS(pass, &it.empty)));
    WRONG(nagsched_gather(MINE, &it.theirs));
    WRONG(nagsched_gather(&it.theirs, MINE));
    WRONG(nagsched_close(AS(pass, &it.empty), AS(book, &it.empty)));
    WRONG(nagsched_close(MINE, &it.book));
    memcpy(&was, &it, sizeof it);
    GIVES(MISSING, nagsched_close(MINE, AS(book, &it.empty)));
    GIVES(MISSING, nagsched_close(YOURS, AS(book, &it.empty)));
    IS(memcmp(&was, &it, sizeof it) == 0);
}

static void histories(void) {
    NOT_BY(nagsched_entries, handle, &it.setup, &it.count);
    WRONG(nagsched_entries(&MINE->handle, &it.count));
    NOT_BY(nagsched_entry, handle, &it.setup, 0, &it.entry);
    WRONG(nagsched_entry(&MINE->handle, 0, &it.entry));
    WRONG(nagsched_entry(&it.book.handle, 1, &it.entry));
    WRONG(nagsched_entry(&it.history.handle, 1, &it.entry));
    WRONG(nagsched_entry(&it.book.handle, UINT64_MAX, &it.entry));
    NOT_BY(nagsched_refused, book, &it.history, &it.count);
    WRONG(nagsched_refused(AS(book, &it.setup), &it.count));
    NOT_BY(nagsched_renew, book, &it.setup, 0, AS(history, &it.empty));
    WRONG(nagsched_renew(AS(book, MINE), 0, AS(history, &it.empty)));
    WRONG(nagsched_renew(AS(book, &it.history), 0, AS(history, &it.empty)));
    WRONG(nagsched_renew(&it.book, 0, &it.history));
}

/* A pass that waits can do nothing else before its turn. */
static void waiting(void) {
    struct nagsched_reply reply;
    waits_for_memory = 1;
    GIVES(OK, nagsched_take(MINE, 5, &reply));
    IS(reply.kind == NAGSCHED_REPLY_TAKEN && reply.object == 0 && reply.run == 1);
    IS(status_meanwhile == NAGSCHED_WAIT);
    WRONG(nagsched_try_take(YOURS, 8, &it.reply));
    WRONG(nagsched_try_report(YOURS, 0, 7, 0, &it.reply));
    WRONG(nagsched_try_abandon(YOURS, 0, 0, 7, &it.reply));
    WRONG(nagsched_try_reschedule(YOURS, 0, 7, 0, &it.reply));
    WRONG(nagsched_try_enable(YOURS, 0, 1, &it.reply));
    WRONG(nagsched_try_status(YOURS, 0, &it.reply));
    WRONG(nagsched_glance(YOURS, 0, &it.standing));
    WRONG(nagsched_gather(MINE, YOURS));
    WRONG(nagsched_gather(YOURS, MINE));
    WRONG(nagsched_close(YOURS, AS(book, &it.empty)));
    WRONG(nagsched_free(&YOURS->handle));
    /* This pass has a later ticket. */
    GIVES(WAIT, nagsched_try_report(MINE, 0, 1, 2, &reply));
    GIVES(WAIT, nagsched_try_report(MINE, 0, 1, 2, &reply));
    WRONG(nagsched_try_report(MINE, 1, 1, 2, &it.reply));
    WRONG(nagsched_try_report(MINE, 0, 2, 2, &it.reply));
    WRONG(nagsched_try_report(MINE, 0, 1, 1, &it.reply));
    WRONG(nagsched_free(&MINE->handle));
    GIVES(OK, nagsched_try_take(YOURS, 7, &reply));
    IS(reply.kind == NAGSCHED_REPLY_TAKEN && reply.object == 1 && reply.run == 2);
    GIVES(OK, nagsched_try_report(MINE, 0, 1, 2, &reply));
    IS(reply.kind == NAGSCHED_REPLY_STANDING && reply.standing.state == NAGSCHED_STATE_DOWN && reply.changed == 1);
    GIVES(OK, nagsched_glance(YOURS, 0, &it.standing));
    IS(it.standing.checked == 1 && it.standing.state == NAGSCHED_STATE_DOWN && it.standing.kind == NAGSCHED_SOFT);
}

/* Numbers that the scheduler refuses are no mistakes of the call: the refusal is recorded. */
static void refused_calls(void) {
    struct nagsched_reply reply;
    GIVES(OK, nagsched_take(MINE, LATEST + 1, &reply));
    IS(reply.kind == NAGSCHED_REPLY_TIME_RANGE);
    GIVES(OK, nagsched_status(MINE, 2, &reply));
    IS(reply.kind == NAGSCHED_REPLY_UNKNOWN_OBJECT);
    GIVES(OK, nagsched_report(MINE, 0, 1, 0, &reply));
    IS(reply.kind == NAGSCHED_REPLY_NOT_RUNNING);
    GIVES(OK, nagsched_report(MINE, 1, 1, 0, &reply));
    IS(reply.kind == NAGSCHED_REPLY_WRONG_RUN);
}

/* The expected history, after all the mistakes. */
static void history_of(const struct nagsched_book *book) {
    static const struct { uint64_t pass; uint32_t call, reply; } wanted[] = {
        {0, NAGSCHED_CALL_TAKE, NAGSCHED_REPLY_TAKEN},          {1, NAGSCHED_CALL_TAKE, NAGSCHED_REPLY_TAKEN},
        {0, NAGSCHED_CALL_REPORT, NAGSCHED_REPLY_STANDING},     {0, NAGSCHED_CALL_TAKE, NAGSCHED_REPLY_TIME_RANGE},
        {0, NAGSCHED_CALL_STATUS, NAGSCHED_REPLY_UNKNOWN_OBJECT}, {0, NAGSCHED_CALL_REPORT, NAGSCHED_REPLY_NOT_RUNNING},
        {0, NAGSCHED_CALL_REPORT, NAGSCHED_REPLY_WRONG_RUN},
    };
    const uint64_t entries = sizeof wanted / sizeof *wanted;
    struct nagsched_entry entry;
    uint64_t count = 0;
    GIVES(OK, nagsched_entries(&book->handle, &count));
    IS(count == entries);
    for (uint64_t index = 0; index < entries; index++) {
        GIVES(OK, nagsched_entry(&book->handle, index, &entry));
        IS(entry.pass == wanted[index].pass && entry.call.kind == wanted[index].call && entry.reply.kind == wanted[index].reply);
    }
    GIVES(OK, nagsched_refused(book, &count));
    IS(count == 0);
}

/* A pass with one call can't make a second one. */
static void spent(void) {
    struct nagsched_setup setup = NAGSCHED_EMPTY;
    struct nagsched_pass pass = NAGSCHED_EMPTY;
    struct nagsched_book book = NAGSCHED_EMPTY;
    GIVES(OK, read_setup(&setup));
    GIVES(OK, nagsched_open_with(&setup.handle, 0, 10, 1, &pass, 1));
    IS(setup.handle.full == 0 && pass.handle.full != 0);
    GIVES(OK, nagsched_status(&pass, 0, &it.reply));
    memcpy(&was, &it, sizeof it);
    GIVES(SPENT, nagsched_status(&pass, 0, &it.reply));
    IS(memcmp(&was, &it, sizeof it) == 0);
    GIVES(OK, nagsched_close(&pass, &book));
    IS(pass.handle.full == 0 && book.handle.full != 0);
    GIVES(OK, nagsched_entries(&book.handle, &it.count));
    IS(it.count == 1);
    GIVES(OK, nagsched_free(&book.handle));
}

/* Another desk, and a book and a history with an entry each. */
static void others(void) {
    struct nagsched_setup setup = NAGSCHED_EMPTY;
    struct nagsched_pass pass = NAGSCHED_EMPTY;
    struct nagsched_book first = NAGSCHED_EMPTY;
    GIVES(OK, read_setup(&setup));
    GIVES(OK, nagsched_open(&setup.handle, 0, 1, &it.theirs, 1));
    GIVES(OK, read_setup(&setup));
    GIVES(OK, nagsched_open(&setup.handle, 0, 1, &pass, 1));
    GIVES(OK, nagsched_take(&pass, 0, &it.reply));
    GIVES(OK, nagsched_close(&pass, &first));
    GIVES(OK, nagsched_renew(&first, 1, &it.history));
    WRONG(nagsched_open(&first.handle, 1, 0, AS(pass, it.two), 2));
    WRONG(nagsched_open(&first.handle, 0, 1, AS(pass, it.two), 2));
    GIVES(OK, nagsched_open(&first.handle, 0, 0, &pass, 1));
    IS(first.handle.full == 0);
    GIVES(OK, nagsched_report(&pass, 0, 1, NAGSCHED_CODE_OK, &it.reply));
    IS(it.reply.kind == NAGSCHED_REPLY_STANDING);
    GIVES(OK, nagsched_close(&pass, &it.book));
}

int main(void) {
    struct nagsched_setup setup = NAGSCHED_EMPTY;
    struct nagsched_book book = NAGSCHED_EMPTY;
    IS(nagsched_version() == NAGSCHED_VERSION);
    others();
    GIVES(OK, read_setup(&it.setup));
    GIVES(OK, read_setup(&setup));
    GIVES(OK, nagsched_open(&setup.handle, 0, 0, it.of_desk, 2));
    readings();
    texts();
    names();
    openings();
    savings();
    pointers();
    calls(&it.setup.handle);
    calls(&it.book.handle);
    calls(&it.history.handle);
    arguments();
    gatherings();
    histories();
    waiting();
    refused_calls();
    gatherings();
    GIVES(OK, nagsched_gather(MINE, YOURS));
    IS(YOURS->handle.full == 0);
    WRONG(nagsched_gather(MINE, YOURS));
    GIVES(OK, nagsched_close(MINE, &book));
    IS(MINE->handle.full == 0);
    history_of(&book);
    spent();
    GIVES(OK, nagsched_free(&it.empty));
    GIVES(OK, nagsched_free(&it.setup.handle));
    GIVES(OK, nagsched_free(&it.setup.handle));
    GIVES(OK, nagsched_free(&book.handle));
    GIVES(OK, nagsched_free(&it.theirs.handle));
    GIVES(OK, nagsched_free(&it.book.handle));
    GIVES(OK, nagsched_free(&it.history.handle));
    return told("wrong");
}
