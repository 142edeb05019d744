/* Refuses each request for memory in turn, through the whole life of a desk. The desk is read, opened, used past its room, gathered, closed
 * and written as text. Then it is renewed, opened again, saved, resumed over a setup, and freed.
 *
 * Linked with -Wl,--wrap=malloc,--wrap=realloc,--wrap=free, so that each request and each block is counted. A function that is
 * refused memory reports it, leaves all handles and blocks as they were, and succeeds when it is called again. So each life ends with
 * the same text, and with no block left.
 */
#include "counted.h"

enum { PASSES = 3, MINUTES = 8, MINUTE = 60000 };

void *__real_malloc(size_t size);
void *__real_realloc(void *old, size_t size);
void __real_free(void *block);
static long requests, refused_one, blocks;

static int is_refused(void) {
    return ++requests == refused_one;
}

void *__wrap_malloc(size_t size) {
    void *block = is_refused() ? NULL : __real_malloc(size);
    blocks += block != NULL;
    return block;
}

void *__wrap_realloc(void *old, size_t size) {
    void *block = is_refused() ? NULL : __real_realloc(old, size);
    blocks += block != NULL && old == NULL;
    return block;
}

void __wrap_free(void *block) {
    blocks -= block != NULL;
    __real_free(block);
}

/* A network with everything that a setup can have. */
static const char NETWORK[] =
    "{\"options\":{\"interval_length\":60,\"service_inter_check_delay_method\":\"n\",\"host_inter_check_delay_method\":\"n\"},"
    "\"hosts\":[{\"name\":\"gateway\",\"max_check_attempts\":2},{\"name\":\"printer\",\"parents\":[\"gateway\"],\"max_check_attempts\":2}],"
    "\"services\":[{\"host\":\"gateway\",\"description\":\"ping\",\"check_interval\":1,\"max_check_attempts\":3},"
    "{\"host\":\"printer\",\"description\":\"toner\",\"check_interval\":2,\"max_check_attempts\":1}],"
    "\"service_dependencies\":[{\"dependent\":\"printer;toner\",\"master\":\"gateway;ping\",\"criteria\":\"c,u\"}],"
    "\"host_dependencies\":[{\"dependent\":\"printer\",\"master\":\"gateway\",\"criteria\":\"d\"}]}";
static const char TWICE[] = "{\"hosts\":[{\"name\":\"h\",\"max_check_attempts\":3},{\"name\":\"h\",\"max_check_attempts\":3}]}";

/* Everything in a life. */
static struct {
    struct nagsched_setup setup, again;
    struct nagsched_pass first[PASSES], second[PASSES];
    struct nagsched_book book, resumed;
    struct nagsched_history history;
    struct nagsched_refusal refusal;
} has, had;
static long unmade, uncounted;
static char told_text[1 << 16], first_text[1 << 16];
static size_t told_length, first_length;

/* A call that may be refused memory. If it is, everything is as it was, and a second call isn't refused. */
#define AGAIN(status, call)                                                       \
    do {                                                                          \
        const long before = blocks;                                               \
        memcpy(&had, &has, sizeof has);                                           \
        status = (call);                                                          \
        if (status == NAGSCHED_NO_MEMORY) {                                       \
            unmade++;                                                             \
            has_to_be(blocks == before && memcmp(&had, &has, sizeof has) == 0,    \
                      #call ": refused memory, it leaves all as it was", __FILE__, __LINE__); \
            status = (call);                                                      \
        }                                                                         \
    } while (0)

/* The same, if the second status has to be OK. */
#define OK(call)                                                                  \
    do {                                                                          \
        uint32_t status_given;                                                    \
        AGAIN(status_given, call);                                                \
        has_to_be(status_given == NAGSCHED_OK, #call, __FILE__, __LINE__);        \
    } while (0)

/* One of the six calls, whose refusal the book also counts. */
#define ASK(call)                       \
    do {                                \
        const long unmade_before = unmade; \
        OK(call);                       \
        uncounted += unmade - unmade_before; \
    } while (0)

/* Stores a text, after the earlier ones. */
static void keep(const char *text, size_t length) {
    if (told_length + length > sizeof told_text) exit(2);
    memcpy(told_text + told_length, text, length);
    told_length += length;
}

/* All passes take and report for some minutes, in turn. */
static void ask(struct nagsched_pass *passes, uint64_t first) {
    struct nagsched_reply reply = {0};
    struct nagsched_call call = {.kind = NAGSCHED_CALL_STATUS, .object = 2};
    char text[512];
    size_t length = 0;
    for (uint64_t minute = first; minute < first + MINUTES; minute++) {
        for (size_t at = 0; at < PASSES; at++) {
            ASK(nagsched_take(&passes[at], minute * MINUTE, &reply));
            if (reply.kind == NAGSCHED_REPLY_TAKEN && minute % 4 != 3) {
                ASK(nagsched_report(&passes[at], reply.object, reply.run, (enum nagsched_code)(minute % 4), &reply));
            } else if (reply.kind == NAGSCHED_REPLY_TAKEN) {
                ASK(nagsched_abandon(&passes[at], reply.object, reply.run, minute * MINUTE, &reply));
            }
        }
        ASK(nagsched_enable(&passes[0], 1, minute % 2, &reply));
        ASK(nagsched_reschedule(&passes[1], 3, minute * MINUTE, 1, &reply));
        ASK(nagsched_status(&passes[2], 2, &reply));
        OK(nagsched_reply_text(&passes[0].handle, &call, &reply, text, sizeof text, &length));
        keep(text, length);
    }
}

/* The texts of all entries. */
static void tell(const struct nagsched_handle *names, const struct nagsched_handle *entries) {
    struct nagsched_entry entry;
    char text[512];
    uint64_t count = 0;
    size_t length = 0;
    OK(nagsched_entries(entries, &count));
    for (uint64_t index = 0; index < count; index++) {
        OK(nagsched_entry(entries, index, &entry));
        OK(nagsched_entry_text(names, &entry, text, sizeof text, &length));
        keep(text, length);
    }
}

/* Gathers all passes, and ends their desk: the book has its history. */
static void close_desk(struct nagsched_pass *passes) {
    uint64_t count = 0;
    for (size_t at = 1; at < PASSES; at++) OK(nagsched_gather(&passes[0], &passes[at]));
    OK(nagsched_close(&passes[0], &has.book));
    OK(nagsched_refused(&has.book, &count));
    IS(count == (uint64_t)uncounted);
    uncounted = 0;
}

/* Saves a book, and resumes the saved state over a setup of the same document: the resumed book saves to the same text. Any other text is
 * refused. */
static void save(const struct nagsched_book *book) {
    char text[2048], again[2048];
    size_t length = 0, length_again = 0;
    enum nagsched_result status;
    uint64_t run = 0, start = 0;
    OK(nagsched_save(book, text, sizeof text, &length));
    keep(text, length);
    OK(nagsched_read(NETWORK, strlen(NETWORK), &has.again, &has.refusal));
    AGAIN(status, nagsched_resume(&has.again, text, length - 1, 0, 5, &has.resumed, &has.refusal));
    IS(status == NAGSCHED_REFUSED && has.refusal.kind == NAGSCHED_REFUSAL_SAVED_NOT_JSON);
    OK(nagsched_refusal_text(&has.refusal, again, sizeof again, &length_again));
    keep(again, length_again);
    OK(nagsched_resume(&has.again, text, length, 0, 5, &has.resumed, &has.refusal));
    OK(nagsched_save(&has.resumed, again, sizeof again, &length_again));
    IS(length_again == length && memcmp(text, again, length) == 0);
    AGAIN(status, nagsched_running(&has.resumed, 0, &run, &start));
    IS(status == NAGSCHED_MISSING);
    OK(nagsched_free(&has.resumed.handle));
}

/* The whole life of a desk, with this request for memory refused, or none. */
static void live(long refused_request) {
    char text[64];
    size_t length = 0;
    enum nagsched_result status;
    uint32_t number = 0;
    memset(&has, 0, sizeof has);
    requests = unmade = uncounted = 0, refused_one = refused_request, told_length = 0;
    AGAIN(status, nagsched_read(TWICE, strlen(TWICE), &has.setup, &has.refusal));
    IS(status == NAGSCHED_REFUSED && has.refusal.kind == NAGSCHED_REFUSAL_DUPLICATE && has.refusal.index == 1);
    OK(nagsched_refusal_text(&has.refusal, text, sizeof text, &length));
    keep(text, length);
    OK(nagsched_read(NETWORK, strlen(NETWORK), &has.setup, &has.refusal));
    OK(nagsched_number(&has.setup.handle, "printer;toner", 13, &number));
    IS(number == 3);
    OK(nagsched_name(&has.setup.handle, number, text, sizeof text, &length));
    keep(text, length);
    OK(nagsched_open(&has.setup.handle, 0, 0, has.first, PASSES));
    ask(has.first, 0);
    close_desk(has.first);
    tell(&has.book.handle, &has.book.handle);
    OK(nagsched_renew(&has.book, 5, &has.history));
    tell(&has.book.handle, &has.history.handle);
    OK(nagsched_free(&has.history.handle));
    OK(nagsched_open_with(&has.book.handle, 0, 0, 1000, has.second, PASSES));
    ask(has.second, MINUTES);
    close_desk(has.second);
    tell(&has.book.handle, &has.book.handle);
    save(&has.book);
    OK(nagsched_free(&has.book.handle));
    IS(blocks == 0);
}

int main(void) {
    long all, number, told_so = 0;
    live(0);
    all = requests, first_length = told_length;
    memcpy(first_text, told_text, told_length);
    IS(all > 30 && unmade == 0);
    for (number = 1; number <= all; number++) {
        live(number);
        IS(told_length == first_length && memcmp(told_text, first_text, first_length) == 0);
        IS(unmade <= 1);
        told_so += unmade;
    }
    printf("refused: %ld requests for memory, each refused once; %ld of these were told, %zu bytes of text\n", all, told_so, first_length);
    return told("refused");
}
