/* States that are saved and resumed. The text was worked out manually. It is resumed over a setup of the same document and over another
 * one. Also each refusal, by literal numbers, and the running checks.
 */
#include "counted.h"

/* The same document changed: a new host, fewer attempts and another interval of the service. */
static const char CHANGED[] = "{\"options\":{\"service_inter_check_delay_method\":\"n\",\"host_inter_check_delay_method\":\"n\"},"
                              "\"hosts\":[{\"name\":\"g\",\"max_check_attempts\":3},{\"name\":\"h\",\"check_interval\":0,\"max_check_attempts\":3}],"
                              "\"services\":[{\"host\":\"h\",\"description\":\"s\",\"check_interval\":1,\"max_check_attempts\":1}]}";

/* An object that was never checked, with this attempt, name and run. */
#define OBJECT(attempt, name, run)                                                                                               \
    "{\"attempt\":" attempt ",\"check_interval\":0,\"checked\":false,\"enabled\":true,\"enabled_in_setup\":true,"                  \
    "\"flapping\":\"STEADY\",\"forced\":false,\"kind\":\"HARD\",\"last_hard_state\":\"UP\",\"max_check_attempts\":3,\"name\":\"" name \
    "\",\"next_check\":null,\"results\":\"\",\"run\":" run ",\"state\":\"UP\"}"
#define STATE(objects, start) "{\"format\":1,\"objects\":[" objects "],\"runs\":2,\"start\":" start "}"

/* The saved state after one failed check at 0, with a second check running since 60000. */
static const char SAVED[] = STATE(
    OBJECT("1", "h", "null") ","
    "{\"attempt\":1,\"check_interval\":300000,\"checked\":true,\"enabled\":true,\"enabled_in_setup\":true,\"flapping\":\"STEADY\",\"forced\":false,"
    "\"kind\":\"SOFT\",\"last_hard_state\":\"OK\",\"max_check_attempts\":3,\"name\":\"h;s\",\"next_check\":null,\"results\":\"c\","
    "\"run\":{\"number\":2,\"start\":60000},\"state\":\"CRITICAL\"}", "0");

static struct nagsched_refusal refusal;

static void read_document(const char *document, struct nagsched_setup *setup) {
    GIVES(OK, nagsched_read(document, strlen(document), setup, &refusal));
}

/* The book saves to this text. */
static void saves_to(const struct nagsched_book *book, const char *wanted) {
    char text[2048];
    size_t length = 0;
    GIVES(OK, nagsched_save(book, text, sizeof text, &length));
    has_to_be(length == strlen(wanted) && memcmp(text, wanted, length) == 0, "the saved text", __FILE__, __LINE__);
    GIVES(WRONG, nagsched_save(book, text, length - 1, &length));
    IS(length == strlen(wanted));
    GIVES(OK, nagsched_save(book, text, length, &length));
}

/* A book over this document that resumes the saved state. */
static void go_on(const char *document, uint64_t start, struct nagsched_book *book) {
    struct nagsched_setup setup = NAGSCHED_EMPTY;
    uint64_t entries = 9;
    read_document(document, &setup);
    GIVES(OK, nagsched_resume(&setup, SAVED, strlen(SAVED), start, 10, book, &refusal));
    IS(setup.handle.full == 0 && book->handle.full != 0);
    GIVES(OK, nagsched_entries(&book->handle, &entries));
    IS(entries == 0);
}

/* The check of this object is running under this run since this moment. If the run is 0, no check of it is running. */
static void is_out(const struct nagsched_book *book, uint32_t object, uint64_t wanted, uint64_t since) {
    uint64_t run = 0, start = 0;
    IS(nagsched_running(book, object, &run, &start) == (wanted ? 0u : 5u));
    IS(run == wanted && start == since);
}

/* One check fails, and a second one is taken: the saved state is the text. */
static void save(void) {
    struct nagsched_setup setup = NAGSCHED_EMPTY;
    struct nagsched_pass desk = NAGSCHED_EMPTY;
    struct nagsched_book book = NAGSCHED_EMPTY;
    struct nagsched_reply reply;
    read_document(ONE_SERVICE, &setup);
    GIVES(OK, nagsched_open(&setup.handle, 0, 4, &desk, 1));
    GIVES(OK, nagsched_take(&desk, 0, &reply));
    GIVES(OK, nagsched_report(&desk, 1, 1, 2, &reply));
    GIVES(OK, nagsched_take(&desk, 60000, &reply));
    IS(reply.kind == 0 && reply.run == 2);
    GIVES(OK, nagsched_close(&desk, &book));
    saves_to(&book, SAVED);
    is_out(&book, 0, 0, 0);
    is_out(&book, 1, 2, 60000);
    GIVES(OK, nagsched_free(&book.handle));
}

/* Over the same setup everything continues: the running check isn't taken again, and is reported under its number. */
static void same_setup(void) {
    struct nagsched_book book = NAGSCHED_EMPTY;
    struct nagsched_pass desk = NAGSCHED_EMPTY;
    struct nagsched_reply reply;
    go_on(ONE_SERVICE, 0, &book);
    saves_to(&book, SAVED);
    is_out(&book, 1, 2, 60000);
    GIVES(OK, nagsched_open(&book.handle, 0, 0, &desk, 1));
    GIVES(OK, nagsched_take(&desk, 1000000, &reply));
    IS(reply.kind == 2 && reply.has_time == 0);
    GIVES(OK, nagsched_report(&desk, 1, 1, 0, &reply));
    IS(reply.kind == 104);
    GIVES(OK, nagsched_report(&desk, 1, 2, 2, &reply));
    IS(reply.kind == 4 && reply.standing.state == 2 && reply.standing.kind == 0 && reply.standing.attempt == 2);
    IS(reply.has_time == 1 && reply.time == 120000);
    GIVES(OK, nagsched_close(&desk, &book));
    is_out(&book, 1, 0, 0);
    GIVES(OK, nagsched_free(&book.handle));
}

/* Over another setup the soft problem is hard, since one attempt is enough there. The new host is due from the start on. Run numbers continue. */
static void changed_setup(void) {
    struct nagsched_book book = NAGSCHED_EMPTY;
    struct nagsched_pass desk = NAGSCHED_EMPTY;
    struct nagsched_standing standing;
    struct nagsched_reply reply;
    go_on(CHANGED, 70000, &book);
    is_out(&book, 0, 0, 0);
    is_out(&book, 2, 2, 60000);
    GIVES(OK, nagsched_open(&book.handle, 0, 0, &desk, 1));
    GIVES(OK, nagsched_glance(&desk, 2, &standing));
    IS(standing.checked == 1 && standing.state == 2 && standing.kind == 1 && standing.attempt == 1 && standing.last_hard == 2);
    GIVES(OK, nagsched_take(&desk, 69999, &reply));
    IS(reply.kind == 2 && reply.has_time == 1 && reply.time == 70000);
    GIVES(OK, nagsched_take(&desk, 70000, &reply));
    IS(reply.kind == 0 && reply.object == 0 && reply.run == 3);
    GIVES(OK, nagsched_close(&desk, &book));
    is_out(&book, 0, 3, 70000);
    GIVES(OK, nagsched_free(&book.handle));
}

/* This many bytes are refused as this kind, at this index, if there is one. The setup and the empty handle stay as they were. */
static void are_refused(const char *text, size_t bytes, uint32_t kind, uint64_t has_index, uint64_t index) {
    struct nagsched_setup setup = NAGSCHED_EMPTY, before;
    struct nagsched_book book = NAGSCHED_EMPTY;
    read_document(ONE_SERVICE, &setup);
    before = setup;
    refusal = (struct nagsched_refusal){99, 99, 99, 99};
    has_to_be(nagsched_resume(&setup, text, bytes, 0, 0, &book, &refusal) == 4, text, __FILE__, __LINE__);
    has_to_be(refusal.kind == kind && refusal.part == 0 && refusal.has_index == has_index && refusal.index == index, text, __FILE__, __LINE__);
    IS(book.handle.full == 0 && memcmp(&setup, &before, sizeof setup) == 0);
    GIVES(OK, nagsched_resume(&setup, SAVED, strlen(SAVED), 0, 0, &book, &refusal));
    GIVES(OK, nagsched_free(&book.handle));
}

static void is_refused(const char *text, uint32_t kind, uint64_t has_index, uint64_t index) {
    are_refused(text, strlen(text), kind, has_index, index);
}

static void refusals(void) {
    is_refused("", 302, 0, 0);
    is_refused("{\"format\":1", 302, 0, 0);
    is_refused("{\"format\":2}", 303, 0, 0);
    is_refused("5", 304, 0, 0);
    is_refused(STATE(OBJECT("1", "h", "null") ",5", "0"), 304, 1, 1);
    is_refused(STATE(OBJECT("1", "", "null"), "0"), 306, 1, 0);
    is_refused(STATE(OBJECT("1", "h", "null") "," OBJECT("1", "h", "null"), "0"), 307, 1, 1);
    is_refused(STATE(OBJECT("1", "h", "null"), "1152921504606846977"), 308, 0, 0);
    is_refused(STATE(OBJECT("0", "h", "null"), "0"), 308, 1, 0);
    is_refused(STATE(OBJECT("1", "g", "null") "," OBJECT("1", "h", "{\"number\":3,\"start\":0}"), "0"), 309, 1, 1);
}

/* A saved state of this many objects, or of this many bytes, is refused by its size. */
static void sizes(void) {
    const size_t bytes = ((size_t)16 << 20) + 1, objects = 4097;
    char *text = malloc(bytes + 1), *end = text;
    end += sprintf(end, "{\"format\":1,\"objects\":[");
    for (size_t at = 0; at < objects; at++) end += sprintf(end, "%s%s", at ? "," : "", OBJECT("1", "h", "null"));
    sprintf(end, "],\"runs\":2,\"start\":0}");
    is_refused(text, 305, 0, 0);
    memset(text, ' ', bytes), text[bytes] = 0;
    memcpy(text, SAVED, strlen(SAVED));
    are_refused(text, bytes, 301, 0, 0);
    free(text);
}

int main(void) {
    save();
    same_setup();
    changed_setup();
    refusals();
    sizes();
    return told("saved");
}
