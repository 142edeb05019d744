/* What the library does with the numbers of the header, written here as literals: the words for them, and the calls and documents that give them.
 * .ci/deliverables/c_library.py compares the names of the header with the definitions and with the Python package.
 */
#include "counted.h"

static struct nagsched_setup setup = NAGSCHED_EMPTY;

/* The text that was written is this line. */
static void is_line(uint32_t status, const char *text, const size_t *length, const char *line) {
    has_to_be(status == 0 && *length == strlen(line) && memcmp(text, line, *length) == 0, line, __FILE__, __LINE__);
}

/* The reply with this struct to a status call for the service. */
static void is_reply(struct nagsched_reply reply, const char *line) {
    const struct nagsched_call status = {.kind = 5, .object = 1};
    char text[80];
    size_t length = 0;
    is_line(nagsched_reply_text(&setup.handle, &status, &reply, text, sizeof text, &length), text, &length, line);
}

static void replies(void) {
    const char *const refused[] = {"refused C1 UnknownObject\n", "refused C2 TimeRange\n", "refused C3 NotRunning\n", "refused C4 WrongRun\n",
                                   "refused C5 RunsSpent\n"};
    is_reply((struct nagsched_reply){.kind = 0, .object = 1, .run = 9}, "taken 9 h;s\n");
    is_reply((struct nagsched_reply){.kind = 1, .object = 1, .time = 5, .has_time = 1}, "putoff 5 h;s\n");
    is_reply((struct nagsched_reply){.kind = 2, .time = 5, .has_time = 1}, "idle 5\n");
    is_reply((struct nagsched_reply){.kind = 3}, "atlimit\n");
    is_reply((struct nagsched_reply){.kind = 5, .time = 5, .has_time = 1}, "freed 5 h;s\n");
    is_reply((struct nagsched_reply){.kind = 6}, "done h;s\n");
    for (uint32_t at = 0; at < 5; at++) is_reply((struct nagsched_reply){.kind = 101 + at}, refused[at]);
}

/* Each state and kind of a state in the reply of kind 4. */
static void standings(void) {
    const char *const states[] = {"OK", "WARNING", "CRITICAL", "UNKNOWN", "UP", "DOWN", "UNREACHABLE"}, *const kinds[] = {"SOFT", "HARD"};
    char line[80];
    for (uint32_t state = 0; state < 7; state++) {
        for (uint32_t kind = 0; kind < 2; kind++) {
            struct nagsched_reply reply = {.kind = 4, .standing = {.checked = 1, .state = state, .kind = kind, .attempt = 2}};
            snprintf(line, sizeof line, "standing %s %s 2 no STEADY none h;s\n", states[state], kinds[kind]);
            is_reply(reply, line);
        }
    }
}

/* Refusals of a document with a place and without one, and each part of a document. Out of memory is a status, so it is no kind of refusal. */
static void refusals(void) {
    const char *const parts[] = {"document", "options", "hosts", "services", "service_dependencies", "host_dependencies"};
    const struct nagsched_refusal too_long = {212, 0, 0, 0}, duplicate = {205, 3, 1, 3};
    char text[80];
    char line[80];
    size_t length = 0;
    is_line(nagsched_refusal_text(&too_long, text, sizeof text, &length), text, &length, "refused L12 TooLong\n");
    is_line(nagsched_refusal_text(&duplicate, text, sizeof text, &length), text, &length, "refused L5 Duplicate hosts 3\n");
    for (uint32_t part = 1; part < 7; part++) {
        const struct nagsched_refusal refusal = {208, part, 0, 0};
        snprintf(line, sizeof line, "refused L8 Range %s\n", parts[part - 1]);
        is_line(nagsched_refusal_text(&refusal, text, sizeof text, &length), text, &length, line);
    }
    length = 77;
    const uint32_t no_refusals[] = {0, 1, 200, 211, 213, 300, 310, 400, 900, 901};
    for (size_t at = 0; at < sizeof no_refusals / sizeof *no_refusals; at++) {
        const struct nagsched_refusal none = {no_refusals[at], 0, 0, 0};
        memset(text, 'x', sizeof text);
        GIVES(WRONG, nagsched_refusal_text(&none, text, sizeof text, &length));
        IS(length == 77 && memchr(text, 'r', sizeof text) == NULL);
    }
}

/* Each refusal of a saved state, 301 to 309, with an index and without. */
static void saved_refusals(void) {
    const char *const kinds[] = {"K1 TooLong", "K2 NotJson", "K3 Version", "K4 Shape 7", "K5 TooMany", "K6 BadName 7", "K7 Duplicate 7", "K8 Range 7",
                                 "K9 Unlawful 7"};
    char text[80];
    char line[80];
    size_t length = 0;
    for (uint32_t kind = 301; kind < 310; kind++) {
        const int has_index = strstr(kinds[kind - 301], " 7") != NULL, may_lack = kind == 304 || kind == 308 || !has_index;
        const struct nagsched_refusal at = {kind, 0, 1, 7}, whole = {kind, 0, 0, 0}, of_part = {kind, 3, has_index, has_index ? 7 : 0};
        snprintf(line, sizeof line, "refused %s\n", kinds[kind - 301]);
        if (has_index) is_line(nagsched_refusal_text(&at, text, sizeof text, &length), text, &length, line);
        else GIVES(WRONG, nagsched_refusal_text(&at, text, sizeof text, &length));
        if (has_index) strcpy(strstr(line, " 7"), "\n");
        if (may_lack) is_line(nagsched_refusal_text(&whole, text, sizeof text, &length), text, &length, line);
        else GIVES(WRONG, nagsched_refusal_text(&whole, text, sizeof text, &length));
        GIVES(WRONG, nagsched_refusal_text(&of_part, text, sizeof text, &length));
    }
}

#define HOST "{\"name\":\"h\",\"max_check_attempts\":3}"
#define SERVICE "{\"host\":\"h\",\"description\":\"s\",\"max_check_attempts\":3}"

/* The document is refused for this reason. */
static void is_refused(const char *document, uint32_t kind, uint32_t part, uint64_t has_index, uint64_t index) {
    struct nagsched_setup none = NAGSCHED_EMPTY;
    struct nagsched_refusal refusal = {99, 99, 99, 99};
    has_to_be(nagsched_read(document, strlen(document), &none, &refusal) == 4, document, __FILE__, __LINE__);
    has_to_be(refusal.kind == kind && refusal.part == part && refusal.has_index == has_index && refusal.index == index, document, __FILE__, __LINE__);
}

static void documents(void) {
    is_refused("{", 201, 0, 0, 0);
    is_refused("5", 202, 1, 0, 0);
    is_refused("{\"hosts\":[" HOST ",{\"name\":\"\",\"max_check_attempts\":3}]}", 204, 3, 1, 1);
    is_refused("{\"hosts\":[" HOST "," HOST "]}", 205, 3, 1, 1);
    is_refused("{\"services\":[" SERVICE "]}", 206, 4, 1, 0);
    is_refused("{\"hosts\":[" HOST "],\"host_dependencies\":[{\"dependent\":\"h\",\"master\":\"g\",\"criteria\":\"d\"}]}", 207, 6, 1, 0);
    is_refused("{\"hosts\":[" HOST "],\"services\":[" SERVICE "],\"service_dependencies\":[{\"dependent\":\"h;s\",\"master\":\"h;t\",\"criteria\":\"c\"}]}",
               207, 5, 1, 0);
    is_refused("{\"options\":{\"interval_length\":0}}", 208, 2, 0, 0);
    is_refused("{\"hosts\":[" HOST "],\"host_dependencies\":[{\"dependent\":\"h\",\"master\":\"h\",\"criteria\":\"d\"}]}", 209, 0, 0, 0);
    is_refused("{\"hosts\":[{\"name\":\"h\",\"parents\":[\"h\"],\"max_check_attempts\":3}]}", 210, 0, 0, 0);
}

/* A document of this many hosts, or of this many bytes after a setup, is refused by its size. */
static void sizes(void) {
    const size_t bytes = ((size_t)16 << 20) + 1, hosts = 4097;
    char *document = malloc(bytes + 1), *end = document;
    end += sprintf(end, "{\"hosts\":[");
    for (size_t host = 0; host < hosts; host++) end += sprintf(end, "%s{\"name\":\"h%zu\",\"max_check_attempts\":3}", host ? "," : "", host);
    sprintf(end, "]}");
    is_refused(document, 203, 0, 0, 0);
    memset(document, ' ', bytes), document[bytes] = 0;
    is_refused(document, 212, 0, 0, 0);
    free(document);
}

/* Each of the six calls, as the history stores it; each code, with the state after it; and a reply of each kind that these calls get. */
static void calls(void) {
    struct nagsched_reply reply;
    struct nagsched_entry entry;
    struct nagsched_setup of = NAGSCHED_EMPTY;
    struct nagsched_pass desk = NAGSCHED_EMPTY;
    struct nagsched_book book = NAGSCHED_EMPTY;
    uint64_t made = 0;
    GIVES(OK, nagsched_read(ONE_SERVICE, strlen(ONE_SERVICE), &of, &(struct nagsched_refusal){0}));
    GIVES(OK, nagsched_open(&of.handle, 0, 0, &desk, 1));
    for (uint32_t code = 0; code < 4; code++, made += 2) {
        GIVES(OK, nagsched_take(&desk, code * 600000, &reply));
        IS(reply.kind == 0 && reply.object == 1 && reply.run == code + 1);
        GIVES(OK, nagsched_report(&desk, 1, reply.run, code, &reply));
        IS(reply.kind == 4 && reply.standing.state == code && reply.standing.checked == 1);
    }
    GIVES(OK, nagsched_take(&desk, 0, &reply));
    IS(reply.kind == 2 && reply.has_time == 1);
    GIVES(OK, nagsched_reschedule(&desk, 1, 7, 1, &reply));
    IS(reply.kind == 6);
    GIVES(OK, nagsched_take(&desk, 7, &reply));
    GIVES(OK, nagsched_abandon(&desk, 1, 5, 7, &reply));
    IS(reply.kind == 5);
    GIVES(OK, nagsched_enable(&desk, 1, 1, &reply));
    GIVES(OK, nagsched_status(&desk, 2, &reply));
    IS(reply.kind == 101);
    GIVES(OK, nagsched_take(&desk, ((uint64_t)1 << 60) + 1, &reply));
    IS(reply.kind == 102);
    GIVES(OK, nagsched_report(&desk, 1, 5, 0, &reply));
    IS(reply.kind == 103);
    GIVES(OK, nagsched_close(&desk, &book));
    const uint32_t kinds[] = {0, 1, 0, 1, 0, 1, 0, 1, 0, 3, 0, 2, 4, 5, 0, 1};
    for (uint64_t at = 0; at < sizeof kinds / sizeof *kinds; at++) {
        GIVES(OK, nagsched_entry(&book.handle, at, &entry));
        IS(entry.call.kind == kinds[at] && entry.pass == 0 && (at >= made || at % 2 == 0 || entry.call.code == at / 2));
    }
    GIVES(OK, nagsched_free(&book.handle));
}

/* Hosts are up, down and unreachable: a child whose parent is down counts as unreachable. */
static void hosts(void) {
    static const char PARENT[] = "{\"options\":{\"host_inter_check_delay_method\":\"n\"},\"hosts\":[{\"name\":\"a\",\"max_check_attempts\":1},"
                                 "{\"name\":\"b\",\"parents\":[\"a\"],\"max_check_attempts\":1}]}";
    struct nagsched_reply reply;
    struct nagsched_setup of = NAGSCHED_EMPTY;
    struct nagsched_pass desk = NAGSCHED_EMPTY;
    GIVES(OK, nagsched_read(PARENT, strlen(PARENT), &of, &(struct nagsched_refusal){0}));
    GIVES(OK, nagsched_open(&of.handle, 0, 0, &desk, 1));
    for (uint32_t host = 0; host < 2; host++) {
        GIVES(OK, nagsched_take(&desk, 0, &reply));
        GIVES(OK, nagsched_report(&desk, reply.object, reply.run, 2, &reply));
        IS(reply.standing.state == 5 + host && reply.standing.last_hard == 5 + host && reply.standing.kind == 1);
    }
    GIVES(OK, nagsched_take(&desk, 600000, &reply));
    GIVES(OK, nagsched_report(&desk, reply.object, reply.run, 0, &reply));
    IS(reply.standing.state == 4);
    GIVES(OK, nagsched_free(&desk.handle));
}

/* The statuses of functions. 1, when another turn comes first, needs a second thread (wrong.c). */
static void statuses(void) {
    struct nagsched_pass desk = NAGSCHED_EMPTY;
    struct nagsched_book book = NAGSCHED_EMPTY;
    struct nagsched_reply reply;
    uint32_t number;
    IS(nagsched_number(&setup.handle, "g", 1, &number) == 5);
    IS(nagsched_free(&desk.handle) == 0 && nagsched_close(&desk, &book) == 6);
    IS(nagsched_open(&setup.handle, 0, SIZE_MAX, &desk, 1) == 3);
    IS(nagsched_open_with(&setup.handle, 0, 0, 1, &desk, 1) == 0);
    IS(nagsched_status(&desk, 0, &reply) == 0 && nagsched_status(&desk, 0, &reply) == 2);
    IS(nagsched_free(&desk.handle) == 0);
}

int main(void) {
    GIVES(OK, read_setup(&setup));
    replies();
    standings();
    refusals();
    saved_refusals();
    documents();
    sizes();
    calls();
    hosts();
    statuses();
    return told("numbers");
}
