/* Two threads that read the same handles at once: a setup, a pass, a book and a history. Meanwhile the handles, and all that they
 * lead to, are in memory that can't be written: a call that takes a handle as const and writes to it ends the program.
 *
 * Linked with -Wl,--wrap=malloc,--wrap=realloc,--wrap=free: blocks that are requested before the threads start are in that memory.
 */
#define _GNU_SOURCE
#include "counted.h"

#include <pthread.h>
#include <signal.h>
#include <stdatomic.h>
#include <sys/mman.h>
#include <unistd.h>

#define BYTES ((size_t)1 << 22)
#define ROUNDS 2000
#define ENTRIES 64

void *__real_malloc(size_t size);
void *__real_realloc(void *old, size_t size);
void __real_free(void *block);

/* The memory that is sealed while the threads read: handles first, then blocks, each after its size. */
static struct sealed {
    struct nagsched_setup setup;
    struct nagsched_pass pass;
    struct nagsched_book book;
    struct nagsched_history history;
    size_t used;
    _Alignas(16) uint8_t blocks[];
} *sealed;
static atomic_int is_sealed;
static pthread_barrier_t start;

static int lies_there(const void *block) { return sealed && (const uint8_t *)block - (const uint8_t *)sealed < (ptrdiff_t)BYTES && block >= (void *)sealed; }

void *__wrap_malloc(size_t size) {
    if (!sealed || is_sealed) return __real_malloc(size);
    uint8_t *block = sealed->blocks + sealed->used + 16;
    sealed->used += 16 + (size + 15) / 16 * 16;
    if (sizeof *sealed + sealed->used > BYTES) return NULL;
    memcpy(block - 16, &size, sizeof size);
    return block;
}

void *__wrap_realloc(void *old, size_t size) {
    if (old ? !lies_there(old) : is_sealed) return __real_realloc(old, size);
    size_t had = 0;
    if (old) memcpy(&had, (uint8_t *)old - 16, sizeof had);
    void *block = __wrap_malloc(size);
    return block && had ? memcpy(block, old, had < size ? had : size) : block;
}

void __wrap_free(void *block) {
    if (block && !lies_there(block)) __real_free(block);
}

/* Ends the program if sealed memory was written. */
static void was_written(int signal) {
    static const char said[] = "readers.c: a call that reads has written\nreaders: 0 passed, 1 failed\n";
    ssize_t written = write(STDOUT_FILENO, said, sizeof said - 1);
    (void)signal, (void)written;
    _exit(1);
}

/* Whether a text is this line. */
static int is_text(uint32_t status, const char *text, const size_t *length, const char *line) {
    return status == NAGSCHED_OK && *length == strlen(line) && memcmp(text, line, *length) == 0;
}

/* How many of four calls that read names give the expected results. */
static int named(const struct nagsched_handle *of) {
    uint32_t objects = 0, hosts = 0, number = 0, host = 9;
    char text[64];
    size_t length = 0;
    int right = nagsched_count(of, &objects, &hosts) == NAGSCHED_OK && objects == 2 && hosts == 1;
    right += nagsched_number(of, "h;s", 3, &number) == NAGSCHED_OK && number == 1;
    right += nagsched_host_of(of, 1, &host) == NAGSCHED_OK && host == 0;
    return right + is_text(nagsched_name(of, 1, text, sizeof text, &length), text, &length, "h;s");
}

/* The same for four calls that read entries: one of them writes a text. */
static int kept(const struct nagsched_handle *of, const struct nagsched_handle *names, uint64_t index) {
    struct nagsched_entry entry;
    uint64_t entries = 0;
    char text[64];
    size_t length = 0;
    int right = nagsched_entries(of, &entries) == NAGSCHED_OK && entries == ENTRIES;
    right += nagsched_entry(of, index, &entry) == NAGSCHED_OK && entry.call.object == index % 2 && entry.reply.kind == NAGSCHED_REPLY_STANDING;
    right += nagsched_entry(of, ENTRIES, &entry) == NAGSCHED_WRONG;
    const char *line = index % 2 ? "0 standing PENDING HARD 1 no STEADY 0 h;s\n" : "0 standing PENDING HARD 1 no STEADY 0 h\n";
    return right + is_text(nagsched_entry_text(names, &entry, text, sizeof text, &length), text, &length, line);
}

/* Whether no check is running. */
static int running(const struct nagsched_book *of) {
    uint64_t run = 9, begun = 9;
    return nagsched_running(of, 1, &run, &begun) == NAGSCHED_MISSING && run == 9 && begun == 9;
}

/* Whether the saved state is the same as before. */
static int is_saved(const struct nagsched_book *of) {
    static char before[1024];
    static size_t length_before;
    char text[1024];
    size_t length = 0;
    if (!is_sealed) return nagsched_save(of, before, sizeof before, &length_before) == NAGSCHED_OK;
    return nagsched_save(of, text, sizeof text, &length) == NAGSCHED_OK && length == length_before && memcmp(text, before, length) == 0;
}

/* One round of a thread's reads. Returns how many are right. */
static int round_of(uint64_t index) {
    struct nagsched_reply reply = {.kind = NAGSCHED_REPLY_DONE};
    struct nagsched_call call = {.kind = NAGSCHED_CALL_ENABLE, .object = 1, .flag = 1};
    uint64_t refused = 9;
    char text[64];
    size_t length = 0;
    int right = named(&sealed->setup.handle) + named(&sealed->pass.handle) + named(&sealed->book.handle);
    right += kept(&sealed->book.handle, &sealed->setup.handle, index) + kept(&sealed->history.handle, &sealed->pass.handle, index);
    right += nagsched_refused(&sealed->book, &refused) == NAGSCHED_OK && refused == 0;
    right += running(&sealed->book) && is_saved(&sealed->book);
    right += nagsched_refused((struct nagsched_book *)&sealed->setup, &refused) == NAGSCHED_WRONG && nagsched_count(&sealed->history.handle, NULL, NULL) == NAGSCHED_WRONG;
    return right + is_text(nagsched_reply_text(&sealed->book.handle, &call, &reply, text, sizeof text, &length), text, &length, "done h;s\n");
}

enum { READS = 3 * 4 + 2 * 4 + 4 };

static void *read_often(void *given) {
    pthread_barrier_wait(&start);
    for (uint64_t round = 0; round < ROUNDS; round++)
        if (round_of(round % ENTRIES) != READS) return NULL;
    return given;
}

/* A desk of one pass that has made calls with known texts. */
static void open_and_ask(struct nagsched_pass *pass) {
    struct nagsched_setup setup = NAGSCHED_EMPTY;
    struct nagsched_reply reply;
    GIVES(OK, read_setup(&setup));
    GIVES(OK, nagsched_open(&setup.handle, 0, 0, pass, 1));
    for (uint32_t made = 0; made < ENTRIES; made++) GIVES(OK, nagsched_status(pass, made % 2, &reply));
}

static void prepare(void) {
    struct nagsched_pass pass = NAGSCHED_EMPTY;
    struct nagsched_book old = NAGSCHED_EMPTY;
    sealed = mmap(NULL, BYTES, PROT_READ | PROT_WRITE, MAP_PRIVATE | MAP_ANONYMOUS, -1, 0);
    if (sealed == MAP_FAILED) exit(2);
    GIVES(OK, read_setup(&sealed->setup));
    open_and_ask(&sealed->pass);
    open_and_ask(&pass);
    GIVES(OK, nagsched_close(&pass, &sealed->book));
    open_and_ask(&pass);
    GIVES(OK, nagsched_close(&pass, &old));
    GIVES(OK, nagsched_renew(&old, 0, &sealed->history));
    GIVES(OK, nagsched_free(&old.handle));
}

int main(void) {
    pthread_t threads[2];
    void *ended;
    prepare();
    IS(round_of(0) == READS && round_of(1) == READS);
    signal(SIGSEGV, was_written), signal(SIGBUS, was_written);
    is_sealed = 1;
    IS(mprotect(sealed, BYTES, PROT_READ) == 0 && pthread_barrier_init(&start, NULL, 2) == 0);
    for (int at = 0; at < 2; at++) IS(pthread_create(&threads[at], NULL, read_often, &start) == 0);
    for (int at = 0; at < 2; at++) IS(pthread_join(threads[at], &ended) == 0 && ended == &start);
    IS(mprotect(sealed, BYTES, PROT_READ | PROT_WRITE) == 0);
    is_sealed = 0;
    GIVES(OK, nagsched_free(&sealed->setup.handle));
    GIVES(OK, nagsched_free(&sealed->pass.handle));
    GIVES(OK, nagsched_free(&sealed->book.handle));
    GIVES(OK, nagsched_free(&sealed->history.handle));
    return told("readers");
}
