/* A small monitor over the C library, built like one that runs for years. Workers take due checks by the clock, run a plugin with a time limit, and
 * report. The state is saved every few seconds and at the end. The next start resumes it, over the same setup or over a changed one.
 *
 *     tools/build_c.sh && cc -O2 -Ic c/examples/loop.c out/c/lib/libnagsched.a -lpthread -o loop
 *     ./loop SETUP STATE SECONDS COMMAND
 *
 * SETUP is a file with a setup, STATE the file for the state, and COMMAND a line for /bin/sh that checks the object $1 and exits with 0 to 3. It
 * works for this number of seconds, prints the answer to each report, and at the end the standing of each object.
 */
#define _GNU_SOURCE
#include "nagsched.h"

#include <errno.h>
#include <inttypes.h>
#include <pthread.h>
#include <signal.h>
#include <spawn.h>
#include <stdio.h>
#include <stdlib.h>
#include <string.h>
#include <sys/wait.h>
#include <time.h>
#include <unistd.h>

extern char **environ;

/* Room for the entries of one generation; the most bytes of a name or a line; the times of a plugin, of a generation, and of a wait at the limit. */
enum { WORKERS = 4, ROOM = 10000, TEXT = 1024, LIMIT_MS = 5000, GENERATION_MS = 2000, AT_LIMIT_MS = 1000 };

struct monitor {
    struct nagsched_pass passes[WORKERS]; /* of the desk that is open now */
    pthread_rwlock_t desk;                /* of the passes: held for reading during a call, and for writing while the desk is closed */
    pthread_mutex_t lock;                 /* of the following members */
    pthread_cond_t news;                  /* a result came, or the end */
    uint64_t results;
    int is_ended;
    const char *command;
};

struct worker {
    struct monitor *monitor;
    size_t place;
    pthread_t thread;
};

static void must(uint32_t status, const char *what) {
    if (status == NAGSCHED_OK) return;
    fprintf(stderr, "loop: %s: status %u\n", what, (unsigned)status);
    exit(1);
}

/* The clock: milliseconds since 1970 at the start, and from then on by a clock that nobody sets. */
static uint64_t now(void) {
    static uint64_t first, began;
    struct timespec wall, since;
    clock_gettime(CLOCK_MONOTONIC, &since);
    uint64_t elapsed = (uint64_t)since.tv_sec * 1000 + (uint64_t)since.tv_nsec / 1000000;
    if (first == 0) { /* the first call comes before the threads */
        clock_gettime(CLOCK_REALTIME, &wall);
        first = (uint64_t)wall.tv_sec * 1000 + (uint64_t)wall.tv_nsec / 1000000;
        began = elapsed;
    }
    return first + elapsed - began;
}

static void sleep_ms(uint64_t milliseconds) {
    struct timespec time = {(time_t)(milliseconds / 1000), (long)(milliseconds % 1000) * 1000000};
    nanosleep(&time, NULL);
}

/* ---- a plugin */

/* Runs the command for an object, returning its code. CRITICAL if the plugin is killed after the limit or exits with no code; -1 if it couldn't be started. */
static int run_plugin(const struct monitor *monitor, const char *name) {
    const char *words[] = {"/bin/sh", "-c", monitor->command, "plugin", name, NULL};
    const uint64_t deadline = now() + LIMIT_MS;
    pid_t process;
    int status;
    if (posix_spawn(&process, words[0], NULL, NULL, (char **)words, environ) != 0) return -1;
    while (waitpid(process, &status, WNOHANG) == 0) {
        if (now() > deadline) {
            kill(process, SIGKILL);
            waitpid(process, &status, 0);
            break;
        }
        sleep_ms(5);
    }
    return WIFEXITED(status) && WEXITSTATUS(status) <= NAGSCHED_CODE_UNKNOWN ? WEXITSTATUS(status) : NAGSCHED_CODE_CRITICAL;
}

/* Runs a check that was taken and reports it; abandons it if it couldn't be run. */
static void check(const struct worker *me, const struct nagsched_reply *taken) {
    struct monitor *monitor = me->monitor;
    struct nagsched_call call = {.kind = NAGSCHED_CALL_REPORT, .object = taken->object, .run = taken->run};
    struct nagsched_reply reply;
    char name[TEXT], text[TEXT];
    size_t length;
    pthread_rwlock_rdlock(&monitor->desk);
    must(nagsched_name(&monitor->passes[me->place].handle, taken->object, name, sizeof name - 1, &length), "name");
    pthread_rwlock_unlock(&monitor->desk);
    name[length] = '\0';
    int code = run_plugin(monitor, name); /* nothing is held meanwhile: the desk may be closed and opened again */
    pthread_rwlock_rdlock(&monitor->desk);
    struct nagsched_pass *pass = &monitor->passes[me->place];
    if (code < 0) {
        must(nagsched_abandon(pass, taken->object, taken->run, now(), &reply), "abandon");
    } else {
        must(nagsched_report(pass, taken->object, taken->run, (enum nagsched_code)code, &reply), "report");
        must(nagsched_reply_text(&pass->handle, &call, &reply, text, sizeof text, &length), "reply_text");
        printf("%.*s", (int)length, text);
    }
    pthread_rwlock_unlock(&monitor->desk);
}

/* ---- a worker */

/* Waits until a result has come after the first `seen`, until the moment `until`, or until the end. */
static void wait_for_news(struct monitor *monitor, uint64_t seen, uint64_t until) {
    struct timespec deadline;
    const uint64_t left = until > now() ? until - now() : 0;
    clock_gettime(CLOCK_REALTIME, &deadline);
    deadline.tv_sec += (time_t)(left / 1000);
    deadline.tv_nsec += (long)(left % 1000) * 1000000;
    if (deadline.tv_nsec >= 1000000000) {
        deadline.tv_sec++;
        deadline.tv_nsec -= 1000000000;
    }
    pthread_mutex_lock(&monitor->lock);
    while (!monitor->is_ended && monitor->results == seen && pthread_cond_timedwait(&monitor->news, &monitor->lock, &deadline) != ETIMEDOUT)
        ;
    pthread_mutex_unlock(&monitor->lock);
}

static void *work(void *given) {
    struct worker *me = given;
    struct monitor *monitor = me->monitor;
    for (;;) {
        struct nagsched_reply reply;
        pthread_mutex_lock(&monitor->lock);
        const uint64_t seen = monitor->results;
        const int is_ended = monitor->is_ended;
        pthread_mutex_unlock(&monitor->lock);
        if (is_ended) return NULL;
        const uint64_t moment = now();
        pthread_rwlock_rdlock(&monitor->desk);
        must(nagsched_take(&monitor->passes[me->place], moment, &reply), "take");
        pthread_rwlock_unlock(&monitor->desk);
        if (reply.kind == NAGSCHED_REPLY_TAKEN) {
            check(me, &reply);
            pthread_mutex_lock(&monitor->lock);
            monitor->results++;
            pthread_cond_broadcast(&monitor->news);
            pthread_mutex_unlock(&monitor->lock);
        } else if (reply.kind == NAGSCHED_REPLY_IDLE) { /* until the next is due; an hour at most, if none is */
            wait_for_news(monitor, seen, reply.has_time ? reply.time : moment + 3600000);
        } else if (reply.kind == NAGSCHED_REPLY_AT_LIMIT) { /* a report makes room: for that, or a second */
            wait_for_news(monitor, seen, moment + AT_LIMIT_MS);
        } else if (reply.kind != NAGSCHED_REPLY_PUT_OFF) {
            must(NAGSCHED_WRONG, "take was refused");
        }
    }
}

/* ---- saving and resuming */

static char *read_file(const char *path, size_t *length) {
    FILE *file = fopen(path, "rb");
    if (file == NULL) return NULL;
    char *bytes = NULL;
    size_t room = 0;
    for (*length = 0; !feof(file);) {
        if (*length == room && (bytes = realloc(bytes, room = 2 * room + 65536)) == NULL) exit(1);
        *length += fread(bytes + *length, 1, room - *length, file);
        if (ferror(file)) exit(1);
    }
    fclose(file);
    return bytes;
}

/* Writes the state of the book: a new file replaces the old one, so that one of the two is always whole. */
static void save(const struct nagsched_book *book, const char *path) {
    char fresh[4096];
    size_t length = 0;
    char nothing;
    if (nagsched_save(book, &nothing, 0, &length) != NAGSCHED_WRONG || length == 0) exit(1); /* its length first */
    char *text = malloc(length);
    if (text == NULL) exit(1);
    must(nagsched_save(book, text, length, &length), "save");
    snprintf(fresh, sizeof fresh, "%s.new", path);
    FILE *file = fopen(fresh, "wb");
    if (file == NULL || fwrite(text, 1, length, file) != length || fflush(file) != 0 || fsync(fileno(file)) != 0 || fclose(file) != 0 ||
        rename(fresh, path) != 0) {
        perror(path);
        exit(1);
    }
    free(text);
}

/* Closes the desk, saves, frees the entries, and opens it again. Calls wait meanwhile, plugins don't. */
static void begin_generation(struct monitor *monitor, const char *path) {
    struct nagsched_book book = NAGSCHED_EMPTY;
    struct nagsched_history history = NAGSCHED_EMPTY;
    pthread_rwlock_wrlock(&monitor->desk);
    struct nagsched_pass *passes = monitor->passes;
    for (size_t at = 1; at < WORKERS; at++) must(nagsched_gather(&passes[0], &passes[at]), "gather");
    must(nagsched_close(&passes[0], &book), "close");
    save(&book, path);
    must(nagsched_renew(&book, ROOM, &history), "renew");
    must(nagsched_free(&history.handle), "free"); /* a program that stores histories writes its entries first */
    must(nagsched_open(&book.handle, 0, 0, passes, WORKERS), "open");
    pthread_rwlock_unlock(&monitor->desk);
}

/* Prints why a setup or a state is refused, and ends. */
static void refused(const char *path, const struct nagsched_refusal *refusal) {
    char text[TEXT];
    size_t length;
    must(nagsched_refusal_text(refusal, text, sizeof text, &length), "refusal_text");
    fprintf(stderr, "loop: %s: %.*s", path, (int)length, text);
    exit(1);
}

/* Opens the desk: from the saved state, if there is one. Checks that were running then are abandoned: nobody runs their plugins any more. */
static void open_desk(struct monitor *monitor, const char *setup_path, const char *state_path) {
    struct nagsched_setup setup = NAGSCHED_EMPTY;
    struct nagsched_book book = NAGSCHED_EMPTY;
    struct nagsched_refusal refusal;
    struct nagsched_reply reply;
    uint32_t objects, hosts;
    size_t bytes;
    char *document = read_file(setup_path, &bytes);
    enum nagsched_result status = document == NULL ? NAGSCHED_MISSING : nagsched_read(document, bytes, &setup, &refusal);
    if (status == NAGSCHED_REFUSED) refused(setup_path, &refusal);
    must(status, setup_path);
    free(document);
    char *state = read_file(state_path, &bytes);
    if (state == NULL) {
        must(nagsched_open(&setup.handle, now(), ROOM, monitor->passes, WORKERS), "open");
        return;
    }
    status = nagsched_resume(&setup, state, bytes, now(), ROOM, &book, &refusal);
    if (status == NAGSCHED_REFUSED) refused(state_path, &refusal);
    must(status, "resume");
    free(state);
    must(nagsched_count(&book.handle, &objects, &hosts), "count");
    uint64_t *runs = calloc(objects + 1, sizeof *runs), start;
    if (runs == NULL) exit(1);
    for (uint32_t object = 0; object < objects; object++) {
        status = nagsched_running(&book, object, &runs[object], &start);
        if (status != NAGSCHED_MISSING) must(status, "running");
    }
    must(nagsched_open(&book.handle, 0, 0, monitor->passes, WORKERS), "open");
    for (uint32_t object = 0; object < objects; object++) {
        if (runs[object] != 0) must(nagsched_abandon(&monitor->passes[0], object, runs[object], now(), &reply), "abandon");
    }
    free(runs);
}

/* Prints the standing of each object. */
static void print_standings(struct nagsched_pass *pass) {
    struct nagsched_reply reply;
    uint32_t objects, hosts;
    char text[TEXT];
    size_t length;
    must(nagsched_count(&pass->handle, &objects, &hosts), "count");
    for (uint32_t object = 0; object < objects; object++) {
        const struct nagsched_call call = {.kind = NAGSCHED_CALL_STATUS, .object = object};
        must(nagsched_status(pass, object, &reply), "status");
        must(nagsched_reply_text(&pass->handle, &call, &reply, text, sizeof text, &length), "reply_text");
        printf("at the end %.*s", (int)length, text);
    }
}

int main(int argc, char **argv) {
    static struct monitor monitor = {.lock = PTHREAD_MUTEX_INITIALIZER, .news = PTHREAD_COND_INITIALIZER};
    struct worker workers[WORKERS];
    pthread_rwlockattr_t writers_first;
    if (argc != 5 || nagsched_version() != NAGSCHED_VERSION) return 1;
    const uint64_t end = now() + strtoull(argv[3], NULL, 10) * 1000;
    monitor.command = argv[4];
    pthread_rwlockattr_init(&writers_first);
    pthread_rwlockattr_setkind_np(&writers_first, PTHREAD_RWLOCK_PREFER_WRITER_NONRECURSIVE_NP);
    pthread_rwlock_init(&monitor.desk, &writers_first);
    open_desk(&monitor, argv[1], argv[2]);
    for (size_t at = 0; at < WORKERS; at++) {
        workers[at] = (struct worker){.monitor = &monitor, .place = at};
        if (pthread_create(&workers[at].thread, NULL, work, &workers[at]) != 0) return 1;
    }
    while (now() < end) {
        sleep_ms(end - now() < GENERATION_MS ? end - now() : GENERATION_MS);
        begin_generation(&monitor, argv[2]);
    }
    pthread_mutex_lock(&monitor.lock);
    monitor.is_ended = 1;
    pthread_cond_broadcast(&monitor.news);
    pthread_mutex_unlock(&monitor.lock);
    for (size_t at = 0; at < WORKERS; at++) pthread_join(workers[at].thread, NULL);
    print_standings(&monitor.passes[0]);
    begin_generation(&monitor, argv[2]);
    for (size_t at = 0; at < WORKERS; at++) must(nagsched_free(&monitor.passes[at].handle), "free");
    return 0;
}
