/* A plugin's streams, its end, and the results that wait to be read. */
#define _GNU_SOURCE
#include <errno.h>
#include <signal.h>
#include <stddef.h>
#include <stdio.h>
#include <stdlib.h>
#include <string.h>
#include <sys/epoll.h>
#include <sys/wait.h>
#include <time.h>
#include <unistd.h>

#include "runner.h"

enum { READ_BYTES = 65536, PLUGINS_AT_ONCE = 64 };

const char RESULTS;
static char unsent[MOST_UNSENT];
/* Plugins that aren't used, each with the next one after it. */
static struct plugin *unused;

double now(void) {
    struct timespec time;
    clock_gettime(CLOCK_MONOTONIC, &time);
    return (double)time.tv_sec + (double)time.tv_nsec / 1e9;
}

struct kept kept_text(const char *text) {
    return (struct kept){text, strlen(text)};
}

bool has_room(const struct runner *runner) {
    return runner->unsent_length + MOST_RESULT <= MOST_UNSENT;
}

char *next_line(const struct runner *runner) {
    return unsent + runner->unsent_length;
}

void end_line(struct runner *runner, const char *end) {
    runner->unsent_length = (size_t)(end - unsent);
}

bool poll_for(const struct runner *runner, int how, int file, unsigned events, const void *whose) {
    struct epoll_event event = {.events = events, .data.ptr = (void *)(size_t)whose};
    return epoll_ctl(runner->poll, how, file, &event) == 0;
}

void send_results(struct runner *runner) {
    size_t sent = 0;
    bool is_full = false;
    while (sent < runner->unsent_length && !is_full && !runner->is_over) {
        ssize_t written = write(STDOUT_FILENO, unsent + sent, runner->unsent_length - sent);
        if (written >= 0)
            sent += (size_t)written;
        else if (errno == EAGAIN)
            is_full = true;
        else if (errno != EINTR)
            runner->is_over = true; /* nobody reads any more */
    }
    memmove(unsent, unsent + sent, runner->unsent_length - sent);
    runner->unsent_length -= sent;
    if (is_full != runner->waits_for_reader && poll_for(runner, is_full ? EPOLL_CTL_ADD : EPOLL_CTL_DEL, STDOUT_FILENO, EPOLLOUT, &RESULTS))
        runner->waits_for_reader = is_full;
}

/* ---- one plugin */

/* A process that is being started also has this file, for a moment, so closing the file alone doesn't end its events. */
void close_stream(const struct runner *runner, struct stream *stream) {
    if (stream->file < 0)
        return;
    poll_for(runner, EPOLL_CTL_DEL, stream->file, 0, NULL);
    close(stream->file);
    stream->file = -1;
}

void read_stream(const struct runner *runner, struct stream *stream) {
    static char bytes[READ_BYTES];
    ssize_t got = stream->file < 0 ? 0 : read(stream->file, bytes, sizeof bytes);
    if (got < 0)
        return;
    size_t room = MOST_KEPT - stream->length, taken = (size_t)got < room ? (size_t)got : room;
    memcpy(stream->bytes + stream->length, bytes, taken);
    stream->length += taken;
    if (got == 0)
        close_stream(runner, stream);
}

static struct kept kept_of(const struct stream *stream) {
    return (struct kept){stream->bytes, stream->length};
}

void write_ending(struct runner *runner, const struct plugin *plugin, struct ending ending) {
    end_line(runner, write_result(next_line(runner), plugin->job, ending, kept_of(&plugin->output), kept_of(&plugin->errors)));
}

void fail(struct runner *runner, long long job, const char *program, int error) {
    char words[MOST_KEPT];
    snprintf(words, sizeof words, "%.2000s: %s", program, strerror(error));
    struct kept why = kept_text(words), none = {"", 0};
    if (is_local_trouble(error))
        end_line(runner, write_lost(next_line(runner), job, why));
    else
        end_line(runner, write_result(next_line(runner), job, (struct ending){"failed", 0, false}, why, none));
}

static void make_plugins(void) {
    struct plugin *made = calloc(PLUGINS_AT_ONCE, sizeof *made);
    for (int i = 0; made != NULL && i < PLUGINS_AT_ONCE; i++)
        plugin_free(&made[i]);
}

struct plugin *plugin_new(void) {
    if (unused == NULL)
        make_plugins();
    struct plugin *plugin = unused;
    if (plugin == NULL)
        return NULL;
    unused = plugin->after;
    memset(plugin, 0, offsetof(struct plugin, output));
    plugin->output.file = plugin->errors.file = -1;
    plugin->output.length = plugin->errors.length = 0;
    return plugin;
}

void plugin_free(struct plugin *plugin) {
    plugin->after = unused;
    unused = plugin;
}

static void forget(const struct runner *runner, struct plugin *plugin) {
    plugin->before->after = plugin->after;
    plugin->after->before = plugin->before;
    close_stream(runner, &plugin->output);
    close_stream(runner, &plugin->errors);
    plugin_free(plugin);
}

/* How a process with this status ended. */
static struct ending ending_of(const struct plugin *plugin, int status) {
    if (plugin->phase == IS_KILLED)
        return (struct ending){"limit", SIGKILL, false};
    return WIFEXITED(status) ? (struct ending){"exited", WEXITSTATUS(status), false} : (struct ending){"signal", WTERMSIG(status), false};
}

void finish(struct runner *runner, struct plugin *plugin, int status) {
    int error = process_forget(&plugin->started);
    if (plugin->trouble != 0)
        error = plugin->trouble;
    else if (plugin->phase == RUNS && WIFSIGNALED(status) && WTERMSIG(status) == SIGKILL && was_memory_short())
        error = ENOMEM;
    read_stream(runner, &plugin->output);
    read_stream(runner, &plugin->errors);
    if (plugin->phase == IS_STUCK)
        end_line(runner, write_gone(next_line(runner), plugin->job));
    else if (error != 0)
        fail(runner, plugin->job, plugin->program, error);
    else
        write_ending(runner, plugin, ending_of(plugin, status));
    forget(runner, plugin);
}
