/* nagsched-runner [--only FILE | --version]: runs plugins. It reads jobs from its standard input and writes results to its standard output, one JSON object
 * per line. docs/scaling.md describes them. Each line that is read has one answer.
 *
 * The runner ends with its standard input, or when nobody reads its results. Its plugins are then killed, with their process groups, even if the runner was
 * killed itself. A plugin's run ends with its process, whether or not children are left. Every wait has a limit.
 */
#define _GNU_SOURCE
#include <errno.h>
#include <fcntl.h>
#include <math.h>
#include <signal.h>
#include <stdio.h>
#include <string.h>
#include <sys/epoll.h>
#include <sys/signalfd.h>
#include <sys/wait.h>
#include <time.h>
#include <unistd.h>

#include "runner.h"

enum { EVENTS_AT_ONCE = 64, NO_ROOM_WAIT = 100 };
/* In milliseconds: the longest wait for events, the same while plugins run, and how much longer than that a wait takes if this process stood still. */
enum { LONGEST_WAIT = 60000, LONGEST_LOOK = 1000, STANDSTILL = 1000 };
/* The limit for the end of a killed plugin, in seconds, after which it is reported as stuck. */
static const double GRACE = 5.0;

/* The data of the events that belong to no stream. */
static const char JOBS, ENDED;
static char unread[MOST_LINE];

/* ---- jobs */

static void watch_stream(const struct runner *runner, struct stream *stream, struct plugin *of, int file) {
    stream->file = file;
    if (!poll_for(runner, EPOLL_CTL_ADD, file, EPOLLIN, stream))
        of->trouble = errno;
}

static void add(struct runner *runner, struct plugin *plugin) {
    plugin->before = &runner->running;
    plugin->after = runner->running.after;
    plugin->after->before = plugin;
    runner->running.after = plugin;
}

static void start(struct runner *runner, const struct job *job) {
    struct plugin *plugin = plugin_new();
    int error = plugin == NULL ? ENOMEM : process_start(job->words, &plugin->started);
    if (error != 0) {
        if (plugin != NULL)
            plugin_free(plugin);
        fail(runner, job->number, job->words[0], error);
        return;
    }
    plugin->job = job->number;
    plugin->deadline = now() + job->limit;
    snprintf(plugin->program, sizeof plugin->program, "%s", job->words[0]);
    add(runner, plugin);
    watch_stream(runner, &plugin->output, plugin, plugin->started.output);
    watch_stream(runner, &plugin->errors, plugin, plugin->started.errors);
    if (plugin->trouble != 0)
        process_kill(&plugin->started);
}

static void refuse(struct runner *runner, const struct job *job) {
    static const char words[] = "this machine's --only file doesn't allow this command line";
    end_line(runner, write_result(next_line(runner), job->number, (struct ending){"failed", 0, false}, kept_text(words), (struct kept){"", 0}));
}

/* Obeys a line, whose newline is a NUL now. */
static void obey(struct runner *runner, char *line, size_t length) {
    struct job job = {.number = -1};
    struct kept no_job = kept_text("the line is no job");
    bool is_job = strlen(line) == length && !runner->is_line_too_long && job_read(line, &job);
    runner->is_line_too_long = false;
    if (!is_job)
        end_line(runner, job.number < 0 ? write_error(next_line(runner), no_job) : write_lost(next_line(runner), job.number, no_job));
    else if (runner->allowed != NULL && !allowed_fits(runner->allowed, job.words))
        refuse(runner, &job);
    else
        start(runner, &job);
    job_free(&job);
}

/* Obeys the lines that were read, as long as there is room for their answers. A line that is too long is dropped up to its end. */
static void obey_lines(struct runner *runner) {
    char *line = unread, *end;
    size_t left = runner->unread_length;
    while (has_room(runner) && (end = memchr(line, '\n', left)) != NULL) {
        *end = '\0';
        obey(runner, line, (size_t)(end - line));
        left -= (size_t)(end + 1 - line);
        line = end + 1;
    }
    if (left == MOST_LINE && memchr(line, '\n', left) == NULL) {
        runner->is_line_too_long = true;
        left = 0;
    }
    memmove(unread, line, left);
    runner->unread_length = left;
}

static void read_jobs(struct runner *runner) {
    ssize_t got = read(STDIN_FILENO, unread + runner->unread_length, MOST_LINE - runner->unread_length);
    if (got > 0)
        runner->unread_length += (size_t)got;
    else
        runner->is_over = got == 0 || (errno != EAGAIN && errno != EINTR);
}

/* ---- the loop */

static struct plugin *plugin_of(struct runner *runner, pid_t process) {
    struct plugin *plugin = runner->running.after;
    while (plugin != &runner->running && plugin->started.process != process)
        plugin = plugin->after;
    return plugin == &runner->running ? NULL : plugin;
}

/* Reports the plugins whose processes have ended, as long as there is room. */
static void finish_ended_ones(struct runner *runner) {
    pid_t process;
    int status;
    while (has_room(runner) && (process = waitpid(-1, &status, WNOHANG)) > 0) {
        struct plugin *plugin = is_guard(process) ? NULL : plugin_of(runner, process);
        if (plugin != NULL)
            finish(runner, plugin, status);
    }
}

/* Gives running plugins the time of a wait that took too long: this process stood still, or the whole machine did, and no plugin is to blame. */
static void extend_limits(struct runner *runner, double waited, int wanted) {
    if (waited * 1000 <= wanted + STANDSTILL)
        return;
    for (struct plugin *plugin = runner->running.after; plugin != &runner->running; plugin = plugin->after)
        plugin->deadline += waited;
}

/* Kills the plugins that are past their limits, and reports those that were killed and don't end. */
static void kill_late_ones(struct runner *runner) {
    double time = now();
    for (struct plugin *plugin = runner->running.after; plugin != &runner->running; plugin = plugin->after) {
        if (plugin->deadline > time)
            continue;
        if (plugin->phase == RUNS) {
            process_kill(&plugin->started);
            plugin->phase = IS_KILLED;
            plugin->deadline = time + GRACE;
        } else if (has_room(runner)) {
            write_ending(runner, plugin, (struct ending){"limit", SIGKILL, true});
            close_stream(runner, &plugin->output);
            close_stream(runner, &plugin->errors);
            plugin->phase = IS_STUCK;
            plugin->deadline = INFINITY;
        }
    }
}

/* The time until the next work, in milliseconds. */
static int quiet_time(const struct runner *runner) {
    double first = INFINITY;
    for (const struct plugin *plugin = runner->running.after; plugin != &runner->running; plugin = plugin->after)
        first = fmin(first, plugin->deadline);
    int left = (int)fmax(0, fmin(ceil((first - now()) * 1000), first < INFINITY ? LONGEST_LOOK : LONGEST_WAIT));
    if (has_room(runner))
        return runner->is_behind ? 0 : left;
    return left > NO_ROOM_WAIT ? left : NO_ROOM_WAIT;
}

static void handle(struct runner *runner, const struct epoll_event *event) {
    struct signalfd_siginfo signal_of_an_end;
    if (event->data.ptr == &JOBS)
        read_jobs(runner);
    else if (event->data.ptr == &ENDED)
        (void)!read(runner->ended, &signal_of_an_end, sizeof signal_of_an_end); /* it only ends the wait */
    else if (event->data.ptr != &RESULTS)
        read_stream(runner, event->data.ptr);
}

static void turn(struct runner *runner) {
    struct epoll_event events[EVENTS_AT_ONCE];
    bool takes_jobs = has_room(runner) && runner->unread_length < MOST_LINE;
    if (takes_jobs != runner->takes_jobs && poll_for(runner, EPOLL_CTL_MOD, STDIN_FILENO, takes_jobs ? EPOLLIN : 0, &JOBS))
        runner->takes_jobs = takes_jobs;
    int wait = quiet_time(runner);
    double begun = now();
    int count = epoll_wait(runner->poll, events, EVENTS_AT_ONCE, wait);
    extend_limits(runner, now() - begun, wait);
    for (int i = 0; i < count; i++)
        handle(runner, &events[i]);
    finish_ended_ones(runner); /* after all events, so that no event is of a removed plugin */
    kill_late_ones(runner);
    obey_lines(runner);
    runner->is_behind = !has_room(runner);
    send_results(runner);
}

static bool open_runner(struct runner *runner) {
    /* These signals are blocked, not ignored, so a plugin only has to unblock them. Signals that the caller ignores aren't ignored here. */
    static const int blocked[] = {SIGCHLD, SIGPIPE, SIGINT, SIGTERM, SIGHUP};
    sigset_t ends, all;
    sigemptyset(&ends);
    sigaddset(&ends, SIGCHLD);
    sigemptyset(&all);
    for (int number = 1; number < NSIG; number++)
        signal(number, SIG_DFL);
    for (size_t i = 0; i < sizeof blocked / sizeof *blocked; i++)
        sigaddset(&all, blocked[i]);
    sigprocmask(SIG_BLOCK, &all, NULL);
    runner->running.before = runner->running.after = &runner->running;
    runner->takes_jobs = true;
    runner->poll = epoll_create1(EPOLL_CLOEXEC);
    runner->ended = signalfd(-1, &ends, SFD_CLOEXEC | SFD_NONBLOCK);
    fcntl(STDIN_FILENO, F_SETFL, fcntl(STDIN_FILENO, F_GETFL) | O_NONBLOCK);
    fcntl(STDOUT_FILENO, F_SETFL, fcntl(STDOUT_FILENO, F_GETFL) | O_NONBLOCK);
    return runner->poll >= 0 && runner->ended >= 0 && processes_open() && poll_for(runner, EPOLL_CTL_ADD, STDIN_FILENO, EPOLLIN, &JOBS) &&
           poll_for(runner, EPOLL_CTL_ADD, runner->ended, EPOLLIN, &ENDED);
}

int main(int count, char **words) {
    static struct runner runner;
    if (count == 2 && strcmp(words[1], "--version") == 0) {
        puts("nagsched-runner " VERSION);
        return fflush(stdout) == 0 ? 0 : 1;
    }
    if (count == 3 && strcmp(words[1], "--only") == 0) {
        runner.allowed = allowed_read(words[2]);
        if (runner.allowed == NULL)
            return 1;
    } else if (count != 1) {
        fputs("usage: nagsched-runner [--only FILE | --version]\nRuns plugins: reads jobs from standard input, writes results to standard output.\n", stderr);
        return 2;
    }
    if (!open_runner(&runner)) {
        perror("nagsched-runner");
        return 1;
    }
    while (!runner.is_over)
        turn(&runner);
    processes_close();
    return 0;
}
