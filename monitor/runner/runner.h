/* The runner's state, and the handling of a plugin's streams, its end and its result. */
#ifndef NAGSCHED_RUNNER_H
#define NAGSCHED_RUNNER_H

#include <stdbool.h>
#include <stddef.h>

#include "allowed.h"
#include "lines.h"
#include "processes.h"

enum { MOST_UNSENT = 1 << 20 };

/* One of a plugin's streams, and the stored part of its bytes. */
struct stream {
    int file;
    size_t length;
    char bytes[MOST_KEPT];
};

struct plugin {
    struct plugin *before, *after;
    long long job;
    struct started started;
    double deadline;
    int trouble; /* the error that prevents waiting for its output; 0 without one */
    char program[256];
    enum { RUNS, IS_KILLED, IS_STUCK } phase;
    struct stream output, errors;
};

struct runner {
    const struct allowed *allowed; /* NULL: every command line */
    int poll, ended;
    bool is_over, is_behind, takes_jobs, is_line_too_long, waits_for_reader;
    size_t unread_length, unsent_length;
    struct plugin running; /* the ring's head */
};

/* The data of the events of standard output. */
extern const char RESULTS;

double now(void);

/* Whether one more result has room. */
bool has_room(const struct runner *runner);

/* The place for the next line of a result, and a note that it was written up to `end`. */
char *next_line(const struct runner *runner);
void end_line(struct runner *runner, const char *end);

struct kept kept_text(const char *text);

/* Adds, changes or ends the events of a file. */
bool poll_for(const struct runner *runner, int how, int file, unsigned events, const void *whose);

/* Writes the waiting results, as far as they are read. */
void send_results(struct runner *runner);

/* A plugin without a process; NULL if there is no memory. And its end. */
struct plugin *plugin_new(void);
void plugin_free(struct plugin *plugin);

/* Reads the available bytes of a stream, and stores its beginning. */
void read_stream(const struct runner *runner, struct stream *stream);

void close_stream(const struct runner *runner, struct stream *stream);

/* Reports an ending of a plugin. */
void write_ending(struct runner *runner, const struct plugin *plugin, struct ending ending);

/* Answers a job that never ran: the machine lacked something, or the program can't be run. */
void fail(struct runner *runner, long long job, const char *program, int error);

/* Reports a plugin whose process has ended with this status, and forgets it. */
void finish(struct runner *runner, struct plugin *plugin, int status);

#endif
