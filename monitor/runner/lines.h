/* The lines of a runner: jobs that it reads and results that it writes, one JSON object each. */
#ifndef NAGSCHED_RUNNER_LINES_H
#define NAGSCHED_RUNNER_LINES_H

#include <stdbool.h>
#include <stddef.h>

enum {
    /* The longest line of a job, in bytes with its newline. */
    MOST_LINE = 1 << 20,
    /* The most bytes of a plugin's standard output, and of its standard error, in a result. */
    MOST_KEPT = 4096,
    /* The longest line of a result: each byte of both streams can become `\u0000`. */
    MOST_RESULT = 2 * 6 * MOST_KEPT + 512
};

/* A command to run: its number, its words (NULL after the last) and its limit in seconds. */
struct job {
    long long number;
    char **words;
    double limit;
};

/* Reads the job of a line, and changes the line, which holds the words afterwards. Returns false if the line is no job; then `number` is -1, unless it was
 * read. Call `job_free` in both cases. */
bool job_read(char *line, struct job *job);
void job_free(struct job *job);

/* Bytes of a plugin, perhaps cut at MOST_KEPT. Bytes that are no UTF-8 become U+FFFD each, and a character that the cut has split is left out. */
struct kept {
    const char *bytes;
    size_t length;
};

/* The end of a plugin: how it ended, with which exit code or signal, and whether its process is still there. */
struct ending {
    const char *end;
    int code;
    bool is_stuck;
};

/* Each of these writes a line to `to`, which has room for MOST_RESULT bytes, and returns the end of the line. */
char *write_result(char *to, long long job, struct ending ending, struct kept output, struct kept errors);
/* The plugin never ran, or its result is unknown: the check has to be made again. */
char *write_lost(char *to, long long job, struct kept why);
/* The process of a plugin that was reported as stuck has ended. */
char *write_gone(char *to, long long job);
/* A line without a number was no job. */
char *write_error(char *to, struct kept why);

#endif
