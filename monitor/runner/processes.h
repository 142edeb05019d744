/* The processes of plugins: how they are started and killed, and that none outlives its runner. */
#ifndef NAGSCHED_RUNNER_PROCESSES_H
#define NAGSCHED_RUNNER_PROCESSES_H

#include <stdbool.h>
#include <sys/types.h>

/* The most plugins that one runner can run at once. */
#ifndef MOST_PLUGINS
#define MOST_PLUGINS 16384
#endif

/* Prepares what all starts share, raises the limit of open files as far as possible, and starts the guard. The guard is a process that kills the plugins if the
 * runner ends in any way or doesn't end with its standard input, and ends after them. Returns false if one of these steps fails. */
bool processes_open(void);

/* Whether a process that has ended was the guard, which is then started again. */
bool is_guard(pid_t process);

/* A process that was started: its number, its place in the table, and the files from which its output and its errors can be read. */
struct started {
    pid_t process;
    int place, output, errors;
};

/* Starts a process with these words, in a group of its own. If a file system holds up the program, this waits for a few milliseconds and goes on. Returns 0, or
 * the number of the error that kept the process from starting. */
int process_start(char *const *words, struct started *started);

/* Kills a process with its group, which may have ended just now, or belong to another user. */
void process_kill(const struct started *started);

/* Frees the place of a process that has ended. Returns 0, or the number of the error that kept its program from running. */
int process_forget(const struct started *started);

/* Whether an error is caused by this machine at this moment, not by the command line. */
bool is_local_trouble(int error);

/* Whether the kernel has killed a process of this machine for lack of memory, since the last call. */
bool was_memory_short(void);

/* Kills all plugins. */
void processes_close(void);

#endif
