/* Which command lines a runner may start: the file of `--only`. */
#ifndef NAGSCHED_RUNNER_ALLOWED_H
#define NAGSCHED_RUNNER_ALLOWED_H

#include <stdbool.h>

struct allowed;

/* Reads a file of patterns. NULL if it can't be read or has a fault: a line of standard error says which. */
struct allowed *allowed_read(const char *path);

/* Whether a pattern fits these words (NULL after the last). */
bool allowed_fits(const struct allowed *allowed, char *const *words);

#endif
