/* Shared by the C programs of the gate: comparisons that are counted, and the last line, which prints the counts. */
#ifndef COUNTED_H
#define COUNTED_H

#include "nagsched.h"

#include <stdio.h>
#include <stdlib.h>
#include <string.h>

static long passed, failed;

/* Counts one condition, and prints it if it doesn't hold. */
static inline void has_to_be(int is_so, const char *what, const char *file, int line) {
    if (is_so) {
        passed++;
    } else {
        failed++;
        printf("%s:%d: not so: %s\n", file, line, what);
    }
}

#define IS(test) has_to_be((test), #test, __FILE__, __LINE__)
#define GIVES(status, call) has_to_be((call) == NAGSCHED_##status, #call " gives " #status, __FILE__, __LINE__)

/* Prints the counts as the last line, and returns the program's status. */
static inline int told(const char *name) {
    printf("%s: %ld passed, %ld failed\n", name, passed, failed);
    return failed != 0;
}

/* A host, its service, and a pause of a minute between two checks: objects 0 and 1. */
static const char SETUP[] = "{\"options\":{\"service_inter_check_delay_method\":\"n\",\"host_inter_check_delay_method\":\"n\"},"
                            "\"hosts\":[{\"name\":\"h\",\"check_interval\":1,\"max_check_attempts\":3}],"
                            "\"services\":[{\"host\":\"h\",\"description\":\"s\",\"check_interval\":1,\"max_check_attempts\":3}]}";

/* A host that is never due, and its service, which is checked every five minutes: objects 0 and 1. */
static const char ONE_SERVICE[] = "{\"options\":{\"service_inter_check_delay_method\":\"n\",\"host_inter_check_delay_method\":\"n\"},"
                                  "\"hosts\":[{\"name\":\"h\",\"check_interval\":0,\"max_check_attempts\":3}],"
                                  "\"services\":[{\"host\":\"h\",\"description\":\"s\",\"max_check_attempts\":3}]}";

static inline enum nagsched_result read_setup(struct nagsched_setup *setup) {
    struct nagsched_refusal refusal;
    return nagsched_read(SETUP, strlen(SETUP), setup, &refusal);
}

#endif
