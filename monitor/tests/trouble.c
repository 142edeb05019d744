/* Faults of a machine, for a runner under test: preloaded, and named by the variable TROUBLE.
 *
 *   kill   no process can be killed, as one of another user
 *   fork   every second process is refused
 *   pipe   every second pipe is refused
 * memory the kernel has killed one process more at each query
 * exec   a program whose name ends with `hangs` is never loaded, as on a file system that doesn't answer
 */
#define _GNU_SOURCE
#include <dlfcn.h>
#include <errno.h>
#include <fcntl.h>
#include <signal.h>
#include <stdio.h>
#include <stdlib.h>
#include <string.h>
#include <sys/types.h>
#include <unistd.h>

static int is_named(const char *trouble) {
    const char *named = getenv("TROUBLE");
    return named != NULL && strcmp(named, trouble) == 0;
}

/* Whether this is the second, fourth and so on call. The first is that of the guard. */
static int is_refused(const char *trouble) {
    static int count;
    return is_named(trouble) && ++count % 2 == 0;
}

int kill(pid_t process, int number) {
    int (*really)(pid_t, int) = (int (*)(pid_t, int))dlsym(RTLD_NEXT, "kill");
    if (!is_named("kill") || number != SIGKILL)
        return really(process, number);
    errno = EPERM;
    return -1;
}

pid_t fork(void) {
    pid_t (*really)(void) = (pid_t (*)(void))dlsym(RTLD_NEXT, "fork");
    if (!is_refused("fork"))
        return really();
    errno = EAGAIN;
    return -1;
}

/* It leaves no frame behind, since it would be used twice: the compiler has to make the last call a jump. */
pid_t vfork(void) {
    static pid_t (*really)(void);
    if (really == NULL)
        really = (pid_t (*)(void))dlsym(RTLD_NEXT, "vfork");
    if (!is_refused("fork"))
        return really();
    errno = EAGAIN;
    return -1;
}

int pipe2(int *ends, int flags) {
    int (*really)(int *, int) = (int (*)(int *, int))dlsym(RTLD_NEXT, "pipe2");
    if (!is_refused("pipe"))
        return really(ends, flags);
    errno = EMFILE;
    return -1;
}

FILE *fopen(const char *name, const char *mode) {
    static char text[64];
    static int count;
    FILE *(*really)(const char *, const char *) = (FILE *(*)(const char *, const char *))dlsym(RTLD_NEXT, "fopen");
    if (!is_named("memory") || strcmp(name, "/proc/vmstat") != 0)
        return really(name, mode);
    snprintf(text, sizeof text, "pgfault 9\noom_kill %d\noom_other 0\n", ++count);
    return fmemopen(text, strlen(text), "r");
}

int execve(const char *file, char *const *words, char *const *environment) {
    int (*really)(const char *, char *const *, char *const *) = (int (*)(const char *, char *const *, char *const *))dlsym(RTLD_NEXT, "execve");
    size_t length = strlen(file);
    while (is_named("exec") && length >= 5 && strcmp(file + length - 5, "hangs") == 0)
        pause();
    return really(file, words, environment);
}
