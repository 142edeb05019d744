#define _GNU_SOURCE
#include "processes.h"

#include <dirent.h>
#include <errno.h>
#include <fcntl.h>
#include <limits.h>
#include <poll.h>
#include <pthread.h>
#include <semaphore.h>
#include <signal.h>
#include <stdio.h>
#include <stdlib.h>
#include <string.h>
#include <sys/mman.h>
#include <sys/prctl.h>
#include <sys/resource.h>
#include <time.h>
#include <unistd.h>

extern char **environ;

/* How long a runner may take to end after its standard input, the limit for the end of killed plugins, and the pause between two looks, in milliseconds. */
enum { TO_END = 1000, GRACE = 5000, PAUSE = 5 };
/* The longest wait for the loading of a program, in milliseconds, after which the runner goes on, and the bytes of a thread's stack. */
enum { LONGEST_LOAD = 50, STACK = 65536 };

/* A plugin, as its process, the runner and the guard see it: its process group, and the error that kept it from running. */
struct entry {
    volatile pid_t group;
    volatile int error;
};

/* The table is shared memory. A plugin's program no longer has it. */
static struct entry *table;
static int free_places[MOST_PLUGINS], free_count;
static struct rlimit files;
static pid_t guard = -1;
/* The guard reads the other end of this pipe. Nobody writes to it, and it ends when the runner does. */
static int guard_pipe = -1;
static int nothing = -1;
static long long ended_for_memory;

/* ---- killing */

void process_kill(const struct started *started) {
    if (kill(-started->process, SIGKILL) != 0 && errno == ESRCH)
        kill(started->process, SIGKILL);
}

/* A group that is gone isn't killed again, since its number may soon be another's. */
void processes_close(void) {
    for (int place = 0; place < MOST_PLUGINS; place++)
        if (table[place].group > 0 && kill(-table[place].group, SIGKILL) != 0 && errno == ESRCH)
            table[place].group = 0;
}

/* The group of a process, by the name of its folder in /proc; 0 if it isn't there, or all its threads have ended and it waits for its parent. */
static pid_t living_group(const char *process) {
    char path[64], stat[512], state;
    pid_t group;
    int threads;
    snprintf(path, sizeof path, "/proc/%.20s/stat", process);
    int file = open(path, O_RDONLY | O_CLOEXEC);
    ssize_t length = file < 0 ? 0 : read(file, stat, sizeof stat - 1);
    if (file >= 0)
        close(file);
    stat[length > 0 ? length : 0] = '\0';
    const char *after_name = strrchr(stat, ')'); /* the name may have any character */
    static const char members[] = ") %c %*d %d %*d %*d %*d %*u %*u %*u %*u %*u %*u %*u %*d %*d %*d %*d %d";
    bool is_read = after_name != NULL && sscanf(after_name, members, &state, &group, &threads) == 3;
    return is_read && (threads > 1 || (state != 'Z' && state != 'X')) ? group : 0;
}

static bool is_in_table(pid_t group) {
    for (int place = 0; place < MOST_PLUGINS; place++)
        if (table[place].group == group)
            return true;
    return false;
}

/* Whether a process of a plugin is still there, or on its way out. */
static bool are_plugins_left(void) {
    DIR *all = opendir("/proc");
    bool is_left = false;
    for (struct dirent *each; all != NULL && !is_left && (each = readdir(all)) != NULL;) {
        pid_t group = each->d_name[0] >= '1' && each->d_name[0] <= '9' ? living_group(each->d_name) : 0;
        is_left = group > 0 && is_in_table(group);
    }
    if (all != NULL)
        closedir(all);
    return is_left;
}

/* ---- memory */

/* The number of processes that the kernel has killed for lack of memory since the machine was started. */
static long long count_ended_for_memory(void) {
    FILE *file = fopen("/proc/vmstat", "re");
    char name[64];
    long long value, count = 0;
    while (file != NULL && fscanf(file, "%63s %lld", name, &value) == 2)
        if (strcmp(name, "oom_kill") == 0)
            count = value;
    if (file != NULL)
        fclose(file);
    return count;
}

bool was_memory_short(void) {
    long long before = ended_for_memory;
    ended_for_memory = count_ended_for_memory();
    return ended_for_memory > before;
}

/* ---- the guard */

/* Waits for the end of the runner. If its standard input has ended and it doesn't end too, because it was stopped, it is killed. */
static void await_runner(int ended, pid_t runner) {
    struct pollfd files[] = {{.fd = ended, .events = POLLIN}, {.fd = STDIN_FILENO}};
    while (poll(files, 2, -1) < 0)
        continue;
    if (poll(files, 1, TO_END) == 0) {
        kill(runner, SIGKILL);
        poll(files, 1, GRACE);
    }
}

/* Waits for the end of the runner, which may have been killed, and then for the end of its plugins, which it kills. Until then it has all files with which the
 * runner was started: whoever sees the end of the runner's standard output, or gets a lock that the runner had, knows that no plugin is left. */
static void watch_runner(int ended, pid_t runner) {
    prctl(PR_SET_NAME, "nagsched-guard");
    setpgid(0, 0); /* a signal to the runner's group isn't for it */
    await_runner(ended, runner);
    processes_close();
    for (int waited = 0; waited < GRACE && are_plugins_left(); waited += PAUSE) {
        poll(NULL, 0, PAUSE);
        processes_close();
    }
    _exit(0);
}

static bool begin_guard(void) {
    int ends[2];
    pid_t runner = getpid();
    if (pipe2(ends, O_CLOEXEC) != 0)
        return false;
    guard = fork();
    if (guard == 0) {
        close(ends[1]);
        watch_runner(ends[0], runner);
    }
    close(ends[0]);
    if (guard_pipe >= 0)
        close(guard_pipe);
    guard_pipe = ends[1];
    return guard > 0;
}

bool is_guard(pid_t process) {
    if (process != guard)
        return false;
    begin_guard();
    return true;
}

bool processes_open(void) {
    struct rlimit raised;
    if (getrlimit(RLIMIT_NOFILE, &files) != 0)
        return false;
    raised = files;
    raised.rlim_cur = files.rlim_max;
    setrlimit(RLIMIT_NOFILE, &raised);
    ended_for_memory = count_ended_for_memory();
    do /* no file of the runner's may replace a closed standard file */
        nothing = open("/dev/null", O_RDWR);
    while (nothing >= 0 && nothing <= STDERR_FILENO);
    table = mmap(NULL, MOST_PLUGINS * sizeof *table, PROT_READ | PROT_WRITE, MAP_SHARED | MAP_ANONYMOUS, -1, 0);
    if (nothing < 0 || table == MAP_FAILED)
        return false;
    for (int place = MOST_PLUGINS - 1; place >= 0; place--)
        free_places[free_count++] = place;
    return begin_guard();
}

/* ---- starting */

bool is_local_trouble(int error) {
    static const int of_the_line[] = {ENOENT, EACCES, EPERM, ENOEXEC, ENOTDIR, EISDIR, ELOOP, ENAMETOOLONG, E2BIG, EINVAL, ELIBBAD};
    for (size_t i = 0; i < sizeof of_the_line / sizeof *of_the_line; i++)
        if (error == of_the_line[i])
            return false;
    return true;
}

/* Replaces the process by the program of these words, which is looked for in PATH if its name has no `/`. Returns only with the error. A file that is no
 * program isn't passed to a shell: an empty one would be OK. */
static int run_program(char *const *words) {
    const char *path = getenv("PATH"), *end;
    char file[PATH_MAX];
    int error = ENOENT;
    if (strchr(words[0], '/') != NULL) {
        execve(words[0], words, environ);
        return errno;
    }
    for (path = path == NULL ? "/usr/bin:/bin" : path; *words[0] != '\0' && *path != '\0'; path = *end == '\0' ? end : end + 1) {
        end = strchrnul(path, ':');
        int length = snprintf(file, sizeof file, "%.*s/%s", (int)(end - path), path, words[0]);
        if (end == path || length >= PATH_MAX)
            continue;
        execve(file, words, environ);
        if (errno != ENOENT && errno != ENOTDIR)
            error = errno;
        if (error != ENOENT && error != EACCES)
            break;
    }
    return error;
}

/* Has the kernel end plugins before it ends a runner, when memory is short. */
static void offer_to_be_killed(void) {
    int file = open("/proc/self/oom_score_adj", O_WRONLY | O_CLOEXEC);
    if (file >= 0 && write(file, "500", 3) != 3)
        errno = 0; /* this may be forbidden, and then nothing is lost */
}

/* The code of the new process, which never returns. */
static void become(char *const *words, struct entry *entry, pid_t runner, int output, int errors) {
    sigset_t none;
    setpgid(0, 0);
    entry->group = getpid(); /* the runner may be killed before it has noted it */
    prctl(PR_SET_PDEATHSIG, SIGKILL);
    if (getppid() != runner)
        _exit(127);
    sigemptyset(&none);
    sigprocmask(SIG_SETMASK, &none, NULL);
    offer_to_be_killed();
    dup2(nothing, STDIN_FILENO);
    dup2(output, STDOUT_FILENO);
    dup2(errors, STDERR_FILENO);
    close_range(STDERR_FILENO + 1, ~0U, 0); /* also while the program is loaded, when a file system may hang */
    setrlimit(RLIMIT_NOFILE, &files);
    entry->error = run_program(words);
    _exit(127);
}

/* ---- threads that start processes */

/* A thread that starts one process after another. `vfork` copies no memory, and lets the thread wait until the program is loaded. A file system may hold that up
 * for ever, so the runner doesn't wait for it: it has another thread start the next process. */
struct starter {
    struct starter *next;
    sem_t wanted, done;
    bool is_busy;
    /* What to start, of which it has its own words, and what came of it. */
    char **words;
    struct entry *entry;
    pid_t runner, process;
    int output, errors, error;
};

static struct starter *starters;

static void *start_processes(void *given) {
    struct starter *its = given;
    for (;;) {
        while (sem_wait(&its->wanted) != 0)
            continue;
        its->process = vfork();
        if (its->process == 0)
            become(its->words, its->entry, its->runner, its->output, its->errors);
        its->error = its->process < 0 ? errno : 0;
        sem_post(&its->done);
    }
    return NULL;
}

static bool begin_thread(struct starter *its) {
    pthread_attr_t small;
    pthread_t thread;
    if (pthread_attr_init(&small) != 0)
        return false;
    pthread_attr_setdetachstate(&small, PTHREAD_CREATE_DETACHED);
    bool is_begun = pthread_attr_setstacksize(&small, STACK) == 0 && sem_init(&its->wanted, 0, 0) == 0 && sem_init(&its->done, 0, 0) == 0 &&
                    pthread_create(&thread, &small, start_processes, its) == 0;
    pthread_attr_destroy(&small);
    return is_begun;
}

static void forget_words(struct starter *its) {
    free(its->words);
    its->words = NULL;
    its->is_busy = false;
}

/* A thread that starts no process now; NULL if there is no room for another one. */
static struct starter *free_starter(void) {
    struct starter *its = starters;
    while (its != NULL && its->is_busy && sem_trywait(&its->done) != 0)
        its = its->next;
    if (its != NULL) {
        forget_words(its);
        return its;
    }
    its = calloc(1, sizeof *its);
    if (its == NULL || !begin_thread(its)) {
        free(its);
        return NULL;
    }
    its->next = starters;
    starters = its;
    return its;
}

static char **copy_words(char *const *words) {
    size_t count = 0, size = 0;
    for (; words[count] != NULL; count++)
        size += strlen(words[count]) + 1;
    char **copy = malloc((count + 1) * sizeof *copy + size), *to = (char *)(copy + count + 1);
    for (size_t i = 0; copy != NULL && i < count; i++) {
        copy[i] = to;
        to = stpcpy(to, words[i]) + 1;
    }
    if (copy != NULL)
        copy[count] = NULL;
    return copy;
}

/* Waits until a thread has started its process, or until the process is there and has been loading its program for a while. */
static void await_start(struct starter *its) {
    struct timespec until;
    clock_gettime(CLOCK_MONOTONIC, &until);
    do {
        until.tv_nsec += LONGEST_LOAD * 1000000L;
        until.tv_sec += until.tv_nsec / 1000000000L;
        until.tv_nsec %= 1000000000L;
        int result = sem_clockwait(&its->done, CLOCK_MONOTONIC, &until);
        its->is_busy = result != 0;
    } while (its->is_busy && its->entry->group == 0);
}

/* Starts a process, with both pipes open. */
static int start_plugin(char *const *words, struct started *started, const int *output, const int *errors) {
    struct entry *entry = &table[started->place];
    struct starter *its = free_starter();
    if (its == NULL)
        return EAGAIN;
    its->words = copy_words(words);
    if (its->words == NULL)
        return ENOMEM;
    entry->error = 0;
    its->entry = entry;
    its->runner = getpid();
    its->output = output[1];
    its->errors = errors[1];
    its->is_busy = true;
    sem_post(&its->wanted);
    await_start(its);
    if (!its->is_busy) {
        forget_words(its);
        if (its->error != 0)
            return its->error;
    }
    pid_t process = its->is_busy ? entry->group : its->process;
    entry->group = process;
    started->process = process;
    started->output = output[0];
    started->errors = errors[0];
    return 0;
}

static bool open_pipe(int *ends) {
    return pipe2(ends, O_CLOEXEC) == 0 && fcntl(ends[0], F_SETFL, O_NONBLOCK) == 0;
}

static void close_end(int file) {
    if (file >= 0)
        close(file);
}

int process_start(char *const *words, struct started *started) {
    int output[2] = {-1, -1}, errors[2] = {-1, -1};
    if (free_count == 0 || (guard < 0 && !begin_guard()))
        return EAGAIN;
    started->place = free_places[free_count - 1];
    int error = open_pipe(output) && open_pipe(errors) ? start_plugin(words, started, output, errors) : errno;
    close_end(output[1]);
    close_end(errors[1]);
    if (error != 0) {
        close_end(output[0]);
        close_end(errors[0]);
        return error;
    }
    free_count--;
    return 0;
}

int process_forget(const struct started *started) {
    struct entry *entry = &table[started->place];
    int error = entry->error;
    entry->group = 0;
    free_places[free_count++] = started->place;
    return error;
}
