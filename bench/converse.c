/* Holds a conversation with a program over two pipes, and prints how long an exchange takes.

       converse LINES FIRST TAKE PROGRAM [WORD..]

   Sends the line FIRST, if it isn't empty, and then the line TAKE this number of times (LINES), and waits for each
   answer. Writes nanoseconds per exchange, and the program's resident memory in kilobytes at the end. */
#include <stdio.h>
#include <stdlib.h>
#include <string.h>
#include <sys/wait.h>
#include <time.h>
#include <unistd.h>

static double seconds(void) {
    struct timespec now;
    clock_gettime(CLOCK_MONOTONIC, &now);
    return now.tv_sec + now.tv_nsec / 1e9;
}

static long resident(pid_t child) {
    char name[64], line[256];
    long kilobytes = 0;
    snprintf(name, sizeof name, "/proc/%d/status", child);
    FILE *status = fopen(name, "r");
    while (status && fgets(line, sizeof line, status)) sscanf(line, "VmRSS: %ld", &kilobytes);
    if (status) fclose(status);
    return kilobytes;
}

int main(int count, char **words) {
    int to[2], from[2];
    if (count < 5 || pipe(to) || pipe(from)) return 2;
    pid_t child = fork();
    if (child == 0) {
        dup2(to[0], 0), dup2(from[1], 1);
        close(to[0]), close(to[1]), close(from[0]), close(from[1]);
        execvp(words[4], words + 4);
        _exit(127);
    }
    close(to[0]), close(from[1]);
    FILE *answers = fdopen(from[0], "r");
    long lines = atol(words[1]);
    char line[8192], answer[8192];
    if (*words[2] && dprintf(to[1], "%s\n", words[2]) < 0) return 1;
    int length = snprintf(line, sizeof line, "%s\n", words[3]);
    double begun = seconds();
    for (long i = 0; i < lines; i++) {
        if (write(to[1], line, length) != length) return 1;
        if (!fgets(answer, sizeof answer, answers)) return 1;
    }
    printf("%.0f %ld\n", (seconds() - begun) / lines * 1e9, resident(child));
    close(to[1]);
    waitpid(child, NULL, 0);
    return 0;
}
