/* A file of patterns, one line for each command line that may run:
 *
 *     # checks of this network
 *     /usr/lib/nagios/plugins/check_ping -H 192.0.2.* -w * -c *
 *     /bin/sh -c 'df -h | grep -q "^/dev"'
 *
 * A pattern has as many words as the command line, and each fits the word in its place. `*` fits any text and `?` any character within a word. A wildcard at
 * the beginning of a word fits no word that begins with `-`, so that it admits no option. Text in quotes or after a backslash is literal.
 */
#include "allowed.h"

#include <errno.h>
#include <stdint.h>
#include <stdio.h>
#include <stdlib.h>
#include <string.h>

enum { MOST_BYTES = 1 << 20 };
/* The bytes that replace wildcards, except literal ones. */
enum { ANY_TEXT = 1, ANY_CHARACTER = 2 };

struct pattern {
    struct pattern *next;
    size_t count;
    /* The words, one after another, each with a NUL at its end. */
    const char *words;
};

struct allowed {
    struct pattern *first;
};

/* ---- reading */

/* Reads one word in place, and returns the place after it in the line; NULL if a quote or a backslash has no end. The word never gets longer. */
static char *read_word(char *at, char **to) {
    char quote = '\0';
    for (; *at != '\0' && (quote != '\0' || (*at != ' ' && *at != '\t')); at++) {
        if (quote != '\0' && *at == quote)
            quote = '\0';
        else if (quote == '\0' && (*at == '\'' || *at == '"'))
            quote = *at;
        else if (quote == '\0' && *at == '\\' && at[1] == '\0')
            return NULL;
        else if (quote == '\0' && *at == '\\')
            *(*to)++ = *++at;
        else if (quote == '\0' && (*at == '*' || *at == '?'))
            *(*to)++ = *at == '*' ? ANY_TEXT : ANY_CHARACTER;
        else
            *(*to)++ = *at;
    }
    return quote == '\0' ? at : NULL;
}

/* Reads the words of a line in place. Returns false if it isn't a pattern. */
static bool read_pattern(char *line, struct pattern *pattern) {
    char *to = line;
    pattern->words = line;
    for (char *at = line + strspn(line, " \t"); *at != '\0'; at += strspn(at, " \t")) {
        at = read_word(at, &to);
        if (at == NULL)
            return false;
        bool is_last = *at == '\0';
        at += is_last ? 0 : 1;
        *to++ = '\0';
        pattern->count++;
        if (is_last)
            break;
    }
    return true;
}

/* Reads the patterns of a text. Returns 0, or the number of the line that isn't a pattern. */
static size_t read_patterns(char *text, struct allowed *allowed) {
    struct pattern **last = &allowed->first;
    size_t number = 0;
    for (char *line = text, *next; line != NULL; line = next) {
        number++;
        next = strchr(line, '\n');
        if (next != NULL)
            *next++ = '\0';
        line += strspn(line, " \t");
        if (*line == '\0' || *line == '#')
            continue;
        struct pattern *pattern = calloc(1, sizeof *pattern);
        if (pattern == NULL || strpbrk(line, "\1\2\r") != NULL || !read_pattern(line, pattern))
            return number;
        *last = pattern;
        last = &pattern->next;
    }
    return 0;
}

/* The bytes of a file as a text; NULL if it can't be read, is too long or has a NUL. */
static char *read_file(const char *path) {
    FILE *file = fopen(path, "re");
    char *text = file == NULL ? NULL : calloc(MOST_BYTES + 1, 1);
    size_t length = text == NULL ? 0 : fread(text, 1, MOST_BYTES + 1, file);
    bool is_bad = file == NULL || text == NULL || ferror(file) != 0;
    if (!is_bad && (length > MOST_BYTES || strlen(text) != length)) {
        errno = EINVAL;
        is_bad = true;
    }
    if (is_bad)
        fprintf(stderr, "nagsched-runner: --only %s: %s\n", path, strerror(errno));
    if (file != NULL)
        fclose(file);
    return is_bad ? NULL : text;
}

struct allowed *allowed_read(const char *path) {
    struct allowed *allowed = calloc(1, sizeof *allowed);
    char *text = allowed == NULL ? NULL : read_file(path);
    if (text == NULL)
        return NULL;
    size_t wrong = read_patterns(text, allowed);
    if (wrong == 0)
        return allowed;
    fprintf(stderr, "nagsched-runner: --only %s: line %zu isn't a command line: close its quotes, and leave out control characters\n", path, wrong);
    return NULL;
}

/* ---- fitting */

static const char *next_character(const char *at) {
    do
        at++;
    while (((unsigned char)*at & 0xC0) == 0x80);
    return at;
}

static bool fits(const char *pattern, const char *word) {
    const char *after_any = NULL, *tried = NULL;
    if ((*pattern == ANY_TEXT || *pattern == ANY_CHARACTER) && *word == '-')
        return false;
    while (*word != '\0') {
        if (*pattern == ANY_TEXT) {
            after_any = ++pattern;
            tried = word;
        } else if (*pattern == ANY_CHARACTER) {
            pattern++;
            word = next_character(word);
        } else if (*pattern == *word) {
            pattern++;
            word++;
        } else if (after_any != NULL) {
            pattern = after_any;
            word = tried = next_character(tried);
        } else {
            return false;
        }
    }
    while (*pattern == ANY_TEXT)
        pattern++;
    return *pattern == '\0';
}

/* Whether all words of a pattern fit; a word with the byte of a wildcard fits none. */
static bool all_fit(const struct pattern *pattern, char *const *words) {
    const char *at = pattern->words;
    for (size_t i = 0; i < pattern->count; i++, at += strlen(at) + 1)
        if (words[i] == NULL || strpbrk(words[i], "\1\2") != NULL || !fits(at, words[i]))
            return false;
    return words[pattern->count] == NULL;
}

bool allowed_fits(const struct allowed *allowed, char *const *words) {
    for (const struct pattern *pattern = allowed->first; pattern != NULL; pattern = pattern->next)
        if (all_fit(pattern, words))
            return true;
    return false;
}
