#define _GNU_SOURCE
#include "lines.h"

#include <math.h>
#include <stdio.h>
#include <stdlib.h>
#include <string.h>

#define REPLACEMENT "\\ufffd"
/* The longest limit, in seconds: a day. */
static const double LONGEST = 86400.0;

/* ---- UTF-8 */

static char *put_character(char *to, unsigned point) {
    if (point < 0x80) {
        *to++ = (char)point;
    } else if (point < 0x800) {
        *to++ = (char)(0xC0 | point >> 6);
        *to++ = (char)(0x80 | (point & 0x3F));
    } else if (point < 0x10000) {
        *to++ = (char)(0xE0 | point >> 12);
        *to++ = (char)(0x80 | (point >> 6 & 0x3F));
        *to++ = (char)(0x80 | (point & 0x3F));
    } else {
        *to++ = (char)(0xF0 | point >> 18);
        *to++ = (char)(0x80 | (point >> 12 & 0x3F));
        *to++ = (char)(0x80 | (point >> 6 & 0x3F));
        *to++ = (char)(0x80 | (point & 0x3F));
    }
    return to;
}

/* The number of bytes of the character that begins with this byte; 0 if no character does. */
static size_t length_by_lead(unsigned char lead) {
    return lead < 0x80 ? 1 : lead >= 0xC2 && lead < 0xE0 ? 2 : lead >= 0xE0 && lead < 0xF0 ? 3 : lead >= 0xF0 && lead < 0xF5 ? 4 : 0;
}

/* The number of bytes of the character at `at`; 0 at the end or if the bytes are no character. */
static size_t character_length(const unsigned char *at, size_t left) {
    size_t length = length_by_lead(*at);
    if (length == 0 || length > left)
        return 0;
    for (size_t i = 1; i < length; i++)
        if ((at[i] & 0xC0) != 0x80)
            return 0;
    bool is_overlong = (*at == 0xE0 && at[1] < 0xA0) || (*at == 0xF0 && at[1] < 0x90);
    bool is_none = (*at == 0xED && at[1] >= 0xA0) || (*at == 0xF4 && at[1] >= 0x90);
    return is_overlong || is_none ? 0 : length;
}

/* The length of these bytes without a character that the cut has split. */
static size_t whole_length(struct kept kept) {
    if (kept.length < MOST_KEPT)
        return kept.length;
    size_t lead = MOST_KEPT - 1;
    while (lead > MOST_KEPT - 4 && ((unsigned char)kept.bytes[lead] & 0xC0) == 0x80)
        lead--;
    return length_by_lead((unsigned char)kept.bytes[lead]) > MOST_KEPT - lead ? lead : MOST_KEPT;
}

/* ---- jobs */

static char *skip_spaces(char *at) {
    return at + strspn(at, " \t\r\n");
}

/* The four digits of `\uXXXX`; -1 if they aren't there. */
static long hexadecimal(const char *at) {
    char digits[5] = {0}, *rest;
    memcpy(digits, at, strnlen(at, 4));
    long value = strtol(digits, &rest, 16);
    return rest == digits + 4 && strspn(digits, "0123456789abcdefABCDEF") == 4 ? value : -1;
}

/* Reads the character after a backslash into `to`, and returns the rest of the text; NULL if it isn't a character. No word can have a NUL. */
static char *read_escape(char *at, char **to) {
    static const char letters[] = "\"\\/bfnrt", meant[] = "\"\\/\b\f\n\r\t";
    const char *letter = *at == '\0' ? NULL : strchr(letters, *at);
    if (letter != NULL) {
        *(*to)++ = meant[letter - letters];
        return at + 1;
    }
    long point = *at == 'u' ? hexadecimal(at + 1) : -1;
    if (point <= 0 || (point >= 0xDC00 && point < 0xE000))
        return NULL;
    at += 5;
    if (point >= 0xD800 && point < 0xDC00) {
        long low = at[0] == '\\' && at[1] == 'u' ? hexadecimal(at + 2) : -1;
        if (low < 0xDC00 || low >= 0xE000)
            return NULL;
        point = 0x10000 + ((point - 0xD800) << 10) + (low - 0xDC00);
        at += 6;
    }
    *to = put_character(*to, (unsigned)point);
    return at;
}

/* Reads a text in place: `*word` is its first byte, and a NUL ends it. Returns the rest of the line, or NULL. */
static char *read_text(char *at, char **word) {
    at = skip_spaces(at);
    if (*at++ != '"')
        return NULL;
    char *to = *word = at;
    while (*at != '"') {
        if (*at == '\0')
            return NULL;
        if (*at == '\\') {
            at = read_escape(at + 1, &to);
            if (at == NULL)
                return NULL;
        } else {
            *to++ = *at++;
        }
    }
    *to = '\0';
    return at + 1;
}

/* Reads a list of one or more texts into `list`, which has room for one text per comma and one more, and for the NULL after them. */
static char *read_list(char *at, char **list) {
    at = skip_spaces(at);
    if (*at++ != '[')
        return NULL;
    do {
        at = read_text(at, list++);
        if (at == NULL)
            return NULL;
        at = skip_spaces(at);
    } while (*at++ == ',');
    return at[-1] == ']' ? at : NULL;
}

static char *read_words(char *at, char ***words) {
    size_t most = 2;
    for (const char *comma = strchr(at, ','); comma != NULL; comma = strchr(comma + 1, ','))
        most++;
    *words = calloc(most, sizeof **words);
    return *words == NULL ? NULL : read_list(at, *words);
}

/* Reads one member of a job. */
static char *read_member(char *at, struct job *job) {
    char *name;
    at = read_text(at, &name);
    if (at == NULL)
        return NULL;
    at = skip_spaces(at);
    if (*at++ != ':')
        return NULL;
    if (strcmp(name, "words") == 0 && job->words == NULL)
        return read_words(at, &job->words);
    char *rest = at;
    long long number = strcmp(name, "job") == 0 ? strtoll(at, &rest, 10) : -1;
    if (strcmp(name, "limit") == 0)
        job->limit = strtod(at, &rest);
    else if (rest != at)
        job->number = number;
    return rest == at ? NULL : rest;
}

static bool read_members(char *line, struct job *job) {
    char *at = skip_spaces(line);
    if (*at++ != '{')
        return false;
    do {
        at = read_member(at, job);
        if (at == NULL)
            return false;
        at = skip_spaces(at);
    } while (*at++ == ',');
    return at[-1] == '}' && *skip_spaces(at) == '\0';
}

bool job_read(char *line, struct job *job) {
    *job = (struct job){.number = -1, .limit = NAN};
    bool is_read = read_members(line, job);
    if (job->number < 0)
        job->number = -1;
    return is_read && job->number >= 0 && job->limit > 0 && job->limit <= LONGEST && job->words != NULL;
}

void job_free(struct job *job) {
    free(job->words);
    job->words = NULL;
}

/* ---- results */

/* Writes bytes as a text of JSON. */
static char *write_text(char *to, struct kept text) {
    size_t length = whole_length(text);
    *to++ = '"';
    for (size_t at = 0; at < length;) {
        unsigned char byte = (unsigned char)text.bytes[at];
        size_t size = character_length((const unsigned char *)text.bytes + at, length - at);
        if (size == 0) {
            to = stpcpy(to, REPLACEMENT);
            size = 1;
        } else if (byte == '"' || byte == '\\' || byte < 0x20) {
            to += sprintf(to, byte < 0x20 ? "\\u%04x" : "\\%c", byte);
        } else {
            to = mempcpy(to, text.bytes + at, size);
        }
        at += size;
    }
    *to++ = '"';
    return to;
}

char *write_result(char *to, long long job, struct ending ending, struct kept output, struct kept errors) {
    to += sprintf(to, "{\"job\":%lld,\"code\":%d,\"end\":\"%s\",\"output\":", job, ending.code, ending.end);
    to = write_text(to, output);
    if (errors.length > 0)
        to = write_text(stpcpy(to, ",\"stderr\":"), errors);
    return stpcpy(to, ending.is_stuck ? ",\"stuck\":true}\n" : "}\n");
}

char *write_lost(char *to, long long job, struct kept why) {
    to += sprintf(to, "{\"job\":%lld,\"lost\":", job);
    return stpcpy(write_text(to, why), "}\n");
}

char *write_gone(char *to, long long job) {
    return to + sprintf(to, "{\"job\":%lld,\"gone\":true}\n", job);
}

char *write_error(char *to, struct kept why) {
    return stpcpy(write_text(stpcpy(to, "{\"error\":"), why), "}\n");
}
