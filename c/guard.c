/* The guard of the C library: it checks what the proved functions can't see of a pointer. It is C, read and tested, not proved.
 *
 * This file has each function of nagsched.h that takes pointers. It returns NAGSCHED_WRONG if one of them is NULL, or if two of
 * one type are the same, and calls the proved function otherwise. tools/build_c.sh gives the proved nagsched_open the name
 * nagsched_proved_open, and so on, and links the proved functions with these.
 *
 * The proved functions that open a desk also take its mark, which keeps the passes of two desks apart. The one that closes a desk leaves
 * the book in the handle of the pass, from which this file moves it to a handle for a book.
 */
#include "nagsched.h"

#include <stdatomic.h>

/* A function of the header: its name after nagsched_, its parameters, the condition on them, and their names. */
#define GUARDED(name, parameters, has_to_be, names)                  \
    uint32_t nagsched_proved_##name parameters;                      \
    enum nagsched_result nagsched_##name parameters {                \
        if (!(has_to_be)) return NAGSCHED_WRONG;                     \
        return (enum nagsched_result)nagsched_proved_##name names;   \
    }

/* A mark that no other desk of the process has: a mark is repeated only after 2^64 desks. */
static uint64_t new_mark(void) {
    static _Atomic uint64_t marks;
    return atomic_fetch_add(&marks, 1);
}

/* The same for a function that only reads a handle of a type, which it takes as const. The proved function takes the target out of a
 * handle and puts it back, and it does so with a copy of the handle. So it writes nothing that another thread may read.
 */
#define GUARDED_READER(name, type, read, parameters, has_to_be, names) \
    uint32_t nagsched_proved_##name parameters;                        \
    enum nagsched_result nagsched_##name parameters {                  \
        if (!(has_to_be)) return NAGSCHED_WRONG;                       \
        type copy = *read;                                             \
        return (enum nagsched_result)nagsched_proved_##name names;     \
    }

/* Whether a handle is different from these others. */
#define IS_NONE_OF(handle, others, count) ((uintptr_t)(handle) - (uintptr_t)(others) >= (count) * sizeof *(others))

typedef struct nagsched_handle handle;
typedef struct nagsched_setup setup;
typedef struct nagsched_pass pass;
typedef struct nagsched_book book;
typedef struct nagsched_history history;
typedef struct nagsched_refusal refusal;
typedef struct nagsched_call call;
typedef struct nagsched_reply reply;
typedef struct nagsched_entry entry;
typedef struct nagsched_standing standing;

GUARDED(read, (const char *document, size_t bytes, setup *made, refusal *told), document && made && told, (document, bytes, made, told))

GUARDED(refusal_text, (const refusal *told, char *text, size_t room, size_t *length), told && text && length, (told, text, room, length))
GUARDED_READER(reply_text, handle, named, (const handle *named, const call *made, const reply *came, char *text, size_t room, size_t *length),
               named && made && came && text && length, (&copy, made, came, text, room, length))
GUARDED_READER(entry_text, handle, named, (const handle *named, const entry *told, char *text, size_t room, size_t *length),
               named && told && text && length, (&copy, told, text, room, length))

GUARDED_READER(count, handle, named, (const handle *named, uint32_t *objects, uint32_t *hosts), named && objects && hosts && objects != hosts,
               (&copy, objects, hosts))
GUARDED_READER(number, handle, named, (const handle *named, const char *name, size_t bytes, uint32_t *number), named && name && number,
               (&copy, name, bytes, number))
GUARDED_READER(name, handle, named, (const handle *named, uint32_t number, char *name, size_t room, size_t *length), named && name && length,
               (&copy, number, name, room, length))
GUARDED_READER(host_of, handle, named, (const handle *named, uint32_t number, uint32_t *host), named && host, (&copy, number, host))

uint32_t nagsched_proved_open(handle *source, uint64_t start, size_t room, uint64_t mark, pass *passes, size_t count);
enum nagsched_result nagsched_open(handle *source, uint64_t start, size_t room, pass *passes, size_t count) {
    if (!(source && passes && IS_NONE_OF(source, passes, count))) return NAGSCHED_WRONG;
    return (enum nagsched_result)nagsched_proved_open(source, start, room, new_mark(), passes, count);
}

uint32_t nagsched_proved_open_with(handle *source, uint64_t start, size_t room, uint64_t mark, uint64_t calls, pass *passes, size_t count);
enum nagsched_result nagsched_open_with(handle *source, uint64_t start, size_t room, uint64_t calls, pass *passes, size_t count) {
    if (!(source && passes && IS_NONE_OF(source, passes, count))) return NAGSCHED_WRONG;
    return (enum nagsched_result)nagsched_proved_open_with(source, start, room, new_mark(), calls, passes, count);
}

GUARDED(try_take, (pass *own, uint64_t now, reply *came), own && came, (own, now, came))
GUARDED(try_report, (pass *own, uint32_t object, uint64_t run, enum nagsched_code code, reply *came), own && came, (own, object, run, code, came))
GUARDED(try_abandon, (pass *own, uint32_t object, uint64_t run, uint64_t now, reply *came), own && came, (own, object, run, now, came))
GUARDED(try_reschedule, (pass *own, uint32_t object, uint64_t time, uint32_t forced, reply *came), own && came,
        (own, object, time, forced, came))
GUARDED(try_enable, (pass *own, uint32_t object, uint32_t on, reply *came), own && came, (own, object, on, came))
GUARDED(try_status, (pass *own, uint32_t object, reply *came), own && came, (own, object, came))

GUARDED(glance, (pass *own, uint32_t object, standing *seen), own && seen, (own, object, seen))
GUARDED(gather, (pass *own, pass *other), own && other && own != other, (own, other))

/* The proved function leaves the book in the handle of the pass. */
uint32_t nagsched_proved_close(handle *ended);
enum nagsched_result nagsched_close(pass *ended, book *kept) {
    if (!(ended && kept && !kept->handle.full)) return NAGSCHED_WRONG;
    enum nagsched_result status = (enum nagsched_result)nagsched_proved_close(&ended->handle);
    if (status == NAGSCHED_OK) {
        kept->handle = ended->handle;
        ended->handle = (handle){0, 0};
    }
    return status;
}

GUARDED_READER(entries, handle, kept, (const handle *kept, uint64_t *count), kept && count, (&copy, count))
GUARDED_READER(entry, handle, kept, (const handle *kept, uint64_t index, entry *told), kept && told, (&copy, index, told))
GUARDED_READER(refused, book, kept, (const book *kept, uint64_t *count), kept && count, (&copy, count))
GUARDED(renew, (book *kept, size_t room, history *old), kept && old && &kept->handle != &old->handle, (kept, room, old))
GUARDED_READER(save, book, kept, (const book *kept, char *text, size_t room, size_t *length), kept && text && length,
               (&copy, text, room, length))
GUARDED(resume, (setup *given, const char *text, size_t bytes, uint64_t start, size_t room, book *made, refusal *told),
        given && text && made && told && &given->handle != &made->handle, (given, text, bytes, start, room, made, told))
GUARDED_READER(running, book, kept, (const book *kept, uint32_t object, uint64_t *run, uint64_t *start), kept && run && start && run != start,
               (&copy, object, run, start))
GUARDED(free, (handle *given), given, (given))
