/* Kuvteleg for C99 and C++: which interval of which OpenADR 3.0 event governs a resource, and until when.
 *
 * An editor takes programs, vens, resources and events as JSON bodies, and publishes them. Readers answer from one
 * publication each. What the calls answer is proved of the library; docs/SCRIPT.md has what bodies, lines, replies and
 * refusals mean.
 *
 *     #include <kuvteleg.h>
 *     #include <stdio.h>
 *     #include <string.h>
 *
 *     static kuvteleg_editor editor;
 *     static uint64_t version, number;
 *
 *     static uint32_t create(uint32_t kind, const char *id, const char *body) {
 *         return kuvteleg_create(&editor, 1704067200, 0, kind, (const uint8_t *)id, strlen(id), (const uint8_t *)body, strlen(body), &version);
 *     }
 *
 *     int main(void) {
 *         kuvteleg_reader reader = {0};
 *         kuvteleg_state state;
 *         uint8_t out[4096];
 *         size_t len;
 *         if (kuvteleg_open(&editor, KUVTELEG_NEWEST)) return 1;
 *         if (create(KUVTELEG_PROGRAM, "p1", "{\"programName\":\"P\"}")) return 1;
 *         if (create(KUVTELEG_VEN, "v1", "{\"venName\":\"V\"}")) return 1;
 *         if (create(KUVTELEG_RESOURCE, "r1", "{\"resourceName\":\"R\",\"venID\":\"v1\"}")) return 1;
 *         if (create(KUVTELEG_EVENT, "e1",
 *                    "{\"programID\":\"p1\",\"intervals\":[{\"id\":0,\"payloads\":[{\"type\":\"PRICE\",\"values\":[17]}],"
 *                    "\"intervalPeriod\":{\"start\":\"2024-01-01T00:00:00Z\",\"duration\":\"PT1H\"}}]}")) return 1;
 *         if (kuvteleg_publish(&editor, &number, &version) || kuvteleg_look(&editor, &reader)) return 1;
 *         if (kuvteleg_governor(&reader, (const uint8_t *)"r1", 2, (const uint8_t *)"PRICE", 5, 1704069000, 0, &state, out, sizeof out, &len)) return 1;
 *         if (state.is_governed && len <= sizeof out)
 *             printf("event %.*s interval %lld until %lld values %.*s\n", (int)state.event_len, (char *)out, (long long)state.interval,
 *                    (long long)state.until_seconds, (int)state.values_len, (char *)out + state.event_len);
 *         kuvteleg_leave(&reader);
 *         return kuvteleg_close(&editor) != 0;
 *     }
 *
 * It prints: event e1 interval 0 until 1704070800 values [17]
 *
 * Threads. Editors and readers are independent: each may be in a call while others are, and each may be closed first. A
 * reader's publication never changes, whatever the editor does.
 *
 * What the caller must keep, since nothing checks it:
 *   - a handle goes to one call at a time, from any thread; calls on one handle are ordered by a lock, or by handing it over;
 *   - a handle may be moved: assign it, and don't use the old struct again; two handles that go to one call are two structs;
 *   - no pointer is null, also where its length is 0, and no length is above PTRDIFF_MAX; `out` and what numbers are written to
 *     overlap neither each other nor what else goes to the call;
 *   - malloc, realloc and free are those of one allocator, to which any thread may give blocks back (bindings/c/heap.c);
 *   - no call is made from a signal handler, nor in a forked child of a process with threads.
 */
#ifndef KUVTELEG_H
#define KUVTELEG_H
#include <stddef.h>
#include <stdint.h>
#ifdef __cplusplus
extern "C" {
#endif

/* A handle is a struct that the caller keeps. One of zeros is closed; `at` is the library's own. */
typedef struct { uint8_t is_open; void *at; } kuvteleg_editor;
typedef struct { uint8_t is_open; void *at; } kuvteleg_reader;

/* What a call answers: 0, or why it is refused. A refused call changes no object and no publication; a refused line, query
 * or kuvteleg_governor drops the reply that its handle held. Of several faults the least is answered; KUVTELEG_NO_MEMORY may
 * come in place of any, and the same call may do better later. */
enum {
    KUVTELEG_OK = 0,
    KUVTELEG_LONG_LINE = 1,         /* a line of more than 4,194,304 bytes */
    KUVTELEG_BAD_LINE = 2,          /* a line of no form of the script, or of none that a reader answers */
    KUVTELEG_BAD_MOMENT = 3,        /* no instant, or one out of range; 1,000,000,000 nanoseconds and more */
    KUVTELEG_BAD_ID = 4,            /* an id that isn't 1 to 128 letters, digits, _ and - */
    KUVTELEG_BAD_NUMBER = 5,        /* 5 to 21: of a body */
    KUVTELEG_BAD_JSON = 6,
    KUVTELEG_NOT_OBJECT = 7,
    KUVTELEG_WRONG_KIND = 8,
    KUVTELEG_ID_MISMATCH = 9,
    KUVTELEG_MISSING = 10,
    KUVTELEG_WRONG_TYPE = 11,
    KUVTELEG_BAD_TEXT = 12,         /* also of a payload type */
    KUVTELEG_BAD_DATE_TIME = 13,
    KUVTELEG_BAD_DURATION = 14,
    KUVTELEG_NEGATIVE_DURATION = 15,
    KUVTELEG_BAD_PRIORITY = 16,
    KUVTELEG_BAD_SHAPE = 17,
    KUVTELEG_TOO_MANY = 18,
    KUVTELEG_NO_START = 19,
    KUVTELEG_AFTER_ENDLESS = 20,
    KUVTELEG_TIME_RANGE = 21,
    KUVTELEG_EXISTS = 22,           /* a create of an id that is there */
    KUVTELEG_NOT_THERE = 23,        /* a change or delete of an id that isn't there */
    KUVTELEG_NO_PROGRAM = 24,       /* an event names no program that is there */
    KUVTELEG_NO_VEN = 25,           /* a resource names no ven that is there */
    KUVTELEG_IN_USE = 26,           /* a delete of a program or ven that is named */
    KUVTELEG_FULL = 27,             /* a limit of the objects, the edits or the publications */
    KUVTELEG_BAD_WINDOW = 28,       /* `list` of a window that doesn't begin before it ends */
    KUVTELEG_UNKNOWN_RESOURCE = 29, /* the publication has no such resource */
    KUVTELEG_NO_MEMORY = 99,
    KUVTELEG_CLOSED = 100,          /* a handle that the call needs open is closed */
    KUVTELEG_OPEN = 101,            /* a handle that kuvteleg_open needs closed is open */
    KUVTELEG_BAD_TIE = 102,         /* no such rule for ties */
    KUVTELEG_BAD_KIND = 103         /* no such kind of object */
};

/* The name of a code, as in docs/SCRIPT.md. That of 0 is "Ok", and that of a number that is no code is "Unknown". */
static inline const char *kuvteleg_name(uint32_t code) {
    static const char *const low[] = {
        "Ok", "LongLine", "BadLine", "BadMoment", "BadId", "BadNumber", "BadJson", "NotObject", "WrongKind", "IdMismatch",
        "Missing", "WrongType", "BadText", "BadDateTime", "BadDuration", "NegativeDuration", "BadPriority", "BadShape", "TooMany",
        "NoStart", "AfterEndless", "TimeRange", "Exists", "NotThere", "NoProgram", "NoVen", "InUse", "Full", "BadWindow",
        "UnknownResource"
    };
    switch (code) {
    case 98: return "NoRuntime";
    case KUVTELEG_NO_MEMORY: return "NoMemory";
    case KUVTELEG_CLOSED: return "Closed";
    case KUVTELEG_OPEN: return "Open";
    case KUVTELEG_BAD_TIE: return "BadTie";
    case KUVTELEG_BAD_KIND: return "BadKind";
    default: return code < sizeof low / sizeof *low ? low[code] : "Unknown";
    }
}

/* Which of two intervals of one priority governs: that of the event written last, or the one that starts latest. */
enum { KUVTELEG_NEWEST = 0, KUVTELEG_LATEST_START = 1 };

/* Kinds of object. */
enum { KUVTELEG_PROGRAM = 0, KUVTELEG_EVENT = 1, KUVTELEG_VEN = 2, KUVTELEG_RESOURCE = 3 };

/* ---- the editor
 * A moment is seconds since 1970-01-01T00:00:00Z, negative before it, and 0 to 999,999,999 nanoseconds after them. */

/* Opens an editor with no objects, published as number 0, in a closed handle. */
uint32_t kuvteleg_open(kuvteleg_editor *editor, uint32_t tie);

/* Edits at a moment, for which an event's zero starts stand; a delete has none. The id and the body are bytes, the body a JSON
 * object of the kind. `version` is told how many edits were accepted so far. The object of a change takes the place of the whole
 * object. */
uint32_t kuvteleg_create(kuvteleg_editor *editor, int64_t seconds, uint32_t nanoseconds, uint32_t kind,
                         const uint8_t *id, size_t id_len, const uint8_t *body, size_t body_len, uint64_t *version);
uint32_t kuvteleg_change(kuvteleg_editor *editor, int64_t seconds, uint32_t nanoseconds, uint32_t kind,
                         const uint8_t *id, size_t id_len, const uint8_t *body, size_t body_len, uint64_t *version);
uint32_t kuvteleg_delete(kuvteleg_editor *editor, uint32_t kind, const uint8_t *id, size_t id_len, uint64_t *version);

/* Publishes the objects as they are, under the next number, for readers that look from now on. It waits for nobody. */
uint32_t kuvteleg_publish(kuvteleg_editor *editor, uint64_t *number, uint64_t *version);

/* Lets go of what is kept of the edits before the last publication, whose version is told. The limit of 1,000,000 edits
 * counts from there on. */
uint32_t kuvteleg_condense(kuvteleg_editor *editor, uint64_t *version);

/* Answers a line of the script, without its line feed. *len is the length of the reply, its line feed counted. The reply is in
 * `out` where *len is at most `room`; else `out` is left alone, the code is 0 all the same, and kuvteleg_reply gives the same reply
 * once more, to more room. A refused line has no reply, and a length of 0. */
uint32_t kuvteleg_line(kuvteleg_editor *editor, const uint8_t *line, size_t line_len, uint8_t *out, size_t room, size_t *len);
uint32_t kuvteleg_reply(kuvteleg_editor *editor, uint8_t *out, size_t room, size_t *len);

/* Closes the editor. Readers keep their publications. */
uint32_t kuvteleg_close(kuvteleg_editor *editor);

/* ---- readers: each sees one publication until it looks again */

/* The reader, closed or open, sees the editor's last publication from now on. Of one editor, a later look never shows an
 * earlier publication. */
uint32_t kuvteleg_look(kuvteleg_editor *editor, kuvteleg_reader *reader);

/* The second reader, closed or open, sees what the first one sees. */
uint32_t kuvteleg_share(kuvteleg_reader *from, kuvteleg_reader *to);

/* The number of the publication, and how many edits had been accepted when it was made. */
uint32_t kuvteleg_seen(kuvteleg_reader *reader, uint64_t *number, uint64_t *version);

/* Answers a query of the script (at, list, roll, types), as kuvteleg_line answers a line. */
uint32_t kuvteleg_ask(kuvteleg_reader *reader, const uint8_t *line, size_t line_len, uint8_t *out, size_t room, size_t *len);
uint32_t kuvteleg_answer(kuvteleg_reader *reader, uint8_t *out, size_t room, size_t *len);

/* Closes the reader, which lets its publication go. */
uint32_t kuvteleg_leave(kuvteleg_reader *reader);

typedef struct {
    uint8_t is_governed;         /* 0: nothing governs at the moment; interval, event_len and values_len are 0 */
    uint8_t is_endless;          /* 1: nothing changes later, and both parts of `until` are 0 */
    uint32_t until_nanoseconds;  /* 0 to 999,999,999, after until_seconds */
    int64_t until_seconds;       /* the next moment at which something else governs, rounded down to a second */
    int64_t interval;            /* the interval's own id */
    size_t event_len;            /* the event's id is the first event_len bytes of the answer */
    size_t values_len;           /* its values as a JSON array are the values_len bytes behind it; a point is {"x":1,"y":2} */
} kuvteleg_state;

/* What governs the resource for the payload type at the moment. *len is event_len + values_len; the bytes are in `out` where
 * they are at most `room`, else kuvteleg_answer gives them. A refused call leaves `state`, and has no answer. */
uint32_t kuvteleg_governor(kuvteleg_reader *reader, const uint8_t *resource, size_t resource_len, const uint8_t *type, size_t type_len,
                           int64_t seconds, uint32_t nanoseconds, kuvteleg_state *state, uint8_t *out, size_t room, size_t *len);

#ifdef __cplusplus
}
#endif
#endif
