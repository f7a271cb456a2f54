/* Calls each function of the library, in the right and in the wrong order, and measures what lists keep. */
#include "kuvteleg.h"
#include <ctype.h>
#include <stdio.h>
#include <stdlib.h>
#include <string.h>

/* The Rust crate and the Python package write these layouts out. */
_Static_assert(sizeof(kuvteleg_editor) == 16 && sizeof(kuvteleg_reader) == 16, "a handle is a byte and a pointer");
_Static_assert(sizeof(kuvteleg_state) == 40 && offsetof(kuvteleg_state, until_seconds) == 8 && offsetof(kuvteleg_state, event_len) == 24,
               "a state is two bytes, four, and four times eight");

static unsigned passed, failed;
#define SEE(it) ((it) ? (void)passed++ : (void)(failed++, printf("test.c:%d: not so: %s\n", __LINE__, #it)))

static const char *const EVENT =
    "{\"programID\":\"p1\",\"intervals\":[{\"id\":7,\"intervalPeriod\":{\"start\":\"2024-01-01T00:00:00Z\",\"duration\":\"PT1H\"},\"payloads\":["
    "{\"type\":\"PRICE\",\"values\":[0.170,-3]},{\"type\":\"CURVE\",\"values\":[{\"x\":0,\"y\":1.5},{\"x\":1,\"y\":2}]},"
    "{\"type\":\"ALERT_OTHER\",\"values\":[\"a \\\"b\\\" \\u0001\"]},{\"type\":\"a type\",\"values\":[true]},{\"type\":\"ALERT_FIRE\",\"values\":[]}]}]}";
static const int64_t NEW_YEAR = 1704067200; /* 2024-01-01T00:00:00Z */

static uint8_t out[4096];
static size_t len;
static uint64_t number, version;
static kuvteleg_state state;

static const uint8_t *bytes(const char *text) { return (const uint8_t *)text; }
static int told(const char *text) { return len == strlen(text) && memcmp(out, text, len) == 0; }
static uint32_t tell(kuvteleg_editor *editor, const char *line) {
    return kuvteleg_line(editor, bytes(line), strlen(line), out, sizeof out, &len);
}
static uint32_t ask(kuvteleg_reader *reader, const char *line) {
    return kuvteleg_ask(reader, bytes(line), strlen(line), out, sizeof out, &len);
}
static uint32_t create(kuvteleg_editor *editor, uint32_t kind, const char *id, const char *body) {
    return kuvteleg_create(editor, NEW_YEAR, 0, kind, bytes(id), strlen(id), bytes(body), strlen(body), &version);
}
static uint32_t change(kuvteleg_editor *editor, uint32_t kind, const char *id, const char *body) {
    return kuvteleg_change(editor, NEW_YEAR, 0, kind, bytes(id), strlen(id), bytes(body), strlen(body), &version);
}
static uint32_t delete(kuvteleg_editor *editor, uint32_t kind, const char *id) {
    return kuvteleg_delete(editor, kind, bytes(id), strlen(id), &version);
}
static uint32_t governor(kuvteleg_reader *reader, const char *resource, const char *type, int64_t seconds, uint32_t nanoseconds) {
    return kuvteleg_governor(reader, bytes(resource), strlen(resource), bytes(type), strlen(type), seconds, nanoseconds, &state, out,
                             sizeof out, &len);
}
/* Whether an event governs with these values, to one in the morning of the new year. */
static int governs(const char *event, const char *values) {
    return state.is_governed && !state.is_endless && state.until_seconds == NEW_YEAR + 3600 && state.until_nanoseconds == 0 &&
           state.event_len == strlen(event) && memcmp(out, event, state.event_len) == 0 && state.values_len == strlen(values) &&
           memcmp(out + state.event_len, values, state.values_len) == 0 && len == state.event_len + state.values_len;
}

static void fill(kuvteleg_editor *editor) {
    SEE(create(editor, KUVTELEG_PROGRAM, "p1", "{\"programName\":\"P\"}") == KUVTELEG_OK && version == 1);
    SEE(create(editor, KUVTELEG_VEN, "v1", "{\"venName\":\"V\"}") == KUVTELEG_OK && version == 2);
    SEE(create(editor, KUVTELEG_RESOURCE, "r1", "{\"resourceName\":\"R\",\"venID\":\"v1\"}") == KUVTELEG_OK && version == 3);
    SEE(create(editor, KUVTELEG_EVENT, "e1", EVENT) == KUVTELEG_OK && version == 4);
}

/* A closed handle is answered so by every call, and nothing that the caller lent is written but a length of 0. */
static void closed_handles(void) {
    kuvteleg_editor editor = {0};
    kuvteleg_reader one = {0}, two = {0};
    number = version = 7;
    SEE(tell(&editor, "publish") == KUVTELEG_CLOSED && len == 0);
    len = 9;
    SEE(kuvteleg_reply(&editor, out, sizeof out, &len) == KUVTELEG_CLOSED && len == 0);
    SEE(create(&editor, KUVTELEG_PROGRAM, "p1", "{}") == KUVTELEG_CLOSED && change(&editor, KUVTELEG_PROGRAM, "p1", "{}") == KUVTELEG_CLOSED);
    SEE(delete(&editor, KUVTELEG_PROGRAM, "p1") == KUVTELEG_CLOSED);
    SEE(kuvteleg_publish(&editor, &number, &version) == KUVTELEG_CLOSED && kuvteleg_condense(&editor, &version) == KUVTELEG_CLOSED);
    SEE(kuvteleg_look(&editor, &one) == KUVTELEG_CLOSED && !one.is_open && kuvteleg_share(&one, &two) == KUVTELEG_CLOSED && !two.is_open);
    SEE(ask(&one, "types r1") == KUVTELEG_CLOSED && len == 0);
    SEE(governor(&one, "r1", "PRICE", NEW_YEAR, 0) == KUVTELEG_CLOSED && len == 0);
    SEE(kuvteleg_answer(&one, out, sizeof out, &len) == KUVTELEG_CLOSED && kuvteleg_seen(&one, &number, &version) == KUVTELEG_CLOSED);
    SEE(kuvteleg_leave(&one) == KUVTELEG_CLOSED && kuvteleg_close(&editor) == KUVTELEG_CLOSED);
    SEE(number == 7 && version == 7);
    SEE(kuvteleg_open(&editor, 2) == KUVTELEG_BAD_TIE && !editor.is_open);
    SEE(kuvteleg_open(&editor, KUVTELEG_LATEST_START) == KUVTELEG_OK && kuvteleg_open(&editor, KUVTELEG_NEWEST) == KUVTELEG_OPEN);
    SEE(kuvteleg_close(&editor) == KUVTELEG_OK && kuvteleg_close(&editor) == KUVTELEG_CLOSED);
}

/* Refused edits, and that they change nothing. */
static void refused_edits(kuvteleg_editor *editor) {
    version = 7;
    SEE(create(editor, 4, "p1", "{}") == KUVTELEG_BAD_KIND && change(editor, 4, "p1", "{}") == KUVTELEG_BAD_KIND && delete(editor, 4, "p1") == KUVTELEG_BAD_KIND);
    SEE(create(editor, KUVTELEG_PROGRAM, "p1", "{\"programName\":\"P\"}") == KUVTELEG_EXISTS);
    SEE(change(editor, KUVTELEG_PROGRAM, "p2", "{\"programName\":\"P\"}") == KUVTELEG_NOT_THERE);
    SEE(delete(editor, KUVTELEG_VEN, "v1") == KUVTELEG_IN_USE && delete(editor, KUVTELEG_VEN, "v2") == KUVTELEG_NOT_THERE);
    SEE(create(editor, KUVTELEG_VEN, "a b", "{\"venName\":\"V\"}") == KUVTELEG_BAD_ID && create(editor, KUVTELEG_VEN, "", "{\"venName\":\"V\"}") == KUVTELEG_BAD_ID);
    SEE(create(editor, KUVTELEG_VEN, "v2", "") == KUVTELEG_BAD_JSON && create(editor, KUVTELEG_VEN, "v2", "[]") == KUVTELEG_NOT_OBJECT);
    SEE(kuvteleg_create(editor, NEW_YEAR, 1000000000, KUVTELEG_VEN, bytes("v2"), 2, bytes("{}"), 2, &version) == KUVTELEG_BAD_MOMENT);
    SEE(kuvteleg_create(editor, INT64_MAX, 0, KUVTELEG_VEN, bytes("v2"), 2, bytes("{}"), 2, &version) == KUVTELEG_BAD_MOMENT);
    SEE(kuvteleg_create(editor, INT64_MIN, 0, KUVTELEG_VEN, bytes("v2"), 2, bytes("{}"), 2, &version) == KUVTELEG_BAD_MOMENT);
    SEE(tell(editor, "") == KUVTELEG_BAD_LINE && tell(editor, "publish ") == KUVTELEG_BAD_LINE && len == 0);
    SEE(version == 7);
}

/* A refused line or query drops the reply that its handle held; a refused edit leaves it. */
static void dropped_replies(kuvteleg_editor *editor, kuvteleg_reader *reader) {
    SEE(tell(editor, "at r1 PRICE 2024-01-01T01:00:00Z") == KUVTELEG_OK && delete(editor, KUVTELEG_VEN, "v1") == KUVTELEG_IN_USE);
    SEE(kuvteleg_reply(editor, out, sizeof out, &len) == KUVTELEG_OK && told("version 4 none until end\n"));
    SEE(tell(editor, "at") == KUVTELEG_BAD_LINE && kuvteleg_reply(editor, out, sizeof out, &len) == KUVTELEG_OK && len == 0);
    SEE(ask(reader, "types r1") == KUVTELEG_OK && ask(reader, "types") == KUVTELEG_BAD_LINE);
    SEE(kuvteleg_answer(reader, out, sizeof out, &len) == KUVTELEG_OK && len == 0);
    SEE(ask(reader, "types r1") == KUVTELEG_OK && governor(reader, "", "PRICE", NEW_YEAR, 0) == KUVTELEG_BAD_ID);
    SEE(kuvteleg_answer(reader, out, sizeof out, &len) == KUVTELEG_OK && len == 0);
}

static void typed_answers(kuvteleg_reader *reader) {
    SEE(governor(reader, "r1", "PRICE", NEW_YEAR + 1800, 0) == KUVTELEG_OK && governs("e1", "[0.17,-3]") && state.interval == 7);
    SEE(governor(reader, "r1", "PRICE", NEW_YEAR + 3599, 999999999) == KUVTELEG_OK && governs("e1", "[0.17,-3]"));
    SEE(governor(reader, "r1", "CURVE", NEW_YEAR, 0) == KUVTELEG_OK && governs("e1", "[{\"x\":0,\"y\":1.5},{\"x\":1,\"y\":2}]"));
    SEE(governor(reader, "r1", "ALERT_OTHER", NEW_YEAR, 0) == KUVTELEG_OK && governs("e1", "[\"a \\\"b\\\" \\u0001\"]"));
    SEE(governor(reader, "r1", "ALERT_FIRE", NEW_YEAR, 0) == KUVTELEG_OK && governs("e1", "[]"));
    SEE(governor(reader, "r1", "PRICE", NEW_YEAR - 1, 999999999) == KUVTELEG_OK && !state.is_governed && !state.is_endless);
    SEE(state.until_seconds == NEW_YEAR && state.until_nanoseconds == 0 && state.event_len == 0 && state.values_len == 0 && len == 0);
    SEE(governor(reader, "r1", "PRICE", NEW_YEAR + 3600, 0) == KUVTELEG_OK && !state.is_governed && state.is_endless && state.until_seconds == 0);
    SEE(governor(reader, "r2", "PRICE", NEW_YEAR, 0) == KUVTELEG_UNKNOWN_RESOURCE && governor(reader, "", "PRICE", NEW_YEAR, 0) == KUVTELEG_BAD_ID);
    SEE(governor(reader, "r1", "", NEW_YEAR, 0) == KUVTELEG_BAD_TEXT && governor(reader, "r1", "PRICE", NEW_YEAR, 1000000000) == KUVTELEG_BAD_MOMENT);
}

/* What does not fit the caller's room is asked for once more; the room is left alone where it is too small. */
static void small_room(kuvteleg_editor *editor, kuvteleg_reader *reader) {
    uint8_t small[3] = {1, 2, 3};
    SEE(kuvteleg_ask(reader, bytes("types r1"), 8, small, 0, &len) == KUVTELEG_OK && len == 56 && small[0] == 1 && small[2] == 3);
    SEE(kuvteleg_answer(reader, out, sizeof out, &len) == KUVTELEG_OK && told("version 4\nPRICE\nCURVE\nALERT_FIRE\nALERT_OTHER\n\"a type\"\n.\n"));
    SEE(kuvteleg_line(editor, bytes("publish"), 7, small, sizeof small, &len) == KUVTELEG_OK && len == 22);
    SEE(kuvteleg_reply(editor, out, len, &len) == KUVTELEG_OK && told("published 2 version 4\n"));
    SEE(kuvteleg_governor(reader, bytes("r1"), 2, bytes("PRICE"), 5, NEW_YEAR, 0, &state, small, sizeof small, &len) == KUVTELEG_OK && len == 11);
    SEE(kuvteleg_answer(reader, out, sizeof out, &len) == KUVTELEG_OK && told("e1[0.17,-3]"));
    SEE(kuvteleg_ask(reader, bytes("types r1"), 0, out, sizeof out, &len) == KUVTELEG_BAD_LINE);
}

/* A line at the limit of its length, and one byte above it. */
static void huge_lines(kuvteleg_editor *editor) {
    static const char start[] = "edit 2024-01-01T00:00:00Z create program huge {\"programName\":\"P\"";
    size_t limit = 4194304, at = sizeof start - 1;
    uint8_t *line = malloc(limit + 1);
    memset(line, ' ', limit + 1);
    memcpy(line, start, at);
    line[limit] = '}';
    SEE(kuvteleg_line(editor, line, limit + 1, out, sizeof out, &len) == KUVTELEG_LONG_LINE && len == 0);
    line[limit - 1] = '}';
    SEE(kuvteleg_line(editor, line, limit, out, sizeof out, &len) == KUVTELEG_OK && told("ok 5\n"));
    memset(line, '[', limit);
    SEE(kuvteleg_line(editor, line, limit, out, sizeof out, &len) == KUVTELEG_BAD_LINE);
    memset(line, 0, limit + 1);
    SEE(kuvteleg_line(editor, line, limit + 1, out, sizeof out, &len) == KUVTELEG_LONG_LINE);
    free(line);
}

/* Readers see one publication each, and may outlive the editor. */
static void readers(void) {
    kuvteleg_editor editor = {0};
    kuvteleg_reader early = {0}, late = {0}, other = {0};
    SEE(kuvteleg_open(&editor, KUVTELEG_NEWEST) == KUVTELEG_OK);
    fill(&editor);
    refused_edits(&editor);
    SEE(kuvteleg_look(&editor, &early) == KUVTELEG_OK && kuvteleg_seen(&early, &number, &version) == KUVTELEG_OK && number == 0 && version == 0);
    SEE(kuvteleg_publish(&editor, &number, &version) == KUVTELEG_OK && number == 1 && version == 4);
    SEE(ask(&early, "types r1") == KUVTELEG_UNKNOWN_RESOURCE && governor(&early, "r1", "PRICE", NEW_YEAR, 0) == KUVTELEG_UNKNOWN_RESOURCE);
    SEE(kuvteleg_look(&editor, &late) == KUVTELEG_OK && kuvteleg_share(&late, &other) == KUVTELEG_OK);
    typed_answers(&late);
    SEE(ask(&late, "publish") == KUVTELEG_BAD_LINE && ask(&late, "edit 2024-01-01T00:00:00Z delete event e1") == KUVTELEG_BAD_LINE);
    small_room(&editor, &late);
    dropped_replies(&editor, &late);
    SEE(kuvteleg_condense(&editor, &version) == KUVTELEG_OK && version == 4);
    huge_lines(&editor);
    SEE(delete(&editor, KUVTELEG_EVENT, "e1") == KUVTELEG_OK && version == 6);
    SEE(kuvteleg_publish(&editor, &number, &version) == KUVTELEG_OK && number == 3 && version == 6);
    SEE(tell(&editor, "at r1 PRICE 2024-01-01T00:30:00Z") == KUVTELEG_OK && told("version 6 none until end\n"));
    SEE(kuvteleg_look(&editor, &early) == KUVTELEG_OK && kuvteleg_seen(&early, &number, &version) == KUVTELEG_OK && number == 3 && version == 6);
    SEE(kuvteleg_close(&editor) == KUVTELEG_OK && kuvteleg_leave(&late) == KUVTELEG_OK && kuvteleg_leave(&late) == KUVTELEG_CLOSED);
    SEE(ask(&other, "at r1 PRICE 2024-01-01T00:30:00Z") == KUVTELEG_OK &&
        told("version 4 event e1 interval 7 until 2024-01-01T01:00:00Z values 0.17 -3\n"));
    SEE(kuvteleg_leave(&other) == KUVTELEG_OK && kuvteleg_leave(&early) == KUVTELEG_OK);
}

/* Whether the name of a code is that of its constant, but for underscores and the case of letters. */
static int is_named(const char *constant, uint32_t code) {
    const char *name = kuvteleg_name(code);
    for (; *constant; constant++)
        if (*constant != '_' && tolower(*constant) != tolower(*name++))
            return 0;
    return *name == 0 && isupper(*kuvteleg_name(code));
}
#define NAMED(it) SEE(is_named(#it, KUVTELEG_##it))

static void names(void) {
    NAMED(OK), NAMED(LONG_LINE), NAMED(BAD_LINE), NAMED(BAD_MOMENT), NAMED(BAD_ID), NAMED(BAD_NUMBER), NAMED(BAD_JSON);
    NAMED(NOT_OBJECT), NAMED(WRONG_KIND), NAMED(ID_MISMATCH), NAMED(MISSING), NAMED(WRONG_TYPE), NAMED(BAD_TEXT);
    NAMED(BAD_DATE_TIME), NAMED(BAD_DURATION), NAMED(NEGATIVE_DURATION), NAMED(BAD_PRIORITY), NAMED(BAD_SHAPE), NAMED(TOO_MANY);
    NAMED(NO_START), NAMED(AFTER_ENDLESS), NAMED(TIME_RANGE), NAMED(EXISTS), NAMED(NOT_THERE), NAMED(NO_PROGRAM), NAMED(NO_VEN);
    NAMED(IN_USE), NAMED(FULL), NAMED(BAD_WINDOW), NAMED(UNKNOWN_RESOURCE), NAMED(NO_MEMORY), NAMED(CLOSED), NAMED(OPEN);
    NAMED(BAD_TIE), NAMED(BAD_KIND);
    SEE(strcmp(kuvteleg_name(KUVTELEG_BAD_DATE_TIME), "BadDateTime") == 0 && strcmp(kuvteleg_name(98), "NoRuntime") == 0);
    SEE(is_named("UNKNOWN", 30) && is_named("UNKNOWN", 97) && is_named("UNKNOWN", 104) && is_named("UNKNOWN", UINT32_MAX));
}

#if __GLIBC__ == 2 && __GLIBC_MINOR__ >= 33
#include <malloc.h>
/* The bytes of the heap that are in use; 0 where a checker has a heap of its own. */
static size_t in_use(void) {
    struct mallinfo2 heap = mallinfo2();
    return heap.uordblks + heap.hblkhd;
}

/* What an editor keeps of an event of so many intervals, each with so many values. */
static size_t kept(unsigned intervals, unsigned values) {
    static char body[200000];
    kuvteleg_editor editor = {0};
    char *at = body + sprintf(body, "{\"programID\":\"p1\",\"intervalPeriod\":{\"start\":\"2024-01-01T00:00:00Z\"},\"intervals\":[");
    for (unsigned i = 0; i < intervals; i++) {
        at += sprintf(at, "%s{\"payloads\":[%s", i ? "," : "", values ? "{\"type\":\"PRICE\",\"values\":[0" : "");
        for (unsigned k = 1; k < values; k++)
            at += sprintf(at, ",0");
        at += sprintf(at, "%s]}", values ? "]}" : "");
    }
    strcpy(at, "]}");
    SEE(kuvteleg_open(&editor, KUVTELEG_NEWEST) == KUVTELEG_OK);
    SEE(create(&editor, KUVTELEG_PROGRAM, "p1", "{\"programName\":\"P\"}") == KUVTELEG_OK);
    size_t before = in_use();
    SEE(create(&editor, KUVTELEG_EVENT, "e1", body) == KUVTELEG_OK);
    size_t taken = in_use() - before;
    SEE(taken > 0 || in_use() == 0);
    SEE(kuvteleg_close(&editor) == KUVTELEG_OK);
    return taken;
}

/* Lists keep no room to spare: one that grew beyond a power of two keeps little more than one that has just so many. */
static void lists_without_room(void) {
    SEE(kept(8200, 0) <= kept(8192, 0) * 5 / 4);
    SEE(kept(1000, 33) <= kept(1000, 32) * 5 / 4);
}
#else
static void lists_without_room(void) {}
#endif

int main(void) {
    closed_handles();
    names();
    readers();
    lists_without_room();
    printf("%u passed, %u failed\n", passed, failed);
    return failed != 0;
}
