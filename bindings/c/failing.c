/* Has each growth of memory refused in turn, at each call: the call answers KUVTELEG_NO_MEMORY and has changed nothing, since it does all
 * once it is made again, and what is told is what a run without refusals is told. The linker hands malloc, realloc and free of the
 * library to the functions below: -Wl,--wrap=malloc,--wrap=realloc,--wrap=free. */
#include "kuvteleg.h"
#include <stdio.h>
#include <stdlib.h>
#include <string.h>

void *__real_malloc(size_t size);
void *__real_realloc(void *at, size_t size);
void __real_free(void *at);
static long growths_left = -1, blocks, refusals;

static int refuses(void) { return growths_left >= 0 && growths_left-- == 0; }
void *__wrap_malloc(size_t size) {
    void *at = refuses() ? NULL : __real_malloc(size);
    blocks += at != NULL;
    return at;
}
void *__wrap_realloc(void *at, size_t size) {
    void *moved = refuses() ? NULL : __real_realloc(at, size);
    blocks += !at && moved;
    return moved;
}
void __wrap_free(void *at) {
    blocks -= at != NULL;
    __real_free(at);
}

/* Makes a call with its first growth refused, then with its second, and so on, until it is not refused for want of memory. */
#define TRY(code, call)                                                        \
    do {                                                                       \
        for (long nth = 0; nth < 10000; nth++) {                               \
            growths_left = is_failing ? nth : -1;                              \
            code = (call);                                                     \
            growths_left = -1;                                                 \
            if (code != KUVTELEG_NO_MEMORY)                                    \
                break;                                                         \
            refusals++;                                                        \
        }                                                                      \
    } while (0)

static const char *const EDITS[][4] = {
    {"create", "0", "p1", "{\"programName\":\"P\"}"},
    {"create", "2", "v1", "{\"venName\":\"V\",\"targets\":[{\"type\":\"GROUP\",\"values\":[\"a\"]}]}"},
    {"create", "3", "r1", "{\"resourceName\":\"R\",\"venID\":\"v1\"}"},
    {"create", "1", "e1", "{\"programID\":\"p1\",\"targets\":[{\"type\":\"GROUP\",\"values\":[\"a\"]}],\"intervals\":[{\"intervalPeriod\":"
                          "{\"start\":\"2024-01-01T00:00:00Z\",\"duration\":\"PT1H\"},\"payloads\":[{\"type\":\"PRICE\",\"values\":[17]}]}]}"},
    {"create", "1", "e2", "{\"programID\":\"p1\",\"intervals\":[{\"intervalPeriod\":{\"start\":\"2024-01-01T00:00:00Z\",\"duration\":\"PT2H\"},"
                          "\"payloads\":[{\"type\":\"PRICE\",\"values\":[18]},{\"type\":\"a type\",\"values\":[\"x\",true,{\"x\":1,\"y\":2}]}]}]}"},
    {"change", "1", "e1", "{\"programID\":\"p1\",\"intervals\":[{\"intervalPeriod\":{\"start\":\"2024-01-01T00:30:00Z\",\"duration\":\"PT2H\"},"
                          "\"payloads\":[{\"type\":\"PRICE\",\"values\":[19,20.5]}]}]}"},
    {"change", "2", "v1", "{\"venName\":\"W\"}"},
    {"change", "1", "e3", "{}"},
    {"delete", "1", "e2", ""},
};
static const char *const QUERIES[] = {"at r1 PRICE 2024-01-01T00:30:00Z", "list r1 PRICE 2024-01-01T00:00:00Z 2024-01-02T00:00:00Z",
                                      "roll PRICE 2024-01-01T00:30:00Z", "types r1", "at r2 PRICE 2024-01-01T00:30:00Z"};
static const int64_t HALF_PAST = 1704069000; /* 2024-01-01T00:30:00Z */

typedef struct {
    char text[65536];
    size_t len;
} record;
static record plainly, failing;
static int is_failing;

static const uint8_t *bytes(const char *text) { return (const uint8_t *)text; }

static void note(record *told, uint32_t code, const uint8_t *out, size_t len) {
    told->len += (size_t)snprintf(told->text + told->len, sizeof told->text - told->len, "%u %.*s\n", code, (int)len, (const char *)out);
}

static void edit(kuvteleg_editor *editor, const char *const *row, record *told) {
    uint32_t code, kind = (uint32_t)atoi(row[1]);
    uint64_t version = 0;
    const uint8_t *id = bytes(row[2]), *body = bytes(row[3]);
    size_t id_len = strlen(row[2]), body_len = strlen(row[3]);
    if (row[0][0] == 'd')
        TRY(code, kuvteleg_delete(editor, kind, id, id_len, &version));
    else if (row[0][1] == 'r')
        TRY(code, kuvteleg_create(editor, HALF_PAST, 0, kind, id, id_len, body, body_len, &version));
    else
        TRY(code, kuvteleg_change(editor, HALF_PAST, 0, kind, id, id_len, body, body_len, &version));
    told->len += (size_t)snprintf(told->text + told->len, sizeof told->text - told->len, "%u %llu\n", code, (unsigned long long)version);
}

static void ask_all(kuvteleg_reader *reader, record *told) {
    uint8_t out[4096];
    size_t len;
    uint32_t code;
    kuvteleg_state state;
    for (size_t i = 0; i < sizeof QUERIES / sizeof *QUERIES; i++) {
        TRY(code, kuvteleg_ask(reader, bytes(QUERIES[i]), strlen(QUERIES[i]), out, sizeof out, &len));
        note(told, code, out, len);
    }
    TRY(code, kuvteleg_governor(reader, bytes("r1"), 2, bytes("PRICE"), 5, HALF_PAST, 0, &state, out, sizeof out, &len));
    note(told, code, out, len);
}

/* Opens an editor with its first growth refused, then with its second, and so on, until none was refused. A refused growth of the memory
 * that is kept for reading bodies refuses no open; such an editor is closed again. */
static uint32_t open_editor(kuvteleg_editor *editor) {
    for (long nth = 0; nth < 10000; nth++) {
        growths_left = is_failing ? nth : -1;
        uint32_t code = kuvteleg_open(editor, KUVTELEG_NEWEST);
        int was_refused = is_failing && growths_left < 0;
        growths_left = -1;
        if (!was_refused)
            return code;
        refusals++;
        if (code == 0)
            kuvteleg_close(editor);
        else if (code != KUVTELEG_NO_MEMORY)
            return code;
    }
    return KUVTELEG_NO_MEMORY;
}

/* All edits, each followed by a publication, a look and the queries; answers whether nothing was refused that must not be. */
static int run(record *told, int fails) {
    kuvteleg_editor editor = {0};
    kuvteleg_reader reader = {0}, other = {0};
    uint64_t number, version;
    uint32_t code;
    is_failing = fails;
    code = open_editor(&editor);
    for (size_t i = 0; code == 0 && i < sizeof EDITS / sizeof *EDITS; i++) {
        edit(&editor, EDITS[i], told);
        TRY(code, kuvteleg_publish(&editor, &number, &version));
        told->len += (size_t)sprintf(told->text + told->len, "%llu %llu\n", (unsigned long long)number, (unsigned long long)version);
        if (code == 0)
            TRY(code, kuvteleg_look(&editor, &reader));
        if (code == 0)
            TRY(code, kuvteleg_share(&reader, &other));
        if (code == 0 && i == 4)
            TRY(code, kuvteleg_condense(&editor, &version));
        ask_all(&other, told);
    }
    kuvteleg_close(&editor);
    kuvteleg_leave(&reader);
    kuvteleg_leave(&other);
    return code == 0;
}

int main(void) {
    unsigned passed = 0, failed = 0;
    int done = run(&plainly, 0) && blocks == 0 && run(&failing, 1);
    int same = plainly.len > 0 && strcmp(plainly.text, failing.text) == 0;
    *(done ? &passed : &failed) += 1;
    *(same ? &passed : &failed) += 1;
    *(blocks == 0 ? &passed : &failed) += 1;
    *(refusals > 100 ? &passed : &failed) += 1;
    printf("%ld growths refused, what is told is %s, %ld blocks left\n", refusals, same ? "the same" : "not the same", blocks);
    printf("%u passed, %u failed\n", passed, failed);
    return failed != 0;
}
