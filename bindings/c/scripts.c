/* Runs stored scripts through the library, line by line, and compares each reply with the bytes that stand there.
 *   scripts newest|latest-start FILE..
 * In a transcript (FILE.txt) a line that begins with "> " is a reply; a script (FILE.adr) has its replies in FILE.replies. */
#include "kuvteleg.h"
#include <stdio.h>
#include <stdlib.h>
#include <string.h>

static const char *const NAMES[] = {
    "",           "LongLine",    "BadLine",  "BadMoment",        "BadId",       "BadNumber", "BadJson",      "NotObject",
    "WrongKind",  "IdMismatch",  "Missing",  "WrongType",        "BadText",     "BadDateTime", "BadDuration", "NegativeDuration",
    "BadPriority", "BadShape",   "TooMany",  "NoStart",          "AfterEndless", "TimeRange", "Exists",      "NotThere",
    "NoProgram",  "NoVen",       "InUse",    "Full",             "BadWindow",   "UnknownResource",
};

typedef struct { char *bytes; size_t len; } text;

static void append(text *to, const char *bytes, size_t len) {
    to->bytes = realloc(to->bytes, to->len + len + 1);
    memcpy(to->bytes + to->len, bytes, len);
    to->len += len;
}

static text whole(const char *path) {
    text all = {0};
    char piece[65536];
    FILE *file = fopen(path, "rb");
    if (!file) {
        perror(path);
        exit(2);
    }
    for (size_t got; (got = fread(piece, 1, sizeof piece, file)) > 0;)
        append(&all, piece, got);
    fclose(file);
    return all;
}

/* The reply to a line, behind those before it. */
static void answer(kuvteleg_editor *editor, const char *line, size_t len, text *told) {
    static uint8_t room[1024];
    size_t reply = 0;
    uint32_t code = kuvteleg_line(editor, (const uint8_t *)line, len, room, sizeof room, &reply);
    if (code) {
        char refused[64];
        int count = snprintf(refused, sizeof refused, "refused %u %s\n", code, code < 30 ? NAMES[code] : "?");
        append(told, refused, (size_t)count);
    } else if (reply <= sizeof room) {
        append(told, (const char *)room, reply);
    } else {
        uint8_t *more = malloc(reply);
        kuvteleg_reply(editor, more, reply, &reply);
        append(told, (const char *)more, reply);
        free(more);
    }
}

/* Answers the lines of a script and gathers the replies that stand between them. */
static void run(kuvteleg_editor *editor, text script, text *told, text *wanted) {
    for (size_t at = 0; at < script.len;) {
        const char *line = script.bytes + at, *feed = memchr(line, '\n', script.len - at);
        size_t len = feed ? (size_t)(feed - line) : script.len - at;
        at += len + 1;
        if (len > 1 && line[0] == '>' && line[1] == ' ') {
            append(wanted, line + 2, len - 2);
            append(wanted, "\n", 1);
        } else {
            /* whoever parts lines drops one carriage return at a line's end */
            answer(editor, line, len && line[len - 1] == '\r' ? len - 1 : len, told);
        }
    }
}

static text replies_beside(const char *path) {
    char beside[4096];
    size_t stem = strlen(path) - strlen(".adr");
    snprintf(beside, sizeof beside, "%.*s.replies", (int)stem, path);
    return whole(beside);
}

static int is_as_stored(const char *path, uint32_t tie) {
    kuvteleg_editor editor = {0};
    text script = whole(path), told = {0}, wanted = {0};
    if (kuvteleg_open(&editor, tie))
        return 0;
    run(&editor, script, &told, &wanted);
    kuvteleg_close(&editor);
    if (strstr(path, ".adr"))
        wanted = replies_beside(path);
    int same = told.len > 0 && told.len == wanted.len && memcmp(told.bytes, wanted.bytes, told.len) == 0;
    if (!same)
        printf("%s: the replies differ from those that are stored\n", path);
    free(script.bytes);
    free(told.bytes);
    free(wanted.bytes);
    return same;
}

int main(int count, char **words) {
    unsigned passed = 0, failed = 0;
    if (count < 3)
        return 2;
    uint32_t tie = strcmp(words[1], "newest") ? KUVTELEG_LATEST_START : KUVTELEG_NEWEST;
    for (int i = 2; i < count; i++) {
        if (is_as_stored(words[i], tie))
            passed++;
        else
            failed++;
    }
    printf("%u passed, %u failed\n", passed, failed);
    return failed != 0;
}
