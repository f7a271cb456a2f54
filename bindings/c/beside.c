/* Readers in threads beside an editor that goes through the same edits again and again, for some seconds: each look sees no
 * publication older than the last one that it saw, and each answer is the one that stands in a table for its publication's number.
 *
 *     beside newest|latest-start SECONDS READERS EDITS ANSWERS
 *
 * EDITS has lines of the script, `publish` among them, and leaves no object at its end, so that each pass starts from none. ANSWERS has
 * two numbers, how many publications a pass has and how many queries there are; then, each behind its length, the queries; and for each
 * publication its version, and the answers to all queries, of a refusal its number, of others what stands behind their version. */
#define _POSIX_C_SOURCE 200809L
#include "kuvteleg.h"
#include <pthread.h>
#include <stdatomic.h>
#include <stdio.h>
#include <stdlib.h>
#include <string.h>
#include <time.h>
#include <unistd.h>

enum { ROOM = 1 << 20, ASKED = 4, HELD_FOR = 64, PASSES_TO_A_BASE = 8 };
/* An editor makes room for a million publications; then another takes its place. */
static const uint64_t MOST_PUBLICATIONS = 900000;

typedef struct { char *bytes; size_t len; } text;

static text *lines, *queries, *answers;
static uint64_t *versions;
static size_t line_count, query_count, in_a_pass;
static char *file_of_answers;

static kuvteleg_reader latest;
static pthread_mutex_t gate = PTHREAD_MUTEX_INITIALIZER;
static atomic_bool is_over;
static atomic_ulong looks, asked, wrong;
static uint64_t edits_of_a_pass;

static void *allocated(size_t size) {
    void *at = calloc(1, size ? size : 1);
    if (!at) {
        fprintf(stderr, "no memory\n");
        exit(2);
    }
    return at;
}

static double now(void) {
    struct timespec time;
    clock_gettime(CLOCK_MONOTONIC, &time);
    return (double)time.tv_sec + (double)time.tv_nsec / 1e9;
}

static text whole(const char *path) {
    text all = {0};
    FILE *file = fopen(path, "rb");
    if (!file || fseek(file, 0, SEEK_END)) {
        perror(path);
        exit(2);
    }
    all.len = (size_t)ftell(file);
    all.bytes = allocated(all.len + 1);
    rewind(file);
    if (fread(all.bytes, 1, all.len, file) != all.len)
        exit(2);
    fclose(file);
    return all;
}

static void read_lines(const char *path) {
    text all = whole(path);
    for (size_t at = 0; at < all.len; at++)
        line_count += all.bytes[at] == '\n';
    lines = allocated(line_count * sizeof *lines);
    char *at = all.bytes;
    for (size_t i = 0; i < line_count; i++) {
        lines[i].bytes = at;
        lines[i].len = (size_t)((char *)memchr(at, '\n', all.len) - at);
        at += lines[i].len + 1;
    }
}

static uint64_t number_at(char **at) {
    uint64_t number = strtoull(*at, at, 10);
    (*at)++;
    return number;
}

static text text_at(char **at) {
    text it;
    it.len = number_at(at);
    it.bytes = *at;
    *at += it.len + 1;
    return it;
}

static void read_answers(const char *path) {
    char *at = file_of_answers = whole(path).bytes;
    in_a_pass = number_at(&at);
    query_count = number_at(&at);
    queries = allocated(query_count * sizeof *queries);
    versions = allocated(in_a_pass * sizeof *versions);
    answers = allocated(in_a_pass * query_count * sizeof *answers);
    for (size_t i = 0; i < query_count; i++)
        queries[i] = text_at(&at);
    for (size_t i = 0; i < in_a_pass; i++) {
        versions[i] = number_at(&at);
        for (size_t k = 0; k < query_count; k++)
            answers[i * query_count + k] = text_at(&at);
    }
    edits_of_a_pass = versions[in_a_pass - 1];
}

/* A reader in its thread, with room for an answer. */
typedef struct {
    pthread_t thread;
    kuvteleg_reader mine, held;
    uint64_t random, last;
    uint8_t *out;
} looker;

static looker *readers;

static uint64_t any(looker *by, uint64_t below) {
    by->random ^= by->random << 13;
    by->random ^= by->random >> 7;
    by->random ^= by->random << 17;
    return by->random % below;
}

static void found_wrong(const char *what, uint64_t number, const text *query) {
    if (atomic_fetch_add(&wrong, 1) < 5)
        fprintf(stderr, "publication %llu: %s%s%.*s\n", (unsigned long long)number, what, query ? " of " : "", query ? (int)query->len : 0, query ? query->bytes : "");
}

/* Whether the reader's answer to a query is that of its publication, which has that number and version. */
static void ask(looker *by, kuvteleg_reader *reader, uint64_t number, uint64_t version, size_t query) {
    char head[40];
    size_t len = 0;
    const text *wanted = &answers[(number - 1) % in_a_pass * query_count + query];
    uint32_t code = kuvteleg_ask(reader, (const uint8_t *)queries[query].bytes, queries[query].len, by->out, ROOM, &len);
    size_t first = (size_t)snprintf(head, sizeof head, code ? "%llu" : "version %llu", (unsigned long long)(code ? code : version));
    const char *told = code ? head : (const char *)by->out + first;
    size_t told_len = code ? first : len < first ? 0 : len - first;
    if ((!code && (len > ROOM || memcmp(head, by->out, first))) || told_len != wanted->len || memcmp(told, wanted->bytes, told_len))
        found_wrong("another answer", number, &queries[query]);
    atomic_fetch_add_explicit(&asked, 1, memory_order_relaxed);
}

static int sees(kuvteleg_reader *reader, uint64_t *number, uint64_t *version) {
    uint32_t code = kuvteleg_seen(reader, number, version);
    if (code || *version != (*number - 1) / in_a_pass * edits_of_a_pass + versions[(*number - 1) % in_a_pass]) {
        found_wrong("another version", *number, NULL);
        return 0;
    }
    return 1;
}

static void look(looker *by) {
    uint64_t number = 0, version = 0;
    pthread_mutex_lock(&gate);
    uint32_t code = kuvteleg_share(&latest, &by->mine);
    pthread_mutex_unlock(&gate);
    if (code || !sees(&by->mine, &number, &version))
        return;
    if (number < by->last)
        found_wrong("an older one than before", number, NULL);
    by->last = number;
    for (int i = 0; i < ASKED; i++)
        ask(by, &by->mine, number, version, any(by, query_count));
    atomic_fetch_add_explicit(&looks, 1, memory_order_relaxed);
}

/* Looks again and again; of so many publications one is held beside the others, and asked when its time is over. */
static void *reads(void *at) {
    looker *by = at;
    uint64_t number, version;
    for (unsigned turn = 0; !atomic_load(&is_over); turn++) {
        look(by);
        if (turn % HELD_FOR == 0)
            kuvteleg_share(&by->mine, &by->held);
        else if (turn % HELD_FOR == HELD_FOR - 1 && sees(&by->held, &number, &version))
            ask(by, &by->held, number, version, any(by, query_count));
    }
    kuvteleg_leave(&by->mine);
    kuvteleg_leave(&by->held);
    return NULL;
}

/* Publishes, and shows it to readers. */
static int shows(kuvteleg_editor *editor, uint64_t *number) {
    uint64_t version;
    kuvteleg_reader fresh = {0};
    if (kuvteleg_publish(editor, number, &version) || kuvteleg_look(editor, &fresh))
        return 0;
    pthread_mutex_lock(&gate);
    kuvteleg_reader old = latest;
    latest = fresh;
    pthread_mutex_unlock(&gate);
    kuvteleg_leave(&old);
    return 1;
}

/* Goes through the lines from that one on, to the first publication or the last line. The place to go on from. */
static size_t goes_on(kuvteleg_editor *editor, uint64_t *number, size_t from, double until) {
    uint8_t out[128];
    size_t len;
    for (; from < line_count && now() < until; from++) {
        int publishes = lines[from].len == 7 && !memcmp(lines[from].bytes, "publish", 7);
        if (!publishes)
            kuvteleg_line(editor, (const uint8_t *)lines[from].bytes, lines[from].len, out, sizeof out, &len);
        else if (!shows(editor, number))
            found_wrong("a publication that fails", *number, NULL);
        if (publishes && *number == 1)
            return from + 1;
    }
    return 0;
}

/* One editor's life: its first publication, and then its edits beside the readers. The number of its last publication. */
static uint64_t lives(uint32_t tie, int count, double until) {
    kuvteleg_editor editor = {0};
    uint64_t number = 0, version;
    if (kuvteleg_open(&editor, tie))
        exit(2);
    size_t from = goes_on(&editor, &number, 0, until + 60);
    atomic_store(&is_over, 0);
    for (int i = 0; i < count; i++) {
        readers[i].last = 0;
        if (pthread_create(&readers[i].thread, NULL, reads, &readers[i]))
            exit(2);
    }
    for (unsigned pass = 1; number < MOST_PUBLICATIONS && now() < until && !wrong; pass++) {
        from = goes_on(&editor, &number, from, until);
        if (pass % PASSES_TO_A_BASE == 0 && kuvteleg_condense(&editor, &version))
            found_wrong("a base that fails", number, NULL);
    }
    atomic_store(&is_over, 1);
    for (int i = 0; i < count; i++)
        pthread_join(readers[i].thread, NULL);
    kuvteleg_leave(&latest);
    kuvteleg_close(&editor);
    return number;
}

int main(int count, char **words) {
    if (count != 6) {
        fprintf(stderr, "usage: beside newest|latest-start SECONDS READERS EDITS ANSWERS\n");
        return 2;
    }
    double seconds = atof(words[2]), until;
    int many = atoi(words[3]);
    unsigned long publications = 0, editors = 0;
    readers = allocated((size_t)many * sizeof *readers);
    read_lines(words[4]);
    read_answers(words[5]);
    for (int i = 0; i < many; i++) {
        readers[i].random = 88172645463325252ULL + (uint64_t)i * 7919;
        readers[i].out = allocated(ROOM);
    }
    alarm((unsigned)seconds + 120);
    until = now() + seconds;
    for (; now() < until && !wrong; editors++)
        publications += lives(strcmp(words[1], "newest") ? KUVTELEG_LATEST_START : KUVTELEG_NEWEST, many, until);
    free(file_of_answers);
    printf("%d readers beside %lu editors: %lu publications, %lu looks, %lu answers, %lu wrong\n", many, editors, publications, (unsigned long)looks,
           (unsigned long)asked, (unsigned long)wrong);
    printf("%lu passed, %d failed\n", (unsigned long)looks, wrong != 0 || !looks);
    return wrong != 0 || !looks;
}
