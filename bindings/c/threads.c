/* Readers in threads beside an editor, a million looks in all: each sees no publication older than the last one that it saw, and of
 * each publication the one price that was there when it was published. */
#include "kuvteleg.h"
#include <pthread.h>
#include <stdatomic.h>
#include <stdio.h>
#include <string.h>

enum { READERS = 3 };
static const int64_t NEW_YEAR = 1704067200; /* 2024-01-01T00:00:00Z */

/* The last publication, from which readers take their share: a handle goes to one call at a time, hence the lock. */
static kuvteleg_reader latest;
static pthread_mutex_t gate = PTHREAD_MUTEX_INITIALIZER;
static atomic_ulong looks, wrong;
static unsigned long wanted = 1000000;

static const uint8_t *bytes(const char *text) { return (const uint8_t *)text; }

/* Whether the answer is the event's at the price of this version. */
static int is_of(uint64_t version, const kuvteleg_state *state, const uint8_t *out, size_t len) {
    char text[64];
    int count = snprintf(text, sizeof text, "e1[%llu]", (unsigned long long)version);
    return state->is_governed && state->event_len == 2 && len == (size_t)count && memcmp(out, text, len) == 0;
}

static void *reads(void *unused) {
    kuvteleg_reader mine = {0};
    kuvteleg_state state;
    uint8_t out[64];
    size_t len;
    uint64_t number, version, last = 0;
    (void)unused;
    while (atomic_fetch_add(&looks, 1) < wanted) {
        pthread_mutex_lock(&gate);
        uint32_t code = kuvteleg_share(&latest, &mine);
        pthread_mutex_unlock(&gate);
        if (code || kuvteleg_seen(&mine, &number, &version) || number < last)
            wrong++;
        last = number;
        if (kuvteleg_governor(&mine, bytes("r1"), 2, bytes("PRICE"), 5, NEW_YEAR, 0, &state, out, sizeof out, &len) ||
            !is_of(version, &state, out, len))
            wrong++;
    }
    kuvteleg_leave(&mine);
    return NULL;
}

/* Writes the event with its version as its price, publishes it and shows it to readers. */
static int shows(kuvteleg_editor *editor, uint64_t *version) {
    char body[256];
    uint64_t number;
    kuvteleg_reader fresh = {0};
    int count = snprintf(body, sizeof body,
                         "{\"programID\":\"p1\",\"intervals\":[{\"intervalPeriod\":{\"start\":\"2024-01-01T00:00:00Z\","
                         "\"duration\":\"PT1H\"},\"payloads\":[{\"type\":\"PRICE\",\"values\":[%llu]}]}]}",
                         (unsigned long long)*version + 1);
    uint32_t code = *version == 3 ? kuvteleg_create(editor, NEW_YEAR, 0, KUVTELEG_EVENT, bytes("e1"), 2, bytes(body), (size_t)count, version)
                                  : kuvteleg_change(editor, NEW_YEAR, 0, KUVTELEG_EVENT, bytes("e1"), 2, bytes(body), (size_t)count, version);
    if (code || kuvteleg_publish(editor, &number, version) || kuvteleg_look(editor, &fresh))
        return 0;
    if (number % 100 == 0 && kuvteleg_condense(editor, version))
        return 0;
    pthread_mutex_lock(&gate);
    kuvteleg_reader old = latest;
    latest = fresh;
    pthread_mutex_unlock(&gate);
    kuvteleg_leave(&old);
    return 1;
}

static int fill(kuvteleg_editor *editor, uint64_t *version) {
    const char *program = "{\"programName\":\"P\"}", *ven = "{\"venName\":\"V\"}", *resource = "{\"resourceName\":\"R\",\"venID\":\"v1\"}";
    return !kuvteleg_open(editor, KUVTELEG_NEWEST) &&
           !kuvteleg_create(editor, NEW_YEAR, 0, KUVTELEG_PROGRAM, bytes("p1"), 2, bytes(program), strlen(program), version) &&
           !kuvteleg_create(editor, NEW_YEAR, 0, KUVTELEG_VEN, bytes("v1"), 2, bytes(ven), strlen(ven), version) &&
           !kuvteleg_create(editor, NEW_YEAR, 0, KUVTELEG_RESOURCE, bytes("r1"), 2, bytes(resource), strlen(resource), version) &&
           shows(editor, version);
}

int main(int count, char **words) {
    kuvteleg_editor editor = {0};
    pthread_t threads[READERS];
    uint64_t version = 0;
    unsigned long publications = 0;
    if (count > 1)
        sscanf(words[1], "%lu", &wanted);
    if (!fill(&editor, &version))
        return 2;
    for (int i = 0; i < READERS; i++)
        pthread_create(&threads[i], NULL, reads, NULL);
    while (atomic_load(&looks) < wanted && publications < 900000) {
        if (!shows(&editor, &version))
            wrong++;
        publications++;
    }
    for (int i = 0; i < READERS; i++)
        pthread_join(threads[i], NULL);
    kuvteleg_leave(&latest);
    kuvteleg_close(&editor);
    printf("%lu looks of %d readers beside %lu publications, %lu wrong\n", wanted, READERS, publications, (unsigned long)wrong);
    printf("%d passed, %d failed\n", wrong == 0, wrong != 0);
    return wrong != 0;
}
