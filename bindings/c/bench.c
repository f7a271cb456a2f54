/* What the library's calls cost in one thread: nanoseconds a call, the least of 15 rounds over 4,096 calls.
 *
 *     cc -O2 -I include bindings/c/bench.c FOLDER/libkuvteleg.a -o bench && ./bench */
#define _POSIX_C_SOURCE 200809L
#include "kuvteleg.h"
#include <stdio.h>
#include <stdlib.h>
#include <string.h>
#include <time.h>

enum { RESOURCES = 1000, EVENTS = 50, CALLS = 4096, ROUNDS = 15, NEW_YEAR = 1704067200 };

static kuvteleg_editor editor;
static kuvteleg_reader reader, other;
static uint8_t out[4096];
static size_t len;
static uint64_t number, version;
static char lines[CALLS][96], ids[CALLS][16];
static int64_t moments[CALLS];
static kuvteleg_state state;

static const uint8_t *bytes(const char *text) { return (const uint8_t *)text; }

static double now(void) {
    struct timespec t;
    clock_gettime(CLOCK_MONOTONIC, &t);
    return t.tv_sec * 1e9 + t.tv_nsec;
}

static void must(uint32_t code, const char *what) {
    if (code) {
        fprintf(stderr, "%s: %u\n", what, code);
        exit(1);
    }
}

static void create(uint32_t kind, const char *id, const char *body) {
    must(kuvteleg_create(&editor, NEW_YEAR, 0, kind, bytes(id), strlen(id), bytes(body), strlen(body), &version), id);
}

static void fill(void) {
    static char body[65536];
    char id[16];
    create(KUVTELEG_PROGRAM, "p", "{\"programName\":\"P\"}");
    create(KUVTELEG_VEN, "v", "{\"venName\":\"V\"}");
    for (int i = 0; i < RESOURCES; i++) {
        sprintf(id, "r%d", i);
        sprintf(body, "{\"resourceName\":\"R%d\",\"venID\":\"v\"}", i);
        create(KUVTELEG_RESOURCE, id, body);
    }
    for (int i = 0; i < EVENTS; i++) {
        int at = sprintf(body, "{\"programID\":\"p\",\"priority\":%d,\"intervalPeriod\":{\"start\":\"2024-01-%02dT00:00:00Z\",\"duration\":\"PT1H\"},\"intervals\":[", i % 7, i % 28 + 1);
        for (int k = 0; k < 24; k++)
            at += sprintf(body + at, "%s{\"id\":%d,\"payloads\":[{\"type\":\"PRICE\",\"values\":[%d.%02d]}]}", k ? "," : "", k, i, k);
        sprintf(body + at, "]}");
        sprintf(id, "e%d", i);
        create(KUVTELEG_EVENT, id, body);
    }
}

static void prepare(void) {
    for (int i = 0; i < CALLS; i++) {
        int resource = rand() % RESOURCES, day = rand() % 28, hour = rand() % 24, minute = rand() % 60;
        sprintf(ids[i], "r%d", resource);
        sprintf(lines[i], "at r%d PRICE 2024-01-%02dT%02d:%02d:00Z", resource, day + 1, hour, minute);
        moments[i] = NEW_YEAR + ((day * 24 + hour) * 60 + minute) * 60;
    }
}

static void ask(int i) { must(kuvteleg_ask(&reader, bytes(lines[i]), strlen(lines[i]), out, sizeof out, &len), "ask"); }
static void governor(int i) { must(kuvteleg_governor(&reader, bytes(ids[i]), strlen(ids[i]), bytes("PRICE"), 5, moments[i], 0, &state, out, sizeof out, &len), "governor"); }
static void answer(int i) { (void)i; must(kuvteleg_answer(&reader, out, sizeof out, &len), "answer"); }
static void seen(int i) { (void)i; must(kuvteleg_seen(&reader, &number, &version), "seen"); }
static void share(int i) { (void)i; must(kuvteleg_share(&reader, &other), "share"); }
static void look(int i) { (void)i; must(kuvteleg_look(&editor, &other), "look"); }

static void measure(const char *name, void (*call)(int)) {
    double least = 1e18;
    for (int round = 0; round < ROUNDS; round++) {
        double start = now();
        for (int i = 0; i < CALLS; i++) call(i);
        double took = (now() - start) / CALLS;
        if (took < least) least = took;
    }
    printf("%-9s %8.1f\n", name, least);
}

int main(void) {
    must(kuvteleg_open(&editor, KUVTELEG_NEWEST), "open");
    double start = now();
    fill();
    printf("%d resources and %d events of 24 intervals: %.1f ms\n", RESOURCES, EVENTS, (now() - start) / 1e6);
    must(kuvteleg_publish(&editor, &number, &version), "publish");
    must(kuvteleg_look(&editor, &reader), "look");
    prepare();
    measure("ask at", ask);
    measure("governor", governor);
    measure("answer", answer);
    measure("seen", seen);
    measure("share", share);
    measure("look", look);
    must(kuvteleg_leave(&reader), "leave");
    must(kuvteleg_leave(&other), "leave");
    must(kuvteleg_close(&editor), "close");
    return 0;
}
