/* Loads the shared library, calls it, unloads it, and again; and two copies of it in one process.
 *
 *     loaded LIBRARY COPY */
#define _GNU_SOURCE
#include "kuvteleg.h"
#include <dlfcn.h>
#include <stdio.h>

static unsigned passed, failed;
#define SEE(it) ((it) ? (void)passed++ : (void)(failed++, printf("loaded.c:%d: not so: %s\n", __LINE__, #it)))

typedef struct {
    void *at;
    uint32_t (*open)(kuvteleg_editor *, uint32_t);
    uint32_t (*publish)(kuvteleg_editor *, uint64_t *, uint64_t *);
    uint32_t (*look)(kuvteleg_editor *, kuvteleg_reader *);
    uint32_t (*seen)(kuvteleg_reader *, uint64_t *, uint64_t *);
    uint32_t (*leave)(kuvteleg_reader *);
    uint32_t (*close)(kuvteleg_editor *);
} library;

/* POSIX has a function's address as that of an object. */
static void find(library *from, const char *name, void *function) {
    *(void **)function = dlsym(from->at, name);
    SEE(*(void **)function);
}

static library loaded(const char *path) {
    library it = {.at = dlopen(path, RTLD_NOW | RTLD_LOCAL)};
    SEE(it.at);
    find(&it, "kuvteleg_open", &it.open);
    find(&it, "kuvteleg_publish", &it.publish);
    find(&it, "kuvteleg_look", &it.look);
    find(&it, "kuvteleg_seen", &it.seen);
    find(&it, "kuvteleg_leave", &it.leave);
    find(&it, "kuvteleg_close", &it.close);
    return it;
}

static void begin(library *by, kuvteleg_editor *editor, kuvteleg_reader *reader) {
    uint64_t number, version;
    SEE(by->open(editor, KUVTELEG_NEWEST) == KUVTELEG_OK && by->publish(editor, &number, &version) == KUVTELEG_OK && number == 1);
    SEE(by->look(editor, reader) == KUVTELEG_OK);
}

static void end(library *by, kuvteleg_editor *editor, kuvteleg_reader *reader) {
    uint64_t number, version;
    SEE(by->close(editor) == KUVTELEG_OK && by->seen(reader, &number, &version) == KUVTELEG_OK && number == 1);
    SEE(by->leave(reader) == KUVTELEG_OK);
}

int main(int count, char **words) {
    kuvteleg_editor one = {0}, two = {0};
    kuvteleg_reader of_one = {0}, of_two = {0};
    if (count != 3)
        return 2;
    for (int i = 0; i < 20; i++) {
        library it = loaded(words[1]);
        begin(&it, &one, &of_one);
        end(&it, &one, &of_one);
        SEE(dlclose(it.at) == 0 && !dlopen(words[1], RTLD_NOW | RTLD_NOLOAD));
    }
    library first = loaded(words[1]), second = loaded(words[2]);
    SEE(first.open != second.open);
    begin(&first, &one, &of_one);
    begin(&second, &two, &of_two);
    end(&first, &one, &of_one);
    SEE(dlclose(first.at) == 0);
    end(&second, &two, &of_two);
    SEE(dlclose(second.at) == 0);
    printf("%u passed, %u failed\n", passed, failed);
    return failed != 0;
}
