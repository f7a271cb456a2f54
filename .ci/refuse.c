// Refuses one growth of a program that it is loaded before: the one whose number, from 1, is in REFUSE; and one start of
// a thread: the one whose number is in REFUSE_THREAD. It says so on file descriptor 3. Where REFUSE_AFTER has a line of
// standard output, only growths between that line and the next are counted.
#define _GNU_SOURCE
#include <dlfcn.h>
#include <errno.h>
#include <pthread.h>
#include <stdatomic.h>
#include <stdlib.h>
#include <string.h>
#include <sys/syscall.h>
#include <unistd.h>

void *__libc_malloc(size_t size);
void *__libc_calloc(size_t count, size_t size);
void *__libc_realloc(void *old, size_t size);
void *__libc_memalign(size_t alignment, size_t size);

static long number, thread;
static atomic_long count, threads;
static const char *after;
static atomic_int is_elsewhere;
static char line[4096];
static size_t length;

static long number_in(const char *name) {
    const char *text = getenv(name);
    return text ? atol(text) : 0;
}

__attribute__((constructor)) static void begin(void) {
    number = number_in("REFUSE");
    thread = number_in("REFUSE_THREAD");
    after = getenv("REFUSE_AFTER");
    is_elsewhere = after != NULL;
    count = 0;
}

static void read_line(char next) {
    if (next != '\n') {
        line[length] = next;
        length += length + 1 < sizeof line;
        return;
    }
    line[length] = 0;
    length = 0;
    is_elsewhere = strcmp(line, after) != 0;
}

ssize_t write(int file, const void *bytes, size_t size) {
    ssize_t written = syscall(SYS_write, file, bytes, size);
    for (ssize_t place = 0; after != NULL && file == STDOUT_FILENO && place < written; place++) {
        read_line(((const char *)bytes)[place]);
    }
    return written;
}

ssize_t __write(int file, const void *bytes, size_t size) { return write(file, bytes, size); }

static int is_refused(void) {
    if (number == 0 || is_elsewhere || ++count != number) {
        return 0;
    }
    errno = ENOMEM;
    return write(3, "refused\n", 8) == 8;
}

typedef int start_thread(pthread_t *, const pthread_attr_t *, void *(*)(void *), void *);

int pthread_create(pthread_t *id, const pthread_attr_t *how, void *(*body)(void *), void *with) {
    if (thread != 0 && ++threads == thread && write(3, "refused\n", 8) == 8) {
        return EAGAIN;
    }
    start_thread *next = (start_thread *)dlsym(RTLD_NEXT, "pthread_create");
    return next(id, how, body, with);
}

void *malloc(size_t size) { return is_refused() ? NULL : __libc_malloc(size); }

void *calloc(size_t many, size_t size) { return is_refused() ? NULL : __libc_calloc(many, size); }

void *realloc(void *old, size_t size) { return is_refused() ? NULL : __libc_realloc(old, size); }

void *aligned_alloc(size_t alignment, size_t size) {
    return is_refused() ? NULL : __libc_memalign(alignment, size);
}

int posix_memalign(void **out, size_t alignment, size_t size) {
    *out = is_refused() ? NULL : __libc_memalign(alignment, size);
    return *out ? 0 : ENOMEM;
}
