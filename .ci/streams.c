// Standard streams of a program that it is loaded before, as they may be at their worst. READ_ENDS: standard input fails
// after so many bytes; WRITE_ENDS: standard output does. PIECE: a call moves so many bytes at most. INTERRUPTED: a signal
// cuts off every other call.
#define _GNU_SOURCE
#include <errno.h>
#include <stdlib.h>
#include <sys/syscall.h>
#include <sys/uio.h>
#include <unistd.h>

static long read_ends = -1, write_ends = -1, piece = -1;
static int is_interrupted, turn;

static long number_in(const char *name) {
    const char *text = getenv(name);
    return text ? atol(text) : -1;
}

__attribute__((constructor)) static void begin(void) {
    read_ends = number_in("READ_ENDS");
    write_ends = number_in("WRITE_ENDS");
    piece = number_in("PIECE");
    is_interrupted = getenv("INTERRUPTED") != NULL;
}

// Makes one call, of which so many bytes are left before the stream fails.
static ssize_t call(long which, int file, void *bytes, size_t size, long *left, int failure) {
    if (is_interrupted && (turn ^= 1)) {
        errno = EINTR;
        return -1;
    }
    if (*left == 0 && size > 0) {
        errno = failure;
        return -1;
    }
    if (piece > 0 && size > (size_t)piece) {
        size = piece;
    }
    if (*left > 0 && size > (size_t)*left) {
        size = *left;
    }
    ssize_t moved = syscall(which, file, bytes, size);
    if (*left > 0 && moved > 0) {
        *left -= moved;
    }
    return moved;
}

ssize_t read(int file, void *bytes, size_t size) {
    return file == STDIN_FILENO ? call(SYS_read, file, bytes, size, &read_ends, EIO) : syscall(SYS_read, file, bytes, size);
}

ssize_t write(int file, const void *bytes, size_t size) {
    return file == STDOUT_FILENO ? call(SYS_write, file, (void *)bytes, size, &write_ends, ENOSPC)
                                 : syscall(SYS_write, file, bytes, size);
}

ssize_t writev(int file, const struct iovec *parts, int count) {
    return count > 0 ? write(file, parts[0].iov_base, parts[0].iov_len) : 0;
}
