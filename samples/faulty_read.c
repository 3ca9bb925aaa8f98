/*
 * A `read` for programs to be run with, by LD_PRELOAD: on standard input it gives at most 7 bytes at a time, and fails
 * as the variable READ_FAULT says.
 *
 * interrupted   every second call is interrupted by a signal
 * signals       after 26 bytes every call is
 * disk          after 26 bytes every call fails with an error of the disk
 */
#define _GNU_SOURCE

#include <errno.h>
#include <stdlib.h>
#include <string.h>
#include <sys/syscall.h>
#include <unistd.h>

static const size_t part = 26;

static int error_of(const char *fault, size_t calls, size_t given) {
    if (strcmp(fault, "interrupted") == 0) return calls % 2 == 1 ? EINTR : 0;
    if (given < part) return 0;
    return strcmp(fault, "disk") == 0 ? EIO : EINTR;
}

ssize_t read(int descriptor, void *bytes, size_t count) {
    static size_t calls, given;
    const char *fault = getenv("READ_FAULT");
    if (descriptor != STDIN_FILENO || fault == NULL) return syscall(SYS_read, descriptor, bytes, count);
    int error = error_of(fault, ++calls, given);
    if (error != 0) {
        errno = error;
        return -1;
    }
    size_t most = given < part && part - given < 7 ? part - given : 7;
    ssize_t got = syscall(SYS_read, descriptor, bytes, count < most ? count : most);
    if (got > 0) given += (size_t)got;
    return got;
}
