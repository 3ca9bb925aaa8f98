/*
 * held_open FILE COUNT PROGRAM: runs a program on a non-blocking pipe that has the first bytes of a file in it and whose
 * other end stays open, as a logger leaves it that has not written all yet. A read past these bytes fails.
 */
#define _POSIX_C_SOURCE 200809L

#include <fcntl.h>
#include <stdio.h>
#include <stdlib.h>
#include <unistd.h>

static int fail(const char *what) {
    perror(what);
    return 2;
}

int main(int argc, char **argv) {
    static char bytes[4096];
    int ends[2];
    if (argc != 4) {
        fputs("usage: held_open FILE COUNT PROGRAM\n", stderr);
        return 2;
    }
    FILE *file = fopen(argv[1], "rb");
    if (file == NULL) return fail(argv[1]);
    size_t count = strtoul(argv[2], NULL, 10);
    if (count > sizeof bytes || fread(bytes, 1, count, file) != count) return fail(argv[1]);
    fclose(file);
    if (pipe(ends) != 0 || fcntl(ends[0], F_SETFL, O_NONBLOCK) != 0) return fail("pipe");
    if (write(ends[1], bytes, count) != (ssize_t)count) return fail("write");
    if (dup2(ends[0], STDIN_FILENO) < 0) return fail("dup2");
    execl(argv[3], argv[3], (char *)NULL);
    return fail(argv[3]);
}
