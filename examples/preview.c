/*
 * Prints what one range more would do to a trace file, before it is added: whether it joins the last segment or begins
 * one, and the last segment's lines and times then.
 *
 *   cc -std=c11 -Iinclude examples/preview.c crates/humoraki/out/libhumoraki.a -o target/preview
 *   target/preview samples/example.trace 60 13 16
 */
#include "humoraki.h"

#include <errno.h>
#include <inttypes.h>
#include <stdio.h>
#include <stdlib.h>

/* The first 61,466 bytes decide, so bytes after these cannot matter. */
#define FILE_ROOM 65536

/* A trace: the first `ranges` entries of each list. */
static struct {
    uint32_t times[HUMORAKI_READ_ROOM];
    int32_t lows[HUMORAKI_READ_ROOM];
    int32_t highs[HUMORAKI_READ_ROOM];
    uint32_t address;
    int32_t level;
    uint32_t direction;
    uint32_t step;
    size_t ranges;
} trace;

/* What the range would do. Slow and fast have p, q and d; an open segment has 0 for them and for the times. */
static struct {
    uint32_t kind;
    int64_t slow[3], fast[3];
    uint64_t some, all;
} effect;

static size_t read_file(const char *path, uint8_t *file) {
    FILE *stream = fopen(path, "rb");
    if (stream == NULL) {
        perror(path);
        exit(EXIT_FAILURE);
    }
    size_t length = fread(file, 1, FILE_ROOM, stream);
    if (ferror(stream)) {
        perror(path);
        exit(EXIT_FAILURE);
    }
    fclose(stream);
    return length;
}

/* A whole number. One that its type cannot hold is not cut to fit. */
static int64_t number(const char *word, int64_t least, int64_t most) {
    char *end;
    errno = 0;
    long long value = strtoll(word, &end, 10);
    if (errno != 0 || end == word || *end != '\0' || value < least || value > most) {
        fprintf(stderr, "preview: not a number from %" PRId64 " to %" PRId64 ": %s\n", least, most, word);
        exit(2);
    }
    return value;
}

static uint8_t read_trace(const uint8_t *file, size_t length) {
    return humoraki_read(file, length,
                         trace.times, HUMORAKI_READ_ROOM,
                         trace.lows, HUMORAKI_READ_ROOM,
                         trace.highs, HUMORAKI_READ_ROOM,
                         &trace.address, &trace.level, &trace.direction, &trace.step, &trace.ranges);
}

static uint8_t preview(uint32_t time, int32_t low, int32_t high) {
    return humoraki_preview(trace.level, trace.direction, trace.step,
                            trace.times, trace.ranges,
                            trace.lows, trace.ranges,
                            trace.highs, trace.ranges,
                            time, low, high,
                            &effect.kind,
                            &effect.slow[0], &effect.slow[1], &effect.slow[2],
                            &effect.fast[0], &effect.fast[1], &effect.fast[2],
                            &effect.some, &effect.all);
}

static void print_line(const char *name, const int64_t line[3]) {
    printf(" %s %" PRId64 " %" PRId64 " %" PRId64, name, line[0], line[1], line[2]);
}

static void print_time(const char *name, uint64_t time) {
    if (time == HUMORAKI_NONE)
        printf(" %s none", name);
    else
        printf(" %s %" PRIu64, name, time);
}

/* As a segment's line of the report ends. What begins has one range, and so it is open. */
static void print_effect(void) {
    if (effect.kind == HUMORAKI_BEGINS) {
        puts("begins open");
        return;
    }
    printf("joins");
    print_line("slow", effect.slow);
    print_line("fast", effect.fast);
    print_time("some", effect.some);
    print_time("all", effect.all);
    puts("");
}

int main(int argc, char **argv) {
    static uint8_t file[FILE_ROOM];
    if (argc != 5) {
        fprintf(stderr, "usage: preview FILE TIME LOW HIGH\n");
        return 2;
    }
    uint32_t time = (uint32_t)number(argv[2], 0, UINT32_MAX);
    int32_t low = (int32_t)number(argv[3], INT32_MIN, INT32_MAX);
    int32_t high = (int32_t)number(argv[4], INT32_MIN, INT32_MAX);
    size_t length = read_file(argv[1], file);
    uint8_t refusal = read_trace(file, length);
    if (refusal == 0)
        refusal = preview(time, low, high);
    if (refusal == 0)
        print_effect();
    else
        printf("refused %d\n", refusal);
    if (fflush(stdout) != 0) {
        perror("standard output");
        return EXIT_FAILURE;
    }
    return refusal == 0 ? EXIT_SUCCESS : EXIT_FAILURE;
}
