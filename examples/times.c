/*
 * Prints the two times of a trace file's last segment:
 *
 *   cc -std=c11 -Iinclude examples/times.c crates/humoraki/out/libhumoraki.a -o target/times
 *   target/times samples/example.trace
 */
#include "humoraki.h"

#include <inttypes.h>
#include <stdio.h>
#include <stdlib.h>

/* The first 61,466 bytes decide, so bytes after these cannot matter. */
#define FILE_ROOM 65536

/* A trace: the first `ranges` entries of each list. */
static struct {
    uint32_t times[HUMORAKI_READ_ROOM];
    int32_t lows[HUMORAKI_READ_ROOM];
    int32_t highs[HUMORAKI_READ_ROOM];
    uint32_t address;
    int32_t level;
    uint32_t direction;
    uint32_t step;
    size_t ranges;
} trace;

#define ROOM HUMORAKI_SEGMENT_ROOM

/* Its segments: the first `count` entries of each column. Slow and fast have p, q and d. */
static struct {
    uint32_t first_times[ROOM], last_times[ROOM], counts[ROOM];
    int64_t slow[3][ROOM], fast[3][ROOM];
    uint64_t somes[ROOM], alls[ROOM];
    size_t count;
} segments;

static size_t read_file(const char *path, uint8_t *file) {
    FILE *stream = fopen(path, "rb");
    if (stream == NULL) {
        perror(path);
        exit(EXIT_FAILURE);
    }
    size_t length = fread(file, 1, FILE_ROOM, stream);
    if (ferror(stream)) {
        perror(path);
        exit(EXIT_FAILURE);
    }
    fclose(stream);
    return length;
}

static uint8_t read_trace(const uint8_t *file, size_t length) {
    return humoraki_read(file, length,
                         trace.times, HUMORAKI_READ_ROOM,
                         trace.lows, HUMORAKI_READ_ROOM,
                         trace.highs, HUMORAKI_READ_ROOM,
                         &trace.address, &trace.level, &trace.direction, &trace.step, &trace.ranges);
}

static uint8_t find_segments(void) {
    return humoraki_segment(trace.level, trace.direction, trace.step,
                            trace.times, trace.ranges,
                            trace.lows, trace.ranges,
                            trace.highs, trace.ranges,
                            segments.first_times, ROOM,
                            segments.last_times, ROOM,
                            segments.counts, ROOM,
                            segments.slow[0], ROOM, segments.slow[1], ROOM, segments.slow[2], ROOM,
                            segments.fast[0], ROOM, segments.fast[1], ROOM, segments.fast[2], ROOM,
                            segments.somes, ROOM,
                            segments.alls, ROOM,
                            &segments.count);
}

static void print_time(const char *name, uint64_t time) {
    if (time == HUMORAKI_NONE)
        printf("%s none", name);
    else
        printf("%s %" PRIu64, name, time);
}

static void print_times(void) {
    if (segments.count == 0) {
        puts("no segments");
        return;
    }
    size_t last = segments.count - 1;
    if (segments.counts[last] == 1) {
        puts("open");
        return;
    }
    print_time("some", segments.somes[last]);
    print_time(" all", segments.alls[last]);
    puts("");
}

int main(int argc, char **argv) {
    static uint8_t file[FILE_ROOM];
    if (argc != 2) {
        fprintf(stderr, "usage: times FILE\n");
        return 2;
    }
    size_t length = read_file(argv[1], file);
    uint8_t refusal = read_trace(file, length);
    if (refusal == 0)
        refusal = find_segments();
    if (refusal == 0)
        print_times();
    else
        printf("refused %d\n", refusal);
    if (fflush(stdout) != 0) {
        perror("standard output");
        return EXIT_FAILURE;
    }
    return refusal == 0 ? EXIT_SUCCESS : EXIT_FAILURE;
}
