/*
 * Prints the last segment of a trace file and beside it the latest trend: as many of the last ranges as one line can
 * fit, which can be more than that segment has. Then the corners of its fit, and how many ranges the runs
 * have into which the trace is cut from its start, as segments, and from its end, each run the latest of what is left.
 * There are as many one way as the other.
 *
 *   cc -std=c11 -Iinclude examples/latest.c crates/humoraki/out/libhumoraki.a -o target/latest
 *   target/latest samples/example.trace
 */
#include "humoraki.h"

#include <inttypes.h>
#include <stdio.h>
#include <stdlib.h>

/* The first 61,466 bytes decide, so bytes after these cannot matter. */
#define FILE_ROOM 65536

/* A trace: the first `ranges` entries of each list. */
static struct {
    uint32_t times[HUMORAKI_READ_ROOM];
    int32_t lows[HUMORAKI_READ_ROOM];
    int32_t highs[HUMORAKI_READ_ROOM];
    uint32_t address;
    int32_t level;
    uint32_t direction;
    uint32_t step;
    size_t ranges;
} trace;

#define ROOM HUMORAKI_SEGMENT_ROOM

/* Its segments: the first `count` entries of each column. Slow and fast have p, q and d. */
static struct {
    uint32_t first_times[ROOM], last_times[ROOM], counts[ROOM];
    int64_t slow[3][ROOM], fast[3][ROOM];
    uint64_t somes[ROOM], alls[ROOM];
    size_t count;
} segments;

/* A run at the end of the trace. Slow and fast have p, q and d; an open run has 0 for them and for the times. */
struct run {
    size_t ranges;
    int64_t slow[3], fast[3];
    uint64_t some, all;
};

/* The latest trend, with its corners: the first `corners` entries of each slice. */
static struct {
    struct run run;
    int64_t ps[HUMORAKI_CORNER_ROOM], qs[HUMORAKI_CORNER_ROOM], ds[HUMORAKI_CORNER_ROOM];
    size_t corners;
} trend;

static size_t read_file(const char *path, uint8_t *file) {
    FILE *stream = fopen(path, "rb");
    if (stream == NULL) {
        perror(path);
        exit(EXIT_FAILURE);
    }
    size_t length = fread(file, 1, FILE_ROOM, stream);
    if (ferror(stream)) {
        perror(path);
        exit(EXIT_FAILURE);
    }
    fclose(stream);
    return length;
}

static uint8_t read_trace(const uint8_t *file, size_t length) {
    return humoraki_read(file, length,
                         trace.times, HUMORAKI_READ_ROOM,
                         trace.lows, HUMORAKI_READ_ROOM,
                         trace.highs, HUMORAKI_READ_ROOM,
                         &trace.address, &trace.level, &trace.direction, &trace.step, &trace.ranges);
}

static uint8_t find_segments(void) {
    return humoraki_segment(trace.level, trace.direction, trace.step,
                            trace.times, trace.ranges,
                            trace.lows, trace.ranges,
                            trace.highs, trace.ranges,
                            segments.first_times, ROOM,
                            segments.last_times, ROOM,
                            segments.counts, ROOM,
                            segments.slow[0], ROOM, segments.slow[1], ROOM, segments.slow[2], ROOM,
                            segments.fast[0], ROOM, segments.fast[1], ROOM, segments.fast[2], ROOM,
                            segments.somes, ROOM,
                            segments.alls, ROOM,
                            &segments.count);
}

/* The latest trend of the first so many ranges. */
static uint8_t find_trend(size_t ranges) {
    return humoraki_latest(trace.level, trace.direction, trace.step,
                           trace.times, ranges,
                           trace.lows, ranges,
                           trace.highs, ranges,
                           trend.ps, HUMORAKI_CORNER_ROOM,
                           trend.qs, HUMORAKI_CORNER_ROOM,
                           trend.ds, HUMORAKI_CORNER_ROOM,
                           &trend.run.ranges,
                           &trend.run.slow[0], &trend.run.slow[1], &trend.run.slow[2],
                           &trend.run.fast[0], &trend.run.fast[1], &trend.run.fast[2],
                           &trend.run.some, &trend.run.all,
                           &trend.corners);
}

/* The last segment, of a trace that has one. */
static struct run last_segment(void) {
    size_t last = segments.count - 1;
    struct run run = {.ranges = segments.counts[last], .some = segments.somes[last], .all = segments.alls[last]};
    for (int part = 0; part < 3; part++) {
        run.slow[part] = segments.slow[part][last];
        run.fast[part] = segments.fast[part][last];
    }
    return run;
}

static void print_line(const char *name, const int64_t line[3]) {
    printf(" %s %" PRId64 " %" PRId64 " %" PRId64, name, line[0], line[1], line[2]);
}

static void print_time(const char *name, uint64_t time) {
    if (time == HUMORAKI_NONE)
        printf(" %s none", name);
    else
        printf(" %s %" PRIu64, name, time);
}

/* As a segment's line of the report goes on after its place. */
static void print_run(const struct run *run) {
    uint32_t from = trace.times[trace.ranges - run->ranges], to = trace.times[trace.ranges - 1];
    printf(" from %" PRIu32 " to %" PRIu32 " ranges %zu", from, to, run->ranges);
    if (run->ranges == 1) {
        puts(" open");
        return;
    }
    print_line("slow", run->slow);
    print_line("fast", run->fast);
    print_time("some", run->some);
    print_time("all", run->all);
    puts("");
}

static void print_corners(void) {
    printf("corners %zu", trend.corners);
    for (size_t at = 0; at < trend.corners; at++)
        printf("%s %" PRId64 " %" PRId64 " %" PRId64, at == 0 ? ":" : ",", trend.ps[at], trend.qs[at], trend.ds[at]);
    puts("");
}

static void print_cut_from_start(void) {
    printf("cut from the start:");
    for (size_t at = 0; at < segments.count; at++)
        printf(" %" PRIu32, segments.counts[at]);
    puts("");
}

/* The latest run is dropped until nothing is left; the start of an accepted trace is accepted too. */
static uint8_t print_cut_from_end(void) {
    printf("cut from the end:");
    for (size_t left = trace.ranges; left > 0; left -= trend.run.ranges) {
        uint8_t refusal = find_trend(left);
        if (refusal != 0)
            return refusal;
        printf(" %zu", trend.run.ranges);
    }
    puts("");
    return 0;
}

static uint8_t print_trend(void) {
    if (trace.ranges == 0) {
        puts("no ranges");
        return 0;
    }
    struct run last = last_segment();
    printf("segment %zu", segments.count);
    print_run(&last);
    printf("latest");
    print_run(&trend.run);
    print_corners();
    print_cut_from_start();
    return print_cut_from_end();
}

int main(int argc, char **argv) {
    static uint8_t file[FILE_ROOM];
    if (argc != 2) {
        fprintf(stderr, "usage: latest FILE\n");
        return 2;
    }
    size_t length = read_file(argv[1], file);
    uint8_t refusal = read_trace(file, length);
    if (refusal == 0)
        refusal = find_segments();
    if (refusal == 0)
        refusal = find_trend(trace.ranges);
    if (refusal == 0)
        refusal = print_trend();
    if (refusal != 0)
        printf("refused %d\n", refusal);
    if (fflush(stdout) != 0) {
        perror("standard output");
        return EXIT_FAILURE;
    }
    return refusal == 0 ? EXIT_SUCCESS : EXIT_FAILURE;
}
