/*
 * Puts the ranges of several trace files on one panel, and prints for each head the times of its last segment:
 *
 *   cc -std=c11 -Iinclude examples/panel.c crates/humoraki/out/libhumoraki.a -o target/panel
 *   target/panel samples/example.trace samples/dusty.trace samples/wide.trace
 *
 * Files of one address go to one head, the earlier file first; level, direction and step are those of the later file.
 * Heads whose signal rises and heads whose signal falls stand on one panel, each with its own step.
 */
#include "humoraki.h"

#include <inttypes.h>
#include <stdbool.h>
#include <stdio.h>
#include <stdlib.h>

/* The first 61,466 bytes decide, so bytes after these cannot matter. */
#define FILE_ROOM 65536

/* What a trace file says beside its ranges. */
struct record {
    uint32_t address;
    int32_t level;
    uint32_t direction;
    uint32_t step;
    size_t ranges;
};

/* The panel. It keeps no level, direction or step, so the record of each head's last file stands beside its entry. */
static struct {
    humoraki_entry entries[HUMORAKI_MOST_HEADS];
    struct record records[HUMORAKI_MOST_HEADS];
    size_t heads;
    uint32_t addresses[HUMORAKI_PANEL_ROOM];
    uint32_t times[HUMORAKI_PANEL_ROOM];
    int32_t lows[HUMORAKI_PANEL_ROOM];
    int32_t highs[HUMORAKI_PANEL_ROOM];
} panel;

/* The panel's slices, as both calls take them. */
#define PANEL \
    panel.entries, panel.heads, panel.addresses, HUMORAKI_PANEL_ROOM, panel.times, HUMORAKI_PANEL_ROOM, \
    panel.lows, HUMORAKI_PANEL_ROOM, panel.highs, HUMORAKI_PANEL_ROOM

/* The trace of a file, and later of a head: the first entries of each list, as many as its record says. */
static struct {
    uint32_t times[HUMORAKI_READ_ROOM];
    int32_t lows[HUMORAKI_READ_ROOM];
    int32_t highs[HUMORAKI_READ_ROOM];
    struct record record;
} trace;

/* The lists of the trace, to be filled. */
#define LISTS trace.times, HUMORAKI_READ_ROOM, trace.lows, HUMORAKI_READ_ROOM, trace.highs, HUMORAKI_READ_ROOM

#define ROOM HUMORAKI_SEGMENT_ROOM

/* Its segments: the first `count` entries of each column. Slow and fast have p, q and d. */
static struct {
    uint32_t first_times[ROOM], last_times[ROOM], counts[ROOM];
    int64_t slow[3][ROOM], fast[3][ROOM];
    uint64_t somes[ROOM], alls[ROOM];
    size_t count;
} segments;

static size_t read_file(const char *path, uint8_t *file) {
    FILE *stream = fopen(path, "rb");
    if (stream == NULL) {
        perror(path);
        exit(EXIT_FAILURE);
    }
    size_t length = fread(file, 1, FILE_ROOM, stream);
    if (ferror(stream)) {
        perror(path);
        exit(EXIT_FAILURE);
    }
    fclose(stream);
    return length;
}

/* Has the panel keep the head of the trace: a new one starts with 0 held. Whether there is an entry for it. */
static bool enter_head(void) {
    size_t place = 0;
    while (place < panel.heads && panel.entries[place].address != trace.record.address)
        place++;
    if (place == HUMORAKI_MOST_HEADS)
        return false;
    if (place == panel.heads)
        panel.entries[panel.heads++] = (humoraki_entry){trace.record.address, 0};
    panel.records[place] = trace.record;
    return true;
}

/* Adds the ranges of the trace up to one that is refused; what was added before it stays. The number, or 0. */
static uint8_t add_ranges(size_t *added) {
    for (*added = 0; *added < trace.record.ranges; ++*added) {
        size_t at = *added;
        uint8_t refusal = humoraki_add(PANEL, trace.record.address, trace.times[at], trace.lows[at], trace.highs[at]);
        if (refusal != 0)
            return refusal;
    }
    return 0;
}

/* Puts a file on the panel, or says why not, or how much of it. Whether all of it is there. */
static bool add_file(const char *path) {
    static uint8_t file[FILE_ROOM];
    size_t length = read_file(path, file), added;
    struct record *record = &trace.record;
    uint8_t refusal = humoraki_read(file, length, LISTS,
                                    &record->address, &record->level, &record->direction, &record->step,
                                    &record->ranges);
    if (refusal != 0) {
        printf("%s: refused %d\n", path, refusal);
        return false;
    }
    if (!enter_head()) {
        printf("%s: no entry is left for detector %" PRIu32 "\n", path, trace.record.address);
        return false;
    }
    refusal = add_ranges(&added);
    if (refusal == 0)
        return true;
    printf("%s: refused %d after %zu of %zu ranges%s\n", path, refusal, added, trace.record.ranges,
           refusal == 13 ? ": the common places are taken" : "");
    return false;
}

static uint8_t find_segments(void) {
    return humoraki_segment(trace.record.level, trace.record.direction, trace.record.step,
                            trace.times, trace.record.ranges,
                            trace.lows, trace.record.ranges,
                            trace.highs, trace.record.ranges,
                            segments.first_times, ROOM,
                            segments.last_times, ROOM,
                            segments.counts, ROOM,
                            segments.slow[0], ROOM, segments.slow[1], ROOM, segments.slow[2], ROOM,
                            segments.fast[0], ROOM, segments.fast[1], ROOM, segments.fast[2], ROOM,
                            segments.somes, ROOM,
                            segments.alls, ROOM,
                            &segments.count);
}

static void print_time(const char *name, uint64_t time) {
    if (time == HUMORAKI_NONE)
        printf(" %s none", name);
    else
        printf(" %s %" PRIu64, name, time);
}

/* Prints a head's line: its ranges come from the panel, its record from beside it. Whether nothing was refused. */
static bool print_head(size_t place) {
    trace.record = panel.records[place];
    uint8_t refusal = humoraki_head_ranges(PANEL, trace.record.address, LISTS, &trace.record.ranges);
    if (refusal == 0)
        refusal = find_segments();
    printf("detector %" PRIu32, trace.record.address);
    if (refusal != 0) {
        printf(" refused %d\n", refusal);
        return false;
    }
    printf(" level %" PRId32 " ranges %zu segments %zu", trace.record.level, trace.record.ranges, segments.count);
    size_t last = segments.count - 1;
    if (segments.count > 0 && segments.counts[last] == 1)
        printf(" open");
    if (segments.count > 0 && segments.counts[last] > 1) {
        print_time("some", segments.somes[last]);
        print_time("all", segments.alls[last]);
    }
    puts("");
    return true;
}

int main(int argc, char **argv) {
    bool whole = true;
    if (argc < 2) {
        fprintf(stderr, "usage: panel FILE...\n");
        return 2;
    }
    for (int at = 1; at < argc; at++)
        whole &= add_file(argv[at]);
    for (size_t place = 0; place < panel.heads; place++)
        whole &= print_head(place);
    if (fflush(stdout) != 0) {
        perror("standard output");
        return EXIT_FAILURE;
    }
    return whole ? EXIT_SUCCESS : EXIT_FAILURE;
}
