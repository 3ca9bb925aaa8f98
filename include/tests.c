/*
 * Tries from C what humoraki.h says of memory that is lent: a pointer beside a length of 0 may be null, and what a
 * function fills, sets or changes is written on success and left alone else. Then writes and reads back the addresses
 * and the steps at the ends of their spans and both directions, hands in numbers past them, reads readings, previews
 * ranges, asks for latest trends, and fills a panel. Prints what is not so, and then ends with 1.
 */
#include "humoraki.h"

#include <stdio.h>
#include <string.h>

/* All that a function fills, sets or changes. */
static struct {
    uint32_t times[HUMORAKI_READ_ROOM];
    int32_t lows[HUMORAKI_READ_ROOM], highs[HUMORAKI_READ_ROOM];
    uint8_t file[HUMORAKI_WRITE_ROOM];
    uint32_t first_times[HUMORAKI_SEGMENT_ROOM], last_times[HUMORAKI_SEGMENT_ROOM], counts[HUMORAKI_SEGMENT_ROOM];
    int64_t slow[3][HUMORAKI_SEGMENT_ROOM], fast[3][HUMORAKI_SEGMENT_ROOM];
    uint64_t somes[HUMORAKI_SEGMENT_ROOM], alls[HUMORAKI_SEGMENT_ROOM];
    int64_t ps[HUMORAKI_CORNER_ROOM], qs[HUMORAKI_CORNER_ROOM], ds[HUMORAKI_CORNER_ROOM];
    uint8_t text[HUMORAKI_REPORT_ROOM];
    humoraki_entry entries[2];
    uint32_t addresses[HUMORAKI_PANEL_ROOM], held_times[HUMORAKI_PANEL_ROOM];
    int32_t held_lows[HUMORAKI_PANEL_ROOM], held_highs[HUMORAKI_PANEL_ROOM];
    uint32_t address;
    int32_t level;
    uint32_t direction, step;
    size_t ranges, count;
    uint32_t kind;
    int64_t slow_line[3], fast_line[3];
    uint64_t some, all;
} lent;

static int failures;

static void expect(int so, const char *call, const char *what) {
    if (!so) {
        fprintf(stderr, "humoraki_%s: %s\n", call, what);
        failures++;
    }
}

/* A slice to be read, without entries. */
#define EMPTY NULL, 0

/* The direction and the step of a trace whose file has neither. */
#define PLAIN HUMORAKI_RISING, HUMORAKI_LEAST_STEP

/* A slice to be filled, lent whole, or as a null pointer where its place is the one that is missing. */
#define SLICE(place, name) \
    missing == (place) ? NULL : lent.name, missing == (place) ? 0 : sizeof lent.name / sizeof lent.name[0]

/* The calls without any range or byte, and without the slice at the missing place. */

/* What Read sets. */
#define RECORD &lent.address, &lent.level, &lent.direction, &lent.step, &lent.ranges

static uint8_t call_read(int missing) {
    return humoraki_read(EMPTY, SLICE(0, times), SLICE(1, lows), SLICE(2, highs), RECORD);
}

static uint8_t call_write(int missing) {
    return humoraki_write(7, 20, PLAIN, EMPTY, EMPTY, EMPTY, SLICE(0, file), &lent.count);
}

static uint8_t call_segment(int missing) {
    return humoraki_segment(20, PLAIN, EMPTY, EMPTY, EMPTY,
                            SLICE(0, first_times), SLICE(1, last_times), SLICE(2, counts),
                            SLICE(3, slow[0]), SLICE(4, slow[1]), SLICE(5, slow[2]),
                            SLICE(6, fast[0]), SLICE(7, fast[1]), SLICE(8, fast[2]),
                            SLICE(9, somes), SLICE(10, alls), &lent.count);
}

/* What Corners and Latest fill. */
#define CORNERS SLICE(0, ps), SLICE(1, qs), SLICE(2, ds)

static uint8_t call_corners(int missing) {
    return humoraki_corners(1, EMPTY, EMPTY, EMPTY, CORNERS, &lent.count);
}

/* The numbers of an outlook. */
#define OUTLOOK \
    &lent.slow_line[0], &lent.slow_line[1], &lent.slow_line[2], \
    &lent.fast_line[0], &lent.fast_line[1], &lent.fast_line[2], &lent.some, &lent.all

/* What Preview sets. */
#define EFFECT &lent.kind, OUTLOOK

/* Preview fills no slice, so none can be missing; its kind is told as the count. */
static uint8_t call_preview(int missing) {
    (void)missing;
    uint8_t number = humoraki_preview(20, PLAIN, EMPTY, EMPTY, EMPTY, 60, 13, 16, EFFECT);
    if (number == 0)
        lent.count = lent.kind;
    return number;
}

/* What Latest sets. */
#define TREND &lent.ranges, OUTLOOK, &lent.count

static uint8_t call_latest(int missing) {
    return humoraki_latest(20, PLAIN, EMPTY, EMPTY, EMPTY, CORNERS, TREND);
}

static uint8_t call_report(int missing) {
    return humoraki_report(EMPTY, SLICE(0, text), &lent.count);
}

/* A panel. Its entries have a place past all that a call fills or changes, as their lack is no 8 but 14. */
#define ENTRIES 7
#define PANEL \
    SLICE(ENTRIES, entries), SLICE(0, addresses), SLICE(1, held_times), SLICE(2, held_lows), SLICE(3, held_highs)

static uint8_t call_add(int missing) {
    return humoraki_add(PANEL, 7, 25, 1, 3);
}

static uint8_t call_head_ranges(int missing) {
    return humoraki_head_ranges(PANEL, 7, SLICE(4, times), SLICE(5, lows), SLICE(6, highs), &lent.count);
}

/* Each call, the slices that it fills or changes, and its number and its count where none is missing. */
static const struct {
    const char *name;
    uint8_t (*call)(int missing);
    int slices;
    uint8_t number;
    size_t count;
} calls[] = {
    {"read", call_read, 3, 1, 0},
    {"write", call_write, 1, 0, 11},
    {"segment", call_segment, 11, 0, 0},
    {"corners", call_corners, 3, 9, 0},
    {"preview", call_preview, 0, 0, HUMORAKI_BEGINS},
    {"latest", call_latest, 3, 0, 0},
    {"report", call_report, 1, 0, 10},
    {"add", call_add, 4, 14, 0},
    {"head_ranges", call_head_ranges, 7, 14, 0},
};

#define MARK 0x5a

static void mark(void) {
    memset(&lent, MARK, sizeof lent);
}

static int kept(void) {
    const unsigned char *bytes = (const unsigned char *)&lent;
    return bytes[0] == MARK && memcmp(bytes, bytes + 1, sizeof lent - 1) == 0;
}

/* Addresses, with the number of Write and how many bytes the file has for a trace without ranges. */
static const struct {
    uint32_t address;
    uint8_t number;
    size_t count;
} addresses[] = {
    {0, 4, 0}, {1, 0, 11}, {255, 0, 11}, {256, 0, 12}, {65535, 0, 12}, {65536, 4, 0}, {65543, 4, 0}, {UINT32_MAX, 4, 0},
};

/* Writes a file for each address and reads it back. */
static void try_addresses(void) {
    for (size_t at = 0; at < sizeof addresses / sizeof addresses[0]; at++) {
        uint32_t address = addresses[at].address;
        int missing = -1;
        mark();
        uint8_t number = humoraki_write(address, 20, PLAIN, EMPTY, EMPTY, EMPTY, SLICE(0, file), &lent.count);
        if (number != addresses[at].number) {
            fprintf(stderr, "address %lu: ", (unsigned long)address);
        }
        expect(number == addresses[at].number, "write", "another number for an address");
        if (addresses[at].number != 0) {
            expect(kept(), "write", "something is changed although the address is refused");
            continue;
        }
        expect(lent.count == addresses[at].count, "write", "another count for an address");
        number = humoraki_read(lent.file, lent.count, SLICE(0, times), SLICE(1, lows), SLICE(2, highs), RECORD);
        expect(number == 0 && lent.address == address, "read", "an address does not come back");
    }
}

/* Two ranges with one line, 40 - t, and the level 10: rising, it is reached at the last range already and until 30,
   falling at 30. */
static const uint32_t two_times[] = {10, 20};
static const int32_t two_values[] = {30, 20};
#define TWO two_times, 2, two_values, 2, two_values, 2

static uint8_t write_two(uint32_t direction, uint32_t step) {
    int missing = -1;
    return humoraki_write(7, 20, direction, step, TWO, SLICE(0, file), &lent.count);
}

static uint8_t segment_two(uint32_t direction, uint32_t step) {
    int missing = -1;
    return humoraki_segment(10, direction, step, TWO,
                            SLICE(0, first_times), SLICE(1, last_times), SLICE(2, counts),
                            SLICE(3, slow[0]), SLICE(4, slow[1]), SLICE(5, slow[2]),
                            SLICE(6, fast[0]), SLICE(7, fast[1]), SLICE(8, fast[2]),
                            SLICE(9, somes), SLICE(10, alls), &lent.count);
}

static uint8_t preview_two(uint32_t direction, uint32_t step) {
    return humoraki_preview(10, direction, step, TWO, 25, 15, 15, EFFECT);
}

static uint8_t latest_two(uint32_t direction, uint32_t step) {
    int missing = -1;
    return humoraki_latest(10, direction, step, TWO, CORNERS, TREND);
}

/* Directions and steps: both come back from their file, and the line reaches the level when it does in that direction,
   at a multiple of the step, with the two ranges and with one range more. */
static const struct {
    uint32_t direction, step;
    size_t count;
    uint64_t two, three;
} services[] = {
    {HUMORAKI_RISING, 1, 41, 20, 25},
    {HUMORAKI_FALLING, 1, 45, 30, 30},
    {HUMORAKI_RISING, 7, 48, 21, 28},
    {HUMORAKI_FALLING, 7, 52, 35, 35},
    {HUMORAKI_RISING, 30, 48, 30, 30},
    {HUMORAKI_RISING, 31, 48, HUMORAKI_NONE, HUMORAKI_NONE},
    {HUMORAKI_RISING, HUMORAKI_MOST_STEP, 48, HUMORAKI_NONE, HUMORAKI_NONE},
    {HUMORAKI_FALLING, HUMORAKI_MOST_STEP, 52, HUMORAKI_MOST_STEP, HUMORAKI_MOST_STEP},
};

static void try_service(size_t at) {
    uint32_t direction = services[at].direction, step = services[at].step;
    uint64_t two = services[at].two, three = services[at].three;
    int missing = -1;
    mark();
    expect(write_two(direction, step) == 0 && lent.count == services[at].count, "write", "another count for a service");
    expect(humoraki_read(lent.file, lent.count, SLICE(0, times), SLICE(1, lows), SLICE(2, highs), RECORD) == 0 &&
               lent.direction == direction && lent.step == step,
           "read", "a direction or a step does not come back");
    expect(segment_two(direction, step) == 0 && lent.somes[0] == two && lent.alls[0] == two, "segment", "another time");
    expect(preview_two(direction, step) == 0 && lent.some == three && lent.all == three, "preview", "another time");
    expect(latest_two(direction, step) == 0 && lent.some == two && lent.all == two, "latest", "another time");
}

/* Each call with a level refuses a number that is no direction, or one that is no step, with 4. */
static void try_refused_service(uint32_t direction, uint32_t step) {
    expect(write_two(direction, step) == 4, "write", "no direction, or no step, and not refused with 4");
    expect(segment_two(direction, step) == 4, "segment", "no direction, or no step, and not refused with 4");
    expect(preview_two(direction, step) == 4, "preview", "no direction, or no step, and not refused with 4");
    expect(latest_two(direction, step) == 4, "latest", "no direction, or no step, and not refused with 4");
}

static void try_services(void) {
    static const uint32_t directions[] = {2, 255, 256, 65536, 65537, UINT32_MAX};
    static const uint32_t steps[] = {0, HUMORAKI_MOST_STEP + 1, 131132, UINT32_C(1) << 31, UINT32_MAX};
    for (size_t at = 0; at < sizeof services / sizeof services[0]; at++)
        try_service(at);
    mark();
    for (size_t at = 0; at < sizeof directions / sizeof directions[0]; at++)
        try_refused_service(directions[at], HUMORAKI_LEAST_STEP);
    for (size_t at = 0; at < sizeof steps / sizeof steps[0]; at++) {
        try_refused_service(HUMORAKI_RISING, steps[at]);
        try_refused_service(HUMORAKI_FALLING, steps[at]);
    }
    expect(kept(), "segment", "something is changed although the direction or the step is refused");
}

/* A logger's file: address 7, level 640, then 0.5 at 10, and 0.75 to 1.25 at 20, in binary32. */
static const uint8_t logger[] = {
    1, 0, 1, 7, 2, 0, 4, 0, 0, 2, 0x80,
    6, 0, 8, 0, 0, 0, 10, 0x3f, 0, 0, 0,
    7, 0, 12, 0, 0, 0, 20, 0x3f, 0x40, 0, 0, 0x3f, 0xa0, 0, 0,
};

/* Where its three values begin, and what is refused there: half a 256th, what is infinite, what is not a number, and the
   largest of all. */
static const size_t values_at[] = {18, 29, 33};
static const struct {
    uint8_t bytes[4], number;
} refused_values[] = {
    {{0x3b, 0, 0, 0}, 11}, {{0x7f, 0x80, 0, 0}, 11}, {{0x7f, 0xc0, 0, 0}, 11}, {{0x7f, 0x7f, 0xff, 0xff}, 4},
};

/* What Read fills and sets. */
#define TRACE SLICE(0, times), SLICE(1, lows), SLICE(2, highs), RECORD

/* Reads the file with another value, which is refused with a number; its report tells that. */
static void try_refused_value(size_t place, const uint8_t value[4], uint8_t number) {
    int missing = -1;
    uint8_t file[sizeof logger];
    char text[16];
    memcpy(file, logger, sizeof logger);
    memcpy(file + place, value, 4);
    mark();
    expect(humoraki_read(file, sizeof file, TRACE) == number, "read", "another number for a value");
    expect(kept(), "read", "something is changed although a value is refused");
    int length = snprintf(text, sizeof text, "refused %d\n", number);
    expect(humoraki_report(file, sizeof file, SLICE(0, text), &lent.count) == 0, "report", "a report is refused");
    expect(lent.count == (size_t)length && memcmp(lent.text, text, lent.count) == 0, "report", "another refusal");
}

/* Reads the file, whose values are taken in 256ths, and then with each value that is refused in each place. */
static void try_readings(void) {
    int missing = -1;
    mark();
    expect(humoraki_read(logger, sizeof logger, TRACE) == 0, "read", "another number for readings");
    expect(lent.ranges == 2 && lent.level == 640, "read", "another record of readings");
    expect(lent.times[0] == 10 && lent.lows[0] == 128 && lent.highs[0] == 128, "read", "another spot value");
    expect(lent.times[1] == 20 && lent.lows[1] == 192 && lent.highs[1] == 320, "read", "another span");
    for (size_t at = 0; at < sizeof refused_values / sizeof refused_values[0]; at++)
        for (size_t place = 0; place < sizeof values_at / sizeof values_at[0]; place++)
            try_refused_value(values_at[place], refused_values[at].bytes, refused_values[at].number);
}

/* The first so many ranges of the first sample. */
static const uint32_t sample_times[] = {10, 20, 30, 40, 50};
static const int32_t sample_lows[] = {0, 4, 10, 9, 9}, sample_highs[] = {4, 8, 14, 11, 12};
#define SAMPLE(count) sample_times, count, sample_lows, count, sample_highs, count

/* Whether an outlook was set: slow and fast line, and the two times. */
static void expect_outlook(const char *call, const int64_t outlook[8]) {
    expect(memcmp(lent.slow_line, outlook, sizeof lent.slow_line) == 0, call, "another slow line");
    expect(memcmp(lent.fast_line, outlook + 3, sizeof lent.fast_line) == 0, call, "another fast line");
    expect(lent.some == (uint64_t)outlook[6] && lent.all == (uint64_t)outlook[7], call, "another time");
}

/* The effect of a range behind those of the first sample: the number, and on success the kind and the outlook. */
static void try_preview(int32_t level, uint32_t time, int32_t low, int32_t high, uint8_t number, uint32_t kind,
                        const int64_t outlook[8]) {
    mark();
    expect(humoraki_preview(level, PLAIN, SAMPLE(5), time, low, high, EFFECT) == number, "preview",
           "another number");
    if (number != 0) {
        expect(kept(), "preview", "something is changed by a refusal");
        return;
    }
    expect(lent.kind == kind, "preview", "another kind");
    expect_outlook("preview", outlook);
}

static void try_previews(void) {
    static const int64_t open[8] = {0}, joined[8] = {1, 70, 10, 3, -30, 10, 77, 130};
    try_preview(20, 60, 13, 16, 0, HUMORAKI_JOINS, joined);
    try_preview(20, 60, 16, 18, 0, HUMORAKI_BEGINS, open);
    try_preview(20, 50, 13, 16, 6, 0, open);
    try_preview(20, 50, 17, 16, 5, 0, open);
    try_preview(20, 50, INT32_MIN, 16, 4, 0, open);
    try_preview(INT32_MAX, 60, 13, 16, 4, 0, open);
}

/* The latest trend of the first sample's first ranges: how many of them are in its run, its outlook and its corners. */
static void try_latest(size_t count, size_t ranges, const int64_t outlook[8], size_t corners,
                       const int64_t listed[][3]) {
    int missing = -1;
    mark();
    int64_t past = lent.ps[corners];
    expect(humoraki_latest(20, PLAIN, SAMPLE(count), CORNERS, TREND) == 0, "latest", "another number");
    expect(lent.ranges == ranges, "latest", "another number of ranges");
    expect_outlook("latest", outlook);
    expect(lent.count == corners, "latest", "another number of corners");
    for (size_t at = 0; at < corners; at++)
        expect(lent.ps[at] == listed[at][0] && lent.qs[at] == listed[at][1] && lent.ds[at] == listed[at][2],
               "latest", "another corner");
    expect(lent.ps[corners] == past && lent.qs[corners] == past && lent.ds[corners] == past,
           "latest", "an entry past the corners is changed");
}

/* A run that begins before the last segment does, two ranges, one and none; and what is refused. */
static void try_latest_trends(void) {
    static const int64_t open[8] = {0}, five[8] = {-1, 95, 5, 1, 70, 10, 130, (int64_t)HUMORAKI_NONE};
    static const int64_t two[8] = {0, 4, 1, 4, -40, 5, 35, (int64_t)HUMORAKI_NONE};
    static const int64_t of_five[][3] = {{-1, 95, 5}, {1, 70, 10}, {-1, 230, 20}};
    static const int64_t of_two[][3] = {{0, 4, 1}, {2, 0, 5}, {4, -40, 5}, {2, -20, 5}};
    int missing = -1;
    try_latest(5, 3, five, 3, of_five);
    try_latest(2, 2, two, 4, of_two);
    try_latest(1, 1, open, 0, NULL);
    try_latest(0, 0, open, 0, NULL);
    mark();
    expect(humoraki_latest(INT32_MAX, PLAIN, SAMPLE(5), CORNERS, TREND) == 4, "latest", "another number");
    expect(humoraki_latest(20, PLAIN, sample_times, 5, sample_highs, 5, sample_lows, 5, CORNERS, TREND) == 5,
           "latest", "another number");
    expect(humoraki_latest(20, PLAIN, sample_times, 5, sample_lows, 4, sample_highs, 5, CORNERS, TREND) == 10,
           "latest", "another number");
    expect(kept(), "latest", "something is changed by a refusal");
}

/* Adds a range to the panel; a refusal must leave all that is lent as it was. */
static void try_add(uint32_t address, uint32_t time, int32_t low, int32_t high, uint8_t number) {
    static unsigned char before[sizeof lent];
    int missing = -1;
    if (number != 0)
        memcpy(before, &lent, sizeof lent);
    expect(humoraki_add(PANEL, address, time, low, high) == number, "add", "another number");
    expect(number == 0 || memcmp(before, &lent, sizeof lent) == 0, "add", "something is changed by a refusal");
}

/* Asks for a head's ranges: so many, at the times from 1 on, and nothing past them. */
static void try_head_ranges(uint32_t address, size_t count) {
    int missing = -1;
    uint32_t past = lent.times[count];
    uint8_t number = humoraki_head_ranges(PANEL, address, SLICE(4, times), SLICE(5, lows), SLICE(6, highs),
                                          &lent.count);
    expect(number == 0 && lent.count == count, "head_ranges", "another count");
    for (size_t at = 0; at < count; at++)
        expect(lent.times[at] == at + 1 && lent.lows[at] == -1 && lent.highs[at] == 1, "head_ranges", "another range");
    expect(lent.times[count] == past, "head_ranges", "an entry past the count is changed");
}

/* Starts a panel of the heads 7 and 9 in lists that nothing has set, fills it, and asks for the ranges again. */
static void try_panel(void) {
    mark();
    lent.entries[0] = (humoraki_entry){7, 0};
    lent.entries[1] = (humoraki_entry){9, 0};
    for (uint32_t time = 1; time <= 2080; time++)
        try_add(9, time, -1, 1, 0);
    try_add(9, 2081, -1, 1, 13);
    for (uint32_t time = 1; time <= 32; time++)
        try_add(7, time, -1, 1, 0);
    try_add(7, 33, -1, 1, 13);
    try_add(7, 32, -1, 1, 6);
    try_add(7, 32, 1, -1, 5);
    try_add(7, 32, INT32_MAX, -1, 4);
    try_add(65543, 32, INT32_MAX, -1, 12);
    expect(lent.entries[0].held == 32 && lent.entries[1].held == 2080, "add", "another held count");
    try_head_ranges(7, 32);
    try_head_ranges(9, 2080);
    lent.entries[0].held = UINT32_MAX;
    try_add(65543, 32, INT32_MAX, -1, 14);
    mark();
    expect(call_add(ENTRIES) == 14, "add", "null entries are not refused with 14");
    expect(call_head_ranges(ENTRIES) == 14, "head_ranges", "null entries are not refused with 14");
    expect(kept(), "add", "something is changed although the entries are missing");
}

int main(void) {
    for (size_t at = 0; at < sizeof calls / sizeof calls[0]; at++) {
        const char *name = calls[at].name;
        for (int missing = 0; missing < calls[at].slices; missing++) {
            mark();
            expect(calls[at].call(missing) == 8, name, "a null slice is not refused with 8");
            expect(kept(), name, "something is changed although a slice is missing");
        }
        mark();
        expect(calls[at].call(-1) == calls[at].number, name, "another number for null lists than for empty ones");
        if (calls[at].number == 0)
            expect(lent.count == calls[at].count, name, "another count for null lists than for empty ones");
        else
            expect(kept(), name, "something is changed by a refusal");
    }
    try_addresses();
    try_services();
    try_readings();
    try_previews();
    try_latest_trends();
    try_panel();
    return failures == 0 ? 0 : 1;
}
