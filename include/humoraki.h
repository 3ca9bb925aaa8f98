/*
 * Humoraki: the segments of a smoke detector's trace, when the detector must be serviced, what one range more would do
 * to both, and the latest trend; the ranges of many detectors on one panel.
 *
 * Link with libhumoraki.a, which `rt lib` in crates/humoraki writes to crates/humoraki/out/.
 *
 * Every function takes any numbers and any slices of any length, ends, and touches nothing but what it was lent.
 * Each gives 0, or the number of a refusal; after a refusal everything that was lent holds its old contents.
 *
 *    1   the file ends before a needed field, or inside a field
 *    2   the tag is not the one due
 *    3   the length is none that the tag may have
 *    4   address, level, direction, step, low or high outside its span, or in a file an address below 256 in two bytes,
 *        a direction of 0 or a step of 1
 *    5   low above high
 *    6   time not above the one before; on a panel, the one before of the same head
 *    7   a 4,097th range
 *    8   a lent slice to be filled, or a list of a panel, is too short
 *    9   k is 0 or above the number of ranges
 *   10   times, lows and highs differ in length
 *   11   in a file, a value of a reading is infinite or not a number, or is not a whole number of 256ths
 *   12   no entry of the panel has the address
 *   13   the head holds 32 ranges or more, and the panel's common places are taken
 *   14   not a panel: it has 0 entries or over 64, one address in two of them, or one outside its span; some head
 *        does not hold as many ranges as its address has places; or over 2,048 common places are taken
 *
 * A slice is a pointer and the number of its entries. What C cannot say and a caller has to keep:
 *   - each pointer of a slice points to as many entries as the length beside it tells, aligned as its type asks; beside
 *     a length of 0 it may be null;
 *   - each pointer to a single number points to one, aligned as well, and is never null;
 *   - what a function fills, sets or changes overlaps nothing else that it is lent.
 * What a function fills or sets is never read, so it need not be initialised: it is written on success, and else left
 * alone. A panel alone is both read and changed, by humoraki_add.
 * After success, entries past the reported count hold their old contents.
 *
 * A range is a time, from 0 to 4,294,967,295, with a low and a high, each from -268,435,456 to 268,435,456, low at most
 * high. The ranges of a trace have rising times, and there are at most 4,096 of them. docs/SCOPE.md has the form of a
 * trace file and the order of corners, docs/LIBRARY.md the stack that each function needs.
 *
 * The file of a logger may have readings in the place of ranges: a spot value, or a low and a high, in IEEE 754
 * binary32. They become ranges in 256ths, so that 1.5 is 384, and such a file has its level in 256ths too. Nothing is
 * rounded: a value that is no whole number of 256ths is refused with 11. No function takes or gives a float.
 */
#ifndef HUMORAKI_H
#define HUMORAKI_H

#include <stddef.h>
#include <stdint.h>

#ifdef __cplusplus
extern "C" {
#endif

/* The least number of entries in each slice that a function fills. */
#define HUMORAKI_READ_ROOM 4096     /* times, lows, highs */
#define HUMORAKI_WRITE_ROOM 61463   /* the bytes of a trace file */
#define HUMORAKI_SEGMENT_ROOM 2048  /* each column of a segment's row */
#define HUMORAKI_CORNER_ROOM 8192   /* ps, qs, ds, of humoraki_corners and of humoraki_latest */
#define HUMORAKI_REPORT_ROOM 524544 /* the text of a report: 256 bytes for each of 2,049 lines */

/* The least number of entries in each of a panel's four lists, and in each that humoraki_head_ranges fills. */
#define HUMORAKI_PANEL_ROOM 4096

/* The largest number of entries, one for each head, that a panel may have. */
#define HUMORAKI_MOST_HEADS 64

/*
 * Stands for a time that there is not, in somes and alls, and in some and all of humoraki_preview and humoraki_latest.
 * Times end with 4,294,967,295, so a level that is reached only later counts as never reached.
 */
#define HUMORAKI_NONE UINT64_C(4294967296)

/*
 * The direction in which dust moves a head's signal: up, or down, as of a beam head. It is taken next to each level and
 * set by humoraki_read. Rising, a line has reached the level where it is at or above it; falling, at or below it.
 */
#define HUMORAKI_RISING 0
#define HUMORAKI_FALLING 1

/*
 * The step, in seconds: service can start only at its multiples, counted from time 0, such as the starts of shifts. It
 * is taken behind each direction and set by humoraki_read. At 1 every second will do. Every time in some and all is such
 * a multiple. A head past its level may have none: where its signal is at the next multiple decides, and it may have
 * fallen back by then.
 */
#define HUMORAKI_LEAST_STEP 1
#define HUMORAKI_MOST_STEP 86400

/* What a range would do, in kind of humoraki_preview: join the last segment, or begin one. */
#define HUMORAKI_JOINS 0
#define HUMORAKI_BEGINS 1

/*
 * The columns of a segment's row, as parameters in their order: slices, each filled with one entry for each segment.
 * A line has the value (p * t + q) / d at t. It has reached the level where that is at or above the level on a rising
 * trace, and at or below it on a falling one. Slow is the line of least slope, fast that of greatest, on both: so it is
 * the slow line that first reaches the level of a falling trace.
 * A segment of one range is open: it has 0 in every column after counts.
 */
#define HUMORAKI_SEGMENT_COLUMNS \
    uint32_t *first_times, size_t first_times_len, /* the time of the segment's first range */ \
    uint32_t *last_times, size_t last_times_len,   /* the time of its last range */ \
    uint32_t *counts, size_t counts_len,           /* the number of its ranges */ \
    int64_t *slow_ps, size_t slow_ps_len,          /* the p of its slow line */ \
    int64_t *slow_qs, size_t slow_qs_len,          /* the q */ \
    int64_t *slow_ds, size_t slow_ds_len,          /* the d */ \
    int64_t *fast_ps, size_t fast_ps_len,          /* the p of its fast line */ \
    int64_t *fast_qs, size_t fast_qs_len,          /* the q */ \
    int64_t *fast_ds, size_t fast_ds_len,          /* the d */ \
    uint64_t *somes, size_t somes_len,             /* the first multiple of the step, from its last time on, at */ \
                                                   /* which some fitting line has reached the level, or */ \
                                                   /* HUMORAKI_NONE */ \
    uint64_t *alls, size_t alls_len                /* the first at which every fitting line has, or HUMORAKI_NONE */

/*
 * Reads a trace file.
 *
 * file       the file's bytes, of any number
 * times      filled with the time of each range
 * lows       filled with the low of each range; of a reading in 256ths
 * highs      filled with the high of each range, likewise; the one value of a spot is taken for both, and -0.0 for 0
 * address    set to the detector's address, 1 to 65,535: up to 255 the file has it in one byte, above in two
 * level      set to the service level, as it stands in the file: beside readings it is in 256ths already
 * direction  set to HUMORAKI_FALLING, which is 1, where the file says so, else to HUMORAKI_RISING, which is 0
 * step       set to the step that the file says, 2 to 86,400, or to 1 where it says none
 * ranges     set to the number of ranges
 *
 * A file has ranges or readings and not both: the first of them decides, and a field of the other kind after it gets 2.
 * What is filled and set does not tell which they were.
 *
 * Refusals: 8, then field by field 1, 2, 3, 7, 1 for a body cut short, 4, 5, 6. Of a reading 11 is tried just before 4
 * on the same value: 11 and 4 of the low, 11 and 4 of the high, 5, 6. A finite value that is too large gets 4, however
 * large it is.
 */
uint8_t humoraki_read(const uint8_t *file, size_t file_len,
                      uint32_t *times, size_t times_len,
                      int32_t *lows, size_t lows_len,
                      int32_t *highs, size_t highs_len,
                      uint32_t *address, int32_t *level, uint32_t *direction, uint32_t *step, size_t *ranges);

/*
 * Writes a trace file, always with ranges: of a trace that was read from readings it is another file, with the same
 * trace and the same report.
 *
 * address             the detector's address, 1 to 65,535; the file gets it in one byte up to 255, above in two.
 *                     None is cut to fit: 65,543, whose last 16 bits are 7, is refused with 4
 * level               the service level, -268,435,456 to 268,435,456
 * direction           HUMORAKI_RISING or HUMORAKI_FALLING; the file of a falling trace has a field more.
 *                     None is cut to fit: 256, whose last 8 bits are 0, is refused with 4
 * step                1 to 86,400, else 4; the file has a field more, of seven bytes, exactly if it is not 1
 * times, lows, highs  the ranges, in lists of one length
 * file                filled with the file's bytes, at most 61,463
 * count               set to the number of bytes
 *
 * Refusals: 8, 10, 7, address, level, direction and step 4, then range by range 4, 5, 6.
 */
uint8_t humoraki_write(uint32_t address, int32_t level, uint32_t direction, uint32_t step,
                       const uint32_t *times, size_t times_len,
                       const int32_t *lows, size_t lows_len,
                       const int32_t *highs, size_t highs_len,
                       uint8_t *file, size_t file_len,
                       size_t *count);

/*
 * The segments of a trace, with their slow and fast lines and their two times.
 *
 * level                     the service level, -268,435,456 to 268,435,456
 * direction                 HUMORAKI_RISING or HUMORAKI_FALLING; any other number is refused with 4
 * step                      1 to 86,400; any other number is refused with 4
 * times, lows, highs        the ranges, in lists of one length
 * HUMORAKI_SEGMENT_COLUMNS  the columns, filled
 * count                     set to the number of segments
 *
 * Refusals: 8, 10, 7, level, direction and step 4, then range by range 4, 5, 6.
 */
uint8_t humoraki_segment(int32_t level, uint32_t direction, uint32_t step,
                         const uint32_t *times, size_t times_len,
                         const int32_t *lows, size_t lows_len,
                         const int32_t *highs, size_t highs_len,
                         HUMORAKI_SEGMENT_COLUMNS,
                         size_t *count);

/*
 * The corners of the fit of the segment then running after the first k ranges.
 *
 * k                   how many ranges, from 1 on
 * times, lows, highs  the ranges, in lists of one length
 * ps, qs, ds          filled with the corners, in corner order: the value at t is (p * t + q) / d
 * count               set to the number of corners; 0 says that the fit is open, since the segment has one range so far
 *
 * Refusals: 8, 10, 7, range by range 4, 5, 6 over the whole lists, and last 9.
 */
uint8_t humoraki_corners(size_t k,
                         const uint32_t *times, size_t times_len,
                         const int32_t *lows, size_t lows_len,
                         const int32_t *highs, size_t highs_len,
                         int64_t *ps, size_t ps_len,
                         int64_t *qs, size_t qs_len,
                         int64_t *ds, size_t ds_len,
                         size_t *count);

/*
 * The effect of a range before it is added: whether it would join the last segment or begin one, and the outlook of the
 * last segment then. That is what humoraki_segment gives on a copy of the lists with the range behind it.
 *
 * level                   the service level, -268,435,456 to 268,435,456
 * direction               HUMORAKI_RISING or HUMORAKI_FALLING; any other number is refused with 4
 * step                    1 to 86,400; any other number is refused with 4
 * times, lows, highs      the ranges so far, in lists of one length, at most 4,095; read and not changed
 * time                    that of the range, above that of the last range so far
 * low, high               its low and high, -268,435,456 to 268,435,456, low at most high
 * kind                    set to HUMORAKI_JOINS, which is 0, or to HUMORAKI_BEGINS, which is 1, where the copy has one
 *                         segment more than the lists
 * slow_p, slow_q, slow_d  set to the slow line of the last segment: the value at t is (p * t + q) / d
 * fast_p, fast_q, fast_d  set to its fast line
 * some                    set to the first multiple of the step, from the time of the range on, at which some fitting
 *                         line has reached the level, as in humoraki_segment, or to HUMORAKI_NONE
 * all                     set to the first at which every fitting line has, or to HUMORAKI_NONE
 *
 * A segment of one range is open: the eight numbers after kind are set to 0. That is so exactly if the range begins it,
 * as the first range of all does, where the lists are empty. The d of a line is above 0.
 *
 * Refusals: 10, 7, level, direction and step 4, then range by range 4, 5, 6, the new range last. A full list, of 4,096
 * ranges, gets 7 whatever level, direction, step and range are. No slice is filled, so there is no 8.
 */
uint8_t humoraki_preview(int32_t level, uint32_t direction, uint32_t step,
                         const uint32_t *times, size_t times_len,
                         const int32_t *lows, size_t lows_len,
                         const int32_t *highs, size_t highs_len,
                         uint32_t time, int32_t low, int32_t high,
                         uint32_t *kind,
                         int64_t *slow_p, int64_t *slow_q, int64_t *slow_d,
                         int64_t *fast_p, int64_t *fast_q, int64_t *fast_d,
                         uint64_t *some, uint64_t *all);

/*
 * The latest trend. Its run has the last ranges of the trace, as many as some line can fit together; it is told with
 * its outlook and its corners. Like the last segment it ends with the last range, and it can begin before that one.
 *
 * level                   the service level, -268,435,456 to 268,435,456
 * direction               HUMORAKI_RISING or HUMORAKI_FALLING; any other number is refused with 4
 * step                    1 to 86,400; any other number is refused with 4
 * times, lows, highs      the ranges, in lists of one length
 * ps, qs, ds              filled with the corners, in corner order: the value at t is (p * t + q) / d
 * ranges                  set to the number of ranges of the run: it has the last ones of the lists
 * slow_p, slow_q, slow_d  set to the slow line of the run
 * fast_p, fast_q, fast_d  set to its fast line
 * some                    set to the first multiple of the step, from the time of the last range on, at which some
 *                         fitting line has reached the level, as in humoraki_segment, or to HUMORAKI_NONE
 * all                     set to the first at which every fitting line has, or to HUMORAKI_NONE
 * corners                 set to the number of corners; 0 says that the run is open
 *
 * Lists without ranges have a run of 0 ranges. Such a run is open, as one of a single range is: the eight numbers from
 * slow_p to all are set to 0, and there are no corners. Any two ranges have a line, so where the lists have two or more,
 * the run has at least two, and is not open. The d of a line is above 0.
 *
 * Refusals: 8, 10, 7, level, direction and step 4, then range by range 4, 5, 6.
 */
uint8_t humoraki_latest(int32_t level, uint32_t direction, uint32_t step,
                        const uint32_t *times, size_t times_len,
                        const int32_t *lows, size_t lows_len,
                        const int32_t *highs, size_t highs_len,
                        int64_t *ps, size_t ps_len,
                        int64_t *qs, size_t qs_len,
                        int64_t *ds, size_t ds_len,
                        size_t *ranges,
                        int64_t *slow_p, int64_t *slow_q, int64_t *slow_d,
                        int64_t *fast_p, int64_t *fast_q, int64_t *fast_d,
                        uint64_t *some, uint64_t *all,
                        size_t *corners);

/*
 * The report of a trace file: a line for the trace and one for each segment, or `refused` and the number.
 *
 * file   the file's bytes, of any number
 * text   filled with the report's bytes; each line ends with a line feed
 * count  set to the number of bytes
 *
 * A file that is turned down has a report too, such as `refused 11`, so 8, for a text that is too short, is the only
 * refusal. The times are those of the direction and the step that the file says; the text itself does not tell which
 * these are, nor whether level and lines are in 256ths, as those of readings are.
 */
uint8_t humoraki_report(const uint8_t *file, size_t file_len,
                        uint8_t *text, size_t text_len,
                        size_t *count);

/*
 * A head on a panel.
 *
 * A panel takes the ranges of up to 64 heads, 4,096 in all. It is the caller's own memory: one entry for each head, and
 * four lists of at least HUMORAKI_PANEL_ROOM entries. The ranges held stand in the first places of the lists, as many
 * as the held counts add up to, in the order in which they were accepted. 32 places are kept for each head, whatever
 * the others do; 2,048 more are for all, one for each range that a head holds above its 32.
 *
 * A panel starts with the addresses of its heads in the entries and 0 held in each, and no call is needed for that:
 *
 *     humoraki_entry entries[] = {{7, 0}, {1234, 0}};
 *     uint32_t addresses[HUMORAKI_PANEL_ROOM], times[HUMORAKI_PANEL_ROOM];
 *     int32_t lows[HUMORAKI_PANEL_ROOM], highs[HUMORAKI_PANEL_ROOM];
 *
 * The lists need not be initialised: no call reads a place past those held. A head's service level, direction and step,
 * and whatever else is known of it, stay with the caller.
 */
typedef struct {
    uint32_t address; /* 1 to 65,535, in no other entry of the panel */
    uint32_t held;    /* how many ranges the head holds */
} humoraki_entry;

/*
 * Adds a range to a panel.
 *
 * entries                        one for each head; read, and on success the head's holds one more
 * addresses, times, lows, highs  the panel's lists; the places held are read, and on success the range stands in the
 *                                next place. Every other place holds its old contents
 * address                        the head's. None is cut to fit: 65,543, whose last 16 bits are 7, is refused with 12
 * time                           above that of the head's last range; the times of other heads do not count
 * low, high                      -268,435,456 to 268,435,456, low at most high
 *
 * Of the ranges held only the addresses are tried again: they are counted.
 *
 * Refusals: 8, 14, 12, then of the range 4, 5, 6, and last 13.
 */
uint8_t humoraki_add(humoraki_entry *entries, size_t entries_len,
                     uint32_t *addresses, size_t addresses_len,
                     uint32_t *times, size_t times_len,
                     int32_t *lows, size_t lows_len,
                     int32_t *highs, size_t highs_len,
                     uint32_t address, uint32_t time, int32_t low, int32_t high);

/*
 * The ranges of one head on a panel, in the order in which they were accepted.
 *
 * entries, addresses, times, lows, highs  the panel, as for humoraki_add; it is read and not changed
 * address                                 the head's
 * into_times, into_lows, into_highs       filled with the head's ranges, HUMORAKI_PANEL_ROOM entries or more each
 * count                                   set to the number of its ranges, at most 2,080
 *
 * Refusals: 8, of the panel's lists and of those to be filled, 14, 12.
 */
uint8_t humoraki_head_ranges(const humoraki_entry *entries, size_t entries_len,
                             const uint32_t *addresses, size_t addresses_len,
                             const uint32_t *times, size_t times_len,
                             const int32_t *lows, size_t lows_len,
                             const int32_t *highs, size_t highs_len,
                             uint32_t address,
                             uint32_t *into_times, size_t into_times_len,
                             int32_t *into_lows, size_t into_lows_len,
                             int32_t *into_highs, size_t into_highs_len,
                             size_t *count);

#ifdef __cplusplus
}
#endif

#endif
