/* rumbleog.h: temporal rings (temporal k-cores) of a dated payment table.
 *
 * A table is three columns of 16-bit numbers of one length, 0 to 16,384 rows:
 * a day 1 to 1,024 and two accounts 0 to 4,095, the first below the second;
 * days never fall from row to row. Rows are numbered from 0.
 *
 * A window [s, e] takes the rows dated s to e. Its ring for k is the greatest
 * set of its rows in which every account met has at least k distinct other
 * accounts.
 *
 * Every call returns the number of its refusal, RUMBLEOG_OK for none, and
 * always writes the numbers that it is lent pointers to:
 *   place   a row for 3, 4, 5; a list entry from 0 for 14; a line counted
 *           from 1 for 11, 12, 13; 0 for every other refusal and on success
 *   count, sum, empty, length   0 on a refusal
 *
 * Slices are a pointer and a number of ELEMENTS (never of bytes). The pointer
 * of an empty slice may be NULL. No two slices of one call may overlap where
 * one of them is written. Pointers to numbers must not be NULL.
 *
 * Checks run in the order given at each call, the first that fails refuses.
 * On a refusal every buffer keeps its contents, with one exception: a refusal
 * that stands behind RUMBLEOG_SCRATCH in the list leaves the scratch, all of
 * its lent length, 0. On success the scratch, all of it, is 0. Columns and text
 * past the answer keep their contents.
 *
 * Calls keep no state of their own. They may run at the same time in many
 * threads, on shared inputs, as long as nothing that one writes is lent to
 * another.
 */
#ifndef RUMBLEOG_H
#define RUMBLEOG_H

#include <stddef.h>
#include <stdint.h>

#ifdef __cplusplus
extern "C" {
#endif

/* Refusals. */
enum rumbleog_refusal {
    RUMBLEOG_OK = 0,            /* no refusal */
    RUMBLEOG_COLUMNS_DIFFER = 1, /* table columns differ in length */
    RUMBLEOG_TOO_LARGE = 2,     /* over 16,384 rows; rumbleog_list: over 18,448 bytes */
    RUMBLEOG_BAD_DAY = 3,       /* day outside 1 to 1,024; place: the row */
    RUMBLEOG_BAD_ACCOUNTS = 4,  /* second account above 4,095, or first not below second; place: the row */
    RUMBLEOG_DAY_FALLS = 5,     /* day below the previous row's; place: the row */
    RUMBLEOG_BAD_K = 6,         /* k outside 1 to 4,095 */
    RUMBLEOG_BAD_RANGE = 7,     /* days of the query out of order or outside 1 to 1,024 */
    RUMBLEOG_BAD_LENGTH = 8,    /* marks or columns of the wrong length */
    RUMBLEOG_SCRATCH = 9,       /* scratch below RUMBLEOG_SCRATCH_FOR(rows) numbers */
    RUMBLEOG_NO_ROOM = 10,      /* more entries, lines or bytes than the places lent */
    RUMBLEOG_BAD_LINE = 11,     /* a line of the wrong number of bytes; place: the line */
    RUMBLEOG_BAD_FIELD = 12,    /* a field that is no right-justified number; place: the line */
    RUMBLEOG_BAD_NUMBER = 13,   /* a number above 65,535; place: the line */
    RUMBLEOG_BAD_ENTRY = 14,    /* a faulty entry in a minimal-window list; place: the entry */
    RUMBLEOG_NOT_IN_RING = 15   /* the named account is not in the window's ring */
};

#define RUMBLEOG_MOST_ROWS 16384    /* rows of a table */
#define RUMBLEOG_LAST_DAY 1024      /* days are 1 to 1,024 */
#define RUMBLEOG_ACCOUNTS 4096      /* accounts are 0 to 4,095 */
#define RUMBLEOG_NEVER 65535        /* a core time that is never */
#define RUMBLEOG_NO_GROUP 65535     /* the label of a row outside the ring */
#define RUMBLEOG_MOST_INPUT 18448   /* bytes that rumbleog_list takes: a query line and 1,024 rows */
#define RUMBLEOG_MOST_LISTED 2048   /* rings that rumbleog_list lists */

/* Scratch, in 16-bit numbers, for a table of that many rows. Any contents. */
#define RUMBLEOG_SCRATCH_FOR(rows) ((size_t)8192 + (size_t)4 * (size_t)(rows))

/* Bytes of listing text for that many rings: a header and a line a ring. */
#define RUMBLEOG_TEXT_FOR(rings) ((size_t)22 * ((size_t)1 + (size_t)(rings)))

/* Bytes of table text for that many rows: a line a row. */
#define RUMBLEOG_TABLE_TEXT_FOR(rows) ((size_t)18 * (size_t)(rows))

/* A table: days, first accounts, second accounts. */
#define RUMBLEOG_TABLE                                  \
    const uint16_t *days, size_t days_length,           \
    const uint16_t *first, size_t first_length,         \
    const uint16_t *second, size_t second_length

/* Lists the rings of a text: a query line (k, first day, last day; 5 columns
 * each, byte 10), then rows (day 5 columns, accounts 6 and 6, byte 10).
 * Writes the listing's text: the line `start  end span  rows`, then a line for
 * each ring (columns of 5, 5, 5 and 6), each ended by byte 10. The span counts
 * both days: end - start + 1.
 * Checks: 2 (over 18,448 bytes); 11, 12, 13 for the query line, then for the
 * lowest faulty row line; the table's 3, 4, 5; 6; 7; 10 over 2,048 rings; 10
 * output too short.
 * line: the input line, counted from 1 with the query line, for 11, 12, 13, 3,
 * 4, 5; else 0. length: bytes written. Bytes past them keep their contents. */
uint32_t rumbleog_list(const uint8_t *input, size_t input_length,
                       uint8_t *output, size_t output_length,
                       uint64_t *line, uint64_t *length);

/* Checks a table: 1; 2; then the lowest faulty row by its first fault, 3, 4,
 * 5. Every other call that takes a table runs these checks first, but for
 * rumbleog_write_table. */
uint32_t rumbleog_check_table(RUMBLEOG_TABLE, uint64_t *place);

/* Marks the ring of the window [s, e] for k: marks[row] is 1 or 0.
 * Checks: the table's; 6; 7 not 1 <= s <= e <= 1,024; 8 marks not as long as
 * the table; 9. count: the number of ones. */
uint32_t rumbleog_window_ring(RUMBLEOG_TABLE,
                              uint16_t k, uint16_t s, uint16_t e,
                              uint8_t *marks, size_t marks_length,
                              uint16_t *scratch, size_t scratch_length,
                              uint64_t *place, uint64_t *count);

/* Labels the groups of the ring of the window [s, e] for k, which have no
 * payment between them: labels[row] is the smallest account connected to the
 * row through rows of the ring, RUMBLEOG_NO_GROUP for a row outside the ring.
 * Each group, taken as a table of its own, is its own ring for that window.
 * Checks: those of rumbleog_window_ring, labels standing for marks in 8.
 * count: the number of rows of the ring. */
uint32_t rumbleog_label_groups(RUMBLEOG_TABLE,
                               uint16_t k, uint16_t s, uint16_t e,
                               uint16_t *labels, size_t labels_length,
                               uint16_t *scratch, size_t scratch_length,
                               uint64_t *place, uint64_t *count);

/* Marks one group of that ring, the one of the named account: marks[row] is 1
 * or 0.
 * Checks: those of rumbleog_window_ring; 15 the account is not in the ring, as
 * one above 4,095 never is. count: the number of ones. */
uint32_t rumbleog_mark_group(RUMBLEOG_TABLE,
                             uint16_t k, uint16_t s, uint16_t e, uint16_t account,
                             uint8_t *marks, size_t marks_length,
                             uint16_t *scratch, size_t scratch_length,
                             uint64_t *place, uint64_t *count);

/* Core times at start s in the range [ts, te]: for each of 4,096 accounts and
 * for each row the least e such that it is in the ring of [s, e], e <= te;
 * RUMBLEOG_NEVER where there is none.
 * Checks: the table's; 6; 7 not 1 <= ts <= s <= te <= 1,024; 8 accounts not
 * 4,096 long or rows not as long as the table; 9. */
uint32_t rumbleog_core_times(RUMBLEOG_TABLE,
                             uint16_t k, uint16_t ts, uint16_t te, uint16_t s,
                             uint16_t *accounts, size_t accounts_length,
                             uint16_t *rows, size_t rows_length,
                             uint16_t *scratch, size_t scratch_length,
                             uint64_t *place);

/* Minimal windows of every row in the range [ts, te]: columns row, start, end,
 * by row, then start. A minimal window is one whose ring has the row while no
 * smaller window inside it has.
 * Checks: the table's; 6; 7 not 1 <= ts <= te <= 1,024; 8 the three columns
 * differ in length; 9; 10 more entries than the columns hold. count: entries
 * written; places past them keep their contents. */
uint32_t rumbleog_minimal_windows(RUMBLEOG_TABLE,
                                  uint16_t k, uint16_t ts, uint16_t te,
                                  uint16_t *row, size_t row_length,
                                  uint16_t *start, size_t start_length,
                                  uint16_t *end, size_t end_length,
                                  uint16_t *scratch, size_t scratch_length,
                                  uint64_t *place, uint64_t *count);

/* Lists the distinct rings of the range [ts, te], each by its first and last
 * row day, its number of rows and the number of windows of the range whose
 * ring it is: columns start, end, rows, windows, by start, then end.
 * Checks: the table's; 6; 7 not 1 <= ts <= te <= 1,024; 8 any two of the four
 * columns differ in length; 9; 10 more rings than the columns hold. count:
 * rings; sum: the sum of the column rows; empty: the windows of the range with
 * no ring. The column windows and empty add up to n(n+1)/2 for n days. Places
 * past the count keep their contents. With room for rumbleog_longest_list's
 * count the rings are found in one pass; with less they are counted first. */
uint32_t rumbleog_listing(RUMBLEOG_TABLE,
                          uint16_t k, uint16_t ts, uint16_t te,
                          uint16_t *start, size_t start_length,
                          uint16_t *end, size_t end_length,
                          uint16_t *rows, size_t rows_length,
                          uint32_t *windows, size_t windows_length,
                          uint16_t *scratch, size_t scratch_length,
                          uint64_t *place, uint64_t *count, uint64_t *sum,
                          uint64_t *empty);

/* Marks the rows with a listed window inside [s, e]: 1, every other 0. With
 * the minimal windows of a query (cut at their count) and a window inside its
 * range these are the marks of that window's ring.
 * Checks: the table's; 8 list columns differ in length, or marks not as long
 * as the table; 14 the first entry whose row is not in the table, whose window
 * lacks 1 <= start <= the row's day <= end <= 1,024, or that does not come
 * after the one before (row rising, or the same row with start and end both
 * rising); 7 not 1 <= s <= e <= 1,024. Takes no scratch. */
uint32_t rumbleog_recall(RUMBLEOG_TABLE,
                         const uint16_t *row, size_t row_length,
                         const uint16_t *start, size_t start_length,
                         const uint16_t *end, size_t end_length,
                         uint16_t s, uint16_t e,
                         uint8_t *marks, size_t marks_length,
                         uint64_t *place);

/* The most rings that a range of days can have: n(n+1)/2 for n days.
 * Checks: 7 not 1 <= ts <= te <= 1,024. */
uint32_t rumbleog_longest_list(uint16_t ts, uint16_t te,
                               uint64_t *place, uint64_t *count);

/* Reads rows from text: lines of 18 bytes (day 5 columns, accounts 6 and 6,
 * byte 10), numbers right-justified with blanks before them and no needless
 * leading zero. It judges the text alone, not the table.
 * Checks: the lowest faulty line by 11, 12, 13; 10 fewer places than lines in
 * any column (the columns may differ in length). count: rows read. */
uint32_t rumbleog_read_table(const uint8_t *text, size_t text_length,
                             uint16_t *days, size_t days_length,
                             uint16_t *first, size_t first_length,
                             uint16_t *second, size_t second_length,
                             uint64_t *place, uint64_t *count);

/* Writes rows as text: a line of 18 bytes a row, laid out as
 * rumbleog_read_table reads it. It takes any three columns of one length, with
 * any numbers, and does not check the table. What that call reads comes out
 * again byte for byte, and what is written reads back as it was.
 * Checks: 1; 10 text below RUMBLEOG_TABLE_TEXT_FOR(rows) bytes. length: bytes
 * written. Bytes past them keep their contents. */
uint32_t rumbleog_write_table(RUMBLEOG_TABLE,
                              uint8_t *text, size_t text_length,
                              uint64_t *place, uint64_t *length);

#ifdef __cplusplus
}
#endif

#endif
