/* Rows while the bus is connected, through the C interface: a log comes row by row, and a patch that
 * was offered, refused and accepted is told with the row that accepts it.
 * Build, in the repository's root, and run:
 *   tools/build mireladle_c
 *   cc -std=c11 -Iinclude examples/feed.c target/staticlib/libmireladle_c.a -o target/feed && target/feed
 */
#include <inttypes.h>
#include <stdio.h>

#include "mireladle.h"

/* One column, the event (1 offered, 2 refused, 3 accepted), and `O R* C`, skip past last row. */
static const uint8_t query[] = {
    2, 0, 1, 0, 1, 0,                                           /* a row has 1 column */
    6, 0, 2, 0, 'O', ' ', 'R', '*', ' ', 'C',                   /* the pattern */
    14, 0, 3, 0, 'O', 1, 0, 0, 1, 0, 0, 0, 0, 0, 1, 0, 0, 0,    /* O: the event is 1 */
    14, 0, 3, 0, 'R', 1, 0, 0, 1, 0, 0, 0, 0, 0, 2, 0, 0, 0,    /* R: the event is 2 */
    14, 0, 3, 0, 'C', 1, 0, 0, 1, 0, 0, 0, 0, 0, 3, 0, 0, 0,    /* C: the event is 3 */
    2, 0, 4, 0, 0, 0,                                           /* skip past last row */
};

/* Room for up to 100 rows: this pattern has 5 places, and F is 1. */
enum { LARGEST = 100, PAIRS = 5 * (LARGEST + 1), MATCH = MIRELADLE_MATCH_LENGTH(0) };
static int32_t rows[LARGEST];
static uint8_t notes[MIRELADLE_NOTES_LENGTH(PAIRS)];
static uint32_t trail[PAIRS];
static int64_t numbers[LARGEST * MATCH];
static uint8_t labels[LARGEST];

/* Tells the matches behind the first `told`, and how many there are now. */
static uint64_t tell(uint64_t told, uint64_t matches)
{
    for (; told < matches; told++) {
        const int64_t *match = numbers + told * MATCH;
        printf("  match %" PRId64 ": rows %" PRId64 " to %" PRId64 "\n", match[0], match[1],
               match[1] + match[2] - 1);
    }
    return matches;
}

int main(void)
{
    static const int32_t events[] = {1, 2, 2, 3, 1, 1, 3};
    const size_t count = sizeof events / sizeof *events;
    struct mireladle_feed feed;
    struct mireladle_result result;
    uint64_t told = 0;
    mireladle_begin(&feed, LARGEST, UINT64_MAX);
    for (size_t present = 1; present <= count; present++) {
        rows[present - 1] = events[present - 1]; /* a row comes */
        result = mireladle_more(&feed, query, sizeof query, rows, LARGEST, present, notes, sizeof notes,
                                trail, PAIRS, numbers, LARGEST * MATCH, labels, LARGEST);
        if (result.answer != MIRELADLE_WAITING) {
            printf("answer %" PRIu64 "\n", result.answer);
            return 1;
        }
        printf("row %zu: event %" PRId32 "\n", present - 1, events[present - 1]);
        told = tell(told, result.matches);
    }
    result = mireladle_last(&feed, query, sizeof query, rows, LARGEST, count, notes, sizeof notes, trail,
                            PAIRS, numbers, LARGEST * MATCH, labels, LARGEST);
    printf("the end: answer %" PRIu64 ", %" PRIu64 " matches in %" PRIu64 " steps\n", result.answer,
           result.matches, result.steps);
    tell(told, result.matches);
    return 0;
}
