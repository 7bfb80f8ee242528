/* Runs W1 of the bench sheet through the C interface: rows that rise (A) and then fall (B), with COUNT(A) and LAST(B).
 * It asks for the working room, lends static buffers, and prints the match row by row.
 * Build, in the repository's root, and run:
 *   tools/build mireladle_c
 *   cc -std=c11 -Iinclude examples/w1.c target/staticlib/libmireladle_c.a -o target/w1 && target/w1
 */
#include <inttypes.h>
#include <stdio.h>

#include "mireladle.h"

static const uint8_t query[] = {
    0x02, 0x00, 0x01, 0x00, 1, 0,                                            /* one column */
    0x04, 0x00, 0x02, 0x00, 'A', '+', ' ', 'B',                              /* pattern */
    0x0E, 0x00, 0x03, 0x00, 'A', 1, 0, 0, 5, 1, 0, 0xFF, 0, 0, 0, 0, 0, 0,   /* A: above PREV */
    0x0E, 0x00, 0x03, 0x00, 'B', 1, 0, 0, 3, 1, 0, 0xFF, 0, 0, 0, 0, 0, 0,   /* B: below PREV */
    0x02, 0x00, 0x04, 0x00, 0, 0,                                            /* skip past last row */
    0x04, 0x00, 0x05, 0x00, 1, 'A', 0, 0,                                    /* COUNT(A) */
    0x04, 0x00, 0x05, 0x00, 6, 'B', 0, 0,                                    /* LAST(B), column 0 */
};
static const int32_t rows[] = {100, 110, 120, 115, 130};

enum { ROWS = 5, PAIRS = 64, MATCH = MIRELADLE_MATCH_LENGTH(2) };
static uint8_t notes[MIRELADLE_NOTES_LENGTH(PAIRS)];
static uint32_t trail[PAIRS];
static int64_t numbers[ROWS * MATCH];
static uint8_t labels[ROWS];

static void print_match(const int64_t *match, const uint8_t *label)
{
    printf("match %" PRId64 ": COUNT(A) = %" PRId64 ", LAST(B) = %" PRId64 "\n", match[0], match[4], match[6]);
    for (int64_t i = 0; i < match[2]; i++)
        printf("  row %" PRId64 " is %c: %" PRId32 "\n", match[1] + i, label[i], rows[match[1] + i]);
}

int main(void)
{
    const struct mireladle_room room = mireladle_room(query, sizeof query, rows, ROWS);
    printf("answer %" PRIu64 ": %" PRIu64 " places, %" PRIu64 " rows, %" PRIu64 " pairs\n",
           room.answer, room.places, room.rows, room.pairs);
    const struct mireladle_result result = mireladle_search(query, sizeof query, rows, ROWS, notes, sizeof notes,
                                                            trail, PAIRS, numbers, ROWS * MATCH, labels, ROWS);
    if (result.answer != MIRELADLE_DONE) {
        printf("answer %" PRIu64 "\n", result.answer);
        return 1;
    }
    printf("%" PRIu64 " match in %" PRIu64 " steps\n", result.matches, result.steps);
    const uint8_t *label = labels;
    for (uint64_t m = 0; m < result.matches; m++) {
        print_match(numbers + m * MATCH, label);
        label += numbers[m * MATCH + 2];
    }
    return 0;
}
