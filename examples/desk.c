/* The release desk through the C interface: judges the logs of four buses, and prints what it says.
 * Build, in the repository's root, and run:
 *   tools/build mireladle_c
 *   cc -std=c11 -Iinclude examples/desk.c target/staticlib/libmireladle_c.a -o target/desk && target/desk
 */
#include <inttypes.h>
#include <stdio.h>

#include "mireladle.h"

/* time; event, 1 offered, 2 refused, 3 accepted; base number; patch number */
static const int32_t cleared[] = {540, 1, 7, 31, 545, 2, 7, 31, 560, 3, 7, 31};
static const int32_t other_base[] = {540, 1, 7, 31, 545, 2, 6, 31, 560, 3, 7, 31};
static const int32_t not_last[] = {540, 1, 7, 31, 545, 3, 7, 31, 560, 1, 7, 32};
static const int32_t other_event[] = {540, 1, 7, 31, 545, 9, 7, 31, 560, 3, 7, 31};

/* Room for the longest log: its working room, and the report of its one match. */
enum { ROWS = 4096, PAIRS = MIRELADLE_DESK_PAIRS(ROWS) };
static uint8_t notes[MIRELADLE_NOTES_LENGTH(PAIRS)];
static uint32_t trail[PAIRS];
static int64_t numbers[MIRELADLE_DESK_NUMBERS];
static uint8_t labels[ROWS];

static void judge(const char *bus, const int32_t *log, size_t entries)
{
    const struct mireladle_verdict said = mireladle_desk(log, entries, notes, sizeof notes, trail, PAIRS,
                                                         numbers, MIRELADLE_DESK_NUMBERS, labels, ROWS);
    if (said.answer != 0)
        printf("%s: refused %" PRIu64 "\n", bus, said.answer);
    else if (said.verdict == MIRELADLE_CLEARED)
        printf("%s: cleared\n", bus);
    else if (said.verdict == MIRELADLE_UNREADABLE)
        printf("%s: unreadable\n", bus);
    else if (said.verdict == MIRELADLE_HELD && said.found)
        printf("%s: held, last refusal in row %" PRIu64 "\n", bus, said.row);
    else
        printf("%s: held\n", bus);
}

int main(void)
{
    judge("B17", cleared, 12);
    judge("B20", other_base, 12);
    judge("B19", not_last, 12);
    judge("B21", other_event, 12);
    judge("no rows", NULL, 0);
    judge("a row that is not whole", cleared, 11);
    return 0;
}
