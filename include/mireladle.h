/*
 * Mireladle: a verified search for SQL row patterns (MATCH_RECOGNIZE) over ordered rows of whole numbers.
 *
 * This is the whole C interface of libmireladle_c.a, for C11 and C++17 on x86-64 Linux.
 * `tools/build mireladle_c` builds the library, which needs nothing beside the C library:
 *
 *     cc -std=c11 -Iinclude yours.c target/staticlib/libmireladle_c.a
 *
 * Every query, all rows and all buffers get an answer: a caller checks nothing first. The functions allocate nothing,
 * keep no pointer between calls and no state but what the caller lends, and may run on several threads at once as long
 * as no thread writes into what another one lends. A thread that calls needs MIRELADLE_STACK bytes of stack left.
 */
#ifndef MIRELADLE_H
#define MIRELADLE_H

#include <stddef.h>
#include <stdint.h>

#ifdef __cplusplus
extern "C" {
#endif

/* The words used below.
 *
 * Rows and positions count from 0. n is the number of rows. A position is a row or n, which lies behind the last row.
 * P is the number of places: the letters, anchors and forks of the pattern once its repetitions are written out (A+ as
 * A A*, for one), from place 0 at its left end on, and one place END behind them. A pair is a place, a position and
 * flags: for each repetition without upper bound, of something that can match without taking a row, whose copy behind
 * its fork holds the place, whether its present round has taken a row. F is 2 to the power of the deepest nesting of
 * such repetitions: 1 for most patterns, 2 for (A*)*, at most 8. There are P * F * (n + 1) pairs, and both working
 * buffers are measured by that number; mireladle_room() tells it.
 */

/* Limits. A query or rows beyond them are refused, so a buffer measured by them is always large enough. */
#define MIRELADLE_MAX_COLUMNS 8       /* entries of one row */
#define MIRELADLE_MAX_ROWS 4096       /* n */
#define MIRELADLE_MAX_PLACES 256      /* P */
#define MIRELADLE_MAX_FACTOR 8        /* F */
#define MIRELADLE_MAX_PAIRS 8390656   /* P * F * (n + 1) */
#define MIRELADLE_MAX_PATTERN 256     /* bytes of pattern text */
#define MIRELADLE_MAX_DEFINES 26      /* one for each letter, of kinds 3 and 6 together */
#define MIRELADLE_MAX_COMPARISONS 8   /* of one DEFINE */
#define MIRELADLE_MAX_ENTRIES 16      /* of one DEFINE of kind 6: comparisons, AND, OR and NOT */
#define MIRELADLE_MAX_MEASURES 8
#define MIRELADLE_MAX_OFFSET 64       /* rows that PREV or NEXT looks away */

/* Bytes of stack that a call needs, 64 KiB. Measured, not proved: of some 60,000 queries the worst
 * took 51,072 in lots and 50,624 in one search (8 nested groups with parts); A+ B takes 42,432.
 * Room for the largest table is set aside in every call. The number of rows makes no difference. */
#define MIRELADLE_STACK 65536

/* Bytes of notes that a number of pairs calls for; the trail takes one number for each pair. */
#define MIRELADLE_NOTES_LENGTH(pairs) (((pairs) + 7) / 8)

/* Numbers that one match takes in the report of a query with so many measures. */
#define MIRELADLE_MATCH_LENGTH(measures) (3 + 2 * (measures))

/* The answers. Where several of 1 to 12 apply, the lowest is given, and 14 stands where 5 does; each is judged over the
 * whole input, so that a fault of a low number at the very end of the query comes before one of a high number at its
 * beginning.
 */
enum mireladle_answer {
    /* The search went through all rows, and the report is whole. */
    MIRELADLE_DONE = 0,
    /* The query breaks off inside a record: in its 4 header bytes, or in the body that they announce. A query that
     * ends behind a whole record, or has no byte at all, does not break off. */
    MIRELADLE_QUERY_CUT = 1,
    /* A record has an unknown kind, stands in the wrong place, is there too often, or is missing. An empty query is a
     * case of this. */
    MIRELADLE_WRONG_RECORDS = 2,
    /* A record's body has the wrong length, or one of its fields a value that it must not have: a reserved byte that
     * is not 0, a column that the rows do not have, an offset beyond 64, a pattern text beyond 256 bytes. */
    MIRELADLE_WRONG_FIELD = 3,
    /* Somewhere in the pattern text more than 8 parentheses are open. */
    MIRELADLE_TOO_DEEP = 4,
    /* The pattern text is not a pattern, nor the beginning of one: no pattern begins with it up to and with the byte at
     * the offset returned. 14 says that it is the beginning of one. */
    MIRELADLE_NO_PATTERN = 5,
    /* More than three repetitions without upper bound, each of something that can match without taking a row, are
     * nested in one another, as in ((((A*)*)*)*)*. */
    MIRELADLE_EMPTY_REPETITION = 6,
    /* Written out, the pattern has more than 256 places. */
    MIRELADLE_TOO_MANY_PLACES = 7,
    /* One letter has two DEFINEs. */
    MIRELADLE_DEFINED_TWICE = 8,
    /* A measure, or the skip, asks for a letter that the pattern does not have. */
    MIRELADLE_MEASURE_LETTER = 9,
    /* The entries do not make whole rows, or there are more than 4,096 rows. */
    MIRELADLE_WRONG_ROWS = 10,
    /* The notes are shorter than P * F * (n + 1) bits. */
    MIRELADLE_NOTES_SHORT = 11,
    /* The trail is shorter than P * F * (n + 1) numbers. */
    MIRELADLE_TRAIL_SHORT = 12,
    /* The search stopped at a match for which numbers or labels had no room left. The matches before it stand whole in
     * the report; no later match is looked for, even one that would fit. */
    MIRELADLE_STOPPED = 13,
    /* The pattern text is not a pattern but the beginning of one: it ends where it could go on. The offset is its
     * length. The limits on its length and on parentheses play no part in this. */
    MIRELADLE_PATTERN_ENDS = 14,
    /* The search stopped behind a match, since there is no row to go on at. Only a skip to the
     * first or last row with a letter gives this, where the letter labels no row of a match that
     * takes rows, or where the row to skip to is the match's first: from there the same match would
     * be found again. That match and those before it stand whole in the report; no later match is
     * looked for, and the answer is the same where no row is left to look at. A match that does not
     * fit gives 13, whatever its labels. */
    MIRELADLE_NO_SKIP_ROW = 15,
    /* The search stopped since its next step would have been one more than it was allowed. Only
     * mireladle_search_within() and searches by lots give this. The matches found by then stand whole in the report;
     * there may be others. Where 13 or 15 comes first, that is the answer. */
    MIRELADLE_OUT_OF_STEPS = 16,
    /* The query looks ahead: its pattern has a `$`, or a letter of the pattern reads a row behind its
     * own, in any comparison of its DEFINE. Rows that are still to come could then change what was
     * found, so no search by lots takes it. Only mireladle_more() and mireladle_last() give this,
     * ranked after 9. */
    MIRELADLE_LOOKS_AHEAD = 17,
    /* A partition of the depot-by-month table gets no number, or the state is too short: see
     * mireladle_depots_partition(). No search gives this. */
    MIRELADLE_NO_NUMBER = 20,
    /* A call of a search by lots is out of order: fewer rows are present than at a call before, or
     * the end was declared. Only mireladle_more() and mireladle_last() give this. */
    MIRELADLE_OUT_OF_ORDER = 21,
    /* The search waits for a row that is not yet present: a match is to be looked for from there on,
     * or a letter is to be tested there. The matches found so far stand whole in the report. Only
     * mireladle_more() gives this. */
    MIRELADLE_WAITING = 23
};

/* What a search returns. On the answers 1 to 12, 14, 17, 20 and 21 all but the answer, and the offset
 * of 5 and 14, are 0. */
struct mireladle_result {
    uint64_t answer;  /* one of enum mireladle_answer */
    uint64_t matches; /* matches in the report */
    uint64_t labels;  /* label bytes in the report */
    uint64_t steps;   /* pairs entered; on 13 the search for the match that did not fit is counted
                       * too; on 16 the steps that were allowed */
    uint64_t offset;  /* on 5 the byte of the pattern text, from 0, at which it is wrong; on 14 its length; else 0 */
};

/* What is kept of a search by lots between its calls: mireladle_begin() writes it, mireladle_more()
 * and mireladle_last() alter it. A caller may read and copy it, and writes nothing into it. */
struct mireladle_feed {
    uint64_t largest;   /* the largest number of rows, as named */
    uint64_t allowance; /* the steps allowed over all calls, as named */
    uint64_t present;   /* rows present at the latest call that was not refused */
    uint64_t begun;     /* 0 until a call has not been refused, then 1 */
    uint64_t answer;    /* the answer of that call; before the first MIRELADLE_WAITING */
    uint64_t row;       /* the start at which the search goes on */
    uint64_t matches;   /* matches in the report */
    uint64_t labels;    /* label bytes in the report */
    uint64_t steps;     /* pairs entered, over all calls */
    uint64_t opened;    /* pairs still open, where the search waits inside an attempt */
};

/* What the working room of a search is measured by. On the answers 1 to 10 and 14 all but the answer, and the offset of
 * 5 and 14, are 0. */
struct mireladle_room {
    uint64_t answer; /* 0, or 1 to 10 or 14 of enum mireladle_answer */
    uint64_t places; /* P */
    uint64_t rows;   /* n */
    uint64_t pairs;  /* P * F * (n + 1) */
    uint64_t offset; /* as a search returns it */
    uint64_t factor; /* F */
};

/* What the release desk says of a bus's log. */
enum mireladle_said {
    /* The log ends in an offer, refusals or none, and an acceptance, which is its last row; refusals
     * and acceptance each have the base number and the patch number of the row before them. */
    MIRELADLE_CLEARED = 1,
    /* The log does not end so. No rows is held. */
    MIRELADLE_HELD = 2,
    /* Some row has an event other than 1, 2 and 3. */
    MIRELADLE_UNREADABLE = 3
};

/* What mireladle_desk() returns. */
struct mireladle_verdict {
    uint64_t answer;  /* 0, or the answer of a search that was refused or stopped; then all else is 0 */
    uint64_t verdict; /* one of enum mireladle_said; 0 where the answer is not 0 */
    uint64_t found;   /* 1 where the log is held and has a refusal, else 0 */
    uint64_t row;     /* where found is 1, the row of the last event 2; else 0 */
};

/* What the test of a letter returns. On the answers 1 to 10 and 14 all but the answer, and the offset of 5 and 14, are
 * 0. */
struct mireladle_tested {
    uint64_t answer; /* 0, or 1 to 10 or 14 of enum mireladle_answer */
    uint64_t holds;  /* 1 if the letter holds at the row, else 0 */
    uint64_t judged; /* comparisons of its DEFINE of kind 3 that were judged */
    uint64_t offset; /* as a search returns it */
};

/* The structs under names of one word. A function has the name of the second struct, so that C++
 * takes `mireladle_room` alone for the function, and the struct has to be written as
 * `struct mireladle_room` or as `mireladle_room_t`. */
typedef struct mireladle_result mireladle_result_t;
typedef struct mireladle_room mireladle_room_t;
typedef struct mireladle_verdict mireladle_verdict_t;
typedef struct mireladle_tested mireladle_tested_t;
typedef struct mireladle_feed mireladle_feed_t;

/*
 * Searches the rows for all matches of the query. A match is looked for from row 0 on, at one row after the other, but
 * not behind the last row: so there is none without rows, and none of the pattern $ alone.
 *
 * Each buffer is a pointer to its first element and a length in elements. A pointer may be NULL where its length is 0,
 * and only there; otherwise it points to so many elements, aligned as their type asks. The four buffers that are
 * written must not overlap one another, nor the query or the rows. All belong to the caller, who may free or reuse
 * them as soon as the call returns. What those four hold before the call has no effect: nothing has to be cleared.
 *
 *   query    The query's records, one behind the other; see "A query's bytes" below. Only read.
 *   rows     The rows' entries, row by row, in order: one partition, already sorted. rows_len counts entries, not rows.
 *            Only read.
 *   notes    Working room of at least MIRELADLE_NOTES_LENGTH(P * F * (n + 1)) bytes.
 *   trail    Working room of at least P * F * (n + 1) numbers.
 *   numbers  Report room for MIRELADLE_MATCH_LENGTH(measures) numbers a match. There are at most n matches, so
 *            n * MIRELADLE_MATCH_LENGTH(measures) are always enough. Less is allowed, even none: see answer 13.
 *   labels   Report room for one byte for each row of each match: n bytes are always enough where
 *            the query skips past the last row, n * (n + 1) / 2 with every other skip, since
 *            matches may then overlap. Less is allowed, even none: see answer 13.
 *
 * What the buffers hold afterwards:
 *
 *   answers 1 to 12   Nothing is changed, and the same on 14.
 *   answers 0, 13,    numbers: for each match in turn its number (from 1), its first row (the row
 *   15, 16            where it was tried if it takes none), how many rows it takes, and for each
 *                     measure two numbers: 1 and the result, or 0 and 0 for null; over no rows all
 *                     but COUNT are null. That is matches * MIRELADLE_MATCH_LENGTH(measures)
 *                     numbers.
 *                     labels: the letters, 'A' to 'Z', of the matches' rows, match behind match; no
 *                     byte 0 ends them.
 *                     notes: bit (position * P + place) * F + flags, the lowest bit of a byte
 *                     first, is 1 exactly if that pair was entered and failed. The flags of a
 *                     place are packed from the lowest bit up, the outermost repetition first. A
 *                     pair that is still open when the search stops has not failed. Spare bits of
 *                     the last byte used are 0.
 *                     trail: the first P * F * (n + 1) numbers are 0.
 *                     Whatever lies behind that, in each of the four, is unchanged.
 *
 * The steps are bounded, whatever the rows: with skip past last row by 2 * P * F * (n + 1), with skip
 * to the next row, or to the first or last row with a letter, by P * F * n * (n + 3) / 2, since a row
 * that lies in many matches is gone through for each of them. At n = 4,096 the longest searches
 * that were found took 25 milliseconds past last row (254 letters of 8 comparisons each, all met,
 * and one that never holds: no match) and 4.5 seconds to the next row (a repeated group of 126
 * times `$` or nothing, and a letter that holds at every row: P is 255, and each of 4,096 matches
 * reaches to the last row), on one core of an AMD EPYC. To a letter's row nearly as many steps can
 * be taken, where that row is the second of each match. Nothing breaks off a search that has begun.
 * A caller who cannot wait for so long names the steps that it may take, and calls
 * mireladle_search_within().
 */
struct mireladle_result mireladle_search(const uint8_t *query, size_t query_len,
                                         const int32_t *rows, size_t rows_len,
                                         uint8_t *notes, size_t notes_len,
                                         uint32_t *trail, size_t trail_len,
                                         int64_t *numbers, size_t numbers_len,
                                         uint8_t *labels, size_t labels_len);

/*
 * The same search with an allowance of steps. It stops with answer 16 just before the step that
 * would be one more than the allowance, so that the caller has control again after a time in
 * proportion to the allowance, and to P * F * (n + 1) for the working room, which is cleared.
 *
 *   allowance  How many steps the search may take. Any number does: with 0 every search of a row
 *              or more gives 16, and UINT64_MAX is more than any search takes.
 *
 * All else is as for mireladle_search(), and so are the refusals, 1 to 12 and 14: they come first,
 * whatever the allowance. On 16 the steps returned are the allowance, and all four buffers are as
 * stated there for 13. 13 and 15 are given where they come first: a match that is found with the
 * last step allowed is written, or does not fit, or has no row to skip to, and only the next step
 * would give 16.
 *
 * An allowance that the search does not pass changes nothing: answer, counts and all buffers are
 * then those of mireladle_search(). The steps that mireladle_search() returns are enough for that;
 * where they are not known, 2 * P * F * (n + 1) are always enough with skip past last row, and
 * P * F * n * (n + 3) / 2 with every other skip.
 *
 * The same search with a larger allowance begins with the same matches. It begins at row 0 again:
 * no search goes on where another one stopped.
 */
struct mireladle_result mireladle_search_within(const uint8_t *query, size_t query_len,
                                                const int32_t *rows, size_t rows_len,
                                                uint64_t allowance,
                                                uint8_t *notes, size_t notes_len,
                                                uint32_t *trail, size_t trail_len,
                                                int64_t *numbers, size_t numbers_len,
                                                uint8_t *labels, size_t labels_len);

/*
 * A search whose rows come in lots: it goes on with each lot, and each match is in the report as
 * soon as it is found. mireladle_begin() comes first, then mireladle_more() for each lot, and at the
 * end mireladle_last(), which declares that no further row comes, and may bring rows too:
 *
 *     mireladle_begin(&feed, largest, UINT64_MAX);
 *     while (more rows come)
 *         result = mireladle_more(&feed, query, query_len, rows, rows_len, present, ..);
 *     result = mireladle_last(&feed, query, query_len, rows, rows_len, present, ..);
 *
 * However the rows are cut into lots, by the end report and steps are those of one
 * mireladle_search_within() of all rows. examples/feed.c is a whole program.
 *
 *   feed       What is kept between the calls of one search; not NULL, and apart from all else that
 *              is lent. mireladle_begin() writes it whole. Of a feed that it did not write nothing is
 *              said but that each call gives an answer, and touches nothing beside the feed and the
 *              lent buffers.
 *   largest    The most rows that there may be in the end, by which notes and trail are measured:
 *              P * F * (largest + 1) pairs, of which mireladle_room() tells P and F without rows. One
 *              above 4,096 is answer 10 of each later call; mireladle_begin() itself refuses nothing.
 *   allowance  The steps that all calls together may take; UINT64_MAX is no limit.
 *   rows       All rows so far, from the first on. At each call those present before are the same.
 *   present    How many rows are present now. rows may be longer; what lies behind the rows present
 *              is not read.
 *   query, notes, trail, numbers, labels
 *              As for mireladle_search(), with largest in the place of n, and the same at each call:
 *              of the same lengths, and as the call before left them. The first call finds what it
 *              needs, whatever the buffers hold.
 *
 * The answers, in their rank:
 *
 *   13, 15, 16    The search stopped in an earlier call: the same result as then.
 *   21            The end was declared in an earlier call.
 *   1 to 9, 14    The query is refused, with its offset on 5 and 14.
 *   17            The query looks ahead.
 *   10            largest is above 4,096, the entries are not whole rows, or present is above largest
 *                 or above the rows that there are.
 *   11, 12        Notes or trail are too short for largest.
 *   21            Fewer rows are present than at a call before. As many are allowed.
 *
 * None of these changes anything, not even the feed, so that a call which is refused may be made
 * again with other rows; and all but 13, 15 and 16 return zeros. In every other case the call goes on
 * with the search:
 *
 *   23            From mireladle_more(): the search waits for a row. matches and labels count all that
 *                 was found so far, of which the earlier calls told the front, and steps are those of
 *                 all calls. The first P * F * (largest + 1) numbers of the trail are left free.
 *   0             From mireladle_last(): the report is whole.
 *   13, 15, 16    As for mireladle_search_within(), over all calls, from either of the two.
 *
 * Numbers, labels and notes, and on 0, 13, 15 and 16 the trail, are then as stated for
 * mireladle_search(), with largest in the place of n. A pair that is still open has not failed.
 *
 * A call takes the steps for its new rows and, over again, those for the pairs still open, which are
 * not counted twice; and it reads the query anew. So a lot of many rows takes less time than many
 * lots of one.
 */
void mireladle_begin(struct mireladle_feed *feed, uint64_t largest, uint64_t allowance);
struct mireladle_result mireladle_more(struct mireladle_feed *feed,
                                       const uint8_t *query, size_t query_len,
                                       const int32_t *rows, size_t rows_len, uint64_t present,
                                       uint8_t *notes, size_t notes_len,
                                       uint32_t *trail, size_t trail_len,
                                       int64_t *numbers, size_t numbers_len,
                                       uint8_t *labels, size_t labels_len);
struct mireladle_result mireladle_last(struct mireladle_feed *feed,
                                       const uint8_t *query, size_t query_len,
                                       const int32_t *rows, size_t rows_len, uint64_t present,
                                       uint8_t *notes, size_t notes_len,
                                       uint32_t *trail, size_t trail_len,
                                       int64_t *numbers, size_t numbers_len,
                                       uint8_t *labels, size_t labels_len);

/*
 * Judges a query and rows and tells how much working room their search takes: answer 0 with P, F, n and
 * P * F * (n + 1), or the answer of 1 to 10 or 14 that mireladle_search() would give, with its offset. With rows_len 0
 * it judges the query alone.
 * query and rows are as for mireladle_search(): only read, and NULL only with length 0. Nothing else is touched.
 */
#if defined(__cplusplus) && defined(__GNUC__)
#pragma GCC diagnostic push
#pragma GCC diagnostic ignored "-Wshadow" /* the function has the name of the struct that it returns */
#endif
struct mireladle_room mireladle_room(const uint8_t *query, size_t query_len, const int32_t *rows, size_t rows_len);
#if defined(__cplusplus) && defined(__GNUC__)
#pragma GCC diagnostic pop
#endif

/* Rooms that are always enough for mireladle_desk() on n rows; of numbers it takes at most 3, and of
 * labels at most n. */
#define MIRELADLE_DESK_PAIRS(n) (6 * ((n) + 1))
#define MIRELADLE_DESK_NUMBERS 3

/*
 * The release desk: whether a bus may leave, by its log. A bus is cleared only by the verdict
 * MIRELADLE_CLEARED with answer 0; whatever else is returned, it stays.
 *
 *   rows     4 numbers a row: time, event, base number, patch number; the rows in order of time.
 *            Events are 1 offered, 2 refused, 3 accepted. Only read; the time is not looked at.
 *   notes, trail, numbers, labels
 *            As for mireladle_search(), and left as its search for `O R* C $`, skip to the next row,
 *            leaves them. With MIRELADLE_NOTES_LENGTH(MIRELADLE_DESK_PAIRS(n)) notes,
 *            MIRELADLE_DESK_PAIRS(n) trail, MIRELADLE_DESK_NUMBERS numbers and n labels the only
 *            answer other than 0 is 10: rows that are not whole, or more than 4,096.
 *
 * A refusal or stop of that search comes before every verdict, so a log of no rows with notes too
 * short has answer 11. Then comes unreadable: one odd event anywhere in the log is enough. The row of
 * a log that is held goes by its event alone, so a refusal of another patch counts.
 */
struct mireladle_verdict mireladle_desk(const int32_t *rows, size_t rows_len,
                                        uint8_t *notes, size_t notes_len,
                                        uint32_t *trail, size_t trail_len,
                                        int64_t *numbers, size_t numbers_len,
                                        uint8_t *labels, size_t labels_len);

/* The depot-by-month table: so many words of state, and what stands where in it. The cells are those
 * of depot 0 to 63 and month 1 to 12; then one cell for all else, how many partitions have a number,
 * how many numbers of the list are used, and the two named columns. Read it; only the calls below
 * write it. */
#define MIRELADLE_DEPOTS_LENGTH 773
#define MIRELADLE_DEPOTS_CELL(depot, month) (12 * (depot) + (month) - 1)
#define MIRELADLE_DEPOTS_OUTSIDE 768
#define MIRELADLE_DEPOTS_PARTITIONS 769
#define MIRELADLE_DEPOTS_LISTED 770

/* As many partitions as get a number. */
#define MIRELADLE_MAX_PARTITIONS 65535

/*
 * Begins a depot-by-month table: sets all counts to 0 and keeps the two columns, counted from 0, in
 * which a row has its depot and its month. They may be one column. Returns 0, or 20 where state_len
 * is below MIRELADLE_DEPOTS_LENGTH, and then changes nothing. What lies behind those words is never
 * changed.
 */
uint64_t mireladle_depots_begin(uint64_t *state, size_t state_len, uint64_t depot, uint64_t month);

/*
 * Takes one partition into the table: searches its rows, and counts each match by the depot and the
 * month in its first row (of a match that takes no row, in its start row).
 *
 *   state    As mireladle_depots_begin() and the calls since then left it. Any other state gets an
 *            answer, too, but nothing is said of it, of what it writes into state and list, or of
 *            the search's buffers; it writes nowhere else.
 *   list     Two numbers for each partition that is refused or stopped: its number from 1, and its
 *            answer. The same list of the same length at each call, in which the first
 *            state[MIRELADLE_DEPOTS_LISTED] numbers are used; the others are as they were lent.
 *   query, rows, notes, trail, numbers, labels
 *            As for mireladle_search(), and left as it leaves them.
 *
 * Returns what mireladle_search() does, and takes the next number. Only a partition that is done (0)
 * is counted; one that is refused or stopped, by 13, 15 and all other answers, adds nothing and is
 * appended to the list. A named column outside the query's shape is answer 3, behind 1 and 2.
 *
 * Two partitions get MIRELADLE_NO_NUMBER and zeros instead, take no number, and change neither state
 * nor list: one behind MIRELADLE_MAX_PARTITIONS, which is not searched, and one whose entry does not
 * fit the list, which leaves notes, trail, numbers and labels as its own answer would. So a list of
 * twice as many numbers as there are partitions is always long enough.
 */
struct mireladle_result mireladle_depots_partition(uint64_t *state, size_t state_len,
                                                   uint32_t *list, size_t list_len,
                                                   const uint8_t *query, size_t query_len,
                                                   const int32_t *rows, size_t rows_len,
                                                   uint8_t *notes, size_t notes_len,
                                                   uint32_t *trail, size_t trail_len,
                                                   int64_t *numbers, size_t numbers_len,
                                                   uint8_t *labels, size_t labels_len);

/*
 * Tests one letter of a query at one row, as the search does, and tells how far its DEFINE was judged: comparisons of
 * kind 3 are judged in their order, up to and with the first that is not true (false or unknown), all of them where
 * none is. A letter without DEFINE holds, with 0 judged; one of kind 6 is worked out whole, and 0 are told for it too.
 *
 *   letter  Any byte. One that is no letter 'A' to 'Z' has no DEFINE, so it holds; a letter that the pattern does not
 *           have is tested by its DEFINE all the same.
 *   row     Any number. At a row behind the last the comparisons are judged by the rows that they look at, so one that
 *           looks back far enough can be true there; a search does not ask for such a row.
 *
 * query and rows are as for mireladle_search(): only read, and NULL only with length 0. Nothing else is touched. A
 * query or rows that mireladle_room() refuses are refused here with the same answer and offset.
 */
struct mireladle_tested mireladle_test(const uint8_t *query, size_t query_len, const int32_t *rows, size_t rows_len,
                                       uint8_t letter, size_t row);

/*
 * A query's bytes
 *
 * A query is a list of records. A record is the length of its body (2 bytes), its kind (2 bytes) and its body. Numbers
 * are little-endian, reserved bytes are 0. The kinds stand in this order:
 *
 *   kind 1, once           columns of a row, 1 to 8; reserved byte
 *   kind 2, once           pattern text, up to 256 bytes
 *   kinds 3 and 6, up to   DEFINE, in any order of the two kinds: letter 'A' to 'Z', then
 *   26 times together        of kind 3 a count of comparisons, 1 to 8, and so many comparisons of 12 bytes;
 *                            of kind 6 a count of entries, 1 to 16, and so many entries in postfix: byte 0 and a
 *                            comparison of 12 bytes, or byte 1 for AND, 2 for OR, 3 for NOT
 *   kind 4, once           skip: after a match go on 0 behind its last row, 1 at the row behind its
 *                          first, 2 at its first row with a letter, 3 at its last row with a letter
 *                          (in all four cases one row on after a match that takes none); then that
 *                          letter, 'A' to 'Z', for 2 and 3, and a byte 0 for 0 and 1. See answer 15
 *   kind 5, up to 8 times  measure: function 1 COUNT, 2 SUM, 3 MIN, 4 MAX, 5 FIRST, 6 LAST, 7 AVG;
 *                          letter, or 0 for all rows of the match; column (0 for COUNT); reserved
 *                          byte
 *
 * A comparison is: left column; left offset, a signed byte of -64 (64 rows back) to 64 (64 rows on); operator, 1 equal,
 * 2 unequal, 3 less, 4 at most, 5 greater, 6 at least; right kind, 0 a number, 1 a column plus a number; right column;
 * right offset; two reserved bytes; the number, signed, 4 bytes. With right kind 0 the right column and offset are 0.
 * The sum is exact. An offset may lead out of the match, to any row handed over; a comparison that looks at a row which
 * is not there is neither true nor false but unknown, as in SQL, whatever its operator. A letter without DEFINE holds at
 * every row. DEFINEs stand in any order, also for letters that the pattern does not have.
 *
 * A letter holds at a row where its condition is true: unknown does not do. The condition of a DEFINE of kind 3 is that
 * all its comparisons are true. That of kind 6 is worked out entry by entry: a comparison adds a result, AND and OR make
 * one of the latest two, NOT one of the latest, by SQL's tables:
 *
 *     AND      true     false  unknown      OR       true  false    unknown      NOT
 *     true     true     false  unknown      true     true  true     true         true     false
 *     false    false    false  false        false    true  false    unknown      false    true
 *     unknown  unknown  false  unknown      unknown  true  unknown  unknown      unknown  unknown
 *
 * One result has to be left: entries that run short of results, or leave more than one, are answer 3. So NOT of a
 * comparison with PREV is not true at the first row, and `A = PREV OR NOT A = PREV` is unknown there.
 *
 * A measure is over the rows of a match, or over those of them with its letter. AVG is their SUM
 * divided by their COUNT, cut toward zero as `/` cuts in C: 3 and 4 give 3, -3 and -4 give -3; SUM
 * and COUNT tell what is cut off. Sums are exact, and every result fits 64 bits: a SUM is at most
 * 2^43 either way, and an AVG lies between MIN and MAX.
 *
 * A pattern is made of letters, ^ (before the first row), $ (behind the last row), () (nothing), sequences, branches
 * parted by |, the left one tried first, parentheses, and the quantifiers * + ? {n} {n,} {,m} {n,m}, greedy, or
 * reluctant with a ? directly behind them. Where what a quantifier without upper bound stands on can match without
 * taking a row, as in (A*)*, a round behind the required ones that takes no row ends the repetition. No quantifier
 * stands on another without parentheses, and no text or branch is empty. Bounds are 0 to 99, without leading zero; an
 * upper bound is at least 1 and not below the lower one, and n in {n} is at least 1. Spaces may stand between these,
 * but not inside the braces, and have to stand between letters.
 */

#ifdef __cplusplus
}
#endif

#endif
