/* Reads the query in the file that is named first, as text, and searches the prices behind it for
 * its matches:
 *
 *     text examples/rising-falling.txt 100 110 120 115 130
 *
 * README and include/mireladle_text.h tell how it is built. Tested in rust/tests/c_text.rs. */
#include <inttypes.h>
#include <stdio.h>
#include <stdlib.h>

#include "mireladle.h"
#include "mireladle_text.h"

enum { ROWS = 64, NUMBERS = ROWS * (3 + 2 * 8), PAIRS = 256 * (ROWS + 1) };

static void print_matches(const mireladle_text *text, struct mireladle_result result,
                          const int64_t *numbers, const uint8_t *labels) {
    size_t titles = mireladle_text_titles(text);
    for (uint64_t match = 0; match < result.matches; match++) {
        printf("match %" PRId64 " at row %" PRId64 ": %.*s", numbers[0], numbers[1],
               (int)numbers[2], (const char *)labels);
        for (size_t i = 0; i < titles; i++) {
            printf(", %s ", mireladle_text_title(text, i));
            if (numbers[3 + 2 * i] == 1) printf("%" PRId64, numbers[4 + 2 * i]);
            else printf("null");
        }
        printf("\n");
        labels += numbers[2];
        numbers += 3 + 2 * titles;
    }
}

int main(int count, char **arguments) {
    static char source[65536];
    static uint8_t notes[PAIRS / 8 + 1], labels[ROWS * (ROWS + 1) / 2];
    static uint32_t trail[PAIRS];
    static int64_t numbers[NUMBERS];
    int32_t rows[ROWS];
    size_t n = 0;
    FILE *file = count > 1 ? fopen(arguments[1], "rb") : NULL;
    if (file == NULL) return 2;
    size_t length = fread(source, 1, sizeof source, file);
    fclose(file);

    mireladle_text *text = mireladle_text_read(source, length);
    if (mireladle_text_fault(text) != NULL) {
        fprintf(stderr, "%s:%zu:%zu: %s\n", arguments[1], mireladle_text_fault_line(text),
                mireladle_text_fault_column(text), mireladle_text_fault(text));
        mireladle_text_free(text);
        return 2;
    }
    if (mireladle_text_names(text) != 1) return 2; /* this example has one column of rows */
    while (n < ROWS && (int)n + 2 < count) {
        rows[n] = (int32_t)atoi(arguments[n + 2]);
        n++;
    }
    struct mireladle_result result = mireladle_search(
        mireladle_text_query(text), mireladle_text_query_length(text), rows, n, notes, sizeof notes,
        trail, PAIRS, numbers, NUMBERS, labels, sizeof labels);
    printf("%s: answer %" PRIu64 "\n", mireladle_text_name(text, 0), result.answer);
    print_matches(text, result, numbers, labels);
    mireladle_text_free(text);
    return 0;
}
