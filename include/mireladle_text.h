/* Mireladle: queries as readable text, for C and C++.
 *
 * A text such as
 *
 *     pattern: A+ B
 *     A: price > PREV(price)
 *     B: price < PREV(price)
 *     measures: COUNT(A), LAST(B.price) AS lowest
 *
 * or the same in SQL's spelling (PATTERN (A+ B) DEFINE A AS price > PREV(price), ..) is read into
 * the bytes of a query, as mireladle.h tells them, the names of the columns that it is over and the
 * titles of its measures; or into the line, the column and the words of its first fault. README
 * tells the language.
 *
 * Unlike mireladle.h's functions these allocate. They keep nothing between calls, so that different
 * texts can be used by different threads, and one text by several threads that do not free it. The
 * reader is tested, not proved; the search that its query is for is proved. Strings are UTF-8 and
 * end in 0; control characters in them are replaced by U+FFFD. A null pointer in the place of a text
 * gives 0 or null everywhere.
 *
 *     cargo build --release --offline --manifest-path rust/Cargo.toml -p mireladle_text
 *     cc -Iinclude yours.c rust/target/release/libmireladle_text.a -lpthread -ldl -lm
 *
 * The static library holds the functions of mireladle.h too; the shared one, libmireladle_text.so,
 * does not, so that a program which searches links libmireladle_c beside it. examples/text.c is a
 * whole program.
 */
#ifndef MIRELADLE_TEXT_H
#define MIRELADLE_TEXT_H

#include <stddef.h>
#include <stdint.h>

#ifdef __cplusplus
extern "C" {
#endif

/* A text that was read. */
typedef struct mireladle_text mireladle_text;

/* The most bytes that a text can have. */
#define MIRELADLE_TEXT_LONGEST 1048576

/* Reads a text of so many bytes, which need not end in 0. The result is never null, also where the
 * text is wrong, is no UTF-8, is too long or is a null pointer: then it is a text with a fault. Give
 * it back with mireladle_text_free. The text is not looked at after the call. */
mireladle_text *mireladle_text_read(const char *text, size_t length);

/* Gives a text back, with all that the functions below returned of it. Null does nothing. */
void mireladle_text_free(mireladle_text *text);

/* The fault: its line and column, both from 1, the column in characters, and what is wrong. Without
 * fault they are 0, 0 and null. */
size_t mireladle_text_fault_line(const mireladle_text *text);
size_t mireladle_text_fault_column(const mireladle_text *text);
const char *mireladle_text_fault(const mireladle_text *text);

/* The bytes of the query, which the library accepts; null and 0 where there is a fault. */
const uint8_t *mireladle_text_query(const mireladle_text *text);
size_t mireladle_text_query_length(const mireladle_text *text);

/* The columns that the query names, in the order in which its rows have to have them: 0 to 8. Where
 * there is none, rows have one entry each, which is not looked at. Null beyond the last. */
size_t mireladle_text_names(const mireladle_text *text);
const char *mireladle_text_name(const mireladle_text *text, size_t index);

/* The titles of the measures, all of them different: 0 to 8. Null beyond the last. */
size_t mireladle_text_titles(const mireladle_text *text);
const char *mireladle_text_title(const mireladle_text *text, size_t index);

/* What is likely not meant, each with its line and column in front. Null beyond the last. */
size_t mireladle_text_warnings(const mireladle_text *text);
const char *mireladle_text_warning(const mireladle_text *text, size_t index);

/* The number that a cell of the query's column with this index, from 0, is: a whole number, a date
 * or a time in seconds, or a text by the column's codes. 1 where it is one, and then *number is
 * set; 0 where it is none. */
int mireladle_text_cell(const mireladle_text *text, size_t index, const char *cell, size_t length,
                        int32_t *number);

#ifdef __cplusplus
}
#endif
#endif
