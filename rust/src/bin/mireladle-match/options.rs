//! The one description of the command line, from which `--help`, the man page, the completions and
//! the reader of arguments are made. An option that is not described here does not exist.

use crate::shared::options::{
    flag, one_of, valued, Command, Group, ABOUT, COLOR, DELIMITER, NO_HEADER, TAB,
};

pub const COMMAND: Command = Command {
    name: "mireladle-match",
    summary: "search rows for a row pattern (SQL's MATCH_RECOGNIZE)",
    usages: &["[OPTIONS] QUERY ROWS", "[OPTIONS] -e TEXT [ROWS]"],
    groups: GROUPS,
    sections: SECTIONS,
    needs: &[
        ("steps", STEPS),
        ("explain", EXPLAIN),
        ("program", "the program's path"),
        ("pid", PID),
        ("depots", DEPOTS),
        ("svg", "the path of the file to write"),
    ],
};

/// What `--steps` needs.
pub const STEPS: &str = "a whole number from 0 to 18446744073709551615";

/// What `--explain` needs.
pub const EXPLAIN: &str = "the number of a row from 0 on, or line=N";

/// What `--pid` needs.
pub const PID: &str = "the number of a process";

/// What `--depots` needs.
pub const DEPOTS: &str = "two columns, DEPOT,MONTH";

const GROUPS: &[Group] = &[
    Group {
        title: "Rows",
        options: &[
            valued(
                "partition-by",
                Some('p'),
                "COLUMN[,COLUMN]",
                "Search the rows of each value of these columns on their own: a log\n\
                 of several buses by the bus. They may stand in any order among each\n\
                 other. Each partition has at most 4,096 rows; one with more is\n\
                 refused, and the others go on.",
            ),
            valued(
                "order-by",
                None,
                "COLUMN",
                "Check that the rows of each partition stand in the order of this\n\
                 column, a number, a date or a time; equal ones keep their order. A row\n\
                 that does not is an error, unless --sort is given.",
            ),
            flag(
                "sort",
                None,
                "Sort the rows of each partition by the --order-by column.",
            ),
            flag(
                "grouped",
                None,
                "The rows of each partition stand together: answer each partition when\n\
                 the next begins, and keep none of them. A partition that begins again\n\
                 is an error. For pipes; of a large file it is found out.",
            ),
            flag(
                "follow",
                None,
                "Search the rows while they come, and tell each match as soon as it is\n\
                 found. A file is followed as by tail -f: it may grow, and ROWS is read\n\
                 until an interrupt, or as --pid says. A pipe, and standard input, end\n\
                 where they end. A query that looks ahead, by $ or NEXT, is refused.",
            ),
            valued(
                "pid",
                None,
                "PID",
                "With --follow: the file ends when the process PID has ended, and what it\n\
                 wrote is read.",
            ),
            DELIMITER,
            TAB,
            NO_HEADER,
        ],
    },
    Group {
        title: "Search",
        options: &[
            valued(
                "query",
                Some('e'),
                "TEXT",
                "The query itself, in the place of the file QUERY. Given several times,\n\
                 each is a line.",
            ),
            valued(
                "steps",
                None,
                "N",
                "Search each partition in N steps at most, a whole number from 0 on, and\n\
                 tell the matches found by then. A million take milliseconds. Past last\n\
                 row no search takes many more than two million; with every other skip\n\
                 one can take two thousand million, and so seconds.",
            ),
            valued(
                "program",
                None,
                "PATH",
                "Search by running the program `mireladle` there, not by the linked\n\
                 library. It cannot be told how many steps to take.",
            ),
        ],
    },
    Group {
        title: "Answer",
        options: &[
            one_of(
                "format",
                Some('f'),
                "FORMAT",
                &["table", "json", "csv"],
                "How matches are told: as a table to be read (the default), or as one\n\
                 record a match, in JSON, one to a line, or in CSV. A record has the\n\
                 partition, the match's number in it, the line in the file and the row\n\
                 in the partition where it begins, how many rows it takes, their labels,\n\
                 and the measures by their titles. In JSON a cell of the file that is\n\
                 written like a number is one.",
            ),
            flag(
                "rows",
                None,
                "ALL ROWS PER MATCH: tell each row of each match, as it stands in the\n\
                 file, with the match's number and the row's label.",
            ),
            flag(
                "count",
                Some('c'),
                "Tell only how many matches there are in all.",
            ),
            valued(
                "depots",
                None,
                "DEPOT,MONTH",
                "Count the matches of all partitions in a table of depots by months, by\n\
                 these two columns of each match's first row: depot 0 to 63, month 1 to\n\
                 12, all else in one cell called outside. A line of codes in the query\n\
                 names the depots: `depot: North=0, South=1`. A partition that is refused\n\
                 or stopped is not counted but named. --format tells the table, too.",
            ),
            valued(
                "svg",
                None,
                "FILE",
                "Draw the table of --depots into this file as well, as a heat map in SVG.",
            ),
            flag(
                "quiet",
                Some('q'),
                "Tell nothing; end at the first match, with exit status 0.",
            ),
            valued(
                "explain",
                None,
                "ROW",
                "Search nothing, and tell which letters hold at a row and where the DEFINEs\n\
                 of the others stop: each comparison that was judged, with the values that\n\
                 were compared. ROW is the row's number as the table shows it, from 0, or\n\
                 line=N for the row that begins at line N of ROWS; where the rows are parted\n\
                 it is the latter.",
            ),
            COLOR,
            flag(
                "no-warnings",
                None,
                "Do not warn of letters without DEFINE and of DEFINEs without letter.",
            ),
            flag(
                "bytes",
                None,
                "Write the query and the rows as the program `mireladle` reads them from\n\
                 its standard input, and search nothing.",
            ),
        ],
    },
    ABOUT,
];

const SECTIONS: &[(&str, &str)] = &[
    (
        "Files",
        "\
ROWS is a CSV file, or `-` for standard input. The first line names the columns;
of the others those that the query names hold whole numbers of 32 bits, dates and
times, which count as whole seconds (2026-03-01, 2026-03-01T14:05:30Z, 14:05:30;
dates from 1970 on), or texts that have codes. Other columns may hold anything.
QUERY is a file with the query's text, or `-`.",
    ),
    (
        "Query",
        "\
Lines in any order; # or -- begins a comment.
  pattern: A+ B
  A: c0 > PREV(c0)
  B: price < PREV(price), event <> 'refused'
  C: c1 = 3 AND NOT (c0 > NEXT(c0, 2) + 5 OR price BETWEEN 10 AND 20)
  event: offered=1, refused=2, accepted=3, *=0
  skip: past last row
  measures: COUNT(A), LAST(B.price) AS lowest, SUM(c1)
SQL's clauses do as well, in capitals or not and over several lines:
  PARTITION BY bus  ORDER BY time
  MEASURES LAST(B.price) AS lowest
  AFTER MATCH SKIP PAST LAST ROW
  PATTERN (A+ B)
  DEFINE A AS price > PREV(price), B AS price < PREV(price) AND event <> 'refused'
A pattern is made of letters A to Z, two of them parted by a space; ^ before
the first row and $ behind the last; () for nothing; branches with |, the
left one tried first; parentheses; and * + ? {n} {n,} {,m} {n,m} with bounds
up to 99, which take as many rows as they can, or as few with a ? behind.
A letter holds at a row where its condition is true; one without a line of its
own, or with `true`, holds at every row. A column is c0, c1 and so on, or its name
in ROWS, in double quotes where it has spaces; a query names at most 8. Comparisons
are = <> < <= > >=, with a number, a text in single quotes, a column, or a column
plus or minus a number; and [NOT] BETWEEN .. AND .., [NOT] IN (.., ..). They are
joined by NOT, AND and OR, which bind in this order, and parentheses; between whole
conditions of a line a comma is AND. A letter has at most 8 comparisons. One that
looks at a row which is not there is unknown, and NOT unknown is unknown: a letter
holds only where its condition is true. A text stands for its code in the
column's line of codes, where *=0 gives 0 to all texts that it does not name.
skip is `past last row` (also where the line is missing), `to next row`,
`to first A` or `to last A`: at which row the search goes on behind a match, here
its first or last row labelled A. That row has to lie behind the match's first.
Measures are COUNT, SUM, MIN, MAX, FIRST, LAST, AVG; over all rows of the match
(COUNT(*)), or over those with one letter. Over no rows, all but COUNT are null.
AVG is a whole number, cut toward zero: of 3 and 4 it is 3, of -3 and -4 it is -3.",
    ),
    (
        "Answer",
        "\
The table has the matches, then the rows; 2:A beside a row says that match 2
labels it A. Rows count from 0 in their partition, lines from 1 in the file.
Partitions are told in the order in which they begin. The report of a search that
stopped begins with `stopped for want of room`, which only the program does, or
with `stopped since` and why: there is no row to skip to behind the last match, or
--steps allows no more.
With --follow each match is a line of its own: its partition, its number in it, the
lines of the file where it begins and ends, its labels and its measures; with --rows
its rows, and with --format a record as without --follow. Each is written at once.
The matches of one partition come in their order; a match that could still take
further rows comes when they are there, or at the end.
With --depots it is the table of depots by months, then the count outside, and
then the partitions that are not counted, each with its number in the order of
the searches, from 1, and its answer. At most 65,535 partitions are counted; a
further one is answer 20.",
    ),
    (
        "Exit status",
        "\
0    at least one match
1    no match
2    wrong input, a partition that was refused, or an output that cannot be written
3    a search stopped, so that there may be further matches
141  the reader of the output left before its end
With --explain it is 0 where the row is there. A file that is followed ends only by
--pid or by an interrupt, which ends the command by its signal.
Of several that apply 2 counts before 3, and 3 before 0 and 1; with --quiet it is 0
where a match was found.",
    ),
    (
        "Examples",
        "\
mireladle-match query.txt log.csv
mireladle-match --partition-by bus --order-by time query.txt log.csv
mireladle-match -p bus -f json query.txt log.csv | jq .measures
mireladle-match -p bus --depots depot,month --svg year.svg query.txt log.csv
zcat log.csv.gz | mireladle-match -e 'pattern: A+ B' -e 'A: speed > PREV(speed)' \\
  -e 'B: speed = 0' -f csv -
mireladle-match -q query.txt log.csv && echo found
ssh depot tail -n +1 -f log.csv | mireladle-match -p bus --follow -f json query.txt -
collect > log.csv & mireladle-match -p bus --follow --pid $! query.txt log.csv
mireladle-match -p bus --explain line=812 query.txt log.csv",
    ),
];
