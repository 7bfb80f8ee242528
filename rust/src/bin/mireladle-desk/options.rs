//! The one description of the command line, from which `--help`, the man page, the completions and
//! the reader of arguments are made. An option that is not described here does not exist.

use crate::shared::options::{
    flag, one_of, valued, Command, Group, ABOUT, COLOR, DELIMITER, NO_HEADER, TAB,
};

pub const COMMAND: Command = Command {
    name: "mireladle-desk",
    summary: "say of each bus in a log whether it is cleared for the road",
    usages: &["[OPTIONS] FILE"],
    groups: GROUPS,
    sections: SECTIONS,
    needs: &[("events", EVENTS)],
};

/// What `--events` needs.
pub const EVENTS: &str = "texts and their numbers, such as offered=1,refused=2,accepted=3";

const GROUPS: &[Group] = &[
    Group {
        title: "Rows",
        options: &[
            valued(
                "bus",
                None,
                "COLUMN",
                "The column that tells the bus, `bus` if this is not given. Buses are told\n\
                 apart by the text of the cell: 17 and 017 are two.",
            ),
            valued(
                "time",
                None,
                "COLUMN",
                "The column of times, `time` if this is not given: whole numbers, dates or\n\
                 times. The rows of each bus have to stand in the order of it; equal times\n\
                 keep their order. A bus whose rows do not is an error.",
            ),
            valued(
                "event",
                None,
                "COLUMN",
                "The column of events, `event` if this is not given.",
            ),
            valued(
                "base",
                None,
                "COLUMN",
                "The column of base numbers, `base` if this is not given.",
            ),
            valued(
                "patch",
                None,
                "COLUMN",
                "The column of patch numbers, `patch` if this is not given.",
            ),
            valued(
                "events",
                None,
                "TEXT=N[,TEXT=N]",
                "The texts of the events: 1 is an offer, 2 a refusal, 3 an acceptance, and\n\
                 each of them has a text or several. No other text is then one of these\n\
                 events. If this is not given the numbers 1, 2 and 3 are, and the words\n\
                 offered, refused and accepted.",
            ),
            DELIMITER,
            TAB,
            NO_HEADER,
        ],
    },
    Group {
        title: "Answer",
        options: &[
            one_of(
                "format",
                Some('f'),
                "FORMAT",
                &["table", "json", "csv"],
                "How the verdicts are told: as a table to be read (the default), or as one\n\
                 record a bus, in JSON, one to a line, or in CSV. A record has the bus, the\n\
                 verdict, how many rows the log has, the row of the last refusal where the\n\
                 bus is held, the line in the file to look at, and the reason.",
            ),
            flag(
                "quiet",
                Some('q'),
                "Tell no verdict; the exit status tells whether all buses are cleared.",
            ),
            COLOR,
        ],
    },
    ABOUT,
];

const SECTIONS: &[(&str, &str)] = &[
    (
        "Log",
        "\
FILE is a CSV file, or `-` for standard input, of the events of any number of buses.
The first line names the columns; columns that are not named above may hold anything.
The rows of a bus may stand among those of others. Base and patch numbers are whole
numbers of 32 bits. A bus has at most 4,096 rows.",
    ),
    (
        "Verdicts",
        "\
cleared     the log ends in an offer, refusals or none, and an acceptance, which is its
            last row, and all of these have the same base and patch numbers
held        it does not end so; the row and line of the last refusal are told, if any
unreadable  some row has another event, wherever it stands; the first is told
error       the log cannot be judged: too many rows, rows out of order, or a cell that is
            no number; the reason is told
Every bus of the file is told, in the order in which they begin. A bus without a row in
the file is not told: the count of buses at the end is to be that of the depot. Rows count
from 0 in the log of their bus, lines from 1 in the file. A file with a line that cannot
be given to a bus (too few or too many cells, no bus) is refused as a whole: no bus is
told, since the line may be any bus's last.",
    ),
    (
        "Exit status",
        "\
0    every bus is cleared
1    some bus is held or unreadable
2    wrong input, no bus at all, a bus that is an error, or an output not written
141  the reader of the output left before its end
Of several that apply 2 counts before 1.",
    ),
    (
        "Examples",
        "\
mireladle-desk log.csv
mireladle-desk --bus vehicle --time at --events offer=1,deny=2,take=3 log.csv
mireladle-desk -f json log.csv | jq -r 'select(.verdict != \"cleared\") | .bus'
mireladle-desk -q log.csv && echo 'all may leave'",
    ),
];
