//! The library's functions as they are, on buffers that the caller lends: for callers who
//! keep their buffers from one search to the next, or who read the notes. Most callers want
//! [`Query::search`](crate::Query::search).
//!
//! Every input gets an answer. Slices make sure of what C callers have to see to: valid pointers, and no overlap of
//! what is written. All `unsafe` code of this crate stands here.

/// Bytes of stack that a call of [`search()`], or of any other function here, needs, 64 KiB; the C
/// header's `MIRELADLE_STACK`. It is measured and not proved: the worst query that was found took
/// 50,624, one in lots 51,072, the desk 42,528, and the rest is reserve.
///
/// Threads of the standard library have 2 MiB. One that is given less by
/// [`stack_size`](std::thread::Builder::stack_size) needs at least 96 KiB, since the thread and this
/// crate take some as well. With too little a long pattern overflows the stack, which ends the
/// process.
pub const STACK: usize = 65_536;

/// What a search returns. On the answers 1 to 12 and 14 all but the answer, and the offset of 5 and 14, are 0.
#[repr(C)]
#[derive(Clone, Copy, Debug, PartialEq, Eq, Hash)]
pub struct Outcome {
    /// 0 done, 13, 15 and 16 stopped, 23 waits for further rows, all others refused; see
    /// [`Ending`](crate::Ending) for the first five and [`Error`](crate::Error) for the refusals.
    pub answer: u64,
    /// Matches in the report.
    pub matches: u64,
    /// Label bytes in the report.
    pub labels: u64,
    /// Steps: how many pairs of a place, a position and flags were entered.
    pub steps: u64,
    /// On 5 the byte of the pattern text, from 0, at which it is wrong; on 14 its length; else 0.
    pub offset: u64,
}

/// What the working room of a search is measured by. On the answers 1 to 10 and 14 all but the answer, and the
/// offset of 5 and 14, are 0.
#[repr(C)]
#[derive(Clone, Copy, Debug, PartialEq, Eq, Hash)]
pub struct Room {
    /// 0, or the answer of 1 to 10 or 14 that a search would give.
    pub answer: u64,
    /// P, the places of the unrolled pattern.
    pub places: u64,
    /// n, the rows.
    pub rows: u64,
    /// PF(n+1): the numbers of the trail, and the bits of the notes.
    pub pairs: u64,
    /// As a search returns it.
    pub offset: u64,
    /// F, 2 to the power of how deep repetitions without upper bound, of something that can match
    /// without taking a row, are nested: 1, 2, 4 or 8.
    pub factor: u64,
}

impl Room {
    /// The bytes of notes that a search takes: one bit for each pair.
    pub fn notes(&self) -> u64 {
        self.pairs.div_ceil(8)
    }
}

/// Judges a query and rows: answer 0 with what the working room is measured by, or the refusal of 1 to 10 or 14.
pub fn room(query: &[u8], rows: &[i32]) -> Room {
    // SAFETY: both pointers come from slices with their lengths and are only read.
    #[allow(unsafe_code)]
    unsafe {
        mireladle_room(query.as_ptr(), query.len(), rows.as_ptr(), rows.len())
    }
}

/// Searches the rows for all matches of the query.
///
/// `notes` and `trail` are working room, [`Room::notes`] bytes and [`Room::pairs`] numbers at least. `numbers` and
/// `labels` take the report: for each match its number from 1, its first row, how many rows it takes, then for each
/// measure 1 and the result or 0 and 0 for null; and the labels of its rows, as bytes `A` to `Z`.
///
/// On the answers 1 to 12 and 14 no buffer is changed. On 0, 13, 15 and 16 bit (position times P
/// plus place) times F plus flags of the notes, the lowest bit of a byte first, is 1 exactly if that
/// pair has failed; the spare bits of the last byte and the first [`Room::pairs`] numbers of the
/// trail are 0; what lies behind that, and behind the report, is unchanged.
pub fn search(
    query: &[u8],
    rows: &[i32],
    notes: &mut [u8],
    trail: &mut [u32],
    numbers: &mut [i64],
    labels: &mut [u8],
) -> Outcome {
    // SAFETY: all pointers come from slices with their lengths; those that are written come from exclusive ones, so
    // nothing overlaps them.
    #[allow(unsafe_code)]
    unsafe {
        mireladle_search(
            query.as_ptr(),
            query.len(),
            rows.as_ptr(),
            rows.len(),
            notes.as_mut_ptr(),
            notes.len(),
            trail.as_mut_ptr(),
            trail.len(),
            numbers.as_mut_ptr(),
            numbers.len(),
            labels.as_mut_ptr(),
            labels.len(),
        )
    }
}

/// The same search with an allowance of steps: it stops with answer 16 just before the step that
/// would be one more, and the steps of the outcome are then the allowance. Refusals, and 13 or 15
/// where they come first, are as those of [`search()`], and so are the buffers; a pair that is
/// still open on 16 has not failed. An allowance that the search does not pass changes nothing.
///
/// ```
/// use mireladle::{lent, Query};
///
/// let query = Query::builder(1).pattern("A").build()?;
/// let (query, rows) = (query.as_bytes(), &[7, 8, 9]);
/// let room = lent::room(query, rows);
/// assert_eq!((room.notes(), room.pairs), (1, 8));
/// let (mut notes, mut trail, mut numbers, mut labels) = ([0; 1], [0; 8], [0; 9], [0; 3]);
/// let mut answer_and_matches = |allowance| {
///     let outcome = lent::search_within(
///         query, rows, allowance, &mut notes, &mut trail, &mut numbers, &mut labels,
///     );
///     (outcome.answer, outcome.matches)
/// };
/// // Two steps for each of three matches.
/// assert_eq!(answer_and_matches(5), (16, 2));
/// assert_eq!(answer_and_matches(6), (0, 3));
/// # Ok::<(), mireladle::Error>(())
/// ```
pub fn search_within(
    query: &[u8],
    rows: &[i32],
    allowance: u64,
    notes: &mut [u8],
    trail: &mut [u32],
    numbers: &mut [i64],
    labels: &mut [u8],
) -> Outcome {
    // SAFETY: as for `search`.
    #[allow(unsafe_code)]
    unsafe {
        mireladle_search_within(
            query.as_ptr(),
            query.len(),
            rows.as_ptr(),
            rows.len(),
            allowance,
            notes.as_mut_ptr(),
            notes.len(),
            trail.as_mut_ptr(),
            trail.len(),
            numbers.as_mut_ptr(),
            numbers.len(),
            labels.as_mut_ptr(),
            labels.len(),
        )
    }
}

/// What the release desk returns.
#[repr(C)]
#[derive(Clone, Copy, Debug, PartialEq, Eq, Hash)]
pub struct Judged {
    /// 0, or the answer of a search that was refused or stopped; then all else is 0.
    pub answer: u64,
    /// 1 cleared, 2 held, 3 unreadable; 0 where the answer is not 0.
    pub verdict: u64,
    /// 1 where the log is held and has a refusal, else 0.
    pub found: u64,
    /// Where `found` is 1, the row of the last event 2; else 0.
    pub row: u64,
}

/// The release desk's verdict on a log: 4 numbers a row, time, event, base number and patch number,
/// in order of time. The buffers are those of [`search()`], and left as its search for `O R* C $`
/// leaves them; for n rows 6(n+1) bits of notes, so many numbers of trail, 3 numbers and n labels
/// are always enough. Most callers want [`Desk::judge`](crate::Desk::judge).
pub fn desk(
    rows: &[i32],
    notes: &mut [u8],
    trail: &mut [u32],
    numbers: &mut [i64],
    labels: &mut [u8],
) -> Judged {
    // SAFETY: as for `search`.
    #[allow(unsafe_code)]
    unsafe {
        mireladle_desk(
            rows.as_ptr(),
            rows.len(),
            notes.as_mut_ptr(),
            notes.len(),
            trail.as_mut_ptr(),
            trail.len(),
            numbers.as_mut_ptr(),
            numbers.len(),
            labels.as_mut_ptr(),
            labels.len(),
        )
    }
}

/// What the test of a letter at a row returns. On an answer other than 0 all else but the offset of
/// 5 and 14 is 0.
#[repr(C)]
#[derive(Clone, Copy, Debug, PartialEq, Eq, Hash)]
pub struct LetterTest {
    /// 0, or the answer of 1 to 10 or 14 that a search would give.
    pub answer: u64,
    /// 1 where the letter holds, else 0.
    pub holds: u64,
    /// How many comparisons of the letter's list were judged: up to and with the first that is not
    /// met; 0 where it has no DEFINE, or one with OR or NOT.
    pub judged: u64,
    /// As a search returns it.
    pub offset: u64,
}

/// Tests a letter, by its byte, at a row. A byte that is no letter has no DEFINE; a row behind the
/// last is judged by what the comparisons read.
pub fn test(query: &[u8], rows: &[i32], letter: u8, row: usize) -> LetterTest {
    // SAFETY: both pointers come from slices with their lengths and are only read.
    #[allow(unsafe_code)]
    unsafe {
        mireladle_test(
            query.as_ptr(),
            query.len(),
            rows.as_ptr(),
            rows.len(),
            letter,
            row,
        )
    }
}

/// The words of a depot-by-month table's state.
pub const DEPOTS_LENGTH: usize = 773;
/// Where in the state the cell for all else stands: behind those of depot 0 to 63 and month 1 to 12,
/// of which that of a depot and a month is 12 times the depot, plus the month, less 1.
pub const DEPOTS_OUTSIDE: usize = 768;
/// Where in the state it stands how many partitions have a number.
pub const DEPOTS_PARTITIONS: usize = 769;
/// Where in the state it stands how many numbers of the list are used.
pub const DEPOTS_LISTED: usize = 770;
/// As many partitions as get a number.
pub const MOST_PARTITIONS: usize = 65_535;

/// Begins a depot-by-month table: all counts are 0, and the two columns, from 0, in which a row has
/// its depot and its month are kept. The answer is 0, or 20 where the state is shorter than
/// [`DEPOTS_LENGTH`], and then nothing is changed. Most callers want [`Depots`](crate::Depots).
pub fn depots_begin(state: &mut [u64], depot: u64, month: u64) -> u64 {
    // SAFETY: the pointer comes from an exclusive slice with its length.
    #[allow(unsafe_code)]
    unsafe {
        mireladle_depots_begin(state.as_mut_ptr(), state.len(), depot, month)
    }
}

/// Takes one partition into the table: searches its rows as [`search()`] does, and counts each match
/// by the depot and the month in its first row. A partition that is refused or stopped adds nothing
/// and gets two numbers of the list, its number from 1 and its answer. One behind
/// [`MOST_PARTITIONS`], which is not searched, and one whose entry does not fit the list have answer
/// 20 and zeros, and change neither state nor list. State and list are as the calls before left
/// them; any other state gets an answer of which nothing is said.
pub fn depots_partition(
    state: &mut [u64],
    list: &mut [u32],
    query: &[u8],
    rows: &[i32],
    notes: &mut [u8],
    trail: &mut [u32],
    numbers: &mut [i64],
    labels: &mut [u8],
) -> Outcome {
    // SAFETY: as for `search`.
    #[allow(unsafe_code)]
    unsafe {
        mireladle_depots_partition(
            state.as_mut_ptr(),
            state.len(),
            list.as_mut_ptr(),
            list.len(),
            query.as_ptr(),
            query.len(),
            rows.as_ptr(),
            rows.len(),
            notes.as_mut_ptr(),
            notes.len(),
            trail.as_mut_ptr(),
            trail.len(),
            numbers.as_mut_ptr(),
            numbers.len(),
            labels.as_mut_ptr(),
            labels.len(),
        )
    }
}

/// What is kept of a search by lots between its calls. [`begin`] makes it, [`more`] and [`last`] alter
/// it; it may be copied. Any other numbers in it get an answer of which nothing is said.
#[repr(C)]
#[derive(Clone, Copy, Debug, PartialEq, Eq, Hash)]
pub struct FeedState {
    /// The largest number of rows, as it was named.
    pub largest: u64,
    /// The steps allowed over all calls, as they were named.
    pub allowance: u64,
    /// The rows present at the latest call that was not refused.
    pub present: u64,
    /// 0 until a call has not been refused, then 1.
    pub begun: u64,
    /// The answer of that call; 23 before the first.
    pub answer: u64,
    /// The start at which the search goes on.
    pub row: u64,
    /// Matches in the report.
    pub matches: u64,
    /// Label bytes in the report.
    pub labels: u64,
    /// Steps over all calls.
    pub steps: u64,
    /// Pairs that are still open, where the search waits inside an attempt.
    pub opened: u64,
}

/// Begins a search whose rows come in lots: names the largest number of rows that there may be and
/// the steps allowed over all calls, [`u64::MAX`] for any number. It judges nothing: [`more`] and
/// [`last`] do. Most callers want [`Feed`](crate::Feed).
///
/// ```
/// use mireladle::{lent, Query};
///
/// let query = Query::builder(1).pattern("A A").build()?;
/// let (query, rows) = (query.as_bytes(), [7, 8, 9]);
/// let room = lent::room(query, &rows);
/// let (mut notes, mut trail) = (vec![0; room.notes() as usize], vec![0; room.pairs as usize]);
/// let (mut numbers, mut labels) = ([0; 9], [0; 3]);
/// let mut feed = lent::begin(3, u64::MAX);
/// let mut answers = Vec::new();
/// for present in [1, 2, 3, 2] {
///     let outcome = lent::more(
///         &mut feed, query, &rows, present, &mut notes, &mut trail, &mut numbers, &mut labels,
///     );
///     answers.push((outcome.answer, outcome.matches));
/// }
/// // The match is there with its second row. Fewer rows than before are refused.
/// assert_eq!(answers, [(23, 0), (23, 1), (23, 1), (21, 0)]);
/// let outcome = lent::last(
///     &mut feed, query, &rows, 3, &mut notes, &mut trail, &mut numbers, &mut labels,
/// );
/// assert_eq!((outcome.answer, outcome.matches), (0, 1));
/// # Ok::<(), mireladle::Error>(())
/// ```
pub fn begin(largest: u64, allowance: u64) -> FeedState {
    let mut feed = FeedState {
        largest: 0,
        allowance: 0,
        present: 0,
        begun: 0,
        answer: 0,
        row: 0,
        matches: 0,
        labels: 0,
        steps: 0,
        opened: 0,
    };
    // SAFETY: the pointer comes from an exclusive reference.
    #[allow(unsafe_code)]
    unsafe {
        mireladle_begin(&mut feed, largest, allowance);
    }
    feed
}

/// A lot of rows, behind which more may come: of `rows`, which hold all so far, so many are present
/// now. What lies behind them is not read. Query and buffers are those of all other calls of this
/// feed, as these left them, and notes and trail are measured by the largest number of rows.
///
/// Answer 23: the search waits for further rows; numbers and labels have all matches found so far,
/// and the outcome counts them. 13, 15 and 16 are as for [`search_within`], and stay the answer of
/// every later call. Refusals change nothing: those of the query, 17 for one that looks ahead, 10
/// for more rows than were named, or than the slice holds, 11, 12, and 21 for fewer rows than
/// before or after the end.
pub fn more(
    feed: &mut FeedState,
    query: &[u8],
    rows: &[i32],
    present: u64,
    notes: &mut [u8],
    trail: &mut [u32],
    numbers: &mut [i64],
    labels: &mut [u8],
) -> Outcome {
    // SAFETY: as for `search`; the feed is an exclusive reference too.
    #[allow(unsafe_code)]
    unsafe {
        mireladle_more(
            feed,
            query.as_ptr(),
            query.len(),
            rows.as_ptr(),
            rows.len(),
            present,
            notes.as_mut_ptr(),
            notes.len(),
            trail.as_mut_ptr(),
            trail.len(),
            numbers.as_mut_ptr(),
            numbers.len(),
            labels.as_mut_ptr(),
            labels.len(),
        )
    }
}

/// The last lot: as [`more`], and the end is declared. The answer is 0 in the place of 23, with the
/// report, the steps and the buffers of one [`search_within`] of all rows present, but that notes
/// and trail are measured by the largest number of rows.
pub fn last(
    feed: &mut FeedState,
    query: &[u8],
    rows: &[i32],
    present: u64,
    notes: &mut [u8],
    trail: &mut [u32],
    numbers: &mut [i64],
    labels: &mut [u8],
) -> Outcome {
    // SAFETY: as for `more`.
    #[allow(unsafe_code)]
    unsafe {
        mireladle_last(
            feed,
            query.as_ptr(),
            query.len(),
            rows.as_ptr(),
            rows.len(),
            present,
            notes.as_mut_ptr(),
            notes.len(),
            trail.as_mut_ptr(),
            trail.len(),
            numbers.as_mut_ptr(),
            numbers.len(),
            labels.as_mut_ptr(),
            labels.len(),
        )
    }
}

// As in include/mireladle.h; nothing but the tests compares the two.
extern "C" {
    fn mireladle_begin(feed: *mut FeedState, largest: u64, allowance: u64);

    fn mireladle_more(
        feed: *mut FeedState,
        query: *const u8,
        query_len: usize,
        rows: *const i32,
        rows_len: usize,
        present: u64,
        notes: *mut u8,
        notes_len: usize,
        trail: *mut u32,
        trail_len: usize,
        numbers: *mut i64,
        numbers_len: usize,
        labels: *mut u8,
        labels_len: usize,
    ) -> Outcome;

    fn mireladle_last(
        feed: *mut FeedState,
        query: *const u8,
        query_len: usize,
        rows: *const i32,
        rows_len: usize,
        present: u64,
        notes: *mut u8,
        notes_len: usize,
        trail: *mut u32,
        trail_len: usize,
        numbers: *mut i64,
        numbers_len: usize,
        labels: *mut u8,
        labels_len: usize,
    ) -> Outcome;

    fn mireladle_search(
        query: *const u8,
        query_len: usize,
        rows: *const i32,
        rows_len: usize,
        notes: *mut u8,
        notes_len: usize,
        trail: *mut u32,
        trail_len: usize,
        numbers: *mut i64,
        numbers_len: usize,
        labels: *mut u8,
        labels_len: usize,
    ) -> Outcome;

    fn mireladle_search_within(
        query: *const u8,
        query_len: usize,
        rows: *const i32,
        rows_len: usize,
        allowance: u64,
        notes: *mut u8,
        notes_len: usize,
        trail: *mut u32,
        trail_len: usize,
        numbers: *mut i64,
        numbers_len: usize,
        labels: *mut u8,
        labels_len: usize,
    ) -> Outcome;

    fn mireladle_room(
        query: *const u8,
        query_len: usize,
        rows: *const i32,
        rows_len: usize,
    ) -> Room;

    fn mireladle_desk(
        rows: *const i32,
        rows_len: usize,
        notes: *mut u8,
        notes_len: usize,
        trail: *mut u32,
        trail_len: usize,
        numbers: *mut i64,
        numbers_len: usize,
        labels: *mut u8,
        labels_len: usize,
    ) -> Judged;

    fn mireladle_test(
        query: *const u8,
        query_len: usize,
        rows: *const i32,
        rows_len: usize,
        letter: u8,
        row: usize,
    ) -> LetterTest;

    fn mireladle_depots_begin(state: *mut u64, state_len: usize, depot: u64, month: u64) -> u64;

    fn mireladle_depots_partition(
        state: *mut u64,
        state_len: usize,
        list: *mut u32,
        list_len: usize,
        query: *const u8,
        query_len: usize,
        rows: *const i32,
        rows_len: usize,
        notes: *mut u8,
        notes_len: usize,
        trail: *mut u32,
        trail_len: usize,
        numbers: *mut i64,
        numbers_len: usize,
        labels: *mut u8,
        labels_len: usize,
    ) -> Outcome;
}
