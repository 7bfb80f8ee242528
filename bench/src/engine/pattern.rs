//! The pattern text, read and unrolled in one pass and without a tree, for
//! answers 4 to 7. What is read so far lies in `places` as blocks: a place names
//! where it leads by the distance from itself, and whatever leaves a block leads
//! right behind the block. So a quantifier copies a block as it is, and the way
//! out has to be moved in two cases only: out of a branch, and round a loop.

pub const MOST_PLACES: usize = 256;
const DEEPEST_PARENTHESES: i32 = 8;
/// Of repetitions without end whose rounds may take no row.
const DEEPEST_NESTING: u8 = 3;

/// What a place is; a letter is its own byte, A to Z.
pub const FIRST: u8 = b'^';
pub const LAST: u8 = b'$';
/// A quantifier's fork: the copy behind it first, then `next`; or the reverse.
pub const GREEDY: u8 = b'*';
pub const RELUCTANT: u8 = b'?';
/// A quantifier's fork both ways of which lead to `next`.
pub const ONE_WAY: u8 = b'-';
/// An alternation's fork: its ways are a part of `branches`.
pub const BRANCHES: u8 = b'|';
pub const END: u8 = 0;

/// The way of an empty branch: where the fork's `next` leads.
pub const LEAVE: u8 = 0;

/// A place; `next` is added to its number and wraps at 256, as a loop leads back.
#[derive(Clone, Copy)]
pub struct Place {
    pub sort: u8,
    pub next: u8,
    /// Of an alternation's fork: its part of `branches`. Of the fork of a repetition
    /// whose rounds may take no row: no `from`, and how many places its copy has.
    pub from: u8,
    pub count: u8,
}

/// A pattern with none of the answers 4 to 7, unrolled.
pub struct Pattern {
    pub places: [Place; MOST_PLACES],
    /// P, END included.
    pub count: usize,
    /// F: how many values the flags of a place can have.
    pub factor: usize,
    /// Ways of alternations, as distances from the fork or LEAVE, without
    /// repeats. The copies of a fork share them.
    pub branches: [u8; 256],
    /// A bit for each letter, A lowest.
    pub letters: u32,
}

impl Pattern {
    pub fn new() -> Pattern {
        Pattern {
            places: [Place {
                sort: END,
                next: 0,
                from: 0,
                count: 0,
            }; MOST_PLACES],
            count: 0,
            factor: 1,
            branches: [LEAVE; 256],
            letters: 0,
        }
    }

    /// The ways of an alternation's fork; there is at least one.
    pub fn branches_of(&self, fork: Place) -> &[u8] {
        &self.branches[usize::from(fork.from)..][..usize::from(fork.count)]
    }

    /// How many places the copy of a repetition has whose rounds may take no row, if
    /// this is the fork of one that has places; otherwise 0.
    pub fn flagged_copy(place: Place) -> usize {
        match place.sort {
            GREEDY | RELUCTANT => usize::from(place.count),
            _ => 0,
        }
    }
}

/// Reads a text into a new pattern, or gives the lowest of the answers 4 to 7
/// that applies. The pattern is lent, as moving it would take longer than
/// reading a short text.
pub fn read(text: &[u8], pattern: &mut Pattern) -> Result<(), u64> {
    if parentheses_pass_eight(text) {
        return Err(4);
    }
    let mut reader = Reader {
        text,
        at: 0,
        pattern,
        branches: 0,
        open: [0; 256],
        open_count: 0,
        too_many: false,
    };
    let Some(Part { nesting, .. }) = reader.pattern().filter(|_| reader.at >= text.len()) else {
        return Err(5);
    };
    if nesting > DEEPEST_NESTING {
        return Err(6);
    }
    if reader.too_many {
        return Err(7);
    }
    // The last place is END already, as nothing was laid there.
    pattern.count += 1;
    pattern.factor = 1 << nesting;
    Ok(())
}

fn parentheses_pass_eight(text: &[u8]) -> bool {
    let mut open = 0;
    let mut most = 0;
    for &byte in text {
        open += i32::from(byte == b'(') - i32::from(byte == b')');
        most = most.max(open);
    }
    most > DEEPEST_PARENTHESES
}

/// What was read: whether it can take no row, and how deep repetitions without end
/// are nested in it whose rounds may take no row.
#[derive(Clone, Copy)]
struct Part {
    can_take_no_row: bool,
    nesting: u8,
}

/// No value where the text is outside the language.
type Read = Option<Part>;

fn single(can_take_no_row: bool) -> Part {
    Part {
        can_take_no_row,
        nesting: 0,
    }
}

struct Reader<'a> {
    text: &'a [u8],
    at: usize,
    /// `count` is the places laid so far, END not among them.
    pattern: &'a mut Pattern,
    /// How much of the pattern's `branches` is used.
    branches: usize,
    /// Where the branches begin of the alternations that are not read whole.
    /// There are at most two for each `|`, so they fit.
    open: [u8; 256],
    open_count: usize,
    /// There are more places than are allowed, and no more are laid.
    too_many: bool,
}

impl Reader<'_> {
    /// The next byte that is no space, or 0 at the end. A byte 0 in the text is
    /// taken for the end by the readers, but leaves bytes unread.
    fn peek(&mut self) -> u8 {
        while let Some(&byte) = self.text.get(self.at) {
            if byte != b' ' {
                return byte;
            }
            self.at += 1;
        }
        0
    }

    fn pattern(&mut self) -> Read {
        let start = self.pattern.count;
        let own = self.open_count;
        let mut part = self.branch()?;
        if self.peek() != b'|' {
            return Some(part);
        }
        self.push_open(start + 1);
        if self.room_for(1) {
            self.pattern
                .places
                .copy_within(start..self.pattern.count, start + 1);
            self.pattern.count += 1;
        }
        while self.peek() == b'|' {
            self.at += 1;
            self.push_open(self.pattern.count);
            let branch = self.branch()?;
            part.can_take_no_row |= branch.can_take_no_row;
            part.nesting = part.nesting.max(branch.nesting);
        }
        if !self.too_many {
            self.lay_fork_of_branches(start, own);
        }
        self.open_count = own;
        Some(part)
    }

    fn push_open(&mut self, start: usize) {
        self.open[self.open_count] = start as u8;
        self.open_count += 1;
    }

    /// Makes the fork at `start` of the branches read, and leads what leaves a
    /// branch behind the whole alternation.
    fn lay_fork_of_branches(&mut self, fork: usize, own: usize) {
        let end = self.pattern.count;
        let from = self.branches;
        let mut leaves = false;
        for index in own..self.open_count {
            let start = usize::from(self.open[index]);
            let behind = match index + 1 < self.open_count {
                true => usize::from(self.open[index + 1]),
                false => end,
            };
            if start < behind {
                self.push_way((start - fork) as u8);
                self.lead_out(start, behind, end);
            } else if !leaves {
                leaves = true;
                self.push_way(LEAVE);
            }
        }
        self.pattern.places[fork] = Place {
            sort: BRANCHES,
            next: (end - fork) as u8,
            from: from as u8,
            count: (self.branches - from) as u8,
        };
    }

    fn push_way(&mut self, way: u8) {
        self.pattern.branches[self.branches] = way;
        self.branches += 1;
    }

    /// Leads what leaves the block from `start` to `behind` to `target` instead.
    fn lead_out(&mut self, start: usize, behind: usize, target: usize) {
        for at in start..behind {
            let place = &mut self.pattern.places[at];
            if place.next == (behind - at) as u8 {
                place.next = target.wrapping_sub(at) as u8;
            }
        }
    }

    fn branch(&mut self) -> Read {
        let mut part = self.factor()?;
        while !matches!(self.peek(), 0 | b'|' | b')') {
            let factor = self.factor()?;
            part.can_take_no_row &= factor.can_take_no_row;
            part.nesting = part.nesting.max(factor.nesting);
        }
        Some(part)
    }

    fn factor(&mut self) -> Read {
        let start = self.pattern.count;
        let mut part = self.primary()?;
        let (low, high) = match self.peek() {
            b'*' => (0, None),
            b'+' => (1, None),
            b'?' => (0, Some(1)),
            b'{' => self.bounds()?,
            _ => return Some(part),
        };
        self.at += 1;
        let sort = match self.text.get(self.at) {
            Some(b'?') => RELUCTANT,
            _ => GREEDY,
        };
        self.at += usize::from(sort == RELUCTANT);
        match high {
            Some(high) => self.repeat(start, low, high, sort),
            None => {
                self.repeat_without_end(start, low, sort, part.can_take_no_row);
                part.nesting += u8::from(part.can_take_no_row);
            }
        }
        part.can_take_no_row |= low == 0;
        Some(part)
    }

    fn primary(&mut self) -> Read {
        let byte = self.peek();
        self.at += 1;
        match byte {
            b'A'..=b'Z' => {
                if self.text.get(self.at).is_some_and(u8::is_ascii_uppercase) {
                    return None;
                }
                self.pattern.letters |= 1 << (byte - b'A');
                self.lay(byte);
                Some(single(false))
            }
            FIRST | LAST => {
                self.lay(byte);
                Some(single(true))
            }
            b'(' => self.parenthesis(),
            _ => None,
        }
    }

    /// What stands behind an opening parenthesis: nothing, or a pattern.
    fn parenthesis(&mut self) -> Read {
        let part = match self.peek() {
            b')' => single(true),
            _ => self.pattern()?,
        };
        if self.peek() != b')' {
            return None;
        }
        self.at += 1;
        Some(part)
    }

    /// The bounds in braces, up to the closing one, which is not taken.
    fn bounds(&mut self) -> Option<(usize, Option<usize>)> {
        self.at += 1;
        let low = self.bound()?;
        if self.text.get(self.at) != Some(&b',') {
            let exact = low.filter(|&exact| exact >= 1)?;
            return self.closed((exact, Some(exact)));
        }
        self.at += 1;
        let high = self.bound()?;
        if high.is_none() {
            return self.closed((low?, None));
        }
        let low = low.unwrap_or(0);
        high.filter(|&high| high >= 1 && high >= low)?;
        self.closed((low, high))
    }

    fn closed<T>(&self, bounds: T) -> Option<T> {
        (self.text.get(self.at) == Some(&b'}')).then_some(bounds)
    }

    /// A bound of 0 to 99, or none where no digit stands; no value where more
    /// digits stand than a bound has.
    fn bound(&mut self) -> Option<Option<usize>> {
        let Some(first) = self.digit() else {
            return Some(None);
        };
        let bound = match self.digit() {
            None => first,
            Some(_) if first == 0 => return None,
            Some(second) => 10 * first + second,
        };
        Some(Some(bound))
    }

    fn digit(&mut self) -> Option<usize> {
        let value = self.text.get(self.at)?.wrapping_sub(b'0');
        let is_digit = value < 10;
        self.at += usize::from(is_digit);
        is_digit.then_some(usize::from(value))
    }

    /// Whether so many places more can be laid. If not, P is above 256, whatever
    /// else stands in the text, and the rest is only read.
    fn room_for(&mut self, places: usize) -> bool {
        self.too_many |= self.pattern.count + places >= MOST_PLACES;
        !self.too_many
    }

    fn lay(&mut self, sort: u8) {
        if self.room_for(1) {
            self.lay_at(self.pattern.count, sort, 1);
            self.pattern.count += 1;
        }
    }

    fn lay_at(&mut self, at: usize, sort: u8, next: usize) {
        self.pattern.places[at] = Place {
            sort,
            next: next as u8,
            from: 0,
            count: 0,
        };
    }

    /// Makes `low` copies, then a fork and a copy for each further one, of the
    /// block that begins at `start` and is laid once.
    fn repeat(&mut self, start: usize, low: usize, high: usize, sort: u8) {
        let body = self.pattern.count - start;
        let all = low * body + (high - low) * (body + 1);
        if !self.room_for(all - body) {
            return;
        }
        let end = start + all;
        let mut at = self.copy(start, body, low);
        let mut copied = start;
        for _ in low..high {
            self.pattern
                .places
                .copy_within(copied..copied + body, at + 1);
            copied = at + 1;
            let last = copied + body == end;
            let sort = if body == 0 && last { ONE_WAY } else { sort };
            // With a lower bound of 0 the first fork is laid over the block.
            self.lay_at(at, sort, end - at);
            at = copied + body;
        }
        self.pattern.count = end;
    }

    /// Makes `low` copies, then a fork and a copy that leads back to it. Where a round
    /// may take no row, the fork is marked with the size of its copy; if that has no
    /// places, both ways of the fork lead behind it.
    fn repeat_without_end(&mut self, start: usize, low: usize, sort: u8, flagged: bool) {
        let body = self.pattern.count - start;
        if !self.room_for(low * body + 1) {
            return;
        }
        let fork = self.copy(start, body, low);
        let end = fork + 1 + body;
        self.pattern
            .places
            .copy_within(start..start + body, fork + 1);
        let sort = if body == 0 { ONE_WAY } else { sort };
        self.lay_at(fork, sort, 1 + body);
        if flagged {
            self.pattern.places[fork].count = body as u8;
        }
        self.lead_out(fork + 1, end, fork);
        self.pattern.count = end;
    }

    /// Copies a block that is laid once until it is there `low` times, and gives
    /// where the forks begin: at 0 times where the block itself does.
    fn copy(&mut self, start: usize, body: usize, low: usize) -> usize {
        for index in 1..low {
            self.pattern
                .places
                .copy_within(start..start + body, start + index * body);
        }
        start + low * body
    }
}
