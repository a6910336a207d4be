//! The writers of the record file, the proved one and plain C's, beside the reference's.

use crate::files::{self, FILL};
use crate::lent;
use crate::met::Counts;
use reference::calendar::LAST_DAY;
use reference::moves::{first_days, second_days, MOST_MOVES, MOVE_NUMBERS};
use reference::record::{Contents, MOST_EVENTS, MV_LENGTH};
use reference::table::{EVENT, HIGHEST, MISSING, MOST_DAYS, OUTAGE, QUARTERS};
use reference::writer::{Reason, Values, EVENT_NUMBERS};
use reference::{gen_writing, write};

/// Declares C writers, and makes of each a function that gives back the length, or minus the refusal number.
macro_rules! writers {
    ($($safe:ident = $name:ident;)*) => {
        extern "C" {
            $(fn $name(
                p: u32,
                portfolio: u32,
                first: u32,
                marks: *const u8,
                days: usize,
                readings: *const u32,
                count: usize,
                moves: *const u32,
                moves_len: usize,
                events: *const u32,
                events_len: usize,
                out: *mut u8,
                room: usize,
            ) -> i64;)*
        }
        $(pub fn $safe(values: &Values, out: &mut [u8]) -> i64 {
            let Values { p, portfolio, table, moves, events } = values;
            let (marks, readings) = (&table.marks, &table.readings);
            // SAFETY: every pointer is lent with its own length, and no two overlap.
            unsafe {
                $name(
                    *p,
                    *portfolio,
                    table.first,
                    marks.as_ptr(),
                    marks.len(),
                    readings.as_ptr(),
                    readings.len(),
                    lent(moves),
                    moves.len(),
                    events.as_ptr(),
                    events.len(),
                    out.as_mut_ptr(),
                    out.len(),
                )
            }
        })*
    };
}

writers! {
    proved = hp_write;
    plain = plain_write;
}

/// No file is longer (include/honeyplank.h, HP_MOST_FILE).
const MOST_FILE: usize = 50_536;

/// So many bytes stand before and after what is lent.
const AROUND: usize = 64;

/// What a call gives back, and the whole buffer of which it was lent a part.
#[derive(PartialEq)]
struct Lent {
    given: i64,
    buffer: Vec<u8>,
    before: usize,
}

impl Lent {
    /// By the turn the part stands at other addresses.
    fn by(call: impl FnOnce(&mut [u8]) -> i64, room: usize, turn: usize) -> Lent {
        let before = AROUND + turn % 8;
        let mut buffer = vec![FILL; before + room + AROUND];
        let given = call(&mut buffer[before..before + room]);
        Lent { given, buffer, before }
    }

    /// The file, where one was written.
    fn file(&self) -> Option<&[u8]> {
        let length = usize::try_from(self.given).ok()?;
        Some(&self.buffer[self.before..self.before + length])
    }

    /// Names only the first byte that differs, for there are many.
    fn check(&self, what: &str, found: &Lent) -> Result<(), String> {
        if self == found {
            return Ok(());
        }
        let differs = |&at: &usize| self.buffer[at] != found.buffer[at];
        let byte = (0..self.buffer.len()).find(differs).map_or("every byte the same".to_string(), |at| {
            let place = at as i64 - self.before as i64;
            format!("byte {place} expected {}, found {}", self.buffer[at], found.buffer[at])
        });
        Err(format!("{what}: expected {}, found {}; {byte}", self.given, found.given))
    }
}

/// Compares one generated writing, and now and then what is read of the file.
pub fn compare(seed: u64, met: &mut Met) -> Result<(), String> {
    let (values, room) = gen_writing(seed);
    compare_writing(&values, room, seed, met).map_err(|difference| format!("writing of seed {seed}: {difference}"))
}

fn compare_writing(values: &Values, room: usize, seed: u64, met: &mut Met) -> Result<(), String> {
    let turn = seed as usize;
    let due = Lent::by(|out| write(values, out), room, turn);
    due.check("hp_write", &Lent::by(|out| proved(values, out), room, turn))?;
    due.check("plain_write", &Lent::by(|out| plain(values, out), room, turn))?;
    count(&Case { values, room, given: due.given }, met);
    match due.file() {
        Some(file) if seed % 8 == 0 => files::compare(file, seed, &mut files::Met::default()),
        _ => Ok(()),
    }
}

/// Writes what was read of a file again, byte for byte.
pub fn compare_again(file: &[u8], contents: &Contents, what: &str, write: fn(&Values, &mut [u8]) -> i64) -> Result<(), String> {
    let values = Values::of(contents);
    let copy = |out: &mut [u8]| {
        out.copy_from_slice(file);
        file.len() as i64
    };
    let due = Lent::by(copy, file.len(), file.len());
    due.check(what, &Lent::by(|out| write(&values, out), file.len(), file.len()))
}

/// A call, and how it ends by the reference.
struct Case<'a> {
    values: &'a Values,
    room: usize,
    given: i64,
}

impl Case<'_> {
    fn days(&self) -> usize {
        self.values.table.marks.len()
    }

    fn events(&self) -> usize {
        self.values.events.len() / EVENT_NUMBERS
    }

    fn moves(&self) -> usize {
        self.values.moves.len() / MOVE_NUMBERS
    }

    fn first_day(&self, day: u32) -> bool {
        first_days(&self.values.moves).any(|other| other == day)
    }

    fn second_day(&self, day: u32) -> bool {
        second_days(&self.values.moves).any(|other| other == day)
    }

    /// The last day held, which need not be one of 32 bits.
    fn last_day(&self) -> Option<u64> {
        (u64::from(self.values.table.first) + self.days() as u64).checked_sub(1)
    }

    /// A number at one of the places of an event.
    fn has(&self, place: usize, number: u32) -> bool {
        self.values.events.iter().skip(place).step_by(EVENT_NUMBERS).any(|&other| other == number)
    }

    fn written(&self) -> bool {
        self.given >= 0
    }

    /// Refused 13 for this alone.
    fn for_alone(&self, reason: Reason) -> bool {
        self.given == -13 && self.values.reasons() == [reason]
    }

    /// Refused 1 with so many readings more than 96 a day.
    fn misshapen_by(&self, more: i64) -> bool {
        let fitting = (QUARTERS * self.days()) as i64;
        self.given == -1 && self.values.table.readings.len() as i64 == fitting + more
    }

    /// Whether there is reason for refusal 1, for 13 and for 7.
    fn reasons(&self) -> [bool; 3] {
        [self.values.misshapen(), !self.values.reasons().is_empty(), self.room < self.values.length()]
    }
}

type Outcome = (&'static str, fn(&Case) -> bool);

/// What has to come up: each side of each edge, each reason alone, and refusals that go before others.
const OUTCOMES: [Outcome; 57] = [
    ("written with just enough room", |c| c.written() && c.room == c.values.length()),
    ("with more", |c| c.written() && c.room > c.values.length()),
    ("with no days", |c| c.written() && c.days() == 0),
    ("with no events", |c| c.written() && c.events() == 0),
    ("with 128 days", |c| c.written() && c.days() == MOST_DAYS),
    ("with 64 events", |c| c.written() && c.events() == MOST_EVENTS),
    ("with both", |c| c.written() && c.days() == MOST_DAYS && c.events() == MOST_EVENTS),
    ("with a move", |c| c.written() && c.moves() == 1),
    ("with 16 moves", |c| c.written() && c.moves() == MOST_MOVES),
    ("with all three", |c| c.written() && c.room >= MOST_FILE && c.values.length() == MOST_FILE),
    ("with moves and no days", |c| c.written() && c.moves() > 0 && c.days() == 0),
    ("with first day 65,535", |c| c.written() && c.first_day(65_535)),
    ("with second day 65,535", |c| c.written() && c.second_day(65_535)),
    ("with P 65,535", |c| c.written() && c.values.p == 65_535),
    ("with day 36,525", |c| c.written() && c.last_day() == Some(u64::from(LAST_DAY) + 1)),
    ("with day 65,535", |c| c.written() && c.last_day() == Some(65_535)),
    ("with D 65,535", |c| c.written() && c.has(0, 65_535)),
    ("with s 255", |c| c.written() && c.has(1, 255)),
    ("with e 255", |c| c.written() && c.has(2, 255)),
    ("with n 255", |c| c.written() && c.has(3, 255)),
    ("with method 1", |c| c.written() && c.has(4, 1)),
    ("with method 255", |c| c.written() && c.has(4, 255)),
    ("with a bad mark", |c| c.written() && c.values.table.marks.iter().any(|mark| mark & !(EVENT | OUTAGE) != 0)),
    ("with a reading of 10,000,001", |c| c.written() && c.values.table.readings.contains(&(HIGHEST + 1))),
    ("with one below the missing mark", |c| c.written() && c.values.table.readings.contains(&(MISSING - 1))),
    ("1 for 129 days", |c| c.days() == MOST_DAYS + 1 && c.misshapen_by(0)),
    ("1 for a reading too few", |c| c.misshapen_by(-1)),
    ("1 for a reading too many", |c| c.misshapen_by(1)),
    ("1 for readings and no days", |c| c.days() == 0 && c.given == -1),
    ("13 for 65 events", |c| c.for_alone(Reason::Events) && c.events() == MOST_EVENTS + 1),
    ("13 for an event cut", |c| c.for_alone(Reason::Fives)),
    ("13 for 17 moves", |c| c.for_alone(Reason::Moves) && c.moves() == MOST_MOVES + 1),
    ("13 for a move cut", |c| c.for_alone(Reason::Twos)),
    ("13 for first day 65,536", |c| c.for_alone(Reason::First) && c.first_day(65_536)),
    ("13 for a higher first day", |c| c.for_alone(Reason::First) && c.first_day(u32::MAX)),
    ("13 for second day 65,536", |c| c.for_alone(Reason::Second) && c.second_day(65_536)),
    ("13 for a higher second day", |c| c.for_alone(Reason::Second) && c.second_day(u32::MAX)),
    ("13 for P 65,536", |c| c.for_alone(Reason::P) && c.values.p == 65_536),
    ("13 for a higher P", |c| c.for_alone(Reason::P) && c.values.p > 65_536),
    ("13 for day 65,536", |c| c.for_alone(Reason::Held) && c.last_day() == Some(65_536)),
    ("13 for a day past 32 bits", |c| c.for_alone(Reason::Held) && c.last_day() > Some(u64::from(u32::MAX))),
    ("13 for D 65,536", |c| c.for_alone(Reason::D) && c.has(0, 65_536)),
    ("13 for s 256", |c| c.for_alone(Reason::S) && c.has(1, 256)),
    ("13 for e 256", |c| c.for_alone(Reason::E) && c.has(2, 256)),
    ("13 for n 256", |c| c.for_alone(Reason::N) && c.has(3, 256)),
    ("13 for method 256", |c| c.for_alone(Reason::Method) && c.has(4, 256)),
    ("13 for a higher method", |c| c.for_alone(Reason::Method) && c.has(4, u32::MAX)),
    ("13 for no days and F 1", |c| c.for_alone(Reason::NoDays) && c.values.table.first == 1),
    ("13 for no days and another F", |c| c.for_alone(Reason::NoDays) && c.values.table.first > 1),
    ("7 for one byte", |c| c.given == -7 && c.room + 1 == c.values.length()),
    ("7 for one byte with moves", |c| c.given == -7 && c.moves() > 0 && c.room + 1 == c.values.length()),
    ("7 for the moves alone", |c| c.given == -7 && c.room == c.values.length() - MV_LENGTH * c.moves()),
    ("7 for no room", |c| c.given == -7 && c.room == 0),
    ("1 before 13", |c| c.reasons() == [true, true, false]),
    ("1 before 7", |c| c.reasons() == [true, false, true]),
    ("1 before both", |c| c.reasons() == [true, true, true]),
    ("13 before 7", |c| c.reasons() == [false, true, true]),
];

/// How often each outcome was met.
pub type Met = Counts;

fn count(case: &Case, met: &mut Met) {
    met.count(OUTCOMES.iter().map(|(name, is)| (*name, is(case))));
}
