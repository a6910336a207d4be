//! What is told of a result, of a file, of an event and of a move, one number a name (include/honeyplank.h).

use crate::PlainAnswer;
use reference::moves::MOVE_NUMBERS;
use reference::record::Contents;
use reference::{Answer, Refusal};

/// What is told by a name that tells nothing.
pub const NOTHING: i64 = i64::MIN;

/// How many names these tell, from 0 on; what comes after them is told of workings, overlaps and the calendar (working.rs).
pub const NAMES: usize = 25;

/// The first names of each kind; those of a kind follow one another. tests/c/header.cpp holds the header to the same numbers.
const RESULT: usize = 0;
const CARRIED: usize = 1;
const COUNT: usize = 3;
pub const DAYS: usize = 4;
const REACH: usize = 9;
const FILE: usize = 12;
const EVENT: usize = 17;
const FILE_MOVES: usize = 21;
pub const MOVE: usize = 22;
pub const EVENT_METHOD: usize = 24;

/// The numbers by name.
#[derive(Clone, Copy, PartialEq, Eq, Debug)]
pub struct Told([i64; NAMES]);

impl Told {
    pub fn refused(number: u32, carries: &[u64]) -> Told {
        let mut told = Told([NOTHING; NAMES]);
        told.0[RESULT] = i64::from(number);
        told.put(CARRIED, carries.iter().map(|&carried| carried as i64));
        told
    }

    pub fn answered(days: &[u32], reach: u32, denominator: u32, adjustment: i64) -> Told {
        let mut told = Told::refused(0, &[]);
        told.put(COUNT, [days.len() as i64]);
        told.put(DAYS, days.iter().map(|&day| i64::from(day)));
        told.put(REACH, [i64::from(reach), i64::from(denominator), adjustment]);
        told
    }

    /// Of the reference's result.
    pub fn of(result: &Result<Answer, Refusal>) -> Told {
        match result {
            Ok(answer) => Told::answered(&answer.days, answer.reach, answer.denominator, answer.adjustment),
            Err(refusal) => Told::refused(refusal.number(), &refusal.carries()),
        }
    }

    /// Of the plain C version's.
    pub fn of_plain(number: u32, answer: &PlainAnswer) -> Told {
        let PlainAnswer { days, count, reach, denominator, adjustment, carried, carries } = answer;
        match number {
            0 => Told::answered(&days[..*count as usize], *reach, *denominator, *adjustment),
            _ => Told::refused(number, &carried[..*carries as usize]),
        }
    }

    /// Of a file.
    pub fn of_file(read: &Result<Contents, Refusal>) -> Told {
        let mut told = Told::of_refusal(read.as_ref().err());
        if let Ok(Contents { p, portfolio, moves, table, events }) = read {
            let (days, events) = (table.marks.len() as i64, events.len() as i64);
            told.put(FILE, [i64::from(*p), i64::from(*portfolio), i64::from(table.first), days, events]);
            told.put(FILE_MOVES, [(moves.len() / MOVE_NUMBERS) as i64]);
        }
        told
    }

    /// Of the event at a place of a file.
    pub fn of_event(read: &Result<Contents, Refusal>, place: usize) -> Told {
        let event = read.as_ref().map_err(|&refusal| refusal).and_then(|c| c.events.get(place).ok_or(Refusal::NoEvent));
        let mut told = Told::of_refusal(event.as_ref().err());
        if let Ok(r) = event {
            told.put(EVENT, [r.d, r.s, r.e, r.n].map(i64::from));
            told.put(EVENT_METHOD, [i64::from(r.method)]);
        }
        told
    }

    /// Of the move at a place of a file: nothing past the last one, and no refusal either.
    pub fn of_move(read: &Result<Contents, Refusal>, place: usize) -> Told {
        let mut told = Told::of_refusal(read.as_ref().err());
        let pair = read.as_ref().ok().and_then(|c| c.moves.chunks(MOVE_NUMBERS).nth(place));
        told.put(MOVE, pair.into_iter().flatten().map(|&day| i64::from(day)));
        told
    }

    fn of_refusal(refusal: Option<&Refusal>) -> Told {
        refusal.map_or(Told::refused(0, &[]), |r| Told::refused(r.number(), &r.carries()))
    }

    fn put(&mut self, from: usize, numbers: impl IntoIterator<Item = i64>) {
        for (cell, number) in self.0[from..].iter_mut().zip(numbers) {
            *cell = number;
        }
    }

    /// The number of a name; nothing where there is no such name.
    pub fn by(&self, name: u32) -> i64 {
        self.0.get(name as usize).copied().unwrap_or(NOTHING)
    }

    /// Asks by each of these names, and says which one tells something else.
    pub fn check(&self, what: &str, names: &[u32], ask: impl Fn(u32) -> i64) -> Result<(), String> {
        for &name in names {
            let (expected, found) = (self.by(name), ask(name));
            if found != expected {
                return Err(format!("{what}, name {name}: expected {expected}, found {found}"));
            }
        }
        Ok(())
    }
}

/// Every name, and more that are none.
pub fn every_name() -> Vec<u32> {
    (0..=60).chain([256, 65_536, 1 << 31, u32::MAX]).collect()
}

/// The names that a seed asks for: one, because each costs a whole call, and now and then every name.
pub fn some_names(seed: u64) -> Vec<u32> {
    match seed % 256 {
        0 => every_name(),
        turn => vec![((seed / 256 + turn) % (NAMES as u64 + 1)) as u32],
    }
}
