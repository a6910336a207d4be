//! The writer of the record file (02, order 1, order 2 for the moves, and order 3
//! for the method), and the records that it writes (01, "Record file, listing,
//! host entry").

use crate::moves::{first_days, second_days, MOST_MOVES, MOVE_NUMBERS};
use crate::record::{Contents, DY_LENGTH, EV_LENGTH, MOST_EVENTS, MV_LENGTH, PF_LENGTH};
use crate::refusal::Refusal;
use crate::table::{Table, MOST_DAYS, QUARTERS};

/// One record: its bytes, mark included.
pub type Record = Vec<u8>;

pub fn head_record(p: u16, portfolio: u32) -> Record {
    [&b"PF"[..], &p.to_le_bytes(), &portfolio.to_le_bytes()].concat()
}

/// 02, order 2: "6 bytes: mark, two days".
pub fn move_record(first: u16, second: u16) -> Record {
    [&b"MV"[..], &first.to_le_bytes(), &second.to_le_bytes()].concat()
}

pub fn day_record(day: u16, mark: u8, readings: &[u32]) -> Record {
    let mut record = [&b"DY"[..], &day.to_le_bytes(), &[mark, 0]].concat();
    record.extend(readings.iter().flat_map(|reading| reading.to_le_bytes()));
    record
}

/// An event by High X of Y, whose method is the zero that 01 has there.
pub fn event_record(d: u16, s: u8, e: u8, n: u8) -> Record {
    method_record(d, s, e, n, 0)
}

/// An event by any method.
pub fn method_record(d: u16, s: u8, e: u8, n: u8, method: u8) -> Record {
    [&b"EV"[..], &d.to_le_bytes(), &[s, e, n, method]].concat()
}

/// The days of a table.
pub fn day_records(table: &Table) -> Vec<Record> {
    let days = table.readings.chunks(QUARTERS).zip(&table.marks);
    days.zip(table.first..)
        .map(|((readings, &mark), day)| day_record(day as u16, mark, readings))
        .collect()
}

/// The moves of a list.
pub fn move_records(moves: &[u32]) -> Vec<Record> {
    let pairs = moves.chunks_exact(MOVE_NUMBERS);
    pairs
        .map(|pair| move_record(pair[0] as u16, pair[1] as u16))
        .collect()
}

/// The numbers of an event: D, s, e, n and the method.
pub const EVENT_NUMBERS: usize = 5;

/// "From P, a portfolio number, an extract and up to 64 events", and the list of
/// order 2.
#[derive(Clone, PartialEq, Eq, Debug)]
pub struct Values {
    /// Participation start P.
    pub p: u32,
    pub portfolio: u32,
    pub table: Table,
    /// The two days of each move, as the C entry takes them.
    pub moves: Vec<u32>,
    /// D, s, e, n and the method of each event, as the C entry takes them.
    pub events: Vec<u32>,
}

/// Why no record file says it: the clauses of refusal 13.
#[derive(Clone, Copy, PartialEq, Eq, Debug)]
pub enum Reason {
    /// More than 64 events.
    Events,
    /// Not five numbers for each event (include/honeyplank.h).
    Fives,
    /// More than 16 pairs (02, order 2: "the writer gives 13 for it").
    Moves,
    /// Not two numbers for each move (include/honeyplank.h).
    Twos,
    /// A field or day that its bytes can't hold: P, a move's first and second
    /// day, a held day, D, s, e, n, the method.
    P,
    First,
    Second,
    Held,
    D,
    S,
    E,
    N,
    Method,
    /// No days with F other than 0.
    NoDays,
}

impl Reason {
    pub const ALL: [Reason; 14] = [
        Reason::Events,
        Reason::Fives,
        Reason::Moves,
        Reason::Twos,
        Reason::P,
        Reason::First,
        Reason::Second,
        Reason::Held,
        Reason::D,
        Reason::S,
        Reason::E,
        Reason::N,
        Reason::Method,
        Reason::NoDays,
    ];

    fn applies(self, values: &Values) -> bool {
        let Values {
            p,
            table,
            moves,
            events,
            ..
        } = values;
        let field = |place| events.iter().skip(place).step_by(EVENT_NUMBERS);
        let mut days = (u64::from(table.first)..).take(table.marks.len());
        match self {
            Reason::Events => events.len() > EVENT_NUMBERS * MOST_EVENTS,
            Reason::Fives => events.len() % EVENT_NUMBERS != 0,
            Reason::Moves => moves.len() > MOVE_NUMBERS * MOST_MOVES,
            Reason::Twos => moves.len() % MOVE_NUMBERS != 0,
            Reason::P => u16::try_from(*p).is_err(),
            Reason::First => first_days(moves).any(|day| u16::try_from(day).is_err()),
            Reason::Second => second_days(moves).any(|day| u16::try_from(day).is_err()),
            Reason::Held => days.any(|day| u16::try_from(day).is_err()),
            Reason::D => field(0).any(|&d| u16::try_from(d).is_err()),
            Reason::S => field(1).any(|&s| u8::try_from(s).is_err()),
            Reason::E => field(2).any(|&e| u8::try_from(e).is_err()),
            Reason::N => field(3).any(|&n| u8::try_from(n).is_err()),
            Reason::Method => field(4).any(|&method| u8::try_from(method).is_err()),
            Reason::NoDays => table.marks.is_empty() && table.first != 0,
        }
    }
}

impl Values {
    /// What a file holds.
    pub fn of(contents: &Contents) -> Values {
        let events = contents.events.iter();
        Values {
            p: contents.p,
            portfolio: contents.portfolio,
            table: contents.table.clone(),
            moves: contents.moves.clone(),
            events: events
                .flat_map(|r| [r.d, r.s, r.e, r.n, r.method])
                .collect(),
        }
    }

    /// Refusal 1: "h above 128 or readings not 96·h".
    pub fn misshapen(&self) -> bool {
        let Table {
            marks, readings, ..
        } = &self.table;
        marks.len() > MOST_DAYS || readings.len() != QUARTERS * marks.len()
    }

    /// Refusal 13: the clauses that apply.
    pub fn reasons(&self) -> Vec<Reason> {
        let applies = |reason: &Reason| reason.applies(self);
        Reason::ALL.into_iter().filter(applies).collect()
    }

    /// The length of the file.
    pub fn length(&self) -> usize {
        let (days, events) = (self.table.marks.len(), self.events.len() / EVENT_NUMBERS);
        let moves = self.moves.len() / MOVE_NUMBERS;
        PF_LENGTH + MV_LENGTH * moves + DY_LENGTH * days + EV_LENGTH * events
    }

    fn event_records(&self) -> Vec<Record> {
        let record = |event: &[u32]| {
            let [s, e, n, method] = [1, 2, 3, 4].map(|place| event[place] as u8);
            method_record(event[0] as u16, s, e, n, method)
        };
        self.events.chunks(EVENT_NUMBERS).map(record).collect()
    }

    fn file(&self) -> Vec<u8> {
        let head = vec![head_record(self.p as u16, self.portfolio)];
        let (moves, days) = (move_records(&self.moves), day_records(&self.table));
        [head, moves, days, self.event_records()].concat().concat()
    }
}

/// The file, or refusal 1, then 13, then 7.
pub fn written(values: &Values, room: usize) -> Result<Vec<u8>, Refusal> {
    if values.misshapen() {
        return Err(Refusal::Shape);
    }
    if !values.reasons().is_empty() {
        return Err(Refusal::Unwritable);
    }
    if room < values.length() {
        return Err(Refusal::Room);
    }
    Ok(values.file())
}

/// The writer: the file at the start of `out` and its length, or minus the
/// refusal number and nothing written.
pub fn write(values: &Values, out: &mut [u8]) -> i64 {
    match written(values, out.len()) {
        Ok(file) => {
            out[..file.len()].copy_from_slice(&file);
            file.len() as i64
        }
        Err(refusal) => -i64::from(refusal.number()),
    }
}
