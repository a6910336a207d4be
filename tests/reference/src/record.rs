//! The record file and the host entry (01, "Record file, listing, host entry";
//! 02, order 2, for the moves, and order 3 for the method).

use crate::baseline::{verdict, Answer};
use crate::moves::{MOST_MOVES, MOVE_NUMBERS};
use crate::refusal::Refusal;
use crate::table::{Request, Table, MOST_DAYS, QUARTERS};

pub const PF_LENGTH: usize = 8;
pub const MV_LENGTH: usize = 6;
pub const DY_LENGTH: usize = 390;
pub const EV_LENGTH: usize = 8;
/// The most EV records.
pub const MOST_EVENTS: usize = 64;

/// What a file that is as laid down holds.
#[derive(Clone, PartialEq, Eq, Debug)]
pub struct Contents {
    /// Participation start P.
    pub p: u32,
    pub portfolio: u32,
    /// Two days for each MV.
    pub moves: Vec<u32>,
    /// F counts as 0 when there is no DY.
    pub table: Table,
    /// The requests, P included, in file order.
    pub events: Vec<Request>,
}

impl Contents {
    /// The reading of a held day as the file has it, also where it is missing or out of
    /// range, or the day is after the calendar.
    pub fn reading(&self, day: u32, quarter: u32) -> Option<u32> {
        let place = self.table.view().place(day)?;
        let quarter = quarter as usize;
        (quarter < QUARTERS).then(|| self.table.readings[QUARTERS * place + quarter])
    }

    /// The mark of a held day as the file has it.
    pub fn mark(&self, day: u32) -> Option<u8> {
        self.table.view().mark(day)
    }
}

/// The record of this mark and length at this offset, if it is there whole.
fn record<'a>(file: &'a [u8], at: usize, mark: &[u8; 2], length: usize) -> Option<&'a [u8]> {
    let bytes = file.get(at..at + length)?;
    bytes.starts_with(mark).then_some(bytes)
}

/// A little-endian number.
fn number(bytes: &[u8]) -> u32 {
    bytes
        .iter()
        .rev()
        .fold(0, |number, &byte| number * 256 + u32::from(byte))
}

/// An MV that may follow the moves already read: any two days, but not one too
/// many.
fn next_move(file: &[u8], at: usize, moves: &[u32]) -> Option<[u32; MOVE_NUMBERS]> {
    let bytes = record(file, at, b"MV", MV_LENGTH)?;
    let days = [number(&bytes[2..4]), number(&bytes[4..6])];
    (moves.len() < MOVE_NUMBERS * MOST_MOVES).then_some(days)
}

/// A DY that may follow the days already read: one too many, a day that is not
/// the next, or another byte in place of the zero is none.
fn next_day<'a>(file: &'a [u8], at: usize, table: &Table) -> Option<&'a [u8]> {
    let bytes = record(file, at, b"DY", DY_LENGTH)?;
    let held = table.marks.len();
    let follows = held == 0 || number(&bytes[2..4]) == table.first + held as u32;
    (held < MOST_DAYS && follows && bytes[5] == 0).then_some(bytes)
}

fn add_day(table: &mut Table, bytes: &[u8]) {
    if table.marks.is_empty() {
        table.first = number(&bytes[2..4]);
    }
    table.marks.push(bytes[4]);
    table.readings.extend(bytes[6..].chunks(4).map(number));
    debug_assert_eq!(table.readings.len(), QUARTERS * table.marks.len());
}

/// An EV that may follow the events already read: "`EV`'s zero byte becomes the
/// request's method", whatever it is.
fn next_event(file: &[u8], at: usize, p: u32, events: &[Request]) -> Option<Request> {
    let bytes = record(file, at, b"EV", EV_LENGTH)?;
    let request = Request {
        p,
        d: number(&bytes[2..4]),
        s: u32::from(bytes[4]),
        e: u32::from(bytes[5]),
        n: u32::from(bytes[6]),
        method: u32::from(bytes[7]),
    };
    (events.len() < MOST_EVENTS).then_some(request)
}

/// One PF, then up to 16 MV (02, order 2: "between `PF` and `DY`"), then up to
/// 128 DY, then up to 64 EV, and nothing else; refusal 11 names the start of the
/// record where that ends.
pub fn read(file: &[u8]) -> Result<Contents, Refusal> {
    let head = record(file, 0, b"PF", PF_LENGTH).ok_or(Refusal::File { offset: 0 })?;
    let p = number(&head[2..4]);
    let (mut moves, mut table, mut events) = (vec![], Table::default(), vec![]);
    let mut at = PF_LENGTH;
    while let Some(days) = next_move(file, at, &moves) {
        moves.extend(days);
        at += MV_LENGTH;
    }
    while let Some(day) = next_day(file, at, &table) {
        add_day(&mut table, day);
        at += DY_LENGTH;
    }
    while let Some(event) = next_event(file, at, p, &events) {
        events.push(event);
        at += EV_LENGTH;
    }
    if at != file.len() {
        return Err(Refusal::File { offset: at as u64 });
    }
    Ok(Contents {
        p,
        portfolio: number(&head[4..8]),
        moves,
        table,
        events,
    })
}

/// The answer at an event's place: refusal 11, then 12, then the call's.
fn answer_at(file: &[u8], place: usize, bytes: usize) -> Result<Answer, Refusal> {
    let contents = read(file)?;
    let request = contents.events.get(place).ok_or(Refusal::NoEvent)?;
    verdict(contents.table.view(), &contents.moves, request, bytes / 4)
}

/// The host entry: 0 and the numerators little-endian at the start of `out`, or
/// the refusal number and nothing written.
pub fn host(file: &[u8], place: usize, out: &mut [u8]) -> u32 {
    match answer_at(file, place, out.len()) {
        Ok(answer) => {
            for (cell, numerator) in out.chunks_mut(4).zip(&answer.numerators) {
                cell.copy_from_slice(&numerator.to_le_bytes());
            }
            0
        }
        Err(refusal) => refusal.number(),
    }
}
