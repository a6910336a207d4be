//! Generated calls of the writer: the values, and the room of the output.

use super::source::Source;
use crate::calendar::LAST_DAY;
use crate::moves::{MOST_MOVES, MOVE_NUMBERS};
use crate::record::{DY_LENGTH, EV_LENGTH, MOST_EVENTS, MV_LENGTH, PF_LENGTH};
use crate::table::{Table, HIGHEST, MISSING, MOST_DAYS, QUARTERS};
use crate::writer::{Values, EVENT_NUMBERS};

/// The highest number of two bytes, and of one.
const TWO_BYTES: u32 = u16::MAX as u32;
const ONE_BYTE: u32 = u8::MAX as u32;

/// No file is longer.
const MOST_FILE: usize =
    PF_LENGTH + MV_LENGTH * MOST_MOVES + DY_LENGTH * MOST_DAYS + EV_LENGTH * MOST_EVENTS;

/// The writing of a seed: values that a file can say, most often after some of
/// them were moved to an edge or past it.
pub fn gen_writing(seed: u64) -> (Values, usize) {
    let source = &mut Source::new(seed ^ 0xF11E_0000_0000_0000);
    let mut values = writable(source);
    for _ in 0..source.pick(&[0, 0, 0, 1, 1, 1, 2, 4]) {
        to_edge(source, &mut values);
    }
    let room = some_room(source, values.length());
    (values, room)
}

fn writable(source: &mut Source) -> Values {
    let h = some_size(source, MOST_DAYS);
    let events = some_size(source, MOST_EVENTS);
    let moves = source.aside().pick(&[0, 0, 0, 0, 1, 1, 2, MOST_MOVES]);
    let (h, events, moves) = match source.below(64) {
        0 => (
            MOST_DAYS,
            MOST_EVENTS,
            source.aside().pick(&[moves, MOST_MOVES]),
        ),
        _ => (h, events, moves),
    };
    Values {
        p: source.between(0, TWO_BYTES),
        portfolio: source.word(),
        table: some_table(source, h),
        moves: some_moves(&mut source.aside(), moves),
        events: some_events(source, events),
    }
}

/// Mostly few, so that many can be tried.
fn some_size(source: &mut Source, most: usize) -> usize {
    match source.below(16) {
        0 => source.between(0, most as u32) as usize,
        1..=3 => source.between(0, 20) as usize,
        _ => source.pick(&[0, 1, 1, 2, 3]),
    }
}

/// Days that two bytes hold, in the calendar and past it, with any marks.
fn some_table(source: &mut Source, h: usize) -> Table {
    let first = source.between(0, TWO_BYTES - h as u32);
    Table {
        first: if h == 0 { 0 } else { first },
        marks: (0..h).map(|_| source.word() as u8).collect(),
        readings: some_readings(source, h),
    }
}

/// Any bits, the ends of what means something, or readings that do.
fn some_readings(source: &mut Source, h: usize) -> Vec<u32> {
    let manner = source.below(3);
    let edges = [0, HIGHEST, HIGHEST + 1, MISSING - 1, MISSING];
    let reading = |_| match manner {
        0 => source.word(),
        1 => source.pick(&edges),
        _ => source.between(0, HIGHEST),
    };
    (0..QUARTERS * h).map(reading).collect()
}

/// Any two days that two bytes hold.
fn some_moves(source: &mut Source, count: usize) -> Vec<u32> {
    (0..MOVE_NUMBERS * count)
        .map(|_| source.between(0, TWO_BYTES))
        .collect()
}

fn some_events(source: &mut Source, count: usize) -> Vec<u32> {
    (0..EVENT_NUMBERS * count)
        .map(|place| source.between(0, highest_at(place)))
        .collect()
}

/// D has two bytes; s, e, n and the method have one each.
fn highest_at(place: usize) -> u32 {
    if place % EVENT_NUMBERS == 0 {
        TWO_BYTES
    } else {
        ONE_BYTE
    }
}

/// One of the values at an edge, on either side of it.
fn to_edge(source: &mut Source, values: &mut Values) {
    match source.below(16) {
        0 => values.p = about(source, TWO_BYTES),
        1 | 2 => day_edges(source, &mut values.table),
        3..=6 => event_edges(source, &mut values.events),
        7 => {
            let count = source.pick(&[MOST_EVENTS - 1, MOST_EVENTS, MOST_EVENTS + 1]);
            values.events = some_events(source, count);
        }
        8 => not_five(source, &mut values.events),
        9 => {
            let h = source.pick(&[MOST_DAYS - 1, MOST_DAYS, MOST_DAYS + 1, MOST_DAYS + 2]);
            values.table = some_table(source, h);
        }
        10 => reading_count_edges(source, &mut values.table),
        11 => {
            let count = source.pick(&[MOST_MOVES - 1, MOST_MOVES, MOST_MOVES + 1, MOST_MOVES + 1]);
            values.moves = some_moves(source, count);
        }
        12..=14 => move_edges(source, &mut values.moves),
        _ => no_days(source, &mut values.table),
    }
}

/// About the highest number that so many bytes hold; above it often one that is
/// low again when cut to them.
fn about(source: &mut Source, highest: u32) -> u32 {
    let cut = (highest + 1) * source.between(1, TWO_BYTES);
    let any = source.word();
    source.pick(&[0, highest - 1, highest, highest + 1, cut, any, u32::MAX])
}

/// The last day at the ends of the calendar and of two bytes, or past 32 bits,
/// where it must not count from 0 again.
fn day_edges(source: &mut Source, table: &mut Table) {
    let h = table.marks.len() as u32;
    let wrapped = source.below(h + 1);
    let any = source.word();
    let last = source.pick(&[
        LAST_DAY,
        LAST_DAY + 1,
        TWO_BYTES,
        TWO_BYTES + 1,
        u32::MAX,
        wrapped,
        any,
    ]);
    table.first = last.wrapping_sub(h.saturating_sub(1));
}

/// One field of an event.
fn event_edges(source: &mut Source, events: &mut [u32]) {
    if !events.is_empty() {
        let place = source.below(events.len() as u32) as usize;
        events[place] = about(source, highest_at(place));
    }
}

/// One day of a move, or now and then a number after the last.
fn move_edges(source: &mut Source, moves: &mut Vec<u32>) {
    if moves.is_empty() {
        *moves = some_moves(source, 1);
    }
    let any = source.below(moves.len() as u32) as usize;
    let place = source.pick(&[0, any, moves.len() - 1]);
    match source.below(6) {
        0 => moves.push(source.pick(&[1, LAST_DAY, TWO_BYTES])),
        _ => moves[place] = about(source, TWO_BYTES),
    }
}

/// Up to four numbers after the last event.
fn not_five(source: &mut Source, events: &mut Vec<u32>) {
    let more = source.between(1, EVENT_NUMBERS as u32 - 1) as usize;
    events.extend(&some_events(source, 1)[..more]);
}

/// Readings in numbers about 96 a day.
fn reading_count_edges(source: &mut Source, table: &mut Table) {
    let h = table.marks.len();
    let fitting = QUARTERS * h;
    let count = source.pick(&[
        0,
        fitting.saturating_sub(QUARTERS),
        (QUARTERS - 1) * h,
        fitting.saturating_sub(1),
        fitting,
        fitting + 1,
        (QUARTERS + 1) * h,
        fitting + QUARTERS,
    ]);
    table.readings.resize(count, MISSING);
}

/// No days, with F at 0 or not.
fn no_days(source: &mut Source, table: &mut Table) {
    let first = source.pick(&[0, 0, 1, TWO_BYTES, TWO_BYTES + 1, u32::MAX, table.first]);
    *table = Table {
        first,
        ..Table::default()
    };
}

/// Just enough, one byte less or more, a record less, any less, none, some more,
/// or enough for any file.
fn some_room(source: &mut Source, need: usize) -> usize {
    let any = source.below(need as u32) as usize;
    let record = source.pick(&[PF_LENGTH, MV_LENGTH, DY_LENGTH]);
    match source.below(16) {
        0 | 1 => need - 1,
        2 => need.saturating_sub(record),
        3 => any,
        4 => 0,
        5 => need + 1,
        6 => need + source.between(2, 500) as usize,
        7 => MOST_FILE,
        _ => need,
    }
}
