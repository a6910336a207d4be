//! Generated record files, valid, at their edges, cut and damaged.

use super::calls::{small, well_shaped, Draft};
use super::methods::some_method;
use super::moves::list_of;
use super::source::Source;
use crate::calendar::LAST_DAY;
use crate::moves::MOST_MOVES;
use crate::record::{DY_LENGTH, MV_LENGTH, PF_LENGTH};
use crate::table::{Request, HIGHEST, MISSING};
use crate::writer::{
    day_record, day_records, event_record, head_record, method_record, move_record, move_records,
    Record,
};

/// The file of a seed.
pub fn gen_file(seed: u64) -> Vec<u8> {
    let mut source = Source::new(!seed);
    let source = &mut source;
    let draft = well_shaped(source);
    let file = draft_file(source, draft);
    edited(source, file)
}

/// The small file of a seed: at most a few weeks, so that many can be tried, and
/// participation that mostly starts within it, so that many are answered.
pub fn gen_small_file(seed: u64) -> Vec<u8> {
    let mut source = Source::new(seed ^ 0x5EED_0000_0000_0000);
    let source = &mut source;
    let draft = small(source);
    let file = draft_file(source, draft);
    edited(source, file)
}

/// The file of a draft as it is, with a few events more.
pub fn plain_file(source: &mut Source, draft: Draft) -> Vec<u8> {
    draft_file(source, draft).bytes()
}

/// The bytes of a file, most often after one kind of edit.
fn edited(source: &mut Source, mut file: Draw) -> Vec<u8> {
    let turn = source.below(18);
    match turn {
        _ if source.aside().once_in(12) => move_edits(source, &mut file),
        0..=3 => {}
        4 => head_edges(source, &mut file),
        5 => drop_kind(source, &mut file),
        6 if file.days.len() > 24 => day_count_edges(source, &mut file),
        7 => event_count_edges(source, &mut file),
        8 => misplace(source, &mut file),
        9 => alter_fixed_byte(source, &mut file),
        10 => day_number_edges(source, &mut file),
        11 => gap(source, &mut file),
        12 => value_edges(source, &mut file),
        13 => event_edges(source, &mut file),
        6 => {}
        14 => return cut(source, file.moves.len(), file.bytes()),
        15 => return scatter(source, file.bytes()),
        16 => return extend(source, file.bytes()),
        _ => return any_bytes(source),
    }
    file.bytes()
}

/// A small file cut at every length, from nothing to the whole of it.
pub fn gen_cuts() -> Vec<Vec<u8>> {
    let source = &mut Source::new(1);
    let draft = well_shaped(source);
    let mut file = draft_file(source, draft);
    file.moves = vec![move_record(8887, 8893), move_record(36_525, 65_535)];
    file.days = (0..2)
        .map(|day| day_record(6951 + day, 0, &[7; 96]))
        .collect();
    file.events.truncate(1);
    file.events.push(method_record(6952, 152, 156, 148, 1));
    let whole = file.bytes();
    (0..=whole.len())
        .map(|length| whole[..length].to_vec())
        .collect()
}

/// A file in the making.
struct Draw {
    head: Record,
    moves: Vec<Record>,
    days: Vec<Record>,
    events: Vec<Record>,
}

impl Draw {
    fn records(&self) -> Vec<Record> {
        let head = [self.head.clone()];
        [&head[..], &self.moves, &self.days, &self.events].concat()
    }

    /// These instead, in this order.
    fn replace(&mut self, records: Vec<Record>) {
        self.head = records.concat();
        self.moves.clear();
        self.days.clear();
        self.events.clear();
    }

    fn bytes(&self) -> Vec<u8> {
        self.records().concat()
    }
}

fn set_day(record: &mut Record, day: u16) {
    record[2..4].copy_from_slice(&day.to_le_bytes());
}

/// A well-shaped table and a few events on it, the likely one first.
fn draft_file(source: &mut Source, draft: Draft) -> Draw {
    let portfolio = source.word();
    let portfolio = source.pick(&[0, 77, u32::MAX, portfolio]);
    Draw {
        head: head_record(draft.request.p as u16, portfolio),
        moves: move_records(&held_in_two_bytes(&draft.moves)),
        days: day_records(&draft.table),
        events: draft_events(source, &draft),
    }
}

/// Higher days are the highest of two bytes.
fn held_in_two_bytes(moves: &[u32]) -> Vec<u32> {
    let highest = u32::from(u16::MAX);
    moves.iter().map(|&day| day.min(highest)).collect()
}

fn draft_events(source: &mut Source, draft: &Draft) -> Vec<Record> {
    let Request {
        d, s, e, n, method, ..
    } = draft.request;
    let [s, e, n, method] = [s, e, n, method].map(|number| number as u8);
    let mut events = vec![method_record(d as u16, s, e, n, method)];
    for _ in 0..source.below(4) {
        let method = some_method(&mut source.beside()) as u8;
        let d = d.saturating_sub(source.below(12)) as u16;
        let s = source.between(96, 191) as u8;
        let e = source.between(u32::from(s) + 1, 192) as u8;
        let n = source.below(u32::from(s) + 1) as u8;
        events.push(method_record(d, s, e, n, method));
    }
    events
}

/// P and the portfolio number at their ends.
fn head_edges(source: &mut Source, file: &mut Draw) {
    let last = LAST_DAY as u16;
    let p = source.pick(&[0, 1, last, last + 1, u16::MAX]);
    file.head = head_record(p, source.pick(&[0, 1, u32::MAX]));
}

/// What is done to the moves alone.
fn move_edits(source: &mut Source, file: &mut Draw) {
    match source.below(4) {
        0 => move_count_edges(source, file),
        1 | 2 => misplace_move(source, file),
        _ => move_number_edges(source, file),
    }
}

/// About 16 moves, such that the list is taken.
fn move_count_edges(source: &mut Source, file: &mut Draw) {
    let d = u16::from_le_bytes([file.events[0][2], file.events[0][3]]);
    let count = source.pick(&[MOST_MOVES - 1, MOST_MOVES, MOST_MOVES + 1, MOST_MOVES + 2]);
    file.moves = move_records(&list_of(source, u32::from(d), count));
}

/// A move before the PF, among the days, after them, or among the events, with
/// those that stand in their place or without.
fn misplace_move(source: &mut Source, file: &mut Draw) {
    let first = source.pick(&[8887, 0]);
    if source.once_in(2) {
        file.moves.clear();
    }
    let days = 1 + file.moves.len();
    let events = days + file.days.len();
    let mut records = file.records();
    let among_days = days + source.below(file.days.len() as u32) as usize;
    let among_events = events + source.below(file.events.len() as u32) as usize;
    let last = records.len();
    let place = source.pick(&[0, days, among_days, events, among_events, last]);
    records.insert(place, move_record(first, 8893));
    file.replace(records);
}

/// A day of a move at the ends of the calendar and of two bytes.
fn move_number_edges(source: &mut Source, file: &mut Draw) {
    if file.moves.is_empty() {
        file.moves.push(move_record(8887, 8893));
    }
    let place = source.below(file.moves.len() as u32) as usize;
    let last = LAST_DAY as u16;
    let day: u16 = source.pick(&[0, 1, last, last + 1, u16::MAX]);
    let at = source.pick(&[2, 4]);
    file.moves[place][at..at + 2].copy_from_slice(&day.to_le_bytes());
}

/// No DY, no EV, neither, or nothing at all.
fn drop_kind(source: &mut Source, file: &mut Draw) {
    let kind = source.below(4);
    if kind != 1 {
        file.days.clear();
    }
    if kind != 0 {
        file.events.clear();
    }
    if kind == 3 {
        file.head.clear();
        file.moves.clear();
    }
}

/// About 128 days, the numbers running on.
fn day_count_edges(source: &mut Source, file: &mut Draw) {
    let h = source.pick(&[127, 128, 129, 130]);
    let first = source.below(LAST_DAY - 130) as u16;
    let pattern = file.days.clone();
    file.days = (0..h)
        .map(|place| pattern[place % pattern.len()].clone())
        .collect();
    renumber(&mut file.days, first);
    let d = first + source.between(46, 127) as u16;
    file.events.push(event_record(d, 152, 156, 148));
}

/// Numbers the days from `first`, beyond 65,535 from 0 again.
fn renumber(days: &mut [Record], first: u16) {
    for (place, record) in days.iter_mut().enumerate() {
        set_day(record, first.wrapping_add(place as u16));
    }
}

/// About 64 events.
fn event_count_edges(source: &mut Source, file: &mut Draw) {
    let count = source.pick(&[63, 64, 65, 66]);
    let pattern = file.events.clone();
    file.events = (0..count)
        .map(|place| pattern[place % pattern.len()].clone())
        .collect();
}

/// A record in a place that is not its own, or twice, or not at all.
fn misplace(source: &mut Source, file: &mut Draw) {
    let mut records = file.records();
    let from = source.below(records.len() as u32) as usize;
    let last = records.len() - 1;
    let from = source.pick(&[from, 0, last]);
    let to = source.below(records.len() as u32) as usize;
    match source.below(3) {
        0 => records.insert(to, records[from].clone()),
        1 => records.swap(from, to),
        _ => drop(records.remove(from)),
    }
    file.replace(records);
}

/// One of the bytes that are laid down, a mark's or a day's zero, or the method,
/// which was one before order 3.
fn alter_fixed_byte(source: &mut Source, file: &mut Draw) {
    let byte = source.pick(&[0, 1, b'P', b'F', b'D', b'Y', b'E', b'V', 255]);
    let place = source.below(file.days.len() as u32) as usize;
    if let Some(record) = file.moves.last_mut() {
        if source.once_in(3) {
            record[source.below(2) as usize] = source.pick(&[byte, b'M', b'm']);
            return;
        }
    }
    match source.below(5) {
        0 => file.head[source.below(2) as usize] = byte,
        1 => file.days[place][source.below(2) as usize] = byte,
        2 => file.days[place][5] = byte,
        3 => file.events[0][source.below(2) as usize] = byte,
        _ => file.events[0][7] = byte,
    }
}

/// Day numbers about 36,524 and about 65,535, where they may not go on from 0.
fn day_number_edges(source: &mut Source, file: &mut Draw) {
    let h = file.days.len() as u16;
    let last = LAST_DAY as u16;
    let first = match source.below(4) {
        0 => last + 1 - h,
        1 => last + 2 - h,
        2 => 0u16.wrapping_sub(h),
        _ => 1u16.wrapping_sub(h),
    };
    renumber(&mut file.days, first);
    let d = first.wrapping_add(h - 1);
    file.events.push(event_record(d, 152, 156, 148));
}

/// One day number that does not follow.
fn gap(source: &mut Source, file: &mut Draw) {
    let place = source.below(file.days.len() as u32) as usize;
    let any = source.word() as u16;
    let day = u16::from_le_bytes([file.days[place][2], file.days[place][3]]);
    let day = source.pick(&[day.wrapping_add(1), day.wrapping_sub(1), any]);
    set_day(&mut file.days[place], day);
}

/// A mark byte or a reading at its ends, and beyond them.
fn value_edges(source: &mut Source, file: &mut Draw) {
    let place = source.below(file.days.len() as u32) as usize;
    if source.once_in(2) {
        file.days[place][4] = source.pick(&[0, 1, 2, 3, 4, 8, 128, 255]);
    }
    if source.once_in(2) {
        let reading: u32 = source.pick(&[HIGHEST, HIGHEST + 1, MISSING - 1, MISSING]);
        let at = 6 + 4 * source.below(96) as usize;
        file.days[place][at..at + 4].copy_from_slice(&reading.to_le_bytes());
    }
}

/// An event's fields at their ends, and beyond them.
fn event_edges(source: &mut Source, file: &mut Draw) {
    let likely = file.events[0].clone();
    for _ in 0..source.between(1, 8) {
        let mut event = likely.clone();
        let byte = source.pick(&[0, 1, 2, 11, 12, 13, 95, 96, 97, 191, 192, 193, 255]);
        event[source.between(2, 7) as usize] = byte;
        file.events.push(event);
    }
}

/// A file cut short, often at or next to a record's start.
fn cut(source: &mut Source, moves: usize, mut bytes: Vec<u8>) -> Vec<u8> {
    let anywhere = source.below(bytes.len() as u32 + 1) as usize;
    let first_day = PF_LENGTH + MV_LENGTH * moves;
    let record = first_day + DY_LENGTH * source.below(3) as usize + source.below(3) as usize;
    let small = source.below(9 + (MV_LENGTH * moves) as u32) as usize;
    let near_end = bytes.len().saturating_sub(source.below(20) as usize);
    bytes.truncate(source.pick(&[anywhere, record - 1, small, near_end]));
    bytes
}

/// A few bytes overwritten.
fn scatter(source: &mut Source, mut bytes: Vec<u8>) -> Vec<u8> {
    let length = bytes.len() as u32;
    for _ in 0..source.between(1, 4) {
        let anywhere = source.below(length);
        let early = source.below(length.min(16));
        let late = length - 1 - source.below(length.min(24));
        let place = source.pick(&[anywhere, early, late]) as usize;
        bytes[place] = source.word() as u8;
    }
    bytes
}

/// Something after the end.
fn extend(source: &mut Source, mut bytes: Vec<u8>) -> Vec<u8> {
    let tail = source.pick(&[
        &b"E"[..],
        b"EV",
        b"EV\x38\x1b\x98\x9c\x94",
        b"EV\x38\x1b\x98\x9c\x94\x00",
        b"EV\x38\x1b\x98\x9c\x94\x01",
        b"EV\x38\x1b\x98\x9c\x94\x02",
        b"PF\x00\x00\x00\x00\x00\x00",
        b"DY",
        b"MV",
        b"MV\xb7\x22\xbd\x22",
        b"\n",
        b"\x00",
    ]);
    bytes.extend(tail);
    bytes
}

/// Bytes that are no records, but for a mark here and there.
fn any_bytes(source: &mut Source) -> Vec<u8> {
    let length = source.pick(&[0, 1, 2, 7, 8, 9, 16, 398, 406, 1000]);
    let mut bytes: Vec<u8> = (0..length).map(|_| source.word() as u8).collect();
    for (at, mark) in [
        (0, b"PF"),
        (8, b"DY"),
        (8, b"EV"),
        (8, b"MV"),
        (14, b"DY"),
        (398, b"EV"),
    ] {
        if at + 2 <= bytes.len() && source.once_in(2) {
            bytes[at..at + 2].copy_from_slice(mark);
        }
    }
    bytes
}
