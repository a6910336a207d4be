//! Generated calls: a table, a list of moves, a request and the room of the output.

use super::methods::{short, short_from, some_method, unknown_method};
use super::moves::{both_ways, good_list, some_list};
use super::source::Source;
use crate::calendar::{fixed_holidays, holidays, LAST_DAY};
use crate::choice::{most, relevant_days, sizes};
use crate::table::{
    Request, Table, AVERAGE, EVENT, HIGH, HIGHEST, MISSING, MOST_DAYS, OUTAGE, QUARTERS,
};

/// A call, also one in the making.
#[derive(Clone, PartialEq, Eq, Debug)]
pub struct Draft {
    pub table: Table,
    pub moves: Vec<u32>,
    pub request: Request,
    pub room: usize,
}

/// The call of a seed.
pub fn gen_call(seed: u64) -> Draft {
    let source = &mut Source::new(seed);
    let turn = source.below(16);
    match turn {
        _ if source.aside().once_in(12) => moved(source),
        _ if source.beside().once_in(3) => short(source),
        0..=2 => plain(source),
        4 => feast(source),
        5 => start_edges(source),
        6..=8 => ruler_edges(source),
        9 | 10 => count_edges(source),
        11 => reading_edges(source),
        12 => shape_edges(source),
        3 | 13 => request_edges(source),
        14 => calendar_edges(source),
        _ => damaged(source),
    }
}

/// A draft whose table has the right shape and whose request fits a record.
pub fn well_shaped(source: &mut Source) -> Draft {
    match source.below(8) {
        _ if source.aside().once_in(12) => moved(source),
        _ if source.beside().once_in(4) => short(source),
        0 => plain(source),
        1 => feast(source),
        2 => start_edges(source),
        3 => ruler_edges(source),
        4 => reading_edges(source),
        5 => calendar_edges(source),
        _ => count_edges(source),
    }
}

/// A draft of at most three weeks; participation mostly starts within it.
pub fn small(source: &mut Source) -> Draft {
    if source.beside().once_in(4) {
        let back = source.pick(&[3, 5, 6, 6, 6, 7, 7, 7, 8, 9, 13, 14, 16, 20, 21, 21]);
        return short_from(source, back);
    }
    let before = source.pick(&[0, 1, 2, 7, 8, 9, 10, 14, 15, 16, 20, 21, 21, 21]);
    let after = source.pick(&[0, 0, 0, 1]);
    let holiday = source.pick(holidays());
    let d = match source.below(3) {
        0 => source.between(before, LAST_DAY - after),
        1 => some_resting_day(source),
        _ => (holiday + source.below(16)).saturating_sub(source.below(3)),
    };
    let d = d.min(LAST_DAY - after);
    let mut draft = around(source, d, before, after);
    draft.request.p = match source.below(12) {
        0 => 0,
        1 => (d + 1).min(LAST_DAY),
        2 | 3 => d.saturating_sub(source.below(before + 2)),
        _ => d.saturating_sub(before),
    };
    if source.once_in(2) {
        calm_all(&mut draft);
    }
    match source.below(10) {
        0 | 1 => blank_all_but_runs(source, &mut draft),
        2 => blank_some(source, &mut draft),
        3 => extreme_readings(source, &mut draft),
        _ => {}
    }
    draft
}

// Whole drafts.

/// Months of data around an event, as they come.
fn plain(source: &mut Source) -> Draft {
    let before = source.pick(&[20, 35, 44, 45, 46, 50, 60, 90]);
    let after = source.pick(&[0, 0, 0, 1, 5, 30]);
    let d = source.between(before, LAST_DAY - after);
    around(source, d, before, after)
}

/// A draft that holds `before` days before `d` and `after` days after it, or as
/// many as there are from day 0 to day 36,524, with some list.
pub fn around(source: &mut Source, d: u32, before: u32, after: u32) -> Draft {
    let moves = some_list(&mut source.aside(), d);
    around_with(source, moves, d, before, after)
}

pub fn around_with(source: &mut Source, moves: Vec<u32>, d: u32, before: u32, after: u32) -> Draft {
    let first = d.saturating_sub(before);
    let last = (d + after).min(LAST_DAY);
    let h = (last - first + 1) as usize;
    let request = likely_request(source, d);
    let mut draft = Draft {
        table: Table {
            first,
            marks: likely_marks(source, h),
            readings: likely_readings(source, h),
        },
        moves,
        room: likely_room(source, &request),
        request,
    };
    strike_days(source, &mut draft);
    draft
}

/// Events at and around holidays, and with a holiday in the look-back.
fn feast(source: &mut Source) -> Draft {
    let holiday = source.pick(holidays());
    let d = match source.below(3) {
        0 => holiday,
        1 => (holiday + source.below(5)).saturating_sub(2),
        _ => holiday + source.between(1, 46),
    };
    let before = source.pick(&[30, 45, 46, 60]);
    around(source, d.min(LAST_DAY), before, 0)
}

/// An event at a fixed-date holiday or after it, with a list; all days eligible, or
/// so few that the oldest relevant one shows.
fn moved(source: &mut Source) -> Draft {
    let holiday = match source.below(4) {
        0 => source.pick(both_ways()),
        _ => source.pick(fixed_holidays()),
    };
    let later = source.between(0, 46);
    let later = source.pick(&[0, 1, 45, 46, later, later, later, later]);
    let d = (holiday + later).min(LAST_DAY);
    let before = source.pick(&[20, 44, 45, 46, 60]);
    let moves = good_list(&mut source.aside(), d);
    let mut draft = around_with(source, moves, d, before, 0);
    let (y, n) = full_and_least(&draft);
    match source.below(4) {
        0 => calm_days(source, &mut draft, y - 1, 1),
        1 => calm_days(source, &mut draft, n, 0),
        2 => calm_all(&mut draft),
        _ => {}
    }
    draft
}

/// D at F and near it, P at D, one later, and around D-45.
fn start_edges(source: &mut Source) -> Draft {
    let before = source.pick(&[0, 0, 1, 2, 7, 14, 44, 45, 46, 50]);
    let after = source.below(3);
    let d = source.between(before, LAST_DAY - after);
    let mut draft = around(source, d, before, after);
    draft.request.p = match source.below(6) {
        0 => d,
        1 => (d + 1).min(LAST_DAY),
        2 => d.saturating_sub(source.between(1, 9)),
        3 => (draft.table.first + source.below(3)).saturating_sub(1),
        4 => 0,
        _ => d.saturating_sub(source.between(43, 47)),
    };
    draft
}

/// Missing readings on the ruler, and n, s and e at their ends; mostly by High X
/// of Y, which alone looks at the ruler.
pub fn ruler_edges(source: &mut Source) -> Draft {
    let mut draft = plain(source);
    draft.request.method = source.beside().pick(&[HIGH, HIGH, HIGH, AVERAGE]);
    calm_all(&mut draft);
    draft.request.s = source.pick(&[96, 97, 107, 108, 109, 150, 191]);
    draft.request.e = event_end(source, draft.request.s);
    let s = draft.request.s;
    draft.request.n = match source.below(3) {
        0 => source.pick(&[0, 1, 11, 12, 13]),
        1 => source.pick(&[84, 95, 96, s - 12, s - 1, s]),
        _ => source.between(0, s),
    };
    draft.room = (draft.request.e - s) as usize;
    match source.below(4) {
        0 => blank_all_but_runs(source, &mut draft),
        1 => blank_some(source, &mut draft),
        2 => blank_at_edges(source, &mut draft),
        _ => {}
    }
    draft
}

/// Y, and what spare days are added up to: N of High X of Y.
fn full_and_least(draft: &Draft) -> (usize, usize) {
    let Draft { moves, request, .. } = draft;
    match request.method {
        AVERAGE => (most(moves, request), 4),
        _ => sizes(moves, request.d),
    }
}

/// Eligible and spare days in numbers around Y and N, with the table's start on
/// either side of the oldest relevant day.
pub fn count_edges(source: &mut Source) -> Draft {
    let mut draft = plain(source);
    if source.once_in(2) {
        let d = some_resting_day(source);
        let before = source.pick(&[45, 46, 60]);
        draft = around(source, d, before, 0);
    }
    let (y, n) = full_and_least(&draft);
    let eligible = match source.below(6) {
        0 => y - 1,
        1 => y,
        2 => y + 1,
        3 => n,
        4 => n - 1,
        _ => source.below(y as u32 + 2) as usize,
    };
    let spare = match source.below(4) {
        0 => n.saturating_sub(eligible),
        1 => (n.saturating_sub(eligible)).saturating_sub(1),
        2 => n.saturating_sub(eligible) + 1,
        _ => source.below(6) as usize,
    };
    calm_days(source, &mut draft, eligible, spare);
    cut_start(source, &mut draft);
    draft
}

/// One reading at the ends of what is allowed, and beyond them.
fn reading_edges(source: &mut Source) -> Draft {
    let mut draft = plain(source);
    if source.once_in(3) {
        extreme_readings(source, &mut draft);
    }
    let edges = [HIGHEST, HIGHEST + 1, MISSING - 1, MISSING, 0, 1 << 31];
    for _ in 0..source.between(1, 3) {
        let place = source.below(draft.table.readings.len() as u32) as usize;
        let place = source.pick(&[place, place, 0, draft.table.readings.len() - 1]);
        draft.table.readings[place] = source.pick(&edges);
    }
    if source.once_in(3) {
        let place = source.below(draft.table.marks.len() as u32) as usize;
        draft.table.marks[place] = source.pick(&[0, 1, 2, 3, 4, 5, 128, 255]);
    }
    draft
}

/// h at 0, 1, 128 and 129, readings not 96·h, the last day beyond 36,524.
fn shape_edges(source: &mut Source) -> Draft {
    let h = source.pick(&[0, 1, 2, 127, 128, 129, 130]);
    let first = match source.below(4) {
        0 => LAST_DAY + 1 - (h as u32).max(1),
        1 => LAST_DAY + 2 - (h as u32).max(1),
        2 => source.pick(&[0, LAST_DAY, LAST_DAY + 1, u32::MAX - 127, u32::MAX]),
        _ => source.below(LAST_DAY - 130),
    };
    let d = first.saturating_add(source.below(h as u32 + 1));
    let request = likely_request(source, d);
    let mut readings = likely_readings(source, h);
    if source.once_in(4) {
        let length = readings.len() + source.pick(&[0, 1, 95, 96, 97]);
        readings.resize(length - source.pick(&[0, 0, 1]).min(length), 7);
    }
    Draft {
        table: Table {
            first,
            marks: likely_marks(source, h),
            readings,
        },
        moves: some_list(&mut source.aside(), d),
        room: likely_room(source, &request),
        request,
    }
}

/// One field of the request, or the room, at its ends and beyond.
fn request_edges(source: &mut Source) -> Draft {
    let mut draft = plain(source);
    let Draft { table, request, .. } = &mut draft;
    let last = table.first + table.marks.len() as u32 - 1;
    match source.below(8) {
        0 => {
            request.s = source.pick(&[0, 95, 96, 97, 190, 191, 192, u32::MAX]);
            request.e = source.pick(&[request.e, request.s.saturating_add(1)]);
            request.n = source.pick(&[request.n, request.n.min(request.s)]);
        }
        1 => request.e = source.pick(&[0, 96, 97, 191, 192, 193, u32::MAX]),
        2 => {
            request.e = source.pick(&[request.s - 1, request.s, request.s + 1, request.s + 2]);
        }
        3 => {
            let s = request.s;
            request.n = source.pick(&[0, 11, 12, 13, 95, 96, s - 1, s, s + 1, u32::MAX]);
        }
        4 => {
            let d = request.d;
            let eve = d.saturating_sub(1);
            request.p = source.pick(&[0, eve, d, d + 1, LAST_DAY, LAST_DAY + 1, u32::MAX]);
        }
        5 => {
            let first = table.first;
            let eve = first.saturating_sub(1);
            request.d = source.pick(&[eve, first, first + 1, last, last + 1, u32::MAX]);
        }
        6 => request.method = unknown_method(source),
        _ => {}
    }
    let length = request.e.saturating_sub(request.s).min(1000) as usize;
    draft.room = source.pick(&[0, length.saturating_sub(1), length, length + 1, 192]);
    draft
}

/// The first and the last days of the calendar.
fn calendar_edges(source: &mut Source) -> Draft {
    let d = if source.once_in(2) {
        source.below(60)
    } else {
        LAST_DAY - source.below(10)
    };
    let before = source.pick(&[10, 45, 60, 110]);
    let after = source.pick(&[0, 3]);
    let mut draft = around(source, d, before, after);
    if source.once_in(2) {
        calm_all(&mut draft);
    }
    draft.request.p = source.pick(&[0, 0, 1, d.saturating_sub(45), draft.request.p]);
    draft
}

/// Any lengths and any values.
fn damaged(source: &mut Source) -> Draft {
    let mut draft = plain(source);
    match source.below(4) {
        0 => scatter(source, &mut draft.table),
        1 => any_lengths(source, &mut draft.table),
        2 => any_table(source, &mut draft.table),
        _ => {}
    }
    if source.once_in(2) {
        any_request(source, &mut draft.request);
    }
    draft.room = source.below(200) as usize;
    draft
}

// Parts of drafts.

/// Where an event beginning at s ends: one quarter long, to the end, or between.
fn event_end(source: &mut Source, s: u32) -> u32 {
    match source.below(4) {
        0 => s + 1,
        1 => 192,
        2 => (s + 4).min(192),
        _ => source.between(s + 1, 192),
    }
}

fn likely_request(source: &mut Source, d: u32) -> Request {
    let s = match source.below(4) {
        0 => source.pick(&[96, 191]),
        _ => source.between(96, 191),
    };
    let n = match source.below(4) {
        0 => source.pick(&[11, 12, 13, s]),
        1 => s - 4,
        _ => source.between(0, s),
    };
    let p = match source.below(4) {
        0 => 0,
        1 => d.saturating_sub(source.between(0, 60)),
        _ => d.saturating_sub(200),
    };
    let e = event_end(source, s);
    let method = some_method(&mut source.beside());
    Request {
        p,
        d,
        s,
        e,
        n,
        method,
    }
}

fn likely_room(source: &mut Source, request: &Request) -> usize {
    let length = (request.e - request.s) as usize;
    match source.below(24) {
        0 => length - 1,
        1 => length + 1,
        2 => 192,
        _ => length,
    }
}

fn likely_marks(source: &mut Source, h: usize) -> Vec<u8> {
    let rarity = source.pick(&[0, 0, 2, 6, 20]);
    (0..h)
        .map(|_| {
            if rarity > 0 && source.once_in(rarity) {
                source.pick(&[EVENT, EVENT, OUTAGE, EVENT | OUTAGE])
            } else {
                0
            }
        })
        .collect()
}

/// Readings of one of four manners; the first two make equal sums common.
fn likely_readings(source: &mut Source, h: usize) -> Vec<u32> {
    let mut readings = Vec::with_capacity(QUARTERS * h);
    let manner = source.below(4);
    let base = source.pick(&[0, 5, 1000, 1_000_000, HIGHEST - 3]);
    for _ in 0..h {
        match manner {
            0 => readings.extend([base + source.below(3); QUARTERS]),
            1 => push_steps(source, &mut readings, base, 1),
            2 => push_steps(source, &mut readings, base, 3),
            _ => push_wide(source, &mut readings),
        }
    }
    readings
}

/// Ninety-six readings of `base` plus the bits under `mask`.
fn push_steps(source: &mut Source, readings: &mut Vec<u32>, base: u32, mask: u64) {
    for _ in 0..QUARTERS / 32 {
        let bits = source.next();
        readings.extend((0..32).map(|place| base + (bits >> (2 * place) & mask) as u32));
    }
}

/// Ninety-six readings spread over all that is allowed.
fn push_wide(source: &mut Source, readings: &mut Vec<u32>) {
    for _ in 0..QUARTERS / 3 {
        let bits = source.next();
        let reading = |place: u32| (bits >> (21 * place) & 0x1F_FFFF) as u32 * 4;
        readings.extend((0..3).map(reading));
    }
}

/// Missing readings on some days, one or many of them.
fn strike_days(source: &mut Source, draft: &mut Draft) {
    let rarity = source.pick(&[0, 0, 5, 15]);
    if rarity == 0 {
        return;
    }
    for day in draft.table.readings.chunks_mut(QUARTERS) {
        if source.once_in(rarity) {
            let start = source.below(96) as usize;
            let end = source.pick(&[start + 1, start + 1, QUARTERS]);
            day[start..end].fill(MISSING);
        }
    }
}

/// Both groups other than weekdays, evenly, away from the calendar's start.
pub fn some_resting_day(source: &mut Source) -> u32 {
    7 * source.between(20, LAST_DAY / 7 - 1) + source.below(2)
}

/// The relevant held days.
fn held_relevant(draft: &Draft) -> Vec<u32> {
    let mut days = relevant_days(&draft.moves, &draft.request);
    days.retain(|&day| day >= draft.table.first);
    days
}

/// Every relevant held day is eligible.
pub fn calm_all(draft: &mut Draft) {
    for day in held_relevant(draft) {
        fill_missing(&mut draft.table, day);
        set_mark(&mut draft.table, day, 0);
    }
}

/// Every relevant held day is spoilt, but for `eligible` eligible ones and
/// `spare` spare ones.
pub fn calm_days(source: &mut Source, draft: &mut Draft, eligible: usize, spare: usize) {
    let mut days = held_relevant(draft);
    shuffle(source, &mut days);
    for (place, &day) in days.iter().enumerate() {
        fill_missing(&mut draft.table, day);
        let mark = if place < eligible {
            0
        } else if place < eligible + spare {
            EVENT
        } else {
            spoil(source, &mut draft.table, day)
        };
        set_mark(&mut draft.table, day, mark);
    }
}

fn shuffle(source: &mut Source, days: &mut [u32]) {
    for place in (1..days.len()).rev() {
        days.swap(place, source.below(place as u32 + 1) as usize);
    }
}

fn day_start(table: &Table, day: u32) -> usize {
    (day - table.first) as usize * QUARTERS
}

fn set_mark(table: &mut Table, day: u32, mark: u8) {
    table.marks[(day - table.first) as usize] = mark;
}

/// Puts a reading where one was missing.
fn fill_missing(table: &mut Table, day: u32) {
    let start = day_start(table, day);
    for reading in &mut table.readings[start..start + QUARTERS] {
        if *reading == MISSING {
            *reading = 1000;
        }
    }
}

/// Makes a day neither eligible nor spare; gives the mark it is to have.
fn spoil(source: &mut Source, table: &mut Table, day: u32) -> u8 {
    if source.once_in(2) {
        return source.pick(&[OUTAGE, EVENT | OUTAGE]);
    }
    let start = day_start(table, day);
    let anywhere = source.below(96) as usize;
    table.readings[start + source.pick(&[0, 95, anywhere])] = MISSING;
    source.pick(&[0, EVENT])
}

/// Moves the table's start, or P, near the oldest relevant day.
pub fn cut_start(source: &mut Source, draft: &mut Draft) {
    let days = relevant_days(&draft.moves, &draft.request);
    let Some(&oldest) = days.last() else { return };
    let some = source.pick(&days);
    match source.below(6) {
        0 => cut_before(&mut draft.table, oldest),
        1 => cut_before(&mut draft.table, oldest + 1),
        2 => cut_before(&mut draft.table, some),
        3 => draft.request.p = draft.table.first,
        4 => draft.request.p = some,
        _ => {}
    }
}

/// Drops the days before `day`, if that leaves any.
fn cut_before(table: &mut Table, day: u32) {
    let gone = day.saturating_sub(table.first) as usize;
    if gone < table.marks.len() {
        table.first += gone as u32;
        table.marks.drain(..gone);
        table.readings.drain(..gone * QUARTERS);
    }
}

/// All readings 0 or all 10,000,000, day by day.
fn extreme_readings(source: &mut Source, draft: &mut Draft) {
    for day in draft.table.readings.chunks_mut(QUARTERS) {
        day.fill(source.pick(&[0, HIGHEST, HIGHEST]));
    }
    calm_all(draft);
}

/// The place of a ruler quarter in the readings, if it is held.
fn ruler_place(draft: &Draft, t: usize) -> Option<usize> {
    let place = (draft.request.d - draft.table.first) as usize * QUARTERS + t;
    place.checked_sub(QUARTERS)
}

pub fn blank(draft: &mut Draft, t: usize) {
    if let Some(place) = ruler_place(draft, t) {
        draft.table.readings[place] = MISSING;
    }
}

/// The ruler missing up to s, but for runs of about twelve quarters.
fn blank_all_but_runs(source: &mut Source, draft: &mut Draft) {
    let s = draft.request.s;
    let mut kept = vec![false; 193];
    for _ in 0..source.between(1, 3) {
        let length = source.between(11, 13);
        let anywhere = source.between(length, 192);
        let end = source.pick(&[anywhere, 96, 100, s, s + 1, draft.request.n.max(length)]);
        kept[(end.max(length) - length) as usize..end as usize].fill(true);
    }
    for (t, kept) in kept.into_iter().enumerate().take(192) {
        if !kept {
            blank(draft, t);
        }
    }
}

/// A few ruler quarters missing.
fn blank_some(source: &mut Source, draft: &mut Draft) {
    for _ in 0..source.between(1, 20) {
        let t = source.below(192) as usize;
        blank(draft, t);
    }
}

/// The quarters just inside or just outside the twelve that end at n.
fn blank_at_edges(source: &mut Source, draft: &mut Draft) {
    let n = draft.request.n as usize;
    let edges = [
        n.saturating_sub(13),
        n.saturating_sub(12),
        n.saturating_sub(1),
        n,
    ];
    for _ in 0..source.between(1, 2) {
        let t = source.pick(&edges);
        blank(draft, t);
    }
}

/// A few readings or marks overwritten by any bits.
fn scatter(source: &mut Source, table: &mut Table) {
    for _ in 0..source.between(1, 5) {
        let place = source.below(table.readings.len() as u32) as usize;
        table.readings[place] = source.word();
    }
    if source.once_in(2) {
        let place = source.below(table.marks.len() as u32) as usize;
        table.marks[place] = source.word() as u8;
    }
}

/// Lengths that need not fit.
fn any_lengths(source: &mut Source, table: &mut Table) {
    table.marks.resize(source.below(140) as usize, 0);
    let fitting = QUARTERS * table.marks.len();
    let any = source.below(12_500) as usize;
    let length = source.pick(&[any, fitting, fitting + 1]);
    table.readings.resize(length, 1000);
}

/// Any first day, marks and readings.
fn any_table(source: &mut Source, table: &mut Table) {
    let h = source.below(MOST_DAYS as u32 + 3);
    let anywhere = source.word();
    table.first = source.pick(&[anywhere, 6951]);
    table.marks = (0..h).map(|_| source.word() as u8).collect();
    table.readings = (0..h * 96).map(|_| source.word()).collect();
}

/// Any bits in some of the request's fields.
fn any_request(source: &mut Source, request: &mut Request) {
    let fields = [
        &mut request.p,
        &mut request.d,
        &mut request.s,
        &mut request.e,
        &mut request.n,
        &mut request.method,
    ];
    for field in fields {
        if source.once_in(2) {
            let word = source.word();
            *field = source.pick(&[word, word % 256, word % (LAST_DAY + 2), *field]);
        }
    }
}
