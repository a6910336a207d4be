//! Methods (02, order 3), and drafts with few days for Average X of Y.

use super::calls::{around, around_with, calm_days, cut_start, some_resting_day, Draft};
use super::moves::crowded_week;
use super::source::Source;
use crate::calendar::{group_of, holidays, Group, LAST_DAY};
use crate::table::{AVERAGE, HIGH};

/// Each method about as often, and now and then one that there is not.
pub fn some_method(source: &mut Source) -> u32 {
    match source.below(32) {
        0..=14 => HIGH,
        15..=29 => AVERAGE,
        _ => unknown_method(source),
    }
}

/// Unknown ones: next to the known, at the ends of a byte, of two and of four, and
/// such as are known again when cut to them.
const UNKNOWN: [u32; 8] = [2, 3, 255, 256, 257, 65_536, 65_537, u32::MAX];

pub fn unknown_method(source: &mut Source) -> u32 {
    match source.below(8) {
        0 => source.word().max(2),
        _ => source.pick(&UNKNOWN),
    }
}

/// Average X of Y with eligible and spare days in numbers about each of its rows,
/// and P about seven days before the event, or long before.
pub fn short(source: &mut Source) -> Draft {
    let back = source.pick(&[
        1, 3, 5, 6, 6, 6, 6, 7, 7, 7, 7, 8, 8, 8, 8, 14, 20, 45, 45, 45, 45, 45, 45, 60,
    ]);
    short_from(source, back)
}

/// The same, P at most so many days before the event.
pub fn short_from(source: &mut Source, back: u32) -> Draft {
    let d = some_day(source);
    let before = match source.below(8) {
        0 => back + source.below(3),
        _ => back,
    };
    let mut draft = if source.once_in(5) {
        let moves = crowded_week(&mut source.aside(), d);
        around_with(source, moves, d, before, 0)
    } else {
        around(source, d, before, 0)
    };
    draft.request.method = AVERAGE;
    draft.request.p = d.saturating_sub(back);
    let (eligible, spare) = match group_of(d, &draft.moves) {
        Some(Group::Weekday) if back < 10 => few_numbers(source),
        Some(Group::Weekday) => weekday_numbers(source),
        _ => other_numbers(source),
    };
    calm_days(source, &mut draft, eligible, spare);
    if source.once_in(8) {
        cut_start(source, &mut draft);
    }
    draft
}

/// A weekday mostly, often a Monday, before which four stand in a row; a Saturday or
/// Sunday, a holiday or a day soon after it.
fn some_day(source: &mut Source) -> u32 {
    match source.below(16) {
        0 | 1 => some_resting_day(source),
        2 => source.pick(holidays()),
        3 => (source.pick(holidays()) + source.below(8)).min(LAST_DAY),
        _ => 7 * source.between(20, LAST_DAY / 7 - 1) + source.pick(&[2, 2, 2, 3, 4, 5, 6]),
    }
}

/// At most four of both.
fn few_numbers(source: &mut Source) -> (usize, usize) {
    let eligible = source.pick(&[0, 0, 1, 1, 2, 2, 3, 4, 4, 4]);
    let any = source.below(5 - eligible as u32) as usize;
    (eligible, source.pick(&[any, any, any, 4 - eligible]))
}

/// About ten and about four eligible days, and about as many spare ones as make
/// four, three, two and fewer of them.
fn weekday_numbers(source: &mut Source) -> (usize, usize) {
    let many = source.between(4, 12) as usize;
    let eligible = source.pick(&[0, 0, 0, 1, 1, 2, 2, 3, 4, 9, 10, many, many, many]);
    let spare = match eligible {
        0..=3 => source.pick(&[0, 1, 2, 3, 4, 5, 3 - eligible, 5 - eligible]),
        _ => source.pick(&[0, 0, 1, 3]),
    };
    (eligible, spare)
}

/// Up to five eligible days, and spare ones, which are not taken.
fn other_numbers(source: &mut Source) -> (usize, usize) {
    let eligible = source.pick(&[0, 1, 1, 2, 2, 3, 3, 4, 4, 5, 5]);
    (eligible, source.pick(&[0, 0, 1, 2, 4]))
}
