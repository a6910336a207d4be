//! Generated lists of moved holidays (02, order 2), about an event day.

use super::source::Source;
use crate::calendar::{easter_holidays, fixed_holidays, is_easter, LAST_DAY};
use crate::choice::LOOK_BACK;
use crate::moves::{first_days, second_days, MOST_MOVES, MOVE_NUMBERS};
use std::sync::OnceLock;

/// The list of a call: mostly none, otherwise one that can matter to the event,
/// now and then one that is refused.
pub fn some_list(source: &mut Source, d: u32) -> Vec<u32> {
    match source.below(16) {
        0..=3 => good_list(source, d),
        4 => bad_list(source, d),
        _ => vec![],
    }
}

/// A list that is taken: holidays of the look-back, as far as there are any, moved
/// to days where it shows.
pub fn good_list(source: &mut Source, d: u32) -> Vec<u32> {
    let any = source.between(1, MOST_MOVES as u32) as usize;
    let count = source.pick(&[1, 1, 1, 1, 2, 2, 3, any, any, MOST_MOVES, MOST_MOVES]);
    list_of(source, d, count)
}

/// So many pairs, no first day twice.
pub fn list_of(source: &mut Source, d: u32, count: usize) -> Vec<u32> {
    let d = d.min(LAST_DAY);
    let near = about(fixed_holidays(), d);
    let mut list = vec![];
    while list.len() < MOVE_NUMBERS * count {
        let anywhere = source.pick(fixed_holidays());
        let first = match source.below(4) {
            1.. if !near.is_empty() => source.pick(near),
            _ => anywhere,
        };
        let first = [first, anywhere]
            .into_iter()
            .find(|&day| first_days(&list).all(|other| other != day));
        if let Some(first) = first {
            let second = some_second(source, d, first, &list);
            list.extend([first, second]);
        }
    }
    list
}

/// Those from the day before the look-back to the day after the event, of days
/// that rise.
fn about(days: &'static [u32], d: u32) -> &'static [u32] {
    let start = days.partition_point(|&day| day + LOOK_BACK + 1 < d);
    let end = days.partition_point(|&day| day <= d + 1);
    &days[start..end]
}

/// The day that replaces a holiday: the event day and its neighbours, the ends of
/// the look-back and any day of it, itself, another pair's, days that rest anyway,
/// and any other.
fn some_second(source: &mut Source, d: u32, first: u32, list: &[u32]) -> u32 {
    let back = |days: u32| d.saturating_sub(days);
    let within = back(source.between(1, LOOK_BACK));
    let any = source.below(LAST_DAY + 1);
    match source.below(16) {
        0 => first,
        1 => d,
        2 => back(1),
        3 => back(LOOK_BACK),
        4 => back(LOOK_BACK + 1),
        5 => (d + 1).min(LAST_DAY),
        6 => second_days(list).last().unwrap_or(within),
        7 => first_days(list).last().unwrap_or(within),
        8 => some_of(source, about(easter_holidays(), d)).unwrap_or(within),
        9 => some_of(source, about(fixed_holidays(), d)).unwrap_or(within),
        10 => (within - within % 7 + source.below(2)).min(LAST_DAY),
        11 => source.pick(&[any, 0, LAST_DAY]),
        _ => within,
    }
}

fn some_of(source: &mut Source, days: &[u32]) -> Option<u32> {
    (!days.is_empty()).then(|| source.pick(days))
}

/// The fixed-date holidays that are Easter's too: moved away, they stay holidays.
pub fn both_ways() -> &'static [u32] {
    static BOTH: OnceLock<Vec<u32>> = OnceLock::new();
    BOTH.get_or_init(|| {
        let fixed = fixed_holidays().iter().copied();
        fixed.filter(|&day| is_easter(day)).collect()
    })
}

/// Holidays from anywhere moved onto the event day and onto some of the days of
/// the week before it, so that a week has many of the holiday group.
pub fn crowded_week(source: &mut Source, d: u32) -> Vec<u32> {
    let start = source.below((fixed_holidays().len() - MOST_MOVES) as u32) as usize;
    let days = (0..=8).filter(|&back| back == 0 || !source.once_in(3));
    let days: Vec<u32> = days.map(|back| d.saturating_sub(back)).collect();
    let firsts = &fixed_holidays()[start..];
    firsts
        .iter()
        .zip(days)
        .flat_map(|(&first, day)| [first, day])
        .collect()
}

/// A list that is mostly refused, for one reason or two; on the other side of a
/// line it is not.
fn bad_list(source: &mut Source, d: u32) -> Vec<u32> {
    let mut list = good_list(source, d);
    for _ in 0..source.pick(&[1, 1, 1, 1, 2]) {
        match source.below(6) {
            0 => beside_a_holiday(source, &mut list),
            1 | 2 => past_the_calendar(source, &mut list),
            3 => repeated(source, &mut list),
            4 => {
                let more = source.pick(&[0, 1, 1, 2, 16]);
                list = list_of(source, d, MOST_MOVES + more);
            }
            _ => half(source, &mut list),
        }
    }
    list
}

/// The start of a pair: the first, the last or any.
fn some_pair(source: &mut Source, list: &[u32]) -> usize {
    let last = list.len().saturating_sub(1) / MOVE_NUMBERS;
    let any = source.below(last as u32 + 1) as usize;
    MOVE_NUMBERS * source.pick(&[0, last, any])
}

/// A first day that is the day before a fixed-date holiday or the day after it.
fn beside_a_holiday(source: &mut Source, list: &mut [u32]) {
    let place = some_pair(source, list);
    let first = list[place];
    list[place] = source.pick(&[first.wrapping_sub(1), first.wrapping_add(1)]);
}

/// A first or a second day at the calendar's end, after it, or anything; after it
/// also where the fixed-date holidays of 2100 are.
fn past_the_calendar(source: &mut Source, list: &mut [u32]) {
    let place = some_pair(source, list) + source.below(2) as usize;
    let end = LAST_DAY + 1;
    let in_a_leap_year = end + source.pick(&fixed_holidays()[..8]);
    let in_a_common_one = end + source.pick(&fixed_holidays()[8..16]) - 366;
    let word = source.word();
    let any = source.pick(&[word, u32::MAX, in_a_leap_year, in_a_common_one]);
    if let Some(cell) = list.get_mut(place) {
        *cell = source.pick(&[LAST_DAY, end, any, any]);
    }
}

/// One first day twice, with the same second day or another.
fn repeated(source: &mut Source, list: &mut Vec<u32>) {
    let from = some_pair(source, list);
    let first = list[from];
    let same = list.get(from + 1).copied().unwrap_or(first);
    let second = source.pick(&[same, first, first / 2]);
    if list.len() > MOVE_NUMBERS && source.once_in(2) {
        let place = some_pair(source, list);
        list[place] = first;
    } else if list.len() < MOVE_NUMBERS * MOST_MOVES {
        let place = source.pick(&[list.len(), 0, from]);
        list.splice(place..place, [first, second]);
    }
}

/// A number too few or too many.
fn half(source: &mut Source, list: &mut Vec<u32>) {
    let holiday = source.pick(fixed_holidays());
    match source.below(3) {
        0 => list.push(holiday),
        1 => list.push(source.word()),
        _ => drop(list.pop()),
    }
}
