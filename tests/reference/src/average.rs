//! Average X of Y (02, order 3; section 3.2.2 of 001): the window, and which of
//! it are averaged. Which days are eligible or spare, and their rank, are 01's.

use crate::calendar::{group_of, Group};
use crate::choice::{eligible_days, spare_days};
use crate::table::{Request, View};
use std::ops::RangeInclusive;

/// 001, B: event days are added to a weekday's window "until four days in all are
/// reached" ("έως ότου συμπληρωθούν συνολικά τέσσερις ημέρες").
const FILLED_UP_TO: usize = 4;

/// 001, B and Γ: "at least seven (7) calendar days".
const DAYS_OF_DATA: u32 = 7;

fn is_weekday(moves: &[u32], request: &Request) -> bool {
    group_of(request.d, moves) == Some(Group::Weekday)
}

/// Y: "Weekday window of 10 days, else of 4".
pub fn most(moves: &[u32], request: &Request) -> usize {
    if is_weekday(moves, request) {
        10
    } else {
        4
    }
}

/// The window: the Y most recent eligible days; "with fewer eligible days than
/// that, the window is all of them", and a weekday's of fewer than four has the
/// most recent event days too, until there are four.
pub fn window(view: View, moves: &[u32], request: &Request) -> Vec<u32> {
    let mut window = eligible_days(view, moves, request);
    window.truncate(most(moves, request));
    if is_weekday(moves, request) && window.len() < FILLED_UP_TO {
        let spare = spare_days(view, moves, request);
        let missing = FILLED_UP_TO - window.len();
        window.extend(spare.into_iter().take(missing));
    }
    window
}

/// Seven days of data: "P is their registration date, D-1 their last day of
/// data".
fn has_seven_days(request: &Request) -> bool {
    request.d - request.p >= DAYS_OF_DATA
}

/// The ranks that are averaged, from 1, of a window of so many days; none where
/// 001's rules leave no day.
pub fn ranks(moves: &[u32], request: &Request, size: usize) -> Option<RangeInclusive<usize>> {
    let seven = has_seven_days(request);
    if is_weekday(moves, request) {
        weekday_ranks(size, seven)
    } else {
        other_ranks(size, seven)
    }
}

/// 001, B.
fn weekday_ranks(size: usize, seven: bool) -> Option<RangeInclusive<usize>> {
    match size {
        // "the 5th and 6th"
        10 => Some(5..=6),
        // "the 2nd and 3rd", with event days or without
        4..=9 => Some(2..=3),
        // "the day of the highest consumption is left out"
        3 if seven => Some(2..=3),
        // "both days are used"
        2 if seven => Some(1..=2),
        _ => None,
    }
}

/// 001, Γ.
fn other_ranks(size: usize, seven: bool) -> Option<RangeInclusive<usize>> {
    match size {
        // "the 2nd and 3rd"
        4 => Some(2..=3),
        // "2 days are used": "where they give only a number the last in rank"
        3 => Some(2..=3),
        2 => Some(1..=2),
        // "1 day is used"
        1 if seven => Some(1..=1),
        _ => None,
    }
}
