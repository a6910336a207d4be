//! Choosing the days (01, "Choosing the days"), by a list of moves (02, order 2)
//! and by a method (02, order 3; its own rules are in `average`). The table, the
//! list and the request have passed refusals 1 to 7 and 14.

use crate::average;
use crate::calendar::{group_of, Group};
use crate::refusal::Refusal;
use crate::table::{Request, View, AVERAGE, EVENT, MISSING, OUTAGE};
use std::cmp::Reverse;
use std::ops::RangeInclusive;

/// Days in the look-back.
pub const LOOK_BACK: u32 = 45;

/// What the choice of days gives.
#[derive(Clone, PartialEq, Eq, Debug)]
pub struct Choice {
    /// The window; its order says nothing.
    pub window: Vec<u32>,
    /// The chosen days in rank order.
    pub days: Vec<u32>,
    pub reach: u32,
}

/// Y and N of High X of Y: 10 and 5 for a weekday, 3 and 2 otherwise.
pub fn sizes(moves: &[u32], d: u32) -> (usize, usize) {
    match group_of(d, moves) {
        Some(Group::Weekday) => (10, 5),
        _ => (3, 2),
    }
}

/// Y by the request's method.
pub fn most(moves: &[u32], request: &Request) -> usize {
    match request.method {
        AVERAGE => average::most(moves, request),
        _ => sizes(moves, request.d).0,
    }
}

/// The relevant days, the nearest to D first, held or not.
pub fn relevant_days(moves: &[u32], request: &Request) -> Vec<u32> {
    let Request { p, d, .. } = *request;
    let group = group_of(d, moves);
    let skips_eve = group == Some(Group::Weekday);
    (1..=LOOK_BACK)
        .filter_map(|back| d.checked_sub(back))
        .filter(|&day| day >= p)
        .filter(|&day| group_of(day, moves) == group)
        .filter(|&day| !(skips_eve && day + 1 == d))
        .collect()
}

/// Held, and none of the 96 readings missing (desk rule).
fn is_complete(view: View, day: u32) -> bool {
    match view.day(day) {
        Some(readings) => !readings.contains(&MISSING),
        None => false,
    }
}

/// The relevant, complete days, the nearest first.
fn complete_days(view: View, moves: &[u32], request: &Request) -> Vec<u32> {
    let mut days = relevant_days(moves, request);
    days.retain(|&day| is_complete(view, day));
    days
}

fn has_bit(view: View, day: u32, bit: u8) -> bool {
    view.mark(day).is_some_and(|mark| mark & bit != 0)
}

/// The eligible days, the nearest first: relevant, complete, both bits clear.
pub fn eligible_days(view: View, moves: &[u32], request: &Request) -> Vec<u32> {
    let mut days = complete_days(view, moves, request);
    days.retain(|&day| !has_bit(view, day, EVENT) && !has_bit(view, day, OUTAGE));
    days
}

/// The spare days: relevant, complete, bit 0 set and bit 1 clear.
pub fn spare_days(view: View, moves: &[u32], request: &Request) -> Vec<u32> {
    let mut days = complete_days(view, moves, request);
    days.retain(|&day| has_bit(view, day, EVENT) && !has_bit(view, day, OUTAGE));
    days
}

/// The sum of a held day's readings over the event's own quarters.
pub fn event_sum(view: View, request: &Request, day: u32) -> u64 {
    let readings = view.day(day).expect("a held day");
    readings[request.event_quarters()]
        .iter()
        .map(|&reading| u64::from(reading))
        .sum()
}

/// Highest first; equal sums put the day nearer D first (003, section 6).
pub fn ranked(view: View, request: &Request, mut days: Vec<u32>) -> Vec<u32> {
    days.sort_by_key(|&day| (Reverse(event_sum(view, request, day)), Reverse(day)));
    days
}

/// The window by the request's method.
pub fn window(view: View, moves: &[u32], request: &Request) -> Vec<u32> {
    match request.method {
        AVERAGE => average::window(view, moves, request),
        _ => high_window(view, moves, request),
    }
}

/// The window of High X of Y: the Y most recent eligible days, or all of them,
/// filled up to N with the highest spare days.
fn high_window(view: View, moves: &[u32], request: &Request) -> Vec<u32> {
    let (y, n) = sizes(moves, request.d);
    let mut window = eligible_days(view, moves, request);
    window.truncate(y);
    if window.len() < n {
        let spare = ranked(view, request, spare_days(view, moves, request));
        window.extend(spare.into_iter().take(n - window.len()));
    }
    window
}

/// D minus the oldest relevant day, or 0 if none is relevant.
fn relevant_reach(moves: &[u32], request: &Request) -> u32 {
    match relevant_days(moves, request).last() {
        Some(oldest) => request.d - oldest,
        None => 0,
    }
}

/// D minus the window's oldest day if it holds Y days; otherwise D minus the
/// oldest relevant day, or 0.
pub fn reach(moves: &[u32], request: &Request, window: &[u32]) -> u32 {
    let y = most(moves, request);
    match window.iter().min() {
        Some(oldest) if window.len() == y => request.d - oldest,
        _ => relevant_reach(moves, request),
    }
}

/// Refusal 8: eligible held days below Y and a relevant day before F.
pub fn check_margin(view: View, moves: &[u32], request: &Request) -> Result<(), Refusal> {
    let y = most(moves, request);
    let few = eligible_days(view, moves, request).len() < y;
    let cut = relevant_days(moves, request)
        .iter()
        .any(|&day| day < view.first);
    if few && cut {
        let days = u64::from(relevant_reach(moves, request));
        return Err(Refusal::Margin { days });
    }
    Ok(())
}

/// The ranks that are chosen, from 1, of a window of so many days: of High X of Y
/// the first N; none where it has too few.
fn ranks(moves: &[u32], request: &Request, size: usize) -> Option<RangeInclusive<usize>> {
    let (_, n) = sizes(moves, request.d);
    match request.method {
        AVERAGE => average::ranks(moves, request, size),
        _ => (size >= n).then_some(1..=n),
    }
}

/// Refusals 8 and 9, or the window, the chosen of its ranking and the reach.
pub fn choose(view: View, moves: &[u32], request: &Request) -> Result<Choice, Refusal> {
    check_margin(view, moves, request)?;
    let window = window(view, moves, request);
    let reach = reach(moves, request, &window);
    let too_few = Refusal::TooFew {
        size: window.len() as u64,
        reach: u64::from(reach),
    };
    let ranks = ranks(moves, request, window.len()).ok_or(too_few)?;
    let ranked = ranked(view, request, window.clone());
    let days = ranks.map(|rank| ranked[rank - 1]).collect();
    Ok(Choice {
        window,
        days,
        reach,
    })
}
