//! Adjustment, baseline and the whole call (01, "Adjustment and baseline"; 02,
//! order 3, for the baseline without adjustment).

use crate::choice::{choose, Choice};
use crate::moves::check_moves;
use crate::refusal::Refusal;
use crate::table::{check_request, check_table, Request, View, AVERAGE, MISSING, QUARTERS};
use std::ops::Range;

/// Ruler quarters in an adjustment window.
pub const ADJUSTMENT: u32 = 12;

/// What an event is answered.
#[derive(Clone, PartialEq, Eq, Debug)]
pub struct Answer {
    /// The chosen days in rank order.
    pub days: Vec<u32>,
    pub reach: u32,
    /// 12N, which is 60 or 24; of Average X of Y the number averaged, 2 or 1.
    pub denominator: u32,
    /// N·A - B, over the denominator; of Average X of Y 0.
    pub adjustment: i64,
    /// One for each quarter of the event, over the denominator.
    pub numerators: Vec<u32>,
}

/// The reading at a ruler quarter: day D-1 is 0 to 95, day D is 96 to 191.
/// None if the day is not held or the reading is missing.
fn ruler_reading(view: View, d: u32, t: u32) -> Option<u32> {
    let (day, quarter) = if t < 96 {
        (d.checked_sub(1)?, t)
    } else {
        (d, t - 96)
    };
    let reading = view.day(day)?[quarter as usize];
    (reading != MISSING).then_some(reading)
}

fn all_present(view: View, d: u32, quarters: Range<u32>) -> bool {
    quarters
        .into_iter()
        .all(|t| ruler_reading(view, d, t).is_some())
}

/// The twelve ruler quarters that end at `end`, if there are twelve and all
/// their readings are present.
fn twelve_ending_at(view: View, d: u32, end: u32) -> Option<Range<u32>> {
    let twelve = end.checked_sub(ADJUSTMENT)?..end;
    all_present(view, d, twelve.clone()).then_some(twelve)
}

/// The twelve quarters ending at n; otherwise (desk rule) the latest twelve
/// that end at or before s.
pub fn adjustment_window(view: View, request: &Request) -> Option<Range<u32>> {
    let ending_at = |end| twelve_ending_at(view, request.d, end);
    ending_at(request.n).or_else(|| (0..=request.s).rev().find_map(ending_at))
}

/// S(t): the sum, over the chosen days, of the reading at quarter t mod 96.
pub fn chosen_sum(view: View, days: &[u32], t: u32) -> i64 {
    let quarter = t as usize % QUARTERS;
    days.iter()
        .map(|&day| i64::from(view.day(day).expect("a held day")[quarter]))
        .sum()
}

/// N·A - B.
pub fn adjustment_numerator(n: i64, a: i64, b: i64) -> i64 {
    n * a - b
}

/// max(0, 12·S + N·A - B).
pub fn baseline_numerator(n: i64, s: i64, a: i64, b: i64) -> i64 {
    (12 * s + adjustment_numerator(n, a, b)).max(0)
}

/// A and B of an adjustment window.
fn window_sums(view: View, d: u32, days: &[u32], twelve: Range<u32>) -> (i64, i64) {
    let a = twelve
        .clone()
        .map(|t| i64::from(ruler_reading(view, d, t).expect("a present reading")))
        .sum();
    let b = twelve.map(|t| chosen_sum(view, days, t)).sum();
    (a, b)
}

/// The call: an answer or one refusal, 1 to 10 in order, with 14 "after 3,
/// before 4". `room` is the number of output quarters.
pub fn verdict(
    view: View,
    moves: &[u32],
    request: &Request,
    room: usize,
) -> Result<Answer, Refusal> {
    check_table(view)?;
    check_moves(moves)?;
    check_request(view, request, room)?;
    let choice = choose(view, moves, request)?;
    match request.method {
        AVERAGE => Ok(average_answer(view, request, choice)),
        _ => high_answer(view, request, choice),
    }
}

/// At each quarter of the event the numerator that its S(t) gives.
fn numerators(
    view: View,
    request: &Request,
    days: &[u32],
    numerator: impl Fn(i64) -> i64,
) -> Vec<u32> {
    (request.s..request.e)
        .map(|t| numerator(chosen_sum(view, days, t)))
        .map(|numerator| u32::try_from(numerator).expect("never above 1,200,000,000"))
        .collect()
}

/// High X of Y: with the adjustment, or refusal 10.
fn high_answer(view: View, request: &Request, choice: Choice) -> Result<Answer, Refusal> {
    let Choice { days, reach, .. } = choice;
    let no_adjustment = Refusal::NoAdjustment {
        reach: u64::from(reach),
    };
    let twelve = adjustment_window(view, request).ok_or(no_adjustment)?;
    let (a, b) = window_sums(view, request.d, &days, twelve);
    let n = days.len() as i64;
    Ok(Answer {
        reach,
        denominator: 12 * days.len() as u32,
        adjustment: adjustment_numerator(n, a, b),
        numerators: numerators(view, request, &days, |s| baseline_numerator(n, s, a, b)),
        days,
    })
}

/// Average X of Y: "average them per quarter, without adjustment"; "numerators
/// are over the number averaged, and the listing's adj is 0".
fn average_answer(view: View, request: &Request, choice: Choice) -> Answer {
    let Choice { days, reach, .. } = choice;
    Answer {
        reach,
        denominator: days.len() as u32,
        adjustment: 0,
        numerators: numerators(view, request, &days, |s| s),
        days,
    }
}
