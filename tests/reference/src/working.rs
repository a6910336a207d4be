//! The working of an event (include/honeyplank.h, `hp_working`), as a person does
//! it with a pencil: for each day of the look-back why it is used or is not and its
//! sum; of these columns alone the window, its ranks and the chosen days; then the
//! adjustment and each quarter.
//!
//! 01 and 02 worked once more: `choice`, `average` and `baseline` are not used, and
//! the tests hold the two to one another.

use crate::calendar::{group_in_week, group_of, Group};
use crate::moves::check_moves;
use crate::refusal::Refusal;
use crate::table::{
    check_request, check_table, Request, View, AVERAGE, EVENT, MISSING, OUTAGE, QUARTERS,
};
use std::cmp::Reverse;

/// "Look-back: the 45 days D-45 to D-1."
pub const LOOK_BACK: u32 = 45;

/// Quarters of the two-day ruler.
pub const RULER: usize = 2 * QUARTERS;

/// Why a day of the look-back is used or is not: the first of these that holds.
#[derive(Clone, Copy, PartialEq, Eq, Debug)]
pub enum Reason {
    /// "not below 0 or P".
    TooEarly = 1,
    /// "of D's group".
    AnotherGroup,
    /// "when D is a weekday, is not D-1".
    DayBefore,
    /// Relevant, and the extract does not hold it.
    NotHeld,
    /// "complete if none of its 96 readings is missing".
    ReadingMissing,
    /// Bit 1.
    Outage,
    /// Bit 0.
    EventRecorded,
    /// "eligible if relevant, complete, and both bits are clear".
    Eligible,
}

/// A day of the look-back.
#[derive(Clone, PartialEq, Eq, Debug)]
pub struct Row {
    /// So many days before the event.
    pub back: u32,
    /// Its number and group; none below day 0.
    pub day: Option<u32>,
    pub group: Option<Group>,
    pub reason: Reason,
    /// "the sum of the day's readings over the event's own quarters", where it is
    /// held and none of these is missing.
    pub sum: Option<u64>,
}

/// The window and what is chosen of it.
#[derive(Clone, PartialEq, Eq, Debug)]
pub struct Ranking {
    /// How many days before the event each lies, by rank.
    pub backs: Vec<u32>,
    /// How many ranks are passed over, and how many of the next are chosen.
    pub passed: usize,
    pub taken: usize,
}

/// The adjustment window's end on the ruler, A and B.
#[derive(Clone, Copy, PartialEq, Eq, Debug)]
pub struct Adjustment {
    pub end: u32,
    pub a: i64,
    pub b: i64,
}

/// The working, as far as it goes.
#[derive(Clone, PartialEq, Eq, Debug)]
pub struct Working {
    pub group: Group,
    /// Y.
    pub most: usize,
    /// D-1 first.
    pub rows: Vec<Row>,
    /// None where 8 is given.
    pub ranking: Option<Ranking>,
    /// S(t) of every quarter of the ruler; none where 8 or 9 is given.
    pub sums: Option<Vec<i64>>,
    /// None where 8, 9 or 10 is given, and of Average X of Y.
    pub adjustment: Option<Adjustment>,
    /// Of the event's quarters, before the floor; none where 8, 9 or 10 is given.
    pub numerators: Option<Vec<i64>>,
}

impl Working {
    /// The row so many days before the event.
    pub fn row(&self, back: u32) -> Option<&Row> {
        self.rows.iter().find(|row| row.back == back)
    }

    /// The rank in the window, from 1; 0 outside it.
    pub fn rank(&self, back: u32) -> Option<usize> {
        let backs = &self.ranking.as_ref()?.backs;
        let place = backs.iter().position(|&other| other == back);
        Some(place.map_or(0, |place| place + 1))
    }

    pub fn is_chosen(&self, back: u32) -> Option<bool> {
        Some(self.ranking.as_ref()?.chosen().contains(&back))
    }
}

impl Ranking {
    /// How many days before the event the chosen ones lie, by rank.
    pub fn chosen(&self) -> &[u32] {
        match self.taken {
            0 => &[],
            taken => &self.backs[self.passed..self.passed + taken],
        }
    }
}

/// The group by a list. The header says nothing of days after the calendar, which only
/// an overlap can be asked of: no holiday is known there, and weeks go on.
fn own_group(moves: &[u32], day: u32) -> Group {
    group_of(day, moves).unwrap_or_else(|| group_in_week(day))
}

/// The day so many days before the event, if it is not below 0.
fn day_back(request: &Request, back: u32) -> Option<u32> {
    request.d.checked_sub(back)
}

/// Why the day so many days before the event is not relevant, whatever is held.
pub fn irrelevant(moves: &[u32], request: &Request, back: u32) -> Option<Reason> {
    let Some(day) = day_back(request, back) else {
        return Some(Reason::TooEarly);
    };
    let group = own_group(moves, request.d);
    if day < request.p {
        Some(Reason::TooEarly)
    } else if own_group(moves, day) != group {
        Some(Reason::AnotherGroup)
    } else if back == 1 && group == Group::Weekday {
        Some(Reason::DayBefore)
    } else {
        None
    }
}

fn reason(view: View, moves: &[u32], request: &Request, back: u32) -> Reason {
    if let Some(reason) = irrelevant(moves, request, back) {
        return reason;
    }
    let day = request.d - back;
    let (Some(readings), Some(mark)) = (view.day(day), view.mark(day)) else {
        return Reason::NotHeld;
    };
    if readings.contains(&MISSING) {
        Reason::ReadingMissing
    } else if mark & OUTAGE != 0 {
        Reason::Outage
    } else if mark & EVENT != 0 {
        Reason::EventRecorded
    } else {
        Reason::Eligible
    }
}

/// A reading that is there.
fn present(reading: u32) -> Option<u32> {
    (reading != MISSING).then_some(reading)
}

fn sum(view: View, request: &Request, day: u32) -> Option<u64> {
    let mut sum = 0;
    for t in request.s..request.e {
        let reading = view.day(day)?[t as usize - QUARTERS];
        sum += u64::from(present(reading)?);
    }
    Some(sum)
}

fn row(view: View, moves: &[u32], request: &Request, back: u32) -> Row {
    let day = day_back(request, back);
    Row {
        back,
        day,
        group: day.map(|day| own_group(moves, day)),
        reason: reason(view, moves, request, back),
        sum: day.and_then(|day| sum(view, request, day)),
    }
}

/// The backs of the rows with this reason, the nearest first.
fn backs_of(rows: &[Row], reason: Reason) -> Vec<u32> {
    let with = rows.iter().filter(|row| row.reason == reason);
    with.map(|row| row.back).collect()
}

/// "Y and N are 10 and 5 for a weekday, 3 and 2 otherwise"; by Average X of Y Y is
/// 10 or 4.
fn most(group: Group, method: u32) -> usize {
    match (group, method) {
        (Group::Weekday, _) => 10,
        (_, AVERAGE) => 4,
        _ => 3,
    }
}

/// N of High X of Y.
fn least(group: Group) -> usize {
    match group {
        Group::Weekday => 5,
        _ => 2,
    }
}

/// Highest first; "equal sums put the day nearer D first".
fn by_rank(rows: &[Row], mut backs: Vec<u32>) -> Vec<u32> {
    let sum = |back: u32| rows[back as usize - 1].sum.expect("a complete day");
    backs.sort_by_key(|&back| (Reverse(sum(back)), back));
    backs
}

/// The Y latest eligible days, or all of them; below N of High X of Y filled up with
/// the highest days with an event, below four weekdays of Average X of Y with the
/// latest.
fn window(rows: &[Row], group: Group, method: u32) -> Vec<u32> {
    let mut window = backs_of(rows, Reason::Eligible);
    window.truncate(most(group, method));
    let spare = backs_of(rows, Reason::EventRecorded);
    let (spare, up_to) = match (method, group) {
        (AVERAGE, Group::Weekday) => (spare, 4),
        (AVERAGE, _) => (spare, 0),
        _ => (by_rank(rows, spare), least(group)),
    };
    let missing = up_to.max(window.len()) - window.len();
    window.extend(spare.into_iter().take(missing));
    window
}

/// Of Average X of Y: "the 5th and 6th of the latest ten", "the 2nd and 3rd of three
/// to nine, both of two, or one".
fn passed(method: u32, size: usize) -> usize {
    match (method, size) {
        (AVERAGE, 10) => 4,
        (AVERAGE, 3..=9) => 1,
        _ => 0,
    }
}

/// How many are chosen; none is refusal 9. Of Average X of Y "three or two of them, or
/// one day of another group, are enough only where P is at least 7 days before D".
fn taken(request: &Request, group: Group, size: usize) -> usize {
    let seven = request.p + 7 <= request.d;
    match (request.method, group, size) {
        (AVERAGE, Group::Weekday, 4..) => 2,
        (AVERAGE, Group::Weekday, 2 | 3) if seven => 2,
        (AVERAGE, Group::Weekday, _) => 0,
        (AVERAGE, _, 2..) => 2,
        (AVERAGE, _, 1) if seven => 1,
        (AVERAGE, _, _) => 0,
        (_, _, size) if size < least(group) => 0,
        _ => least(group),
    }
}

/// None where 8 is given: "eligible held days below Y and a relevant day before F".
/// Every day up to D is held from F on, so a relevant day that is not held is one.
fn ranking(rows: &[Row], group: Group, request: &Request) -> Option<Ranking> {
    let eligible = backs_of(rows, Reason::Eligible).len();
    let cut = !backs_of(rows, Reason::NotHeld).is_empty();
    if eligible < most(group, request.method) && cut {
        return None;
    }
    let backs = by_rank(rows, window(rows, group, request.method));
    let size = backs.len();
    Some(Ranking {
        backs,
        passed: passed(request.method, size),
        taken: taken(request, group, size),
    })
}

/// The ruler: D-1 and then D, none where a reading is missing or the day not held.
fn ruler(view: View, d: u32) -> Vec<Option<u32>> {
    let day = |day: Option<u32>| match day.and_then(|day| view.day(day)) {
        Some(readings) => readings.iter().map(|&reading| present(reading)).collect(),
        None => vec![None; QUARTERS],
    };
    [day(d.checked_sub(1)), day(Some(d))].concat()
}

/// The sum of the twelve quarters that end there, if there are twelve and all are
/// present.
fn twelve(ruler: &[Option<u32>], end: u32) -> Option<i64> {
    let start = (end as usize).checked_sub(12)?;
    let mut sum = 0;
    for reading in &ruler[start..end as usize] {
        sum += i64::from((*reading)?);
    }
    Some(sum)
}

/// "the twelve ruler quarters ending at n, if n is at least 12 and all twelve readings
/// are present. Otherwise .. the latest twelve .. that end at or before s."
fn adjustment(view: View, request: &Request, sums: &[i64]) -> Option<Adjustment> {
    let ruler = ruler(view, request.d);
    let mut end = request.n;
    if twelve(&ruler, end).is_none() {
        end = request.s;
        while twelve(&ruler, end).is_none() {
            end = end.checked_sub(1)?;
        }
    }
    let b = sums[end as usize - 12..end as usize].iter().sum();
    Some(Adjustment {
        end,
        a: twelve(&ruler, end)?,
        b,
    })
}

/// S(t) along the ruler: "the sum, over the N chosen days, of the reading at quarter t
/// mod 96".
fn sums(view: View, request: &Request, chosen: &[u32]) -> Vec<i64> {
    let mut sums = vec![0; RULER];
    for &back in chosen {
        let readings = view.day(request.d - back).expect("a held day");
        for (t, sum) in sums.iter_mut().enumerate() {
            *sum += i64::from(readings[t % QUARTERS]);
        }
    }
    sums
}

/// 12·S(t) + N·A - B of each quarter of the event; S(t) of Average X of Y.
fn numerators(
    request: &Request,
    taken: usize,
    sums: &[i64],
    adjustment: Option<Adjustment>,
) -> Option<Vec<i64>> {
    let event = &sums[request.s as usize..request.e as usize];
    if request.method == AVERAGE {
        return Some(event.to_vec());
    }
    let Adjustment { a, b, .. } = adjustment?;
    let n = taken as i64;
    Some(event.iter().map(|s| 12 * s + n * a - b).collect())
}

/// The working, or a refusal that leaves nothing to show: 1 to 3, 14, 4, 5 or 6.
pub fn working(view: View, moves: &[u32], request: &Request) -> Result<Working, Refusal> {
    check_table(view)?;
    check_moves(moves)?;
    check_request(view, request, QUARTERS)?;
    let group = own_group(moves, request.d);
    let row = |back| row(view, moves, request, back);
    let rows: Vec<Row> = (1..=LOOK_BACK).map(row).collect();
    let ranking = ranking(&rows, group, request);
    let mut working = Working {
        group,
        most: most(group, request.method),
        rows,
        ranking,
        sums: None,
        adjustment: None,
        numerators: None,
    };
    let chosen = working.ranking.as_ref().map_or(&[][..], Ranking::chosen);
    if !chosen.is_empty() {
        let sums = sums(view, request, chosen);
        if request.method != AVERAGE {
            working.adjustment = adjustment(view, request, &sums);
        }
        working.numerators = numerators(request, chosen.len(), &sums, working.adjustment);
        working.sums = Some(sums);
    }
    Ok(working)
}
