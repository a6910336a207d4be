//! The figures on the way to an answer, none worked out here: each is read off the archive's replies over the table, and over tables changed at one
//! point.

use crate::told::{DAYS, NOTHING};
use crate::{proved, proved_part, proved_told, QUARTERS};
use reference::table::{EVENT, MISSING, OUTAGE};
use reference::{Request, Table};
use std::ops::Range;

/// Names of include/honeyplank.h.
const RESULT: u32 = 0;
const CARRIED: u32 = 1;
const COUNT: u32 = 3;
const REACH: u32 = 9;
const DENOMINATOR: u32 = 10;
const ADJUSTMENT: u32 = 11;

/// Refusal 9, which carries the size of the window.
const TOO_FEW: i64 = 9;

/// A reading is twelve twelfths: numerators are over 12N.
const TWELVE: i64 = 12;

/// How a day stands to an event.
#[derive(Clone, Copy, PartialEq, Eq, Debug)]
pub enum Standing {
    InWindow,
    /// Left out for this alone: without it the day would be in the window.
    Marked,
    Out,
    Incomplete,
    /// Relevant to an event a day later.
    DayBefore,
    /// Relevant to an event on a Saturday, on a Sunday, on a Wednesday.
    OfSaturdays,
    OfSundays,
    OfWeekdays,
}

/// An answered event.
#[derive(Clone)]
pub struct Event {
    pub table: Table,
    pub moves: Vec<u32>,
    pub request: Request,
}

/// Replies.
impl Event {
    fn told(&self, name: u32) -> i64 {
        let told = proved_told(&self.table, &self.moves, &self.request, name);
        assert_ne!(told, NOTHING, "name {name} of {:?}", self.request);
        told
    }

    /// N.
    pub fn count(&self) -> i64 {
        self.told(COUNT)
    }

    pub fn reach(&self) -> i64 {
        self.told(REACH)
    }

    /// 12N.
    pub fn denominator(&self) -> i64 {
        self.told(DENOMINATOR)
    }

    /// N·A - B.
    pub fn adjustment(&self) -> i64 {
        self.told(ADJUSTMENT)
    }

    /// The chosen days by rank.
    pub fn chosen(&self) -> Vec<u32> {
        (0..self.count() as u32).map(|rank| self.told(DAYS as u32 + rank) as u32).collect()
    }

    pub fn numerators(&self) -> Vec<i64> {
        let (number, out) = proved(&self.table, &self.moves, &self.request, (self.request.e - self.request.s) as usize);
        assert_eq!(number, 0, "{:?}", self.request);
        out.into_iter().map(i64::from).collect()
    }

    fn place(&self, day: u32, quarter: u32) -> usize {
        usize::try_from(proved_part(&self.table, day)).expect("a held day") + quarter as usize
    }

    pub fn reading(&self, day: u32, quarter: u32) -> u32 {
        self.table.readings[self.place(day, quarter)]
    }

    pub fn mark(&self, day: u32) -> u8 {
        self.table.marks[self.place(day, 0) / QUARTERS]
    }

    /// The event's own quarters of a day.
    pub fn quarters(&self) -> Range<u32> {
        self.request.s - QUARTERS as u32..self.request.e - QUARTERS as u32
    }

    /// The held days before the event, the nearest first.
    pub fn days_before(&self) -> impl Iterator<Item = u32> {
        (self.table.first..self.request.d).rev()
    }

    /// The day and its quarter at a ruler quarter.
    pub fn on_ruler(&self, t: u32) -> (u32, u32) {
        (self.request.d - 1 + t / QUARTERS as u32, t % QUARTERS as u32)
    }
}

/// The same event, of something changed.
impl Event {
    /// These quarters of a day, where a reading is present.
    fn with(&self, day: u32, quarters: Range<u32>, change: impl Fn(u32) -> u32) -> Event {
        let mut event = self.clone();
        let (from, to) = (self.place(day, quarters.start), self.place(day, quarters.end));
        for reading in event.table.readings[from..to].iter_mut().filter(|reading| **reading != MISSING) {
            *reading = change(*reading);
        }
        event
    }

    /// Days at nought over the event.
    fn without(&self, days: impl Iterator<Item = u32>) -> Event {
        days.fold(self.clone(), |event, day| event.with(day, self.quarters(), |_| 0))
    }

    fn marked(&self, day: u32, mark: u8) -> Event {
        let mut event = self.clone();
        event.table.marks[self.place(day, 0) / QUARTERS] = mark;
        event
    }

    /// A day with no reading missing.
    fn filled(&self, day: u32) -> Event {
        let mut event = self.clone();
        let from = self.place(day, 0);
        for reading in event.table.readings[from..from + QUARTERS].iter_mut().filter(|reading| **reading == MISSING) {
            *reading = 0;
        }
        event
    }

    /// On a later day, for which the table is made longer.
    fn moved_to(&self, d: u32) -> Event {
        let mut event = self.clone();
        event.request.d = d;
        let days = event.table.marks.len().max((d + 1 - event.table.first) as usize);
        event.table.marks.resize(days, 0);
        event.table.readings.resize(days * QUARTERS, 0);
        event
    }
}

/// The days.
impl Event {
    /// Where every other day before is at nought over the event, a day of the window is ranked first.
    fn alone(&self, day: u32) -> Event {
        assert!(self.quarters().any(|quarter| self.reading(day, quarter) > 0), "{day} is at nought");
        self.without(self.days_before().filter(|&other| other != day))
    }

    fn has_in_window(&self, day: u32) -> bool {
        self.alone(day).told(DAYS as u32) == i64::from(day)
    }

    /// The window, the nearest day first.
    pub fn window(&self) -> Vec<u32> {
        self.days_before().filter(|&day| self.has_in_window(day)).collect()
    }

    /// The sum of a day of the window over the event: alone, it is all of S.
    pub fn sum(&self, day: u32) -> i64 {
        self.alone(day).sums().iter().sum()
    }

    /// The window by rank: the days that are placed fall to nought, and the next come first.
    pub fn ranked(&self) -> Vec<u32> {
        let window = self.window();
        let mut placed: Vec<u32> = vec![];
        while placed.len() < window.len() {
            let next = self.without(placed.iter().copied()).chosen();
            let next: Vec<u32> = next.into_iter().filter(|day| !placed.contains(day)).collect();
            assert!(!next.is_empty(), "{placed:?} of {window:?}");
            placed.extend(next);
        }
        placed
    }

    /// The highest day of the window over the whole day.
    pub fn highest_of_whole_days(&self) -> u32 {
        let mut event = self.clone();
        (event.request.s, event.request.e, event.request.n) = (96, 192, 96);
        event.chosen()[0]
    }

    /// Where every day but one is out, the window is that day if it is relevant, and nothing otherwise.
    pub fn is_relevant(&self, day: u32) -> bool {
        let mut event = self.filled(day);
        event.table.marks.fill(OUTAGE);
        let event = event.marked(day, 0);
        assert_eq!(event.told(RESULT), TOO_FEW);
        event.told(CARRIED) == 1
    }

    /// How a day within the reach stands to the event.
    pub fn standing(&self, day: u32) -> Standing {
        let without_bit = |bit: u8| self.mark(day) & bit != 0 && self.marked(day, self.mark(day) & !bit).has_in_window(day);
        if self.has_in_window(day) {
            Standing::InWindow
        } else if !self.is_relevant(day) {
            self.why_not_relevant(day)
        } else if without_bit(EVENT) {
            Standing::Marked
        } else if without_bit(OUTAGE) {
            Standing::Out
        } else {
            assert!(self.filled(day).has_in_window(day), "{day} is left out for more than one reason");
            Standing::Incomplete
        }
    }

    fn why_not_relevant(&self, day: u32) -> Standing {
        let d = self.request.d;
        let next = |weekday: u32| self.moved_to((d + 1..=d + 7).find(|later| later % 7 == weekday).expect("a day of the week"));
        if day == d - 1 && self.moved_to(d + 1).is_relevant(day) {
            Standing::DayBefore
        } else if next(0).is_relevant(day) {
            Standing::OfSaturdays
        } else if next(1).is_relevant(day) {
            Standing::OfSundays
        } else {
            assert!(next(4).is_relevant(day), "{day} is of no group");
            Standing::OfWeekdays
        }
    }
}

/// The sums.
impl Event {
    /// S at each quarter of the event.
    pub fn sums(&self) -> Vec<i64> {
        let of = |numerator: i64| {
            let over = numerator - self.adjustment();
            assert!(numerator > 0 && over % TWELVE == 0, "a floored numerator");
            over / TWELVE
        };
        self.numerators().into_iter().map(of).collect()
    }

    /// The ruler quarters of the adjustment window: a kW more there, and the adjustment moves by N.
    pub fn adjustment_window(&self) -> Vec<u32> {
        let moves = |&t: &u32| {
            let (day, quarter) = self.on_ruler(t);
            let by = self.with(day, quarter..quarter + 1, |reading| reading + 1).adjustment() - self.adjustment();
            assert!(by == 0 || by == self.count(), "ruler quarter {t}");
            by != 0
        };
        (0..self.request.s).filter(moves).collect()
    }

    /// S at a quarter of the adjustment window: the adjustment rises by it where the chosen days fall to nought there.
    pub fn sum_before(&self, t: u32) -> i64 {
        let (_, quarter) = self.on_ruler(t);
        let fallen = self.chosen().into_iter().fold(self.clone(), |event, day| event.with(day, quarter..quarter + 1, |_| 0));
        fallen.adjustment() - self.adjustment()
    }

    /// B: what is left of the adjustment where A is nought.
    pub fn b(&self) -> i64 {
        let nought = |event: Event, t: u32| {
            let (day, quarter) = self.on_ruler(t);
            event.with(day, quarter..quarter + 1, |_| 0)
        };
        -self.adjustment_window().into_iter().fold(self.clone(), nought).adjustment()
    }

    /// A, by N·A = adjustment + B.
    pub fn a(&self) -> i64 {
        let whole = self.adjustment() + self.b();
        assert_eq!(whole % self.count(), 0);
        whole / self.count()
    }
}
