//! What has to come up of the methods (02, order 3): each row of Average X of Y's rules, on both sides of its edges, what it is beside High X of Y, and
//! methods that there are not.

use crate::lists::number;
use crate::met::Counts;
use reference::calendar::{group_of, Group};
use reference::choice::{choose, eligible_days, event_sum, ranked, spare_days, Choice};
use reference::moves::faults;
use reference::table::{AVERAGE, HIGH, HIGHEST};
use reference::{verdict, Draft, Refusal, Request, View};

/// How often each was met.
#[derive(Default, Debug, Clone)]
pub struct Met {
    pub rows: Counts,
    pub beside: Counts,
    pub unknown: Counts,
}

impl Met {
    /// The least that was met of all but the rows.
    pub fn least_others(&self) -> u64 {
        self.beside.least().min(self.unknown.least())
    }
}

/// A call.
#[derive(Clone, Copy)]
struct Asked<'a> {
    view: View<'a>,
    moves: &'a [u32],
    request: &'a Request,
    room: usize,
}

impl Asked<'_> {
    /// 0, or the number of the refusal, by this method.
    fn number_by(&self, method: u32) -> u32 {
        number(&verdict(self.view, self.moves, &Request { method, ..*self.request }, self.room))
    }
}

/// An event by Average X of Y that came to the choice of its days, and how it ends by the reference.
struct Case<'a> {
    asked: Asked<'a>,
    number: u32,
    group: Group,
    eligible: Vec<u32>,
    spare: Vec<u32>,
    chosen: Result<Choice, Refusal>,
}

impl<'a> Case<'a> {
    fn new(asked: Asked<'a>, number: u32) -> Case<'a> {
        let Asked { view, moves, request, .. } = asked;
        Case {
            asked,
            number,
            group: group_of(request.d, moves).expect("a held day"),
            eligible: eligible_days(view, moves, request),
            spare: spare_days(view, moves, request),
            chosen: choose(view, moves, request),
        }
    }

    /// A weekday that ends with this number.
    fn weekday(&self, number: u32) -> bool {
        self.group == Group::Weekday && self.number == number
    }

    /// Another day that does.
    fn other(&self, number: u32) -> bool {
        self.group != Group::Weekday && self.number == number
    }

    /// How many eligible days there are.
    fn n(&self) -> usize {
        self.eligible.len()
    }

    /// So many eligible days and so many spare ones.
    fn has(&self, eligible: usize, spare: usize) -> bool {
        self.n() == eligible && self.spare.len() == spare
    }

    /// So many eligible days, and more spare ones than that.
    fn has_more(&self, eligible: usize, spare: usize) -> bool {
        self.n() == eligible && self.spare.len() > spare
    }

    /// Fewer than four eligible days and the spare ones are so many in all.
    fn with_spare(&self, all: usize) -> bool {
        self.n() < 4 && self.n() + self.spare.len() == all
    }

    /// D-P.
    fn back(&self) -> u32 {
        self.asked.request.d - self.asked.request.p
    }

    fn window(&self) -> &[u32] {
        self.chosen.as_ref().map_or(&[], |choice| &choice.window)
    }

    /// Answered over a window of so many days or more, of which these two ranks, from 1, have the same sum.
    fn tie(&self, size: usize, first: usize, second: usize) -> bool {
        let Asked { view, request, .. } = self.asked;
        let window = self.window();
        self.number == 0 && window.len() >= size && (window.len() == 10) == (size == 10) && {
            let ranked = ranked(view, request, window.to_vec());
            event_sum(view, request, ranked[first - 1]) == event_sum(view, request, ranked[second - 1])
        }
    }

    /// An averaged day that is spare, and an eligible one of the window that has the same sum.
    fn tie_with_spare(&self) -> bool {
        let Asked { view, request, .. } = self.asked;
        let sum = |day: &u32| event_sum(view, request, *day);
        let mut spare = self.averaged().iter().filter(|day| self.spare.contains(day));
        spare.any(|day| self.window().iter().any(|other| self.eligible.contains(other) && sum(other) == sum(day)))
    }

    /// The averaged days.
    fn averaged(&self) -> &[u32] {
        self.chosen.as_ref().map_or(&[], |choice| &choice.days)
    }

    /// Answered with the latest spare days, where with the highest ones other days were averaged.
    fn latest_not_highest(&self) -> bool {
        let Asked { view, request, .. } = self.asked;
        self.weekday(0) && self.n() < 4 && self.n() + self.spare.len() > 4 && {
            let highest = ranked(view, request, self.spare.clone());
            let window = [&self.eligible[..], &highest[..4 - self.n()]].concat();
            ranked(view, request, window)[1..3] != *self.averaged()
        }
    }

    /// How far the oldest day of the window is.
    fn oldest(&self) -> u32 {
        self.asked.request.d - self.window().iter().min().expect("a day")
    }

    fn reach(&self) -> u32 {
        self.chosen.as_ref().map_or(0, |choice| choice.reach)
    }

    /// Both answered, over other days.
    fn other_than_high(&self) -> bool {
        let Asked { view, moves, request, .. } = self.asked;
        self.number == 0 && choose(view, moves, &Request { method: HIGH, ..*request }).is_ok_and(|high| high.days != self.averaged())
    }

    /// This number, where High X of Y has that.
    fn instead(&self, number: u32, high: u32) -> bool {
        self.number == number && self.asked.number_by(HIGH) == high
    }

    /// The event's first numerator is as high as one can be of two days.
    fn highest(&self) -> bool {
        let first = self.asked.request.event_quarters().start;
        let at = |day: &u32| self.asked.view.day(*day).expect("a held day")[first];
        self.number == 0 && self.averaged().len() == 2 && self.averaged().iter().all(|day| at(day) == HIGHEST)
    }
}

type Outcome = (&'static str, fn(&Case) -> bool);

/// The rows, on both sides of each edge: ten and four eligible days, spare ones up to four or more, three and two days with P about D-7; and of the
/// other groups four, three, two, one and none.
const ROWS: [Outcome; 54] = [
    ("weekday, 10 eligible", |c| c.weekday(0) && c.n() == 10),
    ("weekday, more", |c| c.weekday(0) && c.n() > 10),
    ("weekday, 9 eligible", |c| c.weekday(0) && c.n() == 9),
    ("weekday, 8 eligible", |c| c.weekday(0) && c.n() == 8),
    ("weekday, 7 eligible", |c| c.weekday(0) && c.n() == 7),
    ("weekday, 6 eligible", |c| c.weekday(0) && c.n() == 6),
    ("weekday, 5 eligible", |c| c.weekday(0) && c.n() == 5),
    ("weekday, 4 eligible", |c| c.weekday(0) && c.n() == 4),
    ("weekday, 4 eligible, P after D-7", |c| c.weekday(0) && c.n() == 4 && c.back() < 7),
    ("weekday, 3 eligible and a spare", |c| c.weekday(0) && c.has(3, 1)),
    ("weekday, 3 and more", |c| c.weekday(0) && c.has_more(3, 1)),
    ("weekday, 2 eligible and two spare", |c| c.weekday(0) && c.has(2, 2)),
    ("weekday, 2 and more", |c| c.weekday(0) && c.has_more(2, 2)),
    ("weekday, 1 eligible and three spare", |c| c.weekday(0) && c.has(1, 3)),
    ("weekday, 1 and more", |c| c.weekday(0) && c.has_more(1, 3)),
    ("weekday, none eligible and four spare", |c| c.weekday(0) && c.has(0, 4)),
    ("weekday, none and more", |c| c.weekday(0) && c.has_more(0, 4)),
    ("weekday, four with spare, P after D-7", |c| c.weekday(0) && c.with_spare(4) && c.back() < 7),
    ("weekday, 3 eligible alone", |c| c.weekday(0) && c.has(3, 0)),
    ("weekday, three with spare", |c| c.weekday(0) && c.with_spare(3) && c.n() < 3),
    ("weekday, three, P at D-7", |c| c.weekday(0) && c.with_spare(3) && c.back() == 7),
    ("weekday, three, P at D-8", |c| c.weekday(0) && c.with_spare(3) && c.back() == 8),
    ("weekday, three, P before", |c| c.weekday(0) && c.with_spare(3) && c.back() > 8),
    ("weekday, 2 eligible alone", |c| c.weekday(0) && c.has(2, 0)),
    ("weekday, two with spare", |c| c.weekday(0) && c.with_spare(2) && c.n() < 2),
    ("weekday, two, P at D-7", |c| c.weekday(0) && c.with_spare(2) && c.back() == 7),
    ("weekday, two, P at D-8", |c| c.weekday(0) && c.with_spare(2) && c.back() == 8),
    ("weekday, two, P before", |c| c.weekday(0) && c.with_spare(2) && c.back() > 8),
    ("9: weekday, 3 eligible, P at D-6", |c| c.weekday(9) && c.has(3, 0) && c.back() == 6),
    ("9: weekday, three with spare, P at D-6", |c| c.weekday(9) && c.with_spare(3) && c.n() < 3 && c.back() == 6),
    ("9: weekday, three, P after", |c| c.weekday(9) && c.with_spare(3) && c.back() < 6),
    ("9: weekday, two, P at D-6", |c| c.weekday(9) && c.with_spare(2) && c.back() == 6),
    ("9: weekday, two, P after", |c| c.weekday(9) && c.with_spare(2) && c.back() < 6),
    ("9: weekday, one eligible, P at D-7 or before", |c| c.weekday(9) && c.has(1, 0) && c.back() >= 7),
    ("9: weekday, one spare, P at D-7 or before", |c| c.weekday(9) && c.has(0, 1) && c.back() >= 7),
    ("9: weekday, one, P after", |c| c.weekday(9) && c.with_spare(1) && c.back() < 7),
    ("9: weekday, none, P at D-7 or before", |c| c.weekday(9) && c.with_spare(0) && c.back() >= 7),
    ("9: weekday, none, P after", |c| c.weekday(9) && c.with_spare(0) && c.back() < 7),
    ("other, 4 eligible", |c| c.other(0) && c.n() == 4),
    ("other, more", |c| c.other(0) && c.n() > 4),
    ("other, 4 or more, P after D-7", |c| c.other(0) && c.n() >= 4 && c.back() < 7),
    ("other, 3 eligible", |c| c.other(0) && c.n() == 3),
    ("other, 3 eligible, P after D-7", |c| c.other(0) && c.n() == 3 && c.back() < 7),
    ("other, 2 eligible", |c| c.other(0) && c.n() == 2),
    ("other, 2 eligible, P after D-7", |c| c.other(0) && c.n() == 2 && c.back() < 7),
    ("other, 1 eligible, P at D-7", |c| c.other(0) && c.n() == 1 && c.back() == 7),
    ("other, 1 eligible, P at D-8", |c| c.other(0) && c.n() == 1 && c.back() == 8),
    ("other, 1 eligible, P before", |c| c.other(0) && c.n() == 1 && c.back() > 8),
    ("other, 1 eligible and spare ones", |c| c.other(0) && c.has_more(1, 0)),
    ("9: other, 1 eligible, P at D-6", |c| c.other(9) && c.n() == 1 && c.back() == 6),
    ("9: other, 1 eligible, P after", |c| c.other(9) && c.n() == 1 && c.back() < 6),
    ("9: other, none, P at D-7 or before", |c| c.other(9) && c.n() == 0 && c.back() >= 7),
    ("9: other, none, P after", |c| c.other(9) && c.n() == 0 && c.back() < 7),
    ("9: other, spare ones alone", |c| c.other(9) && c.has_more(0, 0)),
];

/// Groups, ties, spare days, reach and margin, and what High X of Y has instead.
const BESIDE: [Outcome; 24] = [
    ("a Saturday", |c| c.number == 0 && c.group == Group::Saturday),
    ("one of the holiday group", |c| c.number == 0 && c.group == Group::Holiday),
    ("ranks 4 and 5 of ten tie", |c| c.tie(10, 4, 5)),
    ("5 and 6 of ten", |c| c.tie(10, 5, 6)),
    ("6 and 7 of ten", |c| c.tie(10, 6, 7)),
    ("4 to 7 of ten", |c| c.tie(10, 4, 7)),
    ("1 and 2 of fewer", |c| c.tie(3, 1, 2)),
    ("2 and 3 of fewer", |c| c.tie(3, 2, 3)),
    ("3 and 4 of fewer", |c| c.tie(4, 3, 4)),
    ("1 and 2 of two", |c| c.tie(2, 1, 2) && c.window().len() == 2),
    ("a spare day is averaged", |c| c.averaged().iter().any(|day| c.spare.contains(day))),
    ("and ties with an eligible one", |c| c.tie_with_spare()),
    ("the latest spare days, not the highest", |c| c.latest_not_highest()),
    ("a weekday's reach to its tenth", |c| c.weekday(0) && c.n() >= 10 && c.reach() == c.oldest()),
    ("another's to its fourth", |c| c.other(0) && c.n() >= 4 && c.reach() == c.oldest()),
    ("a reach beyond the window", |c| c.number == 0 && c.reach() > c.oldest()),
    ("8: weekday, 9 eligible", |c| c.weekday(8) && c.n() == 9),
    ("8: other, 3 eligible", |c| c.other(8) && c.n() == 3),
    ("8, answered by High X of Y", |c| c.instead(8, 0)),
    ("9, answered by High X of Y", |c| c.instead(9, 0)),
    ("answered, 9 by High X of Y", |c| c.instead(0, 9)),
    ("answered, 10 by High X of Y", |c| c.instead(0, 10)),
    ("over other days than High X of Y", |c| c.other_than_high()),
    ("the highest numerator", |c| c.highest()),
];

/// A call by a method that there is not, and how it ends by the reference.
struct Unknown<'a> {
    asked: Asked<'a>,
    number: u32,
    /// How it ends by each that there is.
    otherwise: [u32; 2],
}

impl Unknown<'_> {
    /// 4 for this method alone.
    fn for_alone(&self, method: u32) -> bool {
        self.number == 4 && self.asked.request.method == method && self.otherwise != [4, 4]
    }

    /// 4 goes before this of both methods.
    fn before(&self, number: u32) -> bool {
        self.number == 4 && self.otherwise == [number; 2]
    }
}

type UnknownOutcome = (&'static str, fn(&Unknown) -> bool);

const UNKNOWN: [UnknownOutcome; 19] = [
    ("4 for method 2", |c| c.for_alone(2)),
    ("4 for method 3", |c| c.for_alone(3)),
    ("4 for method 255", |c| c.for_alone(255)),
    ("4 for method 256", |c| c.for_alone(256)),
    ("4 for method 257", |c| c.for_alone(257)),
    ("4 for method 65,536", |c| c.for_alone(65_536)),
    ("4 for method 65,537", |c| c.for_alone(65_537)),
    ("4 for method 4,294,967,295", |c| c.for_alone(u32::MAX)),
    ("1 before it", |c| c.number == 1),
    ("2 before it", |c| c.number == 2),
    ("3 before it", |c| c.number == 3),
    ("14 before it", |c| c.number == 14 && !faults(c.asked.moves).is_empty()),
    ("it and another 4", |c| c.before(4)),
    ("it before 5", |c| c.before(5)),
    ("it before 6", |c| c.before(6)),
    ("it before 7", |c| c.before(7)),
    ("it before 8", |c| c.before(8)),
    ("it before 9", |c| c.before(9)),
    ("it alone", |c| c.before(0)),
];

/// Counts a call that ends with this number.
pub fn count_call(call: &Draft, number: u32, met: &mut Met) {
    let Draft { table, moves, request, room } = call;
    let asked = Asked { view: table.view(), moves, request, room: *room };
    match (request.method, number) {
        (AVERAGE, 0 | 8 | 9) => {
            let case = Case::new(asked, number);
            met.rows.count(ROWS.iter().map(|(name, is)| (*name, is(&case))));
            met.beside.count(BESIDE.iter().map(|(name, is)| (*name, is(&case))));
        }
        (HIGH | AVERAGE, _) => {}
        _ => {
            let case = Unknown { asked, number, otherwise: [HIGH, AVERAGE].map(|method| asked.number_by(method)) };
            met.unknown.count(UNKNOWN.iter().map(|(name, is)| (*name, is(&case))));
        }
    }
}

/// Counts the rows of an event of a file.
pub fn count_event(view: View, moves: &[u32], request: &Request, number: u32, rows: &mut Counts) {
    if request.method == AVERAGE && [0, 9].contains(&number) {
        let case = Case::new(Asked { view, moves, request, room: 0 }, number);
        rows.count(ROWS.iter().map(|(name, is)| (*name, is(&case))));
    }
}
