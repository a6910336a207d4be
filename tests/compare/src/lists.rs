//! What comes up with lists of moved holidays: in calls over a table, and in record files.

use crate::met::Counts;
use reference::calendar::{group_of, is_easter, is_fixed, Group, LAST_DAY};
use reference::choice::{choose, Choice};
use reference::moves::{faults, first_days, second_days, Fault, MOST_MOVES, MOVE_NUMBERS};
use reference::record::{Contents, DY_LENGTH, EV_LENGTH, MV_LENGTH, PF_LENGTH};
use reference::{verdict, Answer, Draft, Refusal};

/// How a call ends, or its choice of days.
type Chosen = Result<Choice, Refusal>;

/// 0, or the number of the refusal.
pub fn number<T>(result: &Result<T, Refusal>) -> u32 {
    result.as_ref().err().map_or(0, Refusal::number)
}

/// A call with a list, and how it ends by the reference.
struct Case<'a> {
    call: &'a Draft,
    number: u32,
    faults: Vec<Fault>,
    /// The days by the list, by none and by its first pair alone, where it came to that.
    chosen: Option<[Chosen; 3]>,
    /// Where the list was refused: the number with none.
    otherwise: Option<u32>,
}

impl<'a> Case<'a> {
    fn new(call: &'a Draft, number: u32) -> Case<'a> {
        let Draft { table, moves, request, room } = call;
        let choice = |moves: &[u32]| choose(table.view(), moves, request);
        let chosen = matches!(number, 0 | 8..=10).then(|| [choice(moves), choice(&[]), choice(&moves[..MOVE_NUMBERS])]);
        let otherwise = (number == 14).then(|| self::number(&verdict(table.view(), &[], request, *room)));
        Case { call, number, faults: faults(moves), chosen, otherwise }
    }

    fn answered(&self) -> bool {
        self.number == 0
    }

    /// The days by the list and by none.
    fn chosen(&self, is: impl Fn(&Chosen, &Chosen) -> bool) -> bool {
        self.chosen.as_ref().is_some_and(|[with, without, _]| is(with, without))
    }

    /// Both answered, and this holds of them.
    fn both(&self, is: impl Fn(&Choice, &Choice) -> bool) -> bool {
        self.chosen(|with, without| matches!((with, without), (Ok(with), Ok(without)) if is(with, without)))
    }

    /// This refusal, where with no list there is that number.
    fn instead(&self, number: u32, without: u32) -> bool {
        self.number == number && self.chosen(|_, none| self::number(none) == without)
    }

    /// The same refusal with other numbers.
    fn carries_other(&self, number: u32) -> bool {
        self.instead(number, number) && self.chosen(|with, without| with != without)
    }

    fn by_a_later_pair(&self) -> bool {
        self.chosen.as_ref().is_some_and(|[with, _, first]| with != first)
    }

    /// How many days before the event a day is.
    fn back(&self, day: u32) -> i64 {
        i64::from(self.call.request.d) - i64::from(day)
    }

    /// Answered, with a pair such that both of its days are so.
    fn pair(&self, is: impl Fn(u32, u32) -> bool) -> bool {
        let moves = &self.call.moves;
        self.answered() && first_days(moves).zip(second_days(moves)).any(|(first, second)| is(first, second))
    }

    /// Answered, with another day of the look-back moved away that is so.
    fn from(&self, is: impl Fn(u32) -> bool) -> bool {
        self.pair(|first, second| first != second && (1..=45).contains(&self.back(first)) && is(first))
    }

    /// Answered, with a day of the look-back moved onto that is so.
    fn onto(&self, is: impl Fn(u32) -> bool) -> bool {
        self.pair(|first, second| first != second && (1..=45).contains(&self.back(second)) && is(second))
    }

    /// The event day's group by the list and by none.
    fn regrouped(&self, with: Group, without: Group) -> bool {
        let d = self.call.request.d;
        self.answered() && group_of(d, &self.call.moves) == Some(with) && group_of(d, &[]) == Some(without)
    }

    /// The second day of more than one pair.
    fn shared(&self, day: u32) -> bool {
        second_days(&self.call.moves).filter(|&other| other == day).count() > 1
    }

    /// Refused 14 for this alone.
    fn for_alone(&self, fault: Fault) -> bool {
        self.number == 14 && self.faults == [fault]
    }

    fn first(&self, is: impl Fn(u32) -> bool) -> bool {
        first_days(&self.call.moves).any(is)
    }

    fn second(&self, is: impl Fn(u32) -> bool) -> bool {
        second_days(&self.call.moves).any(is)
    }

    /// 14, and not so without the last pair.
    fn for_the_last(&self) -> bool {
        let before = self.call.moves.len().saturating_sub(MOVE_NUMBERS);
        self.number == 14 && before > 0 && faults(&self.call.moves[..before]).is_empty()
    }

    /// The second days of the first day that is repeated.
    fn repeats(&self, same: bool) -> bool {
        let pairs: Vec<&[u32]> = self.call.moves.chunks_exact(MOVE_NUMBERS).collect();
        let twice = |place: usize| pairs[..place].iter().any(|pair| pair[0] == pairs[place][0] && (pair[1] == pairs[place][1]) == same);
        self.for_alone(Fault::Repeated) && (0..pairs.len()).any(twice)
    }

    /// This refusal goes before 14.
    fn before_14(&self, number: u32) -> bool {
        self.number == number && !self.faults.is_empty()
    }

    /// 14 goes before this, or nothing else is refused.
    fn after_14(&self, number: u32) -> bool {
        self.otherwise == Some(number)
    }
}

type Outcome = (&'static str, fn(&Case) -> bool);

/// What has to come up in calls with a list: where it shows and where it does not, each clause of 14 alone, and 14 beside the others.
const OUTCOMES: [Outcome; 61] = [
    ("answered by a list", |c| c.answered()),
    ("over other days than by none", |c| c.both(|with, without| with.days != without.days)),
    ("with another reach alone", |c| c.both(|with, without| with.days == without.days && with.reach != without.reach)),
    ("the same as by none", |c| c.answered() && c.both(|with, without| with == without)),
    ("other than by the first pair", |c| c.answered() && c.by_a_later_pair()),
    ("answered, refused 8 by none", |c| c.instead(0, 8)),
    ("answered, refused 9 by none", |c| c.instead(0, 9)),
    ("refused 8, answered by none", |c| c.instead(8, 0)),
    ("refused 9, answered by none", |c| c.instead(9, 0)),
    ("refused 8 with another number", |c| c.carries_other(8)),
    ("refused 9 with other numbers", |c| c.carries_other(9)),
    ("D is a weekday by the list", |c| c.regrouped(Group::Weekday, Group::Holiday)),
    ("D is a Saturday by the list", |c| c.regrouped(Group::Saturday, Group::Holiday)),
    ("D was a weekday", |c| c.regrouped(Group::Holiday, Group::Weekday)),
    ("D was a Saturday", |c| c.regrouped(Group::Holiday, Group::Saturday)),
    ("D-1 moved away", |c| c.from(|day| c.back(day) == 1)),
    ("D-45 moved away", |c| c.from(|day| c.back(day) == 45)),
    ("and it shows", |c| c.from(|day| c.back(day) == 45) && c.both(|with, without| with.reach != without.reach)),
    ("D-46 moved away", |c| c.pair(|first, _| c.back(first) == 46)),
    ("one of Easter's moved away", |c| c.from(is_easter)),
    ("a Sunday moved away", |c| c.from(|day| day % 7 == 1)),
    ("a Saturday moved away", |c| c.from(|day| day % 7 == 0)),
    ("one moved onto itself", |c| c.pair(|first, second| first == second && (1..=45).contains(&c.back(first)))),
    ("onto D", |c| c.pair(|_, second| c.back(second) == 0)),
    ("onto D-1", |c| c.onto(|day| c.back(day) == 1)),
    ("onto D-45", |c| c.onto(|day| c.back(day) == 45)),
    ("onto D-46", |c| c.pair(|_, second| c.back(second) == 46)),
    ("onto D+1", |c| c.pair(|_, second| c.back(second) == -1)),
    ("onto a Sunday", |c| c.onto(|day| day % 7 == 1)),
    ("onto a Saturday", |c| c.onto(|day| day % 7 == 0)),
    ("onto one of Easter's", |c| c.onto(is_easter)),
    ("onto one that is moved away", |c| c.onto(|day| c.first(|first| first == day))),
    ("onto one that stays", |c| c.onto(|day| is_fixed(day) && !c.first(|first| first == day))),
    ("two onto one", |c| c.onto(|day| c.shared(day))),
    ("onto day 0", |c| c.pair(|_, second| second == 0)),
    ("onto day 36,524", |c| c.pair(|_, second| second == LAST_DAY)),
    ("answered by 16 pairs", |c| c.answered() && c.call.moves.len() == MOVE_NUMBERS * MOST_MOVES),
    ("14 for the day before a holiday", |c| c.for_alone(Fault::NotFixed) && c.first(|day| !is_fixed(day) && is_fixed(day + 1))),
    ("14 for the day after one", |c| c.for_alone(Fault::NotFixed) && c.first(|day| !is_fixed(day) && is_fixed(day.wrapping_sub(1)))),
    ("14 for first day 36,524", |c| c.for_alone(Fault::NotFixed) && c.first(|day| day == LAST_DAY)),
    ("14 for first day 36,525", |c| c.number == 14 && c.first(|day| day == LAST_DAY + 1)),
    ("14 for a holiday of 2100", |c| c.number == 14 && c.first(|day| [5, 83, 120, 226, 300, 358, 359].contains(&day.wrapping_sub(LAST_DAY + 1)))),
    ("14 for a first day past two bytes", |c| c.number == 14 && c.first(|day| day > 65_535)),
    ("14 for second day 36,525", |c| c.for_alone(Fault::Past) && c.second(|day| day == LAST_DAY + 1)),
    ("14 for a second day past two bytes", |c| c.for_alone(Fault::Past) && c.second(|day| day > 65_535)),
    ("14 for a repeated pair", |c| c.repeats(true)),
    ("14 for a repeated first day alone", |c| c.repeats(false)),
    ("14 for one repeated after the first", |c| c.for_alone(Fault::Repeated) && faults(&c.call.moves[MOVE_NUMBERS..]) == [Fault::Repeated]),
    ("14 for 17 pairs", |c| c.for_alone(Fault::TooMany) && c.call.moves.len() == MOVE_NUMBERS * (MOST_MOVES + 1)),
    ("14 for half a pair", |c| c.for_alone(Fault::Half)),
    ("14 for the last pair", |c| c.for_the_last()),
    ("1 before 14", |c| c.before_14(1)),
    ("2 before 14", |c| c.before_14(2)),
    ("3 before 14", |c| c.before_14(3)),
    ("14 before 4", |c| c.after_14(4)),
    ("14 before 5", |c| c.after_14(5)),
    ("14 before 6", |c| c.after_14(6)),
    ("14 before 7", |c| c.after_14(7)),
    ("14 before 8", |c| c.after_14(8)),
    ("14 before 9 or 10", |c| c.after_14(9) || c.after_14(10)),
    ("14 alone", |c| c.after_14(0)),
];

/// Counts a call that ends with this number, where it has a list.
pub fn count_call(call: &Draft, number: u32, met: &mut Counts) {
    if !call.moves.is_empty() {
        let case = Case::new(call, number);
        met.count(OUTCOMES.iter().map(|(name, is)| (*name, is(&case))));
    }
}

/// A file with the letters of a move in it.
struct FileCase<'a> {
    file: &'a [u8],
    read: &'a Result<Contents, Refusal>,
}

impl FileCase<'_> {
    /// Where it is refused.
    fn offset(&self) -> Option<usize> {
        self.read.as_ref().err().map(|refusal| refusal.carries()[0] as usize)
    }

    /// Refused at a move, whole or cut, and what stands before it is so.
    fn refused_at_move(&self, whole: bool, is: impl Fn(&[u8]) -> bool) -> bool {
        self.offset().is_some_and(|offset| {
            let (before, after) = self.file.split_at(offset);
            after.starts_with(b"MV") && (after.len() >= MV_LENGTH) == whole && is(before)
        })
    }

    /// Read, and this holds of what it holds.
    fn holds(&self, is: impl Fn(&Contents) -> bool) -> bool {
        self.read.as_ref().is_ok_and(is)
    }
}

/// Whether the last of these bytes are a record of this mark and length.
fn ends_in(bytes: &[u8], mark: &[u8; 2], length: usize) -> bool {
    bytes.len() >= length && bytes[bytes.len() - length..].starts_with(mark)
}

/// Whether these bytes are a head and some moves.
fn is_head(bytes: &[u8]) -> bool {
    bytes.starts_with(b"PF") && bytes.len() >= PF_LENGTH && bytes[PF_LENGTH..].chunks(MV_LENGTH).all(|record| record.starts_with(b"MV"))
}

type FileOutcome = (&'static str, fn(&FileCase) -> bool);

/// What has to come up in files with moves.
const FILE_OUTCOMES: [FileOutcome; 11] = [
    ("one move read", |c| c.holds(|contents| contents.moves.len() == MOVE_NUMBERS)),
    ("16 moves read", |c| c.holds(|contents| contents.moves.len() == MOVE_NUMBERS * MOST_MOVES)),
    ("day 36,525 read", |c| c.holds(|contents| contents.moves.contains(&(LAST_DAY + 1)))),
    ("day 65,535 read", |c| c.holds(|contents| contents.moves.contains(&65_535))),
    ("moves and no days", |c| c.holds(|contents| contents.table.marks.is_empty() && !contents.events.is_empty())),
    ("moves and nothing else", |c| c.holds(|contents| contents.table.marks.is_empty() && contents.events.is_empty())),
    ("refused at the 17th move", |c| c.refused_at_move(true, |before| is_head(before) && before.len() == PF_LENGTH + MV_LENGTH * MOST_MOVES)),
    ("at a move cut", |c| c.refused_at_move(false, |before| is_head(before) && before.len() < PF_LENGTH + MV_LENGTH * MOST_MOVES)),
    ("at a move before the head", |c| c.refused_at_move(true, <[u8]>::is_empty)),
    ("at a move after a day", |c| c.refused_at_move(true, |before| !is_head(before) && ends_in(before, b"DY", DY_LENGTH))),
    ("at a move after an event", |c| c.refused_at_move(true, |before| !is_head(before) && ends_in(before, b"EV", EV_LENGTH))),
];

/// Counts a file, where it has moves or is refused at one.
pub fn count_file(file: &[u8], read: &Result<Contents, Refusal>, met: &mut Counts) {
    let case = FileCase { file, read };
    if case.holds(|contents| !contents.moves.is_empty()) || case.refused_at_move(true, |_| true) || case.refused_at_move(false, |_| true) {
        met.count(FILE_OUTCOMES.iter().map(|(name, is)| (*name, is(&case))));
    }
}

/// An event of a file with moves, and how it ends with them and without.
struct EventCase<'a> {
    faulty: bool,
    with: &'a Result<Answer, Refusal>,
    without: Result<Answer, Refusal>,
}

impl EventCase<'_> {
    fn numbers(&self) -> (u32, u32) {
        (number(self.with), number(&self.without))
    }
}

type EventOutcome = (&'static str, fn(&EventCase) -> bool);

const EVENT_OUTCOMES: [EventOutcome; 13] = [
    ("answered as with no moves", |c| c.numbers() == (0, 0) && *c.with == c.without),
    ("answered otherwise", |c| c.numbers() == (0, 0) && *c.with != c.without),
    ("answered instead of refused", |c| matches!(c.numbers(), (0, 8..=10))),
    ("refused instead of answered", |c| matches!(c.numbers(), (8..=10, 0))),
    ("14 alone", |c| c.numbers() == (14, 0)),
    ("14 before 4", |c| c.numbers() == (14, 4)),
    ("14 before 5", |c| c.numbers() == (14, 5)),
    ("14 before 6", |c| c.numbers() == (14, 6)),
    ("14 before 7", |c| c.numbers() == (14, 7)),
    ("14 before 8 to 10", |c| matches!(c.numbers(), (14, 8..=10))),
    ("1 before 14", |c| c.faulty && c.numbers() == (1, 1)),
    ("2 before 14", |c| c.faulty && c.numbers() == (2, 2)),
    ("3 before 14", |c| c.faulty && c.numbers() == (3, 3)),
];

/// Counts the event at a place, where the file has moves.
pub fn count_event(contents: &Contents, place: usize, room: usize, with: &Result<Answer, Refusal>, met: &mut Counts) {
    let Some(request) = contents.events.get(place) else { return };
    if !contents.moves.is_empty() {
        let without = verdict(contents.table.view(), &[], request, room);
        let case = EventCase { faulty: !faults(&contents.moves).is_empty(), with, without };
        met.count(EVENT_OUTCOMES.iter().map(|(name, is)| (*name, is(&case))));
    }
}
