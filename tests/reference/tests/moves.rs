//! The list of moved holidays (02, order 2): what it makes of days, the lines
//! that it is checked by, and both sides of each clause of refusal 14.

mod common;

use common::{day, flat, request, set_mark, set_reading};
use reference::calendar::{fixed_holidays, group_of, is_easter, Group, LAST_DAY};
use reference::choice::{choose, window};
use reference::moves::{faults, Fault};
use reference::table::{HIGHEST, MISSING};
use reference::{verdict, Refusal, Request, Table};

/// 1 May 2024, a Wednesday in Holy Week, and 7 May, the day off instead.
const FIRST_OF_MAY: u32 = 8887;
const SEVENTH_OF_MAY: u32 = 8893;
const MOVED: [u32; 2] = [FIRST_OF_MAY, SEVENTH_OF_MAY];
/// A Thursday.
const NINTH_OF_MAY: u32 = 8895;

fn may() -> Table {
    flat(NINTH_OF_MAY - 60, NINTH_OF_MAY, 1000)
}

fn at_three(p: u32, d: u32) -> Request {
    request(p, d, 152, 156, 148)
}

fn of_may(moves: &[u32]) -> Vec<u32> {
    window(may().view(), moves, &at_three(0, NINTH_OF_MAY))
}

fn outcome(table: &Table, moves: &[u32], ask: &Request, room: usize) -> (u32, Vec<u64>) {
    match verdict(table.view(), moves, ask, room) {
        Ok(_) => (0, vec![]),
        Err(refusal) => (refusal.number(), refusal.carries()),
    }
}

#[test]
fn day_numbers() {
    assert_eq!(day(2024, 5, 1), FIRST_OF_MAY);
    assert_eq!(day(2024, 5, 7), SEVENTH_OF_MAY);
    assert_eq!(day(2024, 5, 9), NINTH_OF_MAY);
}

#[test]
fn groups_in_may_2024() {
    let groups = |moves: &[u32]| {
        [FIRST_OF_MAY, SEVENTH_OF_MAY, day(2024, 5, 5)].map(|day| group_of(day, moves).unwrap())
    };
    assert_eq!(
        groups(&MOVED),
        [Group::Weekday, Group::Holiday, Group::Holiday]
    );
    assert_eq!(
        groups(&[]),
        [Group::Holiday, Group::Weekday, Group::Holiday]
    );
}

/// "has 1 May and not 7 May in its window, and without the list 7 May and not 1 May".
#[test]
fn windows_of_9_may_2024() {
    let days = |dates: [(u32, u32); 10]| dates.map(|(month, date)| day(2024, month, date));
    let shared = [
        (4, 30),
        (4, 29),
        (4, 26),
        (4, 25),
        (4, 24),
        (4, 23),
        (4, 22),
        (4, 19),
    ];
    let with = |first, second| days([&[first, second], &shared[..]].concat().try_into().unwrap());
    assert_eq!(of_may(&[]), with((5, 7), (5, 2)));
    assert_eq!(of_may(&MOVED), with((5, 2), (5, 1)));
}

/// 25 March 2024, moved onto itself, changes nothing.
#[test]
fn onto_itself() {
    let same = [day(2024, 3, 25); 2];
    assert_eq!(same, [8850; 2]);
    for held in 0..=LAST_DAY {
        assert_eq!(group_of(held, &same), group_of(held, &[]));
    }
    assert_eq!(of_may(&same), of_may(&[]));
}

/// The old date stays where its day of the week or another rule puts it.
#[test]
fn what_is_left_of_the_old_date() {
    let sunday = day(2022, 5, 1);
    assert_eq!(
        group_of(sunday, &[sunday, sunday + 1]),
        Some(Group::Holiday)
    );
    assert_eq!(
        group_of(sunday + 1, &[sunday, sunday + 1]),
        Some(Group::Holiday)
    );
    let saturday = day(2021, 5, 1);
    assert!(is_easter(saturday), "Holy Saturday");
    assert_eq!(group_of(saturday, &[saturday, 0]), Some(Group::Holiday));
    let saturday = day(2022, 1, 1);
    assert_eq!(group_of(saturday, &[saturday, 0]), Some(Group::Saturday));
    let easter_monday = day(2000, 5, 1);
    assert!(is_easter(easter_monday));
    assert_eq!(
        group_of(easter_monday, &[easter_monday, 7]),
        Some(Group::Holiday)
    );
}

/// "unless another rule or some pair makes it one": the second day may be the
/// first of another pair, and two pairs may share one.
#[test]
fn second_days() {
    let (christmas, boxing) = (day(2024, 12, 25), day(2024, 12, 26));
    let swapped = [christmas, boxing, boxing, christmas];
    assert_eq!(group_of(christmas, &swapped), Some(Group::Holiday));
    assert_eq!(group_of(boxing, &swapped), Some(Group::Holiday));
    let shared = [christmas, boxing, boxing, boxing];
    assert_eq!(group_of(christmas, &shared), Some(Group::Weekday));
    assert_eq!(group_of(boxing, &shared), Some(Group::Holiday));
    let chained = [christmas, boxing, boxing, boxing + 1];
    assert_eq!(group_of(christmas, &chained), Some(Group::Weekday));
    assert_eq!(group_of(boxing, &chained), Some(Group::Holiday));
    assert_eq!(group_of(boxing + 1, &chained), Some(Group::Holiday));
    let saturday = day(2024, 12, 28);
    assert_eq!(
        group_of(saturday, &[christmas, saturday]),
        Some(Group::Holiday)
    );
    assert_eq!(group_of(7, &[christmas, 7]), Some(Group::Holiday));
    assert!(faults(&chained).is_empty() && faults(&[christmas, 7]).is_empty());
}

/// The event day itself moves: its group, and with it Y, N and D-1, follow.
#[test]
fn the_event_day() {
    let ask = at_three(0, SEVENTH_OF_MAY);
    let days = |moves: &[u32]| choose(may().view(), moves, &ask).unwrap().days;
    assert_eq!(days(&MOVED), [8892, 8891]);
    assert_eq!(days(&[]), [8888, 8886, 8885, 8882, 8881]);
    let ask = at_three(0, FIRST_OF_MAY);
    let days = |moves: &[u32]| choose(may().view(), moves, &ask).unwrap().days;
    assert_eq!(days(&MOVED), [8885, 8882, 8881, 8880, 8879]);
    assert_eq!(days(&[]), [8884, 8877]);
}

/// D-45 is looked at and D-46 is not: three Saturdays, of which one is moved onto.
#[test]
fn ends_of_the_look_back() {
    let christmas = day(2018, 12, 25);
    let d = christmas + 45;
    let table = flat(d - 60, d + 1, 1000);
    let oldest = |d, moves: &[u32]| {
        let refusal = verdict(flat(d, d, 1000).view(), moves, &at_three(0, d), 4);
        refusal.unwrap_err().carries()
    };
    assert_eq!(oldest(d, &[christmas, 0]), [45]);
    assert_eq!(oldest(d, &[]), [43]);
    assert_eq!(
        oldest(d + 1, &[christmas, 0]),
        oldest(d + 1, &[christmas + 1, 0])
    );
    assert_eq!(
        verdict(table.view(), &[christmas, 0], &at_three(0, d), 4)
            .unwrap()
            .reach,
        15
    );
}

/// Refused for this alone.
fn alone(fault: Fault, moves: &[u32]) {
    assert_eq!(faults(moves), [fault], "{moves:?}");
}

fn taken(moves: &[u32]) {
    assert!(faults(moves).is_empty(), "{moves:?}");
}

/// Each of the eight, the days beside it, and both sides of the calendar's end.
#[test]
fn fixed_date_holidays() {
    for &holiday in fixed_holidays() {
        taken(&[holiday, SEVENTH_OF_MAY]);
    }
    let first_half = [(1, 1), (1, 6), (3, 25), (5, 1)];
    let second_half = [(8, 15), (10, 28), (12, 25), (12, 26)];
    for (month, date) in first_half.into_iter().chain(second_half) {
        let holiday = day(2024, month, date);
        taken(&[holiday, LAST_DAY]);
        alone(Fault::Past, &[holiday, LAST_DAY + 1]);
        alone(Fault::Past, &[holiday, u32::MAX]);
        let beside = [holiday - 1, holiday + 1];
        for beside in beside.iter().filter(|day| !fixed_holidays().contains(day)) {
            alone(Fault::NotFixed, &[*beside, holiday]);
        }
    }
}

#[test]
fn clauses_of_14() {
    taken(&[]);
    taken(&MOVED);
    alone(Fault::NotFixed, &[day(2024, 5, 2), SEVENTH_OF_MAY]);
    alone(Fault::NotFixed, &[day(2024, 5, 5), SEVENTH_OF_MAY]);
    alone(
        Fault::NotFixed,
        &[MOVED, [SEVENTH_OF_MAY, FIRST_OF_MAY]].concat(),
    );
    alone(Fault::NotFixed, &[LAST_DAY, 0]);
    assert_eq!(faults(&[LAST_DAY + 1, 0]), [Fault::NotFixed, Fault::Past]);
    alone(Fault::Half, &[FIRST_OF_MAY]);
    alone(Fault::Half, &[FIRST_OF_MAY, 0, FIRST_OF_MAY + 365]);
}

#[test]
fn first_days_once() {
    let repeated = |moves: &[u32]| assert_eq!(faults(moves), [Fault::Repeated]);
    repeated(&[MOVED, MOVED].concat());
    repeated(&[FIRST_OF_MAY, 0, FIRST_OF_MAY, 1]);
    repeated(&[MOVED, [8850, 8850], MOVED].concat());
    repeated(&[[8850, 8850], MOVED, MOVED].concat());
    assert!(faults(&[MOVED, [8850, SEVENTH_OF_MAY]].concat()).is_empty());
}

/// So many pairs, each of another holiday.
fn pairs(count: usize) -> Vec<u32> {
    let firsts = fixed_holidays().iter().take(count);
    firsts.flat_map(|&first| [first, first]).collect()
}

#[test]
fn sixteen_pairs() {
    for count in 0..=16 {
        assert!(faults(&pairs(count)).is_empty());
        assert_eq!(
            outcome(&may(), &pairs(count), &at_three(0, NINTH_OF_MAY), 4).0,
            0
        );
    }
    for count in [17, 18, 32, 128, 800] {
        assert_eq!(faults(&pairs(count)), [Fault::TooMany]);
    }
    assert_eq!(faults(&pairs(17)[..33]), [Fault::TooMany, Fault::Half]);
    assert_eq!(faults(&pairs(16)[..31]), [Fault::Half]);
}

/// 14 goes after 1, 2 and 3 and before all others.
#[test]
fn order() {
    let bad = [day(2024, 5, 2), SEVENTH_OF_MAY];
    let mut table = flat(NINTH_OF_MAY, NINTH_OF_MAY, MISSING);
    let out_of_range = request(36_525, NINTH_OF_MAY + 1, 300, 200, 500);
    set_mark(&mut table, NINTH_OF_MAY, 4);
    set_reading(&mut table, NINTH_OF_MAY, 7, HIGHEST + 1);
    table.readings.push(0);
    assert_eq!(outcome(&table, &bad, &out_of_range, 0), (1, vec![]));
    table.readings.pop();
    assert_eq!(outcome(&table, &bad, &out_of_range, 0), (2, vec![0]));
    table.marks[0] = 0;
    assert_eq!(outcome(&table, &bad, &out_of_range, 0), (3, vec![7]));
    table.readings[7] = MISSING;
    let d = NINTH_OF_MAY;
    let later = [
        (4, out_of_range, 0),
        (5, at_three(0, d + 1), 0),
        (6, at_three(d + 1, d), 0),
        (7, at_three(0, d), 3),
        (8, at_three(0, d), 4),
        (9, at_three(d, d), 4),
    ];
    for (number, ask, room) in later {
        assert_eq!(outcome(&table, &bad, &ask, room), (14, vec![]));
        assert_eq!(outcome(&table, &MOVED, &ask, room).0, number);
    }
    let mut table = may();
    let held = table.readings.len();
    table.readings[held - 192..].fill(MISSING);
    assert_eq!(outcome(&table, &bad, &at_three(0, d), 4), (14, vec![]));
    assert_eq!(outcome(&table, &MOVED, &at_three(0, d), 4).0, 10);
    assert_eq!(Refusal::Moves.number(), 14);
    assert!(Refusal::Moves.carries().is_empty());
}
