//! Average X of Y (02, order 3): the tables of 001's section 3.2.2, both sides of
//! each of its rules, ties, and the refusals of a request with a method.

mod common;

use common::{
    august, august_with_table_5, average, day, flat, request, set_day, set_mark, set_reading,
};
use reference::choice::{choose, reach, relevant_days, window};
use reference::table::{EVENT, HIGHEST, MISSING, OUTAGE};
use reference::writer::{day_records, head_record, method_record};
use reference::{listing, verdict, Refusal, Request, Table};

/// A Wednesday and the Monday before it.
const AUGUST_28: u32 = 9006;
const AUGUST_26: u32 = 9004;
/// A Saturday.
const SEPTEMBER_14: u32 = 9023;
/// 6 May 2024. The 3rd to the 5th and the 1st are of its group too.
const EASTER_MONDAY: u32 = 8892;

fn answered(table: &Table, ask: &Request) -> Vec<u32> {
    let answer = verdict(table.view(), &[], ask, 96).unwrap();
    assert_eq!(answer.denominator as usize, answer.days.len());
    assert_eq!(answer.adjustment, 0);
    answer.days
}

fn refused(table: &Table, ask: &Request) -> (u32, Vec<u64>) {
    let refusal = verdict(table.view(), &[], ask, 96).unwrap_err();
    (refusal.number(), refusal.carries())
}

#[test]
fn windows_of_table_8() {
    let table = august(day(2024, 7, 1));
    let windows = [
        (28, 19, [26, 22, 21, 20, 19, 16, 14, 13, 12, 9]),
        (23, 17, [21, 20, 19, 16, 14, 13, 12, 9, 8, 6]),
    ];
    for (d, back, dates) in windows {
        let ask = average(8700, day(2024, 8, d));
        let found = window(table.view(), &[], &ask);
        assert_eq!(found, dates.map(|date| day(2024, 8, date)));
        assert_eq!(reach(&[], &ask, &found), back);
    }
}

#[test]
fn windows_of_table_10() {
    let mut table = flat(day(2024, 7, 1), day(2024, 9, 22), 1000);
    set_mark(&mut table, day(2024, 8, 25), EVENT);
    let windows = [
        ((9, 14), 28, [(9, 7), (8, 31), (8, 24), (8, 17)]),
        ((9, 22), 35, [(9, 15), (9, 8), (9, 1), (8, 18)]),
    ];
    for ((month, date), back, dates) in windows {
        let ask = average(8700, day(2024, month, date));
        let found = window(table.view(), &[], &ask);
        assert_eq!(found, dates.map(|(month, date)| day(2024, month, date)));
        assert_eq!(reach(&[], &ask, &found), back);
    }
}

/// Tables 11 to 13 in kW, on the ten days of Table 8: "ranks 5 and 6 are Day 7 and
/// Day 5", and the averages 5.10, 7.00, 5.80 and 5.75 MW.
#[test]
fn averages_of_table_13() {
    let ask = average(8700, AUGUST_28);
    let days = window(august(day(2024, 7, 1)).view(), &[], &ask);
    let table = august_with_table_5(&days);
    let answer = verdict(table.view(), &[], &ask, 4).unwrap();
    assert_eq!(answer.days, [days[6], days[4]]);
    assert_eq!(answer.numerators, [10_200, 14_000, 11_600, 11_500]);
    assert_eq!((answer.denominator, answer.adjustment), (2, 0));
    let kw: Vec<u32> = answer.numerators.iter().map(|over| over / 2).collect();
    assert_eq!(kw, [5100, 7000, 5800, 5750]);
}

/// The relevant days of an event with P so many days before it, the nearest first.
/// So many of them are eligible, the next spare, and the others out; each day is
/// higher than those before it.
struct Short {
    table: Table,
    ask: Request,
    days: Vec<u32>,
}

impl Short {
    fn new(d: u32, back: u32, eligible: usize, spare: usize) -> Short {
        let ask = average(d - back, d);
        let days = relevant_days(&[], &ask);
        assert!(days.len() >= eligible + spare, "{days:?}");
        let mut table = flat(d - 60, d, 1000);
        for (place, &day) in days.iter().enumerate() {
            set_day(&mut table, day, 2000 - 10 * place as u32);
            let mark = match place {
                _ if place < eligible => 0,
                _ if place < eligible + spare => EVENT,
                _ => OUTAGE,
            };
            set_mark(&mut table, day, mark);
        }
        Short { table, ask, days }
    }

    fn averages(&self, places: &[usize]) {
        let days: Vec<u32> = places.iter().map(|&place| self.days[place]).collect();
        assert_eq!(answered(&self.table, &self.ask), days);
    }

    /// Refusal 9 carries the window's size and the reach.
    fn leaves_none(&self, size: u64) {
        let reach = self.days.last().map_or(0, |oldest| self.ask.d - oldest);
        assert_eq!(
            refused(&self.table, &self.ask),
            (9, vec![size, u64::from(reach)])
        );
    }
}

#[test]
fn ten_eligible_weekdays() {
    for (eligible, spare) in [(10, 0), (10, 3), (11, 0), (20, 5)] {
        Short::new(AUGUST_28, 45, eligible, spare).averages(&[4, 5]);
    }
    let short = Short::new(AUGUST_28, 45, 10, 0);
    let choice = choose(short.table.view(), &[], &short.ask).unwrap();
    assert_eq!(choice.reach, AUGUST_28 - short.days[9]);
}

/// The reach is to the oldest relevant day then.
#[test]
fn four_to_nine_eligible_weekdays() {
    for eligible in 4..=9 {
        for spare in [0, 1, 6] {
            let short = Short::new(AUGUST_28, 45, eligible, spare);
            short.averages(&[1, 2]);
            let choice = choose(short.table.view(), &[], &short.ask).unwrap();
            assert_eq!(choice.window.len(), eligible);
            assert_eq!(choice.reach, 44);
        }
    }
}

#[test]
fn spare_weekdays_up_to_four() {
    for eligible in 0..=3 {
        for more in [0, 1, 3] {
            let short = Short::new(AUGUST_28, 45, eligible, 4 - eligible + more);
            short.averages(&[1, 2]);
            let choice = choose(short.table.view(), &[], &short.ask).unwrap();
            assert_eq!(choice.window, short.days[..4]);
            assert_eq!(choice.reach, 44);
        }
    }
}

/// The latest spare days are taken, not the highest, and then all are ranked
/// alike.
#[test]
fn latest_spare_days() {
    let mut short = Short::new(AUGUST_28, 45, 2, 3);
    set_day(&mut short.table, short.days[4], 3000);
    short.averages(&[1, 2]);
    set_day(&mut short.table, short.days[3], 3000);
    short.averages(&[0, 1]);
    set_day(&mut short.table, short.days[2], 2995);
    short.averages(&[2, 0]);
    set_mark(&mut short.table, short.days[2], EVENT | OUTAGE);
    short.averages(&[4, 0]);
    set_reading(&mut short.table, short.days[3], 0, MISSING);
    short.averages(&[0, 1]);
    set_reading(&mut short.table, short.days[4], 95, MISSING);
    short.averages(&[0, 1]);
    set_mark(&mut short.table, short.days[1], OUTAGE);
    short.leaves_none(1);
}

/// P seven days before a Wednesday leaves four relevant weekdays, and six leaves
/// three.
#[test]
fn three_and_two_weekdays() {
    for (eligible, spare) in [(3, 0), (2, 1), (1, 2), (0, 3)] {
        for back in [7, 8, 45] {
            Short::new(AUGUST_28, back, eligible, spare).averages(&[1, 2]);
        }
        Short::new(AUGUST_28, 6, eligible, spare).leaves_none(3);
    }
    for (eligible, spare) in [(2, 0), (1, 1), (0, 2)] {
        for back in [7, 8, 45] {
            Short::new(AUGUST_28, back, eligible, spare).averages(&[0, 1]);
        }
        for back in [5, 6] {
            Short::new(AUGUST_28, back, eligible, spare).leaves_none(2);
        }
    }
    for (eligible, spare) in [(1, 0), (0, 1), (0, 0)] {
        for back in [2, 6, 7, 8, 45] {
            Short::new(AUGUST_28, back, eligible, spare).leaves_none((eligible + spare) as u64);
        }
    }
}

/// The week before a Monday has four: they are enough with fewer than seven days.
#[test]
fn four_weekdays_of_six_days() {
    for (eligible, spare) in [(4, 0), (3, 1), (0, 4)] {
        Short::new(AUGUST_26, 6, eligible, spare).averages(&[1, 2]);
    }
    Short::new(AUGUST_26, 6, 3, 0).leaves_none(3);
    Short::new(AUGUST_26, 7, 5, 0).averages(&[1, 2]);
}

#[test]
fn saturdays() {
    for spare in [0, 1] {
        Short::new(SEPTEMBER_14, 45, 5, spare).averages(&[1, 2]);
        Short::new(SEPTEMBER_14, 45, 4, spare).averages(&[1, 2]);
        Short::new(SEPTEMBER_14, 45, 3, spare).averages(&[1, 2]);
        Short::new(SEPTEMBER_14, 45, 2, spare).averages(&[0, 1]);
        Short::new(SEPTEMBER_14, 45, 1, spare).averages(&[0]);
        Short::new(SEPTEMBER_14, 45, 0, spare).leaves_none(0);
    }
    Short::new(SEPTEMBER_14, 7, 1, 0).averages(&[0]);
    Short::new(SEPTEMBER_14, 6, 0, 0).leaves_none(0);
    let short = Short::new(SEPTEMBER_14, 45, 4, 0);
    let choice = choose(short.table.view(), &[], &short.ask).unwrap();
    assert_eq!(choice.reach, 28);
    let short = Short::new(SEPTEMBER_14, 45, 3, 0);
    let choice = choose(short.table.view(), &[], &short.ask).unwrap();
    assert_eq!(choice.reach, 42);
}

/// The holiday group has days closer than a week; one alone needs seven days.
#[test]
fn days_about_easter() {
    let days = |back, eligible| Short::new(EASTER_MONDAY, back, eligible, 0);
    days(5, 4).averages(&[1, 2]);
    days(3, 3).averages(&[1, 2]);
    days(5, 3).averages(&[1, 2]);
    days(2, 2).averages(&[0, 1]);
    days(6, 2).averages(&[0, 1]);
    for back in [1, 2, 5, 6] {
        days(back, 1).leaves_none(1);
    }
    for back in [7, 8, 45] {
        days(back, 1).averages(&[0]);
    }
    for back in [0, 1, 6, 7, 45] {
        days(back, 0).leaves_none(0);
    }
}

/// P alone says how long data are there, not what is held.
#[test]
fn seven_days_go_by_p() {
    let mut table = flat(AUGUST_28 - 7, AUGUST_28, 1000);
    for date in [21, 22, 23] {
        set_mark(&mut table, day(2024, 8, date), EVENT);
    }
    set_mark(&mut table, day(2024, 8, 21), OUTAGE);
    let days = [26, 23, 22].map(|date| day(2024, 8, date));
    assert_eq!(
        answered(&table, &average(AUGUST_28 - 7, AUGUST_28)),
        days[1..]
    );
    assert_eq!(
        refused(&table, &average(AUGUST_28 - 6, AUGUST_28)),
        (9, vec![3, 6])
    );
    let longer = flat(AUGUST_28 - 60, AUGUST_28, 1000);
    assert_eq!(
        refused(&longer, &average(AUGUST_28 - 6, AUGUST_28)),
        (9, vec![3, 6])
    );
}

/// Ten days whose sums are these, the nearest first: the places that are averaged.
fn of_ten(sums: [u32; 10]) -> Vec<usize> {
    let mut short = Short::new(AUGUST_28, 45, 10, 0);
    for (place, sum) in sums.into_iter().enumerate() {
        set_day(&mut short.table, short.days[place], sum);
    }
    let place = |day: &u32| short.days.iter().position(|other| other == day).unwrap();
    answered(&short.table, &short.ask)
        .iter()
        .map(place)
        .collect()
}

/// Equal sums put the day nearer D first, at each rank about the fifth and sixth.
#[test]
fn ties() {
    assert_eq!(of_ten([10, 9, 8, 7, 6, 5, 4, 3, 2, 1]), [4, 5]);
    assert_eq!(of_ten([1, 2, 3, 4, 5, 6, 7, 8, 9, 10]), [5, 4]);
    assert_eq!(of_ten([5; 10]), [4, 5]);
    // ranks 4 and 5, 5 and 6, 6 and 7, in either order of the days
    assert_eq!(of_ten([1, 2, 3, 4, 5, 6, 6, 8, 9, 10]), [6, 4]);
    assert_eq!(of_ten([1, 2, 3, 4, 5, 5, 7, 8, 9, 10]), [4, 5]);
    assert_eq!(of_ten([1, 2, 3, 4, 4, 6, 7, 8, 9, 10]), [5, 3]);
    assert_eq!(of_ten([10, 9, 8, 7, 7, 5, 4, 3, 2, 1]), [4, 5]);
    assert_eq!(of_ten([10, 9, 8, 7, 6, 6, 4, 3, 2, 1]), [4, 5]);
    assert_eq!(of_ten([10, 9, 8, 7, 6, 5, 5, 3, 2, 1]), [4, 5]);
    // ranks 4 to 7
    assert_eq!(of_ten([1, 2, 3, 6, 6, 6, 6, 8, 9, 10]), [4, 5]);
    assert_eq!(of_ten([6, 9, 8, 6, 10, 6, 1, 2, 3, 6]), [3, 5]);
}

/// A spare day ranks by its distance from D alone where the sums are equal.
#[test]
fn ties_with_spare_days() {
    let mut short = Short::new(AUGUST_28, 45, 3, 0);
    set_mark(&mut short.table, short.days[0], EVENT);
    set_mark(&mut short.table, short.days[3], 0);
    for &day in &short.days[..4] {
        set_day(&mut short.table, day, 1000);
    }
    short.averages(&[1, 2]);
    set_mark(&mut short.table, short.days[0], 0);
    set_mark(&mut short.table, short.days[1], EVENT);
    short.averages(&[1, 2]);
}

/// Each quarter has the sum of the averaged days there, whatever day D shows.
#[test]
fn no_adjustment() {
    let mut short = Short::new(SEPTEMBER_14, 45, 4, 0);
    set_reading(&mut short.table, short.days[1], 57, 7);
    set_reading(&mut short.table, short.days[2], 58, 0);
    for held in [SEPTEMBER_14 - 1, SEPTEMBER_14] {
        set_day(&mut short.table, held, MISSING);
    }
    let answer = verdict(short.table.view(), &[], &short.ask, 4).unwrap();
    assert_eq!(answer.days, [short.days[3], short.days[1]]);
    assert_eq!(answer.numerators, [3960, 1977, 3960, 3960]);
    let high = Request {
        method: 0,
        ..short.ask
    };
    assert_eq!(refused(&short.table, &high).0, 10);
    for n in [0, 11, 12, 152] {
        let ask = Request { n, ..short.ask };
        assert_eq!(
            verdict(short.table.view(), &[], &ask, 4),
            Ok(answer.clone())
        );
    }
    let ask = Request {
        n: 153,
        ..short.ask
    };
    assert_eq!(refused(&short.table, &ask), (4, vec![]));
}

#[test]
fn highest_numerator() {
    let mut table = flat(AUGUST_28 - 60, AUGUST_28, HIGHEST);
    set_day(&mut table, AUGUST_28, 0);
    let answer = verdict(table.view(), &[], &average(0, AUGUST_28), 4).unwrap();
    assert_eq!(answer.numerators, [20_000_000; 4]);
}

/// Y is 4 where High X of Y has 3.
#[test]
fn margin() {
    let ask = |p| average(p, SEPTEMBER_14);
    let table = flat(SEPTEMBER_14 - 27, SEPTEMBER_14, 1000);
    assert_eq!(refused(&table, &ask(8700)), (8, vec![42]));
    assert_eq!(refused(&table, &ask(SEPTEMBER_14 - 28)), (8, vec![28]));
    assert_eq!(
        answered(&table, &ask(SEPTEMBER_14 - 27)),
        [14, 21].map(|back| SEPTEMBER_14 - back)
    );
    let table = flat(SEPTEMBER_14 - 28, SEPTEMBER_14, 1000);
    assert_eq!(
        answered(&table, &ask(8700)),
        [14, 21].map(|back| SEPTEMBER_14 - back)
    );
    let table = flat(AUGUST_28 - 15, AUGUST_28, 1000);
    assert_eq!(
        refused(&table, &average(8700, AUGUST_28)),
        (8, vec![44]),
        "nine eligible weekdays"
    );
    let table = flat(AUGUST_28 - 16, AUGUST_28, 1000);
    assert_eq!(answered(&table, &average(8700, AUGUST_28)).len(), 2);
}

#[test]
fn unknown_methods() {
    let table = flat(AUGUST_28 - 60, AUGUST_28, 1000);
    for method in [2, 3, 254, 255, 256, 257, 65_536, 1 << 31, u32::MAX] {
        let ask = Request {
            method,
            ..average(0, AUGUST_28)
        };
        assert_eq!(refused(&table, &ask), (4, vec![]));
        let bad = verdict(table.view(), &[8888, 0], &ask, 4);
        assert_eq!(bad, Err(Refusal::Moves), "14 goes before 4");
        let ask = Request { d: 1, ..ask };
        assert_eq!(refused(&table, &ask), (4, vec![]), "and 4 before 5");
    }
    for method in [0, 1] {
        let ask = Request {
            method,
            ..request(0, AUGUST_28, 152, 156, 148)
        };
        assert!(verdict(table.view(), &[], &ask, 4).is_ok());
    }
}

/// A list that makes the event day a holiday makes its window one of four.
#[test]
fn groups_go_by_the_list() {
    let table = flat(8800, 8900, 1000);
    let may = |date| day(2024, 5, date);
    let moves = [may(1), may(7)];
    let days = |moves: &[u32], d| {
        let ask = average(0, d);
        verdict(table.view(), moves, &ask, 4).unwrap().days
    };
    assert_eq!(days(&moves, may(7)), [may(5), may(4)]);
    assert_eq!(days(&[], may(7)), [25, 24].map(|date| day(2024, 4, date)));
    assert_eq!(
        days(&moves, may(9)),
        [26, 25].map(|date| day(2024, 4, date))
    );
}

/// The listing does not show the method; an odd numerator is rounded up.
#[test]
fn listed() {
    let mut table = flat(SEPTEMBER_14 - 45, SEPTEMBER_14, 1000);
    set_reading(&mut table, SEPTEMBER_14 - 14, 57, 1001);
    for back in [21, 28] {
        set_mark(&mut table, SEPTEMBER_14 - back, OUTAGE);
    }
    let event = |method| method_record(SEPTEMBER_14 as u16, 152, 155, 148, method);
    let file = |marked: &Table, p, events: &[Vec<u8>]| {
        let days = day_records(marked).concat();
        let text = listing(&[head_record(p, 77), days, events.concat()].concat());
        let text = String::from_utf8(text).unwrap();
        text.split_once('\n').unwrap().1.to_string()
    };
    let text = file(&table, 8700, &[event(1), event(2), event(0), event(255)]);
    let expected = "\
9023 152 155 days 2 9016 8988 reach 42 over 2 adj 0
152 2000 1000
153 2000 1000
154 2000 1000
9023 152 155 refused 4
9023 152 155 days 2 9009 9016 reach 35 over 24 adj 0
152 24000 1000
153 24012 1001
154 24000 1000
9023 152 155 refused 4
";
    assert_eq!(text, expected);
    let text = file(&table, SEPTEMBER_14 as u16 - 7, &[event(1)]);
    assert_eq!(
        text,
        "9023 152 155 days 1 9016 reach 7 over 1 adj 0\n152 1000 1000\n153 1000 1000\n154 1000 1000\n"
    );
    let text = file(&table, SEPTEMBER_14 as u16 - 14, &[event(1)]);
    assert_eq!(
        text,
        "9023 152 155 days 2 9009 9016 reach 14 over 2 adj 0\n152 2000 1000\n153 2001 1001\n154 2000 1000\n"
    );
}
