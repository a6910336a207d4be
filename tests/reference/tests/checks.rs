//! 01, "Checks on both sides of each line", and the tables of 003.

mod common;

use common::{
    august, august_with_table_5, day, flat, request, set_day, set_mark, set_reading, TABLE_5,
};
use reference::baseline::{adjustment_window, baseline_numerator, chosen_sum};
use reference::calendar::{dates, day_number, easter, group_of, holidays, Date, Group, LAST_DAY};
use reference::choice::{choose, reach, window};
use reference::table::{HIGHEST, MISSING};
use reference::{verdict, Refusal, Table};

const AUGUST_28: u32 = 9006;

#[test]
fn days_run_from_2000_to_2099() {
    assert_eq!(dates().len(), 36_525);
    assert_eq!(day(2000, 1, 1), 0);
    assert_eq!(day(2099, 12, 31), LAST_DAY);
    assert_eq!(day(2024, 5, 5), 8891);
    assert_eq!(day(2024, 8, 15), 8993);
    assert_eq!(day(2024, 8, 28), AUGUST_28);
    assert_eq!(day(2019, 2, 2), 6972);
    assert_eq!(day_number(Date::new(2100, 1, 1)), None);
    assert_eq!(day_number(Date::new(2023, 2, 29)), None);
}

#[test]
fn easter_of_2024_and_2025() {
    assert_eq!(easter(2024), Date::new(2024, 5, 5));
    assert_eq!(easter(2025), Date::new(2025, 4, 20));
}

/// The Sunday after the Julian paschal full moon of the year's golden number.
#[test]
fn easter_follows_the_full_moon() {
    const FULL_MOONS: [(u32, u32); 19] = [
        (4, 5),
        (3, 25),
        (4, 13),
        (4, 2),
        (3, 22),
        (4, 10),
        (3, 30),
        (4, 18),
        (4, 7),
        (3, 27),
        (4, 15),
        (4, 4),
        (3, 24),
        (4, 12),
        (4, 1),
        (3, 21),
        (4, 9),
        (3, 29),
        (4, 17),
    ];
    for year in 2000..2100 {
        let (month, date) = FULL_MOONS[year as usize % 19];
        let full_moon = day(year, month, date) + 13;
        let sunday = (full_moon + 1..).find(|number| number % 7 == 1);
        assert_eq!(day_number(easter(year)), sunday, "{year}");
    }
}

#[test]
fn fourteen_holidays_a_year() {
    assert_eq!(holidays().len(), 1400);
    let of_2024 = &holidays()[24 * 14..25 * 14];
    let expected = [
        day(2024, 1, 1),
        day(2024, 1, 6),
        day(2024, 3, 25),
        day(2024, 5, 1),
        day(2024, 8, 15),
        day(2024, 10, 28),
        day(2024, 12, 25),
        day(2024, 12, 26),
        day(2024, 3, 18),
        day(2024, 5, 3),
        day(2024, 5, 4),
        day(2024, 5, 5),
        day(2024, 5, 6),
        day(2024, 6, 24),
    ];
    assert_eq!(of_2024, expected);
}

#[test]
fn groups_of_days() {
    assert_eq!(group_of(day(2024, 5, 4), &[]), Some(Group::Holiday));
    assert_eq!(group_of(6972, &[]), Some(Group::Saturday));
    assert_eq!(group_of(8993, &[]), Some(Group::Holiday));
    assert_eq!(group_of(AUGUST_28, &[]), Some(Group::Weekday));
    assert_eq!(group_of(0, &[]), Some(Group::Holiday));
    assert_eq!(group_of(7, &[]), Some(Group::Saturday));
    assert_eq!(group_of(8, &[]), Some(Group::Holiday));
    assert_eq!(group_of(LAST_DAY, &[]), Some(Group::Weekday));
    assert_eq!(group_of(LAST_DAY + 1, &[]), None);
}

#[test]
fn window_of_28_august() {
    let table = august(day(2024, 7, 1));
    let request = request(8700, AUGUST_28, 152, 156, 148);
    let expected: Vec<u32> = [26, 22, 21, 20, 19, 16, 14, 13, 12, 9]
        .map(|date| day(2024, 8, date))
        .to_vec();
    let window = window(table.view(), &[], &request);
    assert_eq!(window, expected);
    assert_eq!(reach(&[], &request, &window), 19);
    assert_eq!(
        choose(table.view(), &[], &request).unwrap().days,
        expected[..5]
    );
}

#[test]
fn margin_of_28_august() {
    let request = request(8700, AUGUST_28, 152, 156, 148);
    let from_9 = august(day(2024, 8, 9));
    assert_eq!(verdict(from_9.view(), &[], &request, 4).unwrap().reach, 19);
    let from_10 = august(day(2024, 8, 10));
    let refusal = verdict(from_10.view(), &[], &request, 4).unwrap_err();
    assert_eq!((refusal.number(), refusal.carries()), (8, vec![44]));
}

/// 003, Table 4.
#[test]
fn window_of_saturday_2_february() {
    let table = flat(6900, 6972, 1000);
    let request = request(6900, 6972, 152, 156, 148);
    let expected = [(1, 26), (1, 19), (1, 12)].map(|(month, date)| day(2019, month, date));
    assert_eq!(window(table.view(), &[], &request), expected);
}

/// 003, Table 5, on the ten days of 28 August's window.
fn table_5() -> (Table, Vec<u32>) {
    let request = request(8700, AUGUST_28, 152, 156, 148);
    let days = window(august(day(2024, 7, 1)).view(), &[], &request);
    (august_with_table_5(&days), days)
}

#[test]
fn ranking_of_table_5() {
    let sums: Vec<u32> = TABLE_5.iter().map(|day| day.iter().sum()).collect();
    let expected = [
        27500, 27100, 25400, 24200, 23600, 22800, 23700, 22400, 20200, 21500,
    ];
    assert_eq!(sums, expected);
    let (table, days) = table_5();
    let request = request(8700, AUGUST_28, 152, 156, 148);
    let chosen = choose(table.view(), &[], &request).unwrap().days;
    assert_eq!(chosen, [0, 1, 2, 3, 6].map(|place: usize| days[place]));
}

/// 003, Table 6: with no adjustment the baselines are its averages.
#[test]
fn averages_of_table_6() {
    let (table, _) = table_5();
    let request = request(8700, AUGUST_28, 152, 156, 148);
    let answer = verdict(table.view(), &[], &request, 4).unwrap();
    let sums: Vec<i64> = (152..156)
        .map(|t| chosen_sum(table.view(), &answer.days, t))
        .collect();
    assert_eq!(sums, [30500, 36300, 32900, 28200]);
    assert_eq!((answer.adjustment, answer.denominator), (0, 60));
    let averages: Vec<u32> = answer.numerators.iter().map(|over| over / 60).collect();
    assert_eq!(averages, [6100, 7260, 6580, 5640]);
    assert!(answer.numerators.iter().all(|over| over % 60 == 0));
}

#[test]
fn numerators_of_the_two_sums() {
    assert_eq!(baseline_numerator(2, 2507, 15132, 30000), 30348);
    assert_eq!(baseline_numerator(2, 10, 0, 1200), 0);
}

#[test]
fn highest_reading() {
    let request = request(8700, AUGUST_28, 152, 156, 148);
    let mut table = august(day(2024, 7, 1));
    set_reading(&mut table, day(2024, 7, 2), 5, HIGHEST);
    assert!(verdict(table.view(), &[], &request, 4).is_ok());
    set_reading(&mut table, day(2024, 7, 2), 5, HIGHEST + 1);
    let refusal = verdict(table.view(), &[], &request, 4).unwrap_err();
    assert_eq!((refusal.number(), refusal.carries()), (3, vec![101]));
}

#[test]
fn notification_at_12_and_at_11() {
    let table = august(day(2024, 7, 1));
    let at = |n| adjustment_window(table.view(), &request(8700, AUGUST_28, 152, 156, n));
    assert_eq!(at(13), Some(1..13));
    assert_eq!(at(12), Some(0..12));
    assert_eq!(at(11), Some(140..152));
    assert_eq!(at(152), Some(140..152));
}

/// Four eligible weekdays since P, and a fifth relevant day with this mark.
fn five_days(mark: u8) -> (Table, u32) {
    let p = day(2024, 8, 20);
    let mut table = flat(p, AUGUST_28, 1000);
    set_mark(&mut table, day(2024, 8, 21), mark);
    (table, p)
}

#[test]
fn event_day_as_the_fifth() {
    let (mut table, p) = five_days(1);
    set_day(&mut table, day(2024, 8, 21), 900);
    let answer = verdict(table.view(), &[], &request(p, AUGUST_28, 152, 156, 148), 4).unwrap();
    let expected = [26, 23, 22, 20, 21].map(|date| day(2024, 8, date));
    assert_eq!(answer.days, expected);
    assert_eq!(answer.reach, 8);
}

#[test]
fn no_fifth_day() {
    for mark in [2, 3] {
        let (table, p) = five_days(mark);
        let refusal = verdict(table.view(), &[], &request(p, AUGUST_28, 152, 156, 148), 4);
        assert_eq!(refusal, Err(Refusal::TooFew { size: 4, reach: 8 }));
    }
    let (mut table, p) = five_days(1);
    set_reading(&mut table, day(2024, 8, 21), 95, MISSING);
    let refusal = verdict(table.view(), &[], &request(p, AUGUST_28, 152, 156, 148), 4);
    assert_eq!(refusal, Err(Refusal::TooFew { size: 4, reach: 8 }));
}

#[test]
fn first_day_is_event_day() {
    let table = flat(AUGUST_28, AUGUST_28, 1000);
    let with_p = |p| verdict(table.view(), &[], &request(p, AUGUST_28, 152, 156, 148), 4);
    assert_eq!(
        with_p(AUGUST_28),
        Err(Refusal::TooFew { size: 0, reach: 0 })
    );
    assert_eq!(with_p(AUGUST_28 + 1), Err(Refusal::StartsLater));
}

/// Equal sums put the day nearer D first, also among spare days.
#[test]
fn equal_sums() {
    let mut table = flat(6900, 6972, 1000);
    for day in [6965, 6958, 6951, 6944, 6937, 6930] {
        set_mark(&mut table, day, 1);
    }
    let chosen = |table: &Table| {
        choose(table.view(), &[], &request(6927, 6972, 152, 156, 148))
            .unwrap()
            .days
    };
    assert_eq!(chosen(&table), [6965, 6958]);
    set_mark(&mut table, 6944, 0);
    assert_eq!(chosen(&table), [6965, 6944]);
    set_reading(&mut table, 6937, 56, 1001);
    assert_eq!(chosen(&table), [6937, 6944]);
}

/// D-1 is dropped for a weekday only (01, "Slips").
#[test]
fn the_day_before() {
    let monday = day(2024, 5, 6);
    let table = flat(monday - 60, monday, 1000);
    let window = window(table.view(), &[], &request(0, monday, 152, 156, 148));
    assert_eq!(window, [monday - 1, monday - 2, monday - 3]);
}

/// The adjustment window may lie across the start of day D (01, "Slips").
#[test]
fn adjustment_across_midnight() {
    let mut table = august(day(2024, 7, 1));
    let at =
        |table: &Table, s, n| adjustment_window(table.view(), &request(8700, AUGUST_28, s, 192, n));
    assert_eq!(at(&table, 100, 100), Some(88..100));
    set_reading(&mut table, AUGUST_28, 3, MISSING);
    assert_eq!(at(&table, 100, 100), Some(87..99));
    set_reading(&mut table, AUGUST_28 - 1, 80, MISSING);
    assert_eq!(at(&table, 96, 85), Some(84..96));
}

/// The adjustment is not floored, the baseline is (01, "Slips").
#[test]
fn negative_adjustment() {
    let mut table = august(day(2024, 7, 1));
    set_day(&mut table, AUGUST_28, 700);
    let ask = request(8700, AUGUST_28, 152, 153, 148);
    let answer = verdict(table.view(), &[], &ask, 1).unwrap();
    assert_eq!(answer.adjustment, -300 * 60);
    assert_eq!(answer.numerators, [700 * 60]);
    set_day(&mut table, AUGUST_28, 0);
    for date in [9, 12, 13, 14, 16, 19, 20, 21, 22, 26] {
        set_reading(&mut table, day(2024, 8, date), 56, 7);
    }
    let answer = verdict(table.view(), &[], &ask, 1).unwrap();
    assert_eq!(answer.adjustment, -60_000);
    assert_eq!(answer.numerators, [0]);
}

#[test]
fn highest_numerator() {
    let mut table = flat(6900, AUGUST_28 - 2000, 0);
    let d = table.first + table.marks.len() as u32 - 1;
    for held in table.first..d - 1 {
        for quarter in 48..96 {
            set_reading(&mut table, held, quarter, HIGHEST);
        }
    }
    set_day(&mut table, d, HIGHEST);
    let answer = verdict(table.view(), &[], &request(0, d, 152, 192, 130), 40).unwrap();
    assert_eq!(answer.numerators, [1_200_000_000; 40]);
}
