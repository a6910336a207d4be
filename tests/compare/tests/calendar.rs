//! The archive's days, dates and moved holidays against the reference's walk through the hundred years.

use compare::program::root;
use compare::told::NOTHING;
use compare::{expected_output, proved, proved_date, proved_day, proved_version};
use reference::calendar::{dates, fixed_holidays, Date, LAST_DAY};
use reference::table::{AVERAGE, HIGH};
use reference::{verdict, Request, Table};
use std::collections::{HashMap, HashSet};

#[test]
fn every_day_has_its_date() {
    let digits = |date: &Date| i64::from(10_000 * date.year + 100 * date.month + date.day);
    for (day, date) in dates().iter().enumerate() {
        assert_eq!(proved_date(day as u32), digits(date), "day {day}");
    }
    let past = dates().len() as u32;
    for day in (past..past + 1_000).chain([65_535, 65_536, 1 << 31, u32::MAX]) {
        assert_eq!(proved_date(day), NOTHING, "day {day}");
    }
}

/// Every year, month and day about the calendar, dates and none.
#[test]
fn every_date_has_its_day() {
    let numbers: HashMap<_, _> = dates().iter().zip(0i64..).map(|(date, day)| ((date.year, date.month, date.day), day)).collect();
    let mut found = 0;
    for year in (1998..2102).chain([0, 24, u32::MAX]) {
        for month in (0..=13).chain([u32::MAX]) {
            for day in (0..=32).chain([u32::MAX]) {
                let expected = numbers.get(&(year, month, day)).copied().unwrap_or(NOTHING);
                assert_eq!(proved_day(year, month, day), expected, "{year}-{month}-{day}");
                found += usize::from(expected != NOTHING);
            }
        }
    }
    assert_eq!(found, dates().len());
}

/// Every day as the first of a pair and as the second, with days past the calendar, by an event that is refused 9 where the list is taken.
#[test]
fn every_day_in_a_list() {
    let table = Table { first: 0, marks: vec![0], readings: vec![1000; 96] };
    let ask = Request { p: 0, d: 0, s: 152, e: 156, n: 148, method: HIGH };
    let fixed: HashSet<u32> = fixed_holidays().iter().copied().collect();
    let number = |moves: &[u32]| proved(&table, moves, &ask, 4).0;
    for day in (0..=LAST_DAY + 1_000).chain([65_535, 65_536, 1 << 31, u32::MAX]) {
        assert_eq!(number(&[day, 7]), if fixed.contains(&day) { 9 } else { 14 }, "first day {day}");
        assert_eq!(number(&[fixed_holidays()[1], day]), if day <= LAST_DAY { 9 } else { 14 }, "second day {day}");
    }
}

/// Each fixed-date holiday moved, with events by both methods on the day, right after it and at the ends of the look-back.
#[test]
fn every_fixed_holiday_moved() {
    let mut answered = 0;
    for &holiday in fixed_holidays() {
        for d in [0, 1, 2, 7, 45, 46].map(|later| (holiday + later).min(LAST_DAY)) {
            let first = d.saturating_sub(47);
            let readings = (first..=d).flat_map(|day| [1000 + day % 10; 96]).collect();
            let table = Table { first, marks: vec![0; (d - first + 1) as usize], readings };
            let seconds = [holiday, holiday + 1, d.saturating_sub(1), d, LAST_DAY];
            for (second, method) in seconds.into_iter().flat_map(|second| [(second, HIGH), (second, AVERAGE)]) {
                let ask = Request { p: 0, d, s: 152, e: 156, n: 148, method };
                let moves = [holiday, second];
                let due = expected_output(&verdict(table.view(), &moves, &ask, 4), 4);
                assert_eq!(proved(&table, &moves, &ask, 4), due, "event day {d}, moves {moves:?}, method {method}");
                answered += u32::from(due.0 == 0);
            }
        }
    }
    assert!(answered > 40_000, "{answered}");
}

#[test]
fn the_version_is_the_header_s() {
    let header = std::fs::read_to_string(root("include/honeyplank.h")).unwrap();
    let number = |name: &str| -> u32 {
        let line = header.lines().find_map(|line| line.strip_prefix(&format!("#define HP_VERSION_{name} "))).unwrap();
        line.parse().unwrap()
    };
    assert_eq!(proved_version(), 10_000 * number("MAJOR") + 100 * number("MINOR") + number("PATCH"));
}
