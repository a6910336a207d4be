//! Days, holidays and groups (01, "Days and groups"; 02, order 2, for a list of
//! moves).
//!
//! The hundred years are walked day by day; only Easter has a rule in numbers,
//! and that rule is 01's own.

use crate::moves::{first_days, second_days};
use std::ops::Range;
use std::sync::OnceLock;

/// 31 December 2099 (01, "Days and groups").
pub const LAST_DAY: u32 = 36_524;

/// Holidays on a fixed date, as month and day (003, section 2).
const FIXED_HOLIDAYS: [(u32, u32); 8] = [
    (1, 1),
    (1, 6),
    (3, 25),
    (5, 1),
    (8, 15),
    (10, 28),
    (12, 25),
    (12, 26),
];

/// Holidays counted in days from Orthodox Easter Sunday (003, section 2).
const EASTER_HOLIDAYS: [i64; 6] = [-48, -2, -1, 0, 1, 50];

/// The groups of the seven days from 1 January 2000, a Saturday, when none of
/// them is a holiday.
const FIRST_WEEK: [Group; 7] = [
    Group::Saturday,
    Group::Holiday,
    Group::Weekday,
    Group::Weekday,
    Group::Weekday,
    Group::Weekday,
    Group::Weekday,
];

/// The one group a day is in.
#[derive(Clone, Copy, PartialEq, Eq, Debug)]
pub enum Group {
    /// A Sunday or any holiday.
    Holiday,
    /// A Saturday that is no holiday.
    Saturday,
    /// The rest.
    Weekday,
}

/// A Gregorian date.
#[derive(Clone, Copy, PartialEq, Eq, Debug)]
pub struct Date {
    pub year: u32,
    pub month: u32,
    pub day: u32,
}

impl Date {
    pub fn new(year: u32, month: u32, day: u32) -> Date {
        Date { year, month, day }
    }
}

fn is_leap(year: u32) -> bool {
    (year % 4 == 0 && year % 100 != 0) || year % 400 == 0
}

fn month_length(year: u32, month: u32) -> u32 {
    match month {
        2 if is_leap(year) => 29,
        2 => 28,
        4 | 6 | 9 | 11 => 30,
        _ => 31,
    }
}

/// The date one day later.
fn following(date: Date) -> Date {
    let Date { year, month, day } = date;
    if day < month_length(year, month) {
        Date::new(year, month, day + 1)
    } else if month < 12 {
        Date::new(year, month + 1, 1)
    } else {
        Date::new(year + 1, 1, 1)
    }
}

/// Every date from 1 January 2000 to 31 December 2099; its place is its day.
pub fn dates() -> &'static [Date] {
    static DATES: OnceLock<Vec<Date>> = OnceLock::new();
    DATES.get_or_init(|| {
        let mut walked = vec![Date::new(2000, 1, 1)];
        let mut date = following(walked[0]);
        while date.year < 2100 {
            walked.push(date);
            date = following(date);
        }
        walked
    })
}

/// The day number of a date, if it lies in the hundred years.
pub fn day_number(date: Date) -> Option<u32> {
    let place = dates().iter().position(|&other| other == date)?;
    Some(place as u32)
}

/// Orthodox Easter Sunday: the Julian date of 01's rule, 13 days later.
pub fn easter(year: u32) -> Date {
    let (a, b, c) = (year % 4, year % 7, year % 19);
    let d = (19 * c + 15) % 30;
    let e = (2 * a + 4 * b + 34 - d) % 7;
    let q = d + e + 114;
    let mut date = Date::new(year, q / 31, q % 31 + 1);
    for _ in 0..13 {
        date = following(date);
    }
    date
}

/// The fourteen holidays of a year from 2000 to 2099, looked up in the dates.
fn find_holidays(year: u32) -> Vec<u32> {
    let number = |date| day_number(date).expect("a date of the hundred years");
    let easter_day = i64::from(number(easter(year)));
    let fixed = FIXED_HOLIDAYS
        .iter()
        .map(|&(month, day)| number(Date::new(year, month, day)));
    let moving = EASTER_HOLIDAYS
        .iter()
        .map(|offset| (easter_day + offset) as u32);
    fixed.chain(moving).collect()
}

/// The holidays of the hundred years as day numbers, fourteen a year: the fixed
/// ones, then those counted from Easter.
pub fn holidays() -> &'static [u32] {
    static HOLIDAYS: OnceLock<Vec<u32>> = OnceLock::new();
    HOLIDAYS.get_or_init(|| (2000..2100).flat_map(find_holidays).collect())
}

/// Each year's holidays at these places.
fn of_each_year(places: Range<usize>) -> Vec<u32> {
    let years = holidays().chunks(FIXED_HOLIDAYS.len() + EASTER_HOLIDAYS.len());
    years
        .flat_map(|year| &year[places.clone()])
        .copied()
        .collect()
}

/// The holidays on a fixed date, eight a year.
pub fn fixed_holidays() -> &'static [u32] {
    static FIXED: OnceLock<Vec<u32>> = OnceLock::new();
    FIXED.get_or_init(|| of_each_year(0..FIXED_HOLIDAYS.len()))
}

/// The holidays counted from Easter, six a year.
pub fn easter_holidays() -> &'static [u32] {
    static MOVING: OnceLock<Vec<u32>> = OnceLock::new();
    let end = FIXED_HOLIDAYS.len() + EASTER_HOLIDAYS.len();
    MOVING.get_or_init(|| of_each_year(FIXED_HOLIDAYS.len()..end))
}

/// For each day of the hundred years, whether it is one of these.
fn marked(days: &[u32]) -> Vec<bool> {
    let mut marked = vec![false; dates().len()];
    for &day in days {
        marked[day as usize] = true;
    }
    marked
}

/// A holiday on a fixed date.
pub fn is_fixed(day: u32) -> bool {
    static FIXED: OnceLock<Vec<bool>> = OnceLock::new();
    let fixed = FIXED.get_or_init(|| marked(fixed_holidays()));
    fixed.get(day as usize) == Some(&true)
}

/// A holiday counted from Easter.
pub fn is_easter(day: u32) -> bool {
    static MOVING: OnceLock<Vec<bool>> = OnceLock::new();
    let moving = MOVING.get_or_init(|| marked(easter_holidays()));
    moving.get(day as usize) == Some(&true)
}

/// Of a fixed-date holiday its month and day as they are written: 815 for 15 August.
pub fn fixed_date(day: u32) -> Option<u32> {
    let Date { month, day, .. } = *dates().get(day as usize)?;
    let fixed = FIXED_HOLIDAYS.contains(&(month, day));
    fixed.then_some(100 * month + day)
}

/// Of a holiday counted from Easter Sunday how many days after it: 01's numbers.
pub fn days_after_easter(day: u32) -> Option<i64> {
    let date = dates().get(day as usize)?;
    let sunday = day_number(easter(date.year)).expect("a date of the hundred years");
    let later = i64::from(day) - i64::from(sunday);
    EASTER_HOLIDAYS.contains(&later).then_some(later)
}

/// A holiday by a list (02, order 2): "the old date stops being a holiday unless
/// another rule or some pair makes it one".
pub fn is_holiday(day: u32, moves: &[u32]) -> bool {
    let stays = is_fixed(day) && !first_days(moves).any(|first| first == day);
    let replaces = second_days(moves).any(|second| second == day);
    stays || is_easter(day) || replaces
}

/// The group of a day from 0 to 36,524, by a list: a holiday is in the holiday
/// group, any other day where its day of the week is.
pub fn group_of(day: u32, moves: &[u32]) -> Option<Group> {
    if day > LAST_DAY {
        None
    } else if is_holiday(day, moves) {
        Some(Group::Holiday)
    } else {
        Some(group_in_week(day))
    }
}

/// The group of a day that is no holiday, also after the calendar, where weeks go on.
pub fn group_in_week(day: u32) -> Group {
    FIRST_WEEK[day as usize % FIRST_WEEK.len()]
}
