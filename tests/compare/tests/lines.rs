//! 01, "Checks on both sides of each line", the tables of 003, the lines of 02's orders 2 and 3 and the tables of 001's section 3.2.2, with their
//! answers as they are written there, through every entry of the archive and through the program.

#[path = "../../reference/tests/common/mod.rs"]
mod common;

use common::{august, august_with_table_5, average, flat, request, set_day, set_mark, set_reading, worked_file, worked_table, WORKED};
use compare::program::{prints, program, run};
use compare::told::{every_name, Told, DAYS, EVENT_METHOD};
use compare::writing::{self, compare_again};
use compare::{begins, files, proved, proved_part, proved_told, UNTOUCHED};
use reference::record::read;
use reference::table::{EVENT, MISSING, OUTAGE};
use reference::writer::{day_records, head_record, method_record, move_records};
use reference::{Request, Table};

/// What a line says of a call.
enum Due<'a> {
    /// Days by rank, reach, denominator, adjustment, and at each quarter the numerator and the rounded kW.
    Answered(&'a [u32], u32, u32, i64, &'a [(u32, u32)]),
    /// The number, and what it carries.
    Refused(u32, &'a [u64]),
}

use Due::{Answered, Refused};

impl Due<'_> {
    fn number(&self) -> u32 {
        match *self {
            Answered(..) => 0,
            Refused(number, _) => number,
        }
    }

    fn numerators(&self) -> Vec<u32> {
        match *self {
            Answered(.., quarters) => quarters.iter().map(|&(numerator, _)| numerator).collect(),
            Refused(..) => vec![],
        }
    }

    fn told(&self) -> Told {
        match *self {
            Answered(days, reach, over, adjustment, _) => Told::answered(days, reach, over, adjustment),
            Refused(number, carries) => Told::refused(number, carries),
        }
    }

    /// The lines of the listing.
    fn lines(&self, request: &Request) -> String {
        let Request { d, s, e, .. } = request;
        let row = |numbers: &mut dyn Iterator<Item = u64>| numbers.map(|number| format!(" {number}")).collect::<String>();
        match *self {
            Answered(days, reach, over, adjustment, quarters) => {
                let chosen = row(&mut days.iter().map(|&day| u64::from(day)));
                let mut lines = format!("{d} {s} {e} days {}{chosen} reach {reach} over {over} adj {adjustment}\n", days.len());
                for (t, (numerator, kw)) in (*s..).zip(quarters) {
                    lines += &format!("{t} {numerator} {kw}\n");
                }
                lines
            }
            Refused(number, carries) => format!("{d} {s} {e} refused {number}{}\n", row(&mut carries.iter().copied())),
        }
    }
}

/// A call with no list.
fn check(table: &Table, request: &Request, due: &Due) {
    check_by(&[], table, request, due);
}

/// A call in every way: over the table, as the only event of a record file, in its listing, and through the program.
fn check_by(moves: &[u32], table: &Table, request: &Request, due: &Due) {
    let room = (request.e - request.s) as usize;
    let numerators = due.numerators();
    let words = begins(&numerators, UNTOUCHED, room);
    assert_eq!(proved(table, moves, request, room), (due.number(), words), "hp_baseline_table: {request:?}, moves {moves:?}");
    due.told().check("hp_told_table", &every_name(), |name| proved_told(table, moves, request, name)).unwrap();

    let Request { p, d, s, e, n, method } = *request;
    let event = method_record(d as u16, s as u8, e as u8, n as u8, method as u8);
    let records = [move_records(moves), day_records(table), vec![event]].concat();
    let file = [head_record(p as u16, 77), records.concat()].concat();
    let bytes = begins(&files::bytes_of(&numerators), files::FILL, 4 * room);
    assert_eq!(files::proved(&file, 0, 4 * room), (due.number(), bytes), "hp_baseline: {request:?}");
    due.told().check("hp_told", &every_name(), |name| files::proved_told(&file, 0, name)).unwrap();

    let text = format!("portfolio 77 from {p} held {} {}\n{}", table.first, table.marks.len(), due.lines(request));
    check_listing(&file, &text);
}

fn check_listing(file: &[u8], text: &str) {
    let length = text.len();
    assert_eq!(files::proved_listing(file, length), (length as i64, text.as_bytes().to_vec()), "hp_listing:\n{text}");
    let output = run(&mut program(), file);
    assert!(prints(&output, text.as_bytes()), "expected:\n{text}found: {output:?}");
}

/// Day numbers: 28 August 2024 is 9006, and 2 February 2019 is 6972.
fn of_july(date: u32) -> u32 {
    8947 + date
}

fn of_august(date: u32) -> u32 {
    8978 + date
}

fn of_january(date: u32) -> u32 {
    6939 + date
}

fn of_february(date: u32) -> u32 {
    6970 + date
}

/// 003's event: 15:00 to 16:00, with notice at 14:00.
fn at_three(p: u32, d: u32) -> Request {
    request(p, d, 152, 156, 148)
}

/// 1000 kW at each quarter, of five days and of two.
const THOUSAND: [(u32, u32); 4] = [(60_000, 1000); 4];
const THOUSAND_OF_TWO: [(u32, u32); 4] = [(24_000, 1000); 4];

/// Lets each of these days be the highest in turn: the ones of the window are then chosen first, the others are not chosen.
fn check_window(table: &Table, d: u32, days: impl Iterator<Item = u32>, window: &[u32]) {
    check_window_by(&[], table, d, days, window);
}

fn check_window_by(moves: &[u32], table: &Table, d: u32, days: impl Iterator<Item = u32>, window: &[u32]) {
    for day in days {
        let mut table = table.clone();
        for quarter in 56..60 {
            set_reading(&mut table, day, quarter, 1012);
        }
        let chosen = [0, 1, 2, 3, 4].map(|rank| proved_told(&table, moves, &at_three(6900, d), DAYS as u32 + rank));
        let rank = chosen.iter().position(|&other| other == i64::from(day));
        assert_eq!(rank, window.contains(&day).then_some(0), "{day} of {chosen:?}");
        assert_eq!(proved_part(&table, day), 96 * i64::from(day - table.first));
    }
}

const AUGUST_WINDOW: [u32; 10] = [26, 22, 21, 20, 19, 16, 14, 13, 12, 9];

/// "window 26, 22, 21, 20, 19, 16, 14, 13, 12, 9 August, reach 19. Held from 10 August: refusal 8 carrying 44."
#[test]
fn event_of_28_august() {
    let due = Answered(&[26, 22, 21, 20, 19].map(of_august), 19, 60, 0, &THOUSAND);
    check(&august(of_july(1)), &at_three(8700, of_august(28)), &due);
    check(&august(of_august(9)), &at_three(8700, of_august(28)), &due);
    check(&august(of_august(10)), &at_three(8700, of_august(28)), &Refused(8, &[44]));
    check_window(&august(of_july(1)), of_august(28), of_august(1)..of_august(28), &AUGUST_WINDOW.map(of_august));
}

/// 003, Tables 3 and 4: the calendar from 7 January to 2 February 2019, and the three days of Saturday's event; a Sunday is alike, and on a
/// Friday the day before is left out.
#[test]
fn days_of_tables_3_and_4() {
    let table = flat(6900, of_february(3), 1000);
    let due = Answered(&[26, 19].map(of_january), 21, 24, 0, &THOUSAND_OF_TWO);
    check(&table, &at_three(6900, of_february(2)), &due);
    check_window(&table, of_february(2), of_january(7)..of_february(2), &[26, 19, 12].map(of_january));
    check(&table, &at_three(6900, of_february(3)), &Answered(&[27, 20].map(of_january), 21, 24, 0, &THOUSAND_OF_TWO));
    check_window(&table, of_february(3), of_january(7)..of_february(3), &[27, 20, 13].map(of_january));
    let weekdays = [30, 29, 28, 25, 24, 23, 22, 21, 18, 17].map(of_january);
    check(&table, &at_three(6900, of_february(1)), &Answered(&weekdays[..5], 15, 60, 0, &THOUSAND));
    check_window(&table, of_february(1), of_january(7)..of_february(1), &weekdays);
}

/// 003, Tables 5 and 6, on the ten days of 28 August's window: days 1, 2, 3, 4 and 7 are chosen, and with no adjustment the baselines are the
/// averages of Table 6.
#[test]
fn ranks_and_averages_of_tables_5_and_6() {
    let table = august_with_table_5(&AUGUST_WINDOW.map(of_august));
    let averages = [(366_000, 6100), (435_600, 7260), (394_800, 6580), (338_400, 5640)];
    let due = Answered(&[26, 22, 21, 20, 14].map(of_august), 19, 60, 0, &averages);
    check(&table, &at_three(8700, of_august(28)), &due);
}

/// Easter, Holy Saturday and 15 August, as the days that an event is ranked among.
#[test]
fn events_about_the_feasts() {
    let among = |d: u32, days: [u32; 2], reach| {
        check(&flat(d - 60, d, 1000), &at_three(0, d), &Answered(&days, reach, 24, 0, &THOUSAND_OF_TWO));
    };
    among(8892, [8891, 8890], 3); // Monday 6 May 2024: Easter Sunday, Holy Saturday; Good Friday
    among(8897, [8883, 8876], 28); // Saturday 11 May 2024: 27 and 20 April, not Holy Saturday; 13 April
    among(9242, [9241, 9240], 3); // Monday 21 April 2025, the day after Easter
    among(8996, [8993, 8989], 14); // Sunday 18 August 2024: Thursday the 15th, the 11th; the 4th
}

/// 1 May 2024 is 8887.
fn of_may(date: u32) -> u32 {
    8886 + date
}

fn of_april(date: u32) -> u32 {
    8856 + date
}

/// The weekdays before Holy Week that the windows of 9 May 2024 share.
const APRIL: [u32; 8] = [30, 29, 26, 25, 24, 23, 22, 19];

/// 02, order 2: "in 2024 the day off was 7 May". A Thursday event on 9 May has 1 May and not 7 May in its window, and without the list 7 May and not
/// 1 May.
#[test]
fn labour_day_of_2024() {
    let table = flat(of_april(1) - 30, of_may(9), 1000);
    let days = || of_april(1)..of_may(9);
    let moves = [of_may(1), of_may(7)];
    let due = |first: [u32; 2]| [&first[..], &APRIL.map(of_april)].concat();
    let (with, without) = (due([of_may(2), of_may(1)]), due([of_may(7), of_may(2)]));
    check_by(&moves, &table, &at_three(6900, of_may(9)), &Answered(&with[..5], 20, 60, 0, &THOUSAND));
    check_window_by(&moves, &table, of_may(9), days(), &with);
    check(&table, &at_three(6900, of_may(9)), &Answered(&without[..5], 20, 60, 0, &THOUSAND));
    check_window(&table, of_may(9), days(), &without);
}

/// 1 May 2024 is a weekday by the list and 7 May in the holiday group, without it the other way round; 5 May stays Easter.
#[test]
fn days_about_labour_day() {
    let moves = [of_may(1), of_may(7)];
    let table = flat(of_april(1) - 30, of_may(10), 1000);
    let weekdays = [29, 26, 25, 24, 23].map(of_april);
    check_by(&moves, &table, &at_three(6900, of_may(1)), &Answered(&weekdays, 15, 60, 0, &THOUSAND));
    check(&table, &at_three(6900, of_may(1)), &Answered(&[28, 21].map(of_april), 17, 24, 0, &THOUSAND_OF_TWO));
    check_by(&moves, &table, &at_three(6900, of_may(7)), &Answered(&[6, 5].map(of_may), 3, 24, 0, &THOUSAND_OF_TWO));
    let weekdays = [of_may(2), of_april(30), of_april(29), of_april(26), of_april(25)];
    check(&table, &at_three(6900, of_may(7)), &Answered(&weekdays, 19, 60, 0, &THOUSAND));
    for moves in [&moves[..], &[]] {
        check_by(moves, &table, &at_three(6900, of_may(6)), &Answered(&[5, 4].map(of_may), 3, 24, 0, &THOUSAND_OF_TWO));
    }
}

/// 25 March 2024 moved onto itself changes nothing; a first day that is no fixed-date holiday, and the same pair twice, are 14.
#[test]
fn lists_that_change_nothing_or_are_refused() {
    let table = flat(of_april(1) - 30, of_may(9), 1000);
    let ask = at_three(6900, of_may(9));
    let days = [of_may(7), of_may(2), of_april(30), of_april(29), of_april(26)];
    check_by(&[8850, 8850], &table, &ask, &Answered(&days, 20, 60, 0, &THOUSAND));
    let (pair, other) = ([of_may(1), of_may(7)], [of_may(2), of_may(7)]);
    check_by(&other, &table, &ask, &Refused(14, &[]));
    check_by(&[pair, pair].concat(), &table, &ask, &Refused(14, &[]));
    check_by(&[pair, [8850, 8850]].concat(), &table, &ask, &Answered(&[&[of_may(2), of_may(1)], &days[2..]].concat(), 20, 60, 0, &THOUSAND));
    check_by(&[of_may(1), 36_525], &table, &ask, &Refused(14, &[]));
    check_by(&[of_may(1), 36_524], &table, &ask, &Answered(&[&days[..2], &[of_may(1)], &days[2..4]].concat(), 17, 60, 0, &THOUSAND));
}

/// 01's worked listing, whole; its first numerator is the line "N 2, S 2507, A 15132, B 30000: numerator 30348".
#[test]
fn worked_listing() {
    let quarters = [(30_348, 1265), (30_264, 1261), (30_264, 1261), (30_264, 1261)];
    check(&worked_table(), &at_three(6900, 6972), &Answered(&[6951, 6965], 21, 24, 264, &quarters));
    check(&worked_table(), &at_three(6900, 6966), &Refused(8, &[42]));
    check_listing(&worked_file(), WORKED);
}

/// "N 2, S 10, A 0, B 1200: numerator 0".
#[test]
fn baseline_is_not_below_nought() {
    let mut table = flat(6951, 6972, 50);
    for day in [6951, 6958, 6965] {
        set_reading(&mut table, day, 56, 5);
    }
    set_day(&mut table, 6972, 0);
    let due = Answered(&[6965, 6958], 21, 24, -1200, &[(0, 0)]);
    check(&table, &request(6900, 6972, 152, 153, 148), &due);
}

/// "Reading 10,000,000 taken; 10,000,001 refused."
#[test]
fn highest_reading() {
    let mut table = august(of_july(1));
    set_reading(&mut table, of_july(2), 5, 10_000_000);
    let due = Answered(&[26, 22, 21, 20, 19].map(of_august), 19, 60, 0, &THOUSAND);
    check(&table, &at_three(8700, of_august(28)), &due);
    set_reading(&mut table, of_july(2), 5, 10_000_001);
    check(&table, &at_three(8700, of_august(28)), &Refused(3, &[101]));
}

/// "n 12 uses ruler quarter 0; n 11 takes the other rule": quarter 0 of the day before is 12 kW higher, and the last quarter before the event 24.
#[test]
fn notice_at_12_and_at_11() {
    let mut table = august(of_july(1));
    set_reading(&mut table, of_august(27), 0, 1012);
    set_reading(&mut table, of_august(28), 55, 1024);
    let days = [26, 22, 21, 20, 19].map(of_august);
    for (n, adjustment, quarter) in [(13, 0, (60_000, 1000)), (12, 60, (60_060, 1001)), (11, 120, (60_120, 1002))] {
        let due = Answered(&days, 19, 60, adjustment, &[quarter; 4]);
        check(&table, &request(8700, of_august(28), 152, 156, n), &due);
    }
}

/// "With no relevant day before F, four eligible weekdays and one complete relevant event day without outage: five chosen; without the event day,
/// refusal 9."
#[test]
fn event_day_as_the_fifth() {
    let mut table = flat(of_august(20), of_august(28), 1000);
    let ask = at_three(of_august(20), of_august(28));
    set_day(&mut table, of_august(21), 900);
    set_mark(&mut table, of_august(21), 1);
    check(&table, &ask, &Answered(&[26, 23, 22, 20, 21].map(of_august), 8, 60, 1200, &THOUSAND));
    for mark in [2, 3] {
        set_mark(&mut table, of_august(21), mark);
        check(&table, &ask, &Refused(9, &[4, 8]));
    }
    set_mark(&mut table, of_august(21), 1);
    set_reading(&mut table, of_august(21), 95, MISSING);
    check(&table, &ask, &Refused(9, &[4, 8]));
}

/// "D equal to F and P equal to D: refusal 9 with 0 and 0. P one later: refusal 6."
#[test]
fn first_day_is_event_day() {
    let table = flat(of_august(28), of_august(28), 1000);
    check(&table, &at_three(of_august(28), of_august(28)), &Refused(9, &[0, 0]));
    check(&table, &at_three(of_august(29), of_august(28)), &Refused(6, &[]));
}

/// 1000 kW at each quarter, of two days without adjustment.
const THOUSAND_AVERAGED: [(u32, u32); 4] = [(2000, 1000); 4];

fn of_september(date: u32) -> u32 {
    9009 + date
}

/// Lets each of these days be the highest and then the lowest: other days are averaged where it is one of the window, and only then. The window is
/// given the nearest day first, and so many ranks are passed over.
fn check_averaged_window(table: &Table, d: u32, days: impl Iterator<Item = u32>, window: &[u32], passed: usize) {
    for (day, reading) in days.flat_map(|day| [(day, 1012), (day, 988)]) {
        let mut table = table.clone();
        for quarter in 56..60 {
            set_reading(&mut table, day, quarter, reading);
        }
        let (of_window, mut ranked): (Vec<u32>, Vec<u32>) = window.iter().partition(|&&other| other == day);
        let place = if reading > 1000 { 0 } else { ranked.len() };
        ranked.splice(place..place, of_window);
        let averaged = [0, 1].map(|rank| proved_told(&table, &[], &average(6900, d), DAYS as u32 + rank));
        assert_eq!(averaged, [ranked[passed], ranked[passed + 1]].map(i64::from), "{day} at {reading}");
    }
}

/// 001, Table 8, with events on 7 and 23 August: the ten days of 28 August and of 23 August, of which the 5th and 6th are averaged.
#[test]
fn days_of_001_s_table_8() {
    let table = august(of_july(1));
    let windows = [(28, 19, AUGUST_WINDOW), (23, 17, [21, 20, 19, 16, 14, 13, 12, 9, 8, 6])];
    for (date, reach, window) in windows {
        let window = window.map(of_august);
        check(&table, &average(8700, of_august(date)), &Answered(&window[4..6], reach, 2, 0, &THOUSAND_AVERAGED));
        check_averaged_window(&table, of_august(date), of_july(15)..of_august(date), &window, 4);
    }
    check(&august(of_august(9)), &average(8700, of_august(28)), &Answered(&[19, 16].map(of_august), 19, 2, 0, &THOUSAND_AVERAGED));
    check(&august(of_august(10)), &average(8700, of_august(28)), &Refused(8, &[44]));
}

/// 001, Table 10: Saturday 14 September 2024, and Sunday the 22nd, whose window leaves 25 August out; the 2nd and 3rd are averaged.
#[test]
fn days_of_001_s_table_10() {
    let mut table = flat(of_july(1), of_september(22), 1000);
    set_mark(&mut table, of_august(25), EVENT);
    let saturdays = [of_september(7), of_august(31), of_august(24), of_august(17)];
    let sundays = [of_september(15), of_september(8), of_september(1), of_august(18)];
    for (date, reach, window) in [(14, 28, saturdays), (22, 35, sundays)] {
        let d = of_september(date);
        check(&table, &average(8700, d), &Answered(&window[1..3], reach, 2, 0, &THOUSAND_AVERAGED));
        check_averaged_window(&table, d, d - 50..d, &window, 1);
        let mut held = flat(d - reach, d, 1000);
        set_mark(&mut held, of_august(25), EVENT);
        check(&held, &average(8700, d), &Answered(&window[1..3], reach, 2, 0, &THOUSAND_AVERAGED));
    }
    let mut held = flat(of_august(18), of_september(14), 1000);
    check(&held, &average(8700, of_september(14)), &Refused(8, &[42]));
    held.marks.fill(OUTAGE);
    check(&held, &average(8700, of_september(14)), &Refused(8, &[42]));
}

/// 001, Tables 11 to 13, in kW: ranks 5 and 6 are Day 7 and Day 5, and the averages 5.10, 7.00, 5.80 and 5.75 MW.
#[test]
fn averages_of_001_s_tables_11_to_13() {
    let mut table = august_with_table_5(&AUGUST_WINDOW.map(of_august));
    let averages = [(10_200, 5100), (14_000, 7000), (11_600, 5800), (11_500, 5750)];
    let due = Answered(&[14, 19].map(of_august), 19, 2, 0, &averages);
    check(&table, &average(8700, of_august(28)), &due);
    for day in [27, 28].map(of_august) {
        set_day(&mut table, day, MISSING);
    }
    check(&table, &average(8700, of_august(28)), &due);
    check(&table, &at_three(8700, of_august(28)), &Refused(10, &[19]));
}

/// An event by Average X of Y, with these days eligible, those spare and all others out; from 1000 kW, 60 days before it, each day is 10 kW above the
/// one before.
struct Short {
    table: Table,
    d: u32,
}

impl Short {
    fn new(d: u32, eligible: &[u32], spare: &[u32]) -> Short {
        let mut table = flat(d - 60, d, 1000);
        for (place, day) in (d - 60..=d).enumerate() {
            set_day(&mut table, day, 1000 + 10 * place as u32);
        }
        table.marks.fill(OUTAGE);
        for (days, mark) in [(eligible, 0), (spare, EVENT)] {
            for &day in days {
                set_mark(&mut table, day, mark);
            }
        }
        Short { table, d }
    }

    /// With P so many days before the event these days are averaged, the reach is this, and each quarter has this numerator and rounded kW.
    fn averages(&self, back: u32, days: &[u32], reach: u32, quarter: (u32, u32)) -> &Short {
        check(&self.table, &average(self.d - back, self.d), &Answered(days, reach, days.len() as u32, 0, &[quarter; 4]));
        self
    }

    /// Refused 9.
    fn leaves_none(&self, back: u32, size: u64, reach: u64) -> &Short {
        check(&self.table, &average(self.d - back, self.d), &Refused(9, &[size, reach]));
        self
    }
}

/// Weekdays before Wednesday 28 August 2024.
const WEEKDAYS: [u32; 11] = [26, 23, 22, 21, 20, 19, 16, 14, 13, 12, 9];

fn wednesday(eligible: &[u32], spare: &[u32]) -> Short {
    let days = |dates: &[u32]| dates.iter().map(|&date| of_august(date)).collect::<Vec<_>>();
    Short::new(of_august(28), &days(eligible), &days(spare))
}

/// A weekday with ten eligible days or more: the 5th and 6th; with four to nine: the 2nd and 3rd, and the reach is to the oldest relevant day.
#[test]
fn weekdays_with_days_enough() {
    let (fifth_and_sixth, second_and_third) = ([20, 19].map(of_august), [23, 22].map(of_august));
    for eligible in [10, 11] {
        wednesday(&WEEKDAYS[..eligible], &[8]).averages(300, &fifth_and_sixth, 16, (3030, 1515));
    }
    for eligible in [9, 5, 4] {
        wednesday(&WEEKDAYS[..eligible], &[8, 7]).averages(300, &second_and_third, 44, (3090, 1545));
    }
    wednesday(&WEEKDAYS[..4], &[]).averages(7, &second_and_third, 7, (3090, 1545));
}

/// Fewer than four eligible weekdays, and the latest spare ones up to four in all, however high an older one is.
#[test]
fn weekdays_with_spare_days() {
    let second_and_third = [23, 22].map(of_august);
    for eligible in [3, 2, 1, 0] {
        wednesday(&WEEKDAYS[..eligible], &WEEKDAYS[eligible..4]).averages(300, &second_and_third, 44, (3090, 1545));
        let mut more = wednesday(&WEEKDAYS[..eligible], &WEEKDAYS[eligible..7]);
        set_day(&mut more.table, of_august(WEEKDAYS[4]), 5000);
        more.averages(300, &second_and_third, 44, (3090, 1545));
        let mut highest = wednesday(&WEEKDAYS[..eligible], &WEEKDAYS[eligible..4]);
        set_day(&mut highest.table, of_august(21), 5001);
        highest.averages(300, &[26, 23].map(of_august), 44, (3130, 1565));
    }
}

/// Three weekdays in all, of which the highest is left out, and two, with P seven days before the event and with six; with one there is none.
#[test]
fn weekdays_with_three_two_and_one() {
    for eligible in [3, 2, 1, 0] {
        let three = wednesday(&WEEKDAYS[..eligible], &WEEKDAYS[eligible..3]);
        three.averages(7, &[23, 22].map(of_august), 7, (3090, 1545)).averages(8, &[23, 22].map(of_august), 8, (3090, 1545));
        three.averages(300, &[23, 22].map(of_august), 44, (3090, 1545)).leaves_none(6, 3, 6);
    }
    for eligible in [2, 1, 0] {
        let two = wednesday(&WEEKDAYS[..eligible], &WEEKDAYS[eligible..2]);
        two.averages(7, &[26, 23].map(of_august), 7, (3130, 1565)).averages(300, &[26, 23].map(of_august), 44, (3130, 1565));
        two.leaves_none(6, 2, 6).leaves_none(5, 2, 5);
    }
    for eligible in [1, 0] {
        let one = wednesday(&WEEKDAYS[..eligible], &WEEKDAYS[eligible..1]);
        one.leaves_none(2, 1, 2).leaves_none(6, 1, 6).leaves_none(7, 1, 7).leaves_none(300, 1, 44);
    }
    wednesday(&[], &[]).leaves_none(0, 0, 0).leaves_none(1, 0, 0).leaves_none(6, 0, 6).leaves_none(7, 0, 7).leaves_none(300, 0, 44);
}

/// Four weekdays are enough with six days: those before a Monday.
#[test]
fn weekdays_before_a_monday() {
    let days = [23, 22, 21, 20].map(of_august);
    for eligible in [4, 3, 0] {
        Short::new(of_august(26), &days[..eligible], &days[eligible..]).averages(6, &days[1..3], 6, (3110, 1555));
    }
    Short::new(of_august(26), &days[..3], &[]).leaves_none(6, 3, 6);
}

/// Saturdays: the 2nd and 3rd of four and of three, both of two, one; event days are not taken.
#[test]
fn saturdays_of_every_number() {
    let days = [of_september(7), of_august(31), of_august(24), of_august(17), of_august(10)];
    let short = |eligible: usize| Short::new(of_september(14), &days[..eligible], &days[eligible..]);
    short(5).averages(300, &days[1..3], 28, (2850, 1425));
    short(4).averages(300, &days[1..3], 28, (2850, 1425));
    short(3).averages(300, &days[1..3], 42, (2850, 1425));
    short(2).averages(300, &days[..2], 42, (2990, 1495));
    short(1).averages(300, &days[..1], 42, (1530, 1530)).averages(7, &days[..1], 7, (1530, 1530)).leaves_none(6, 0, 0);
    short(0).leaves_none(300, 0, 42).leaves_none(7, 0, 7);
}

/// The holiday group has days within the week: Easter Monday 2024 has 5, 4, 3 and 1 May, and of these one alone needs seven days.
#[test]
fn holidays_within_the_week() {
    let days = [5, 4, 3, 1].map(of_may);
    let short = |eligible: usize| Short::new(of_may(6), &days[..eligible], &[]);
    short(4).averages(5, &days[1..3], 5, (3150, 1575));
    short(3).averages(3, &days[1..3], 3, (3150, 1575)).averages(6, &days[1..3], 5, (3150, 1575));
    short(2).averages(2, &days[..2], 2, (3170, 1585)).averages(6, &days[..2], 5, (3170, 1585));
    short(1).leaves_none(1, 1, 1).leaves_none(6, 1, 5).averages(7, &days[..1], 5, (1590, 1590)).averages(8, &days[..1], 8, (1590, 1590));
    short(0).leaves_none(6, 0, 5).leaves_none(7, 0, 5);
}

/// Equal sums put the day nearer D first: at ranks 4 and 5, 5 and 6, 6 and 7, and at all of them.
#[test]
fn ties_about_the_averaged() {
    let ties = |ranks: [u32; 10], places: [usize; 2], numerator: u32| {
        let mut short = wednesday(&WEEKDAYS[..10], &[]);
        for (date, rank) in WEEKDAYS.into_iter().zip(ranks) {
            set_day(&mut short.table, of_august(date), 2000 - 10 * rank);
        }
        short.averages(300, &places.map(|place| of_august(WEEKDAYS[place])), 16, (numerator, numerator.div_ceil(2)));
    };
    ties([10, 9, 8, 7, 6, 5, 4, 3, 2, 1], [5, 4], 3890);
    ties([10, 9, 8, 7, 6, 4, 4, 3, 2, 1], [6, 4], 3900);
    ties([10, 9, 8, 7, 5, 5, 4, 3, 2, 1], [4, 5], 3900);
    ties([10, 9, 8, 6, 6, 5, 4, 3, 2, 1], [5, 3], 3890);
    ties([10, 9, 8, 5, 5, 5, 5, 3, 2, 1], [4, 5], 3900);
    ties([5; 10], [4, 5], 3900);
}

/// A half is rounded up.
#[test]
fn halves_of_two_days() {
    let mut short = wednesday(&WEEKDAYS[..4], &[]);
    set_day(&mut short.table, of_august(23), 1551);
    short.averages(300, &[23, 22].map(of_august), 44, (3091, 1546));
}

/// "`EV`'s zero byte becomes the request's method" and "an unknown method is 4": every byte, through each entry and the program, and written again.
#[test]
fn every_method_of_a_file() {
    let table = august(of_july(1));
    let head = [head_record(8700, 77), day_records(&table).concat()].concat();
    let asks = (0..=255).map(|method| Request { method, ..at_three(8700, of_august(28)) });
    let dues = [
        Answered(&[26, 22, 21, 20, 19].map(of_august), 19, 60, 0, &THOUSAND),
        Answered(&[19, 16].map(of_august), 19, 2, 0, &THOUSAND_AVERAGED),
        Refused(4, &[]),
    ];
    for asks in asks.collect::<Vec<_>>().chunks(64) {
        let mut file = head.clone();
        let mut text = format!("portfolio 77 from 8700 held {} {}\n", table.first, table.marks.len());
        for ask in asks {
            file.extend(method_record(ask.d as u16, 152, 156, 148, ask.method as u8));
            text += &dues[ask.method.min(2) as usize].lines(ask);
        }
        check_listing(&file, &text);
        for (place, ask) in asks.iter().enumerate() {
            let due = &dues[ask.method.min(2) as usize];
            let bytes = begins(&files::bytes_of(&due.numerators()), files::FILL, 16);
            assert_eq!(files::proved(&file, place, 16), (due.number(), bytes), "{ask:?}");
            assert_eq!(files::proved_event(&file, place, EVENT_METHOD as u32), i64::from(ask.method));
            due.told().check("hp_told", &every_name(), |name| files::proved_told(&file, place, name)).unwrap();
        }
        compare_again(&file, &read(&file).unwrap(), "hp_write", writing::proved).unwrap();
    }
}

/// An unknown method is tested with the places of the event, after the list and before the event day; n is tested by either method.
#[test]
fn refusals_of_a_method() {
    let table = august(of_july(1));
    let unknown = |d| Request { method: 2, ..at_three(8700, d) };
    check(&table, &unknown(of_august(28)), &Refused(4, &[]));
    check(&table, &unknown(of_august(29)), &Refused(4, &[]));
    check(&table, &average(8700, of_august(29)), &Refused(5, &[]));
    check_by(&[of_august(14), 0], &table, &unknown(of_august(29)), &Refused(14, &[]));
    check_by(&[of_august(15), 0], &table, &unknown(of_august(28)), &Refused(4, &[]));
    let at = |n| Request { n, ..average(8700, of_august(28)) };
    let due = Answered(&[19, 16].map(of_august), 19, 2, 0, &THOUSAND_AVERAGED);
    for n in [0, 11, 12, 152] {
        check(&table, &at(n), &due);
    }
    check(&table, &at(153), &Refused(4, &[]));
}

/// Over a table a method is any number of 32 bits.
#[test]
fn methods_of_a_table() {
    let table = august(of_july(1));
    let number = |method| proved(&table, &[], &Request { method, ..at_three(8700, of_august(28)) }, 4).0;
    assert_eq!([0, 1].map(number), [0, 0]);
    for method in (2..1_000).chain((16..32).flat_map(|bit| [1 << bit, (1 << bit) + 1])).chain([u32::MAX - 1, u32::MAX]) {
        assert_eq!(number(method), 4, "method {method}");
    }
}
