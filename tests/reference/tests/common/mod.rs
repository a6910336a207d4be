//! Tables for the tests.
#![allow(dead_code)]

use reference::calendar::{day_number, Date};
use reference::table::{AVERAGE, HIGH};
use reference::writer::{day_records, event_record, head_record};
use reference::{Request, Table};

/// A table of unmarked days, all readings the same.
pub fn flat(first: u32, last: u32, reading: u32) -> Table {
    let h = (last - first + 1) as usize;
    Table {
        first,
        marks: vec![0; h],
        readings: vec![reading; 96 * h],
    }
}

pub fn set_mark(table: &mut Table, day: u32, mark: u8) {
    table.marks[(day - table.first) as usize] = mark;
}

pub fn set_reading(table: &mut Table, day: u32, quarter: usize, reading: u32) {
    table.readings[(day - table.first) as usize * 96 + quarter] = reading;
}

pub fn set_day(table: &mut Table, day: u32, reading: u32) {
    for quarter in 0..96 {
        set_reading(table, day, quarter, reading);
    }
}

/// By High X of Y.
pub fn request(p: u32, d: u32, s: u32, e: u32, n: u32) -> Request {
    Request {
        p,
        d,
        s,
        e,
        n,
        method: HIGH,
    }
}

/// By Average X of Y: 15:00 to 16:00, with notice at 14:00.
pub fn average(p: u32, d: u32) -> Request {
    Request {
        method: AVERAGE,
        ..request(p, d, 152, 156, 148)
    }
}

pub fn day(year: u32, month: u32, day: u32) -> u32 {
    day_number(Date::new(year, month, day)).expect("a date of the hundred years")
}

/// Held from `first` to 28 August 2024, day 9006: 1000 kW all the time, with the
/// events of 7 and 23 August marked.
pub fn august(first: u32) -> Table {
    let mut table = flat(first, 9006, 1000);
    for marked in [8985, 9001] {
        if marked >= first {
            set_mark(&mut table, marked, 1);
        }
    }
    table
}

/// 003, Table 5 in kW; 001's Table 11 is the same.
pub const TABLE_5: [[u32; 4]; 10] = [
    [6300, 7700, 6200, 7300],
    [6200, 7300, 7500, 6100],
    [7800, 7100, 6000, 4500],
    [4900, 6900, 6600, 5800],
    [4900, 6700, 5000, 7000],
    [5800, 7800, 5000, 4200],
    [5300, 7300, 6600, 4500],
    [5000, 4400, 6300, 6700],
    [6500, 4100, 4300, 5300],
    [4300, 6500, 5900, 4800],
];

/// August held from 1 July on, with Table 5 from 15:00 to 16:00 on these days.
pub fn august_with_table_5(days: &[u32]) -> Table {
    let mut table = august(day(2024, 7, 1));
    for (&day, readings) in days.iter().zip(TABLE_5) {
        for (quarter, reading) in (56..).zip(readings) {
            set_reading(&mut table, day, quarter, reading);
        }
    }
    table
}

/// 01's worked case: its table, its events and its listing.
pub fn worked_table() -> Table {
    let mut table = flat(6951, 6972, 1000);
    set_day(&mut table, 6951, 1300);
    set_reading(&mut table, 6951, 56, 1307);
    set_day(&mut table, 6958, 1100);
    set_day(&mut table, 6965, 1200);
    set_day(&mut table, 6972, 1261);
    table
}

pub fn worked_file() -> Vec<u8> {
    let events = [
        event_record(6972, 152, 156, 148),
        event_record(6966, 152, 156, 148),
    ];
    let days = day_records(&worked_table()).concat();
    [head_record(6900, 77), days, events.concat()].concat()
}

pub const WORKED: &str = "\
portfolio 77 from 6900 held 6951 22
6972 152 156 days 2 6951 6965 reach 21 over 24 adj 264
152 30348 1265
153 30264 1261
154 30264 1261
155 30264 1261
6966 152 156 refused 8 42
";
