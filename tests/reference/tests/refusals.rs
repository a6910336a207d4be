//! Refusals 1 to 10 of High X of Y on both sides of each line, and their order,
//! with no list.

mod common;

use common::{flat, request, set_mark, set_reading};
use reference::table::{HIGHEST, MISSING};
use reference::{day_part, verdict, Refusal, Request, Table};

/// A Wednesday in the middle of two unbroken months.
const D: u32 = 9006;
const ASK: Request = Request {
    p: 8000,
    d: D,
    s: 152,
    e: 156,
    n: 148,
    method: 0,
};

fn held() -> Table {
    flat(D - 60, D + 5, 1000)
}

/// The refusal's number and what it carries, or 0.
fn outcome(table: &Table, request: &Request, room: usize) -> (u32, Vec<u64>) {
    match verdict(table.view(), &[], request, room) {
        Ok(_) => (0, vec![]),
        Err(refusal) => (refusal.number(), refusal.carries()),
    }
}

fn asked(request: Request) -> u32 {
    outcome(&held(), &request, 96).0
}

#[test]
fn shape() {
    let shape = |first, h: usize, readings| {
        let table = Table {
            first,
            marks: vec![0; h],
            readings: vec![1000; readings],
        };
        outcome(&table, &request(0, first, 152, 156, 148), 4).0
    };
    assert_eq!(shape(9006, 0, 0), 1);
    assert_eq!(shape(9006, 1, 96), 8);
    assert_eq!(shape(9006, 1, 95), 1);
    assert_eq!(shape(9006, 1, 97), 1);
    assert_eq!(shape(9006, 1, 192), 1);
    assert_eq!(shape(9006, 1, 0), 1);
    assert_eq!(shape(9006, 128, 96 * 128), 8);
    assert_eq!(shape(9006, 129, 96 * 129), 1);
    assert_eq!(shape(36_524, 1, 96), 8);
    assert_eq!(shape(36_525, 1, 96), 1);
    assert_eq!(shape(36_524, 2, 192), 1);
    assert_eq!(shape(36_523, 2, 192), 8);
    assert_eq!(shape(u32::MAX, 1, 96), 1);
    assert_eq!(shape(u32::MAX, 2, 192), 1);
}

#[test]
fn marks() {
    for mark in 0..=3 {
        let mut table = held();
        set_mark(&mut table, D - 1, mark);
        assert_eq!(outcome(&table, &ASK, 4).0, 0);
    }
    for mark in [4, 5, 8, 16, 32, 64, 128, 255] {
        let mut table = held();
        set_mark(&mut table, D + 5, mark);
        set_mark(&mut table, D - 58, mark);
        assert_eq!(outcome(&table, &ASK, 4), (2, vec![2]));
    }
}

#[test]
fn readings() {
    let with = |reading| {
        let mut table = held();
        set_reading(&mut table, D + 5, 95, reading);
        outcome(&table, &ASK, 4)
    };
    let last = 66 * 96 - 1;
    assert_eq!(with(0).0, 0);
    assert_eq!(with(HIGHEST).0, 0);
    assert_eq!(with(HIGHEST + 1), (3, vec![last]));
    assert_eq!(with(MISSING - 1), (3, vec![last]));
    assert_eq!(with(MISSING).0, 0);
}

#[test]
fn bounds() {
    let with = |p, s, e, n| asked(request(p, D, s, e, n));
    assert_eq!(with(36_524, 152, 156, 148), 6);
    assert_eq!(with(36_525, 152, 156, 148), 4);
    assert_eq!(with(u32::MAX, 152, 156, 148), 4);
    assert_eq!(with(0, 95, 97, 12), 4);
    assert_eq!(with(0, 96, 97, 12), 0);
    assert_eq!(with(0, 191, 192, 12), 0);
    assert_eq!(with(0, 192, 193, 12), 4);
    assert_eq!(with(0, 152, 152, 148), 4);
    assert_eq!(with(0, 152, 151, 148), 4);
    assert_eq!(with(0, 152, 153, 148), 0);
    assert_eq!(with(0, 152, 192, 148), 0);
    assert_eq!(with(0, 152, 193, 148), 4);
    assert_eq!(with(0, 152, 156, 152), 0);
    assert_eq!(with(0, 152, 156, 153), 4);
    assert_eq!(with(0, 152, 156, 0), 0);
    assert_eq!(with(0, u32::MAX, 0, 0), 4);
}

#[test]
fn event_day_held() {
    let at = |d| asked(request(0, d, 152, 156, 148));
    assert_eq!(at(D - 61), 5);
    assert_eq!(at(D - 60), 8);
    assert_eq!(at(D + 5), 0);
    assert_eq!(at(D + 6), 5);
    assert_eq!(at(0), 5);
    assert_eq!(at(u32::MAX), 5);
}

#[test]
fn participation_start() {
    let with = |p| outcome(&held(), &Request { p, ..ASK }, 4);
    assert_eq!(with(D + 1), (6, vec![]));
    assert_eq!(with(D), (9, vec![0, 0]));
    assert_eq!(with(D - 1), (9, vec![0, 0]));
    assert_eq!(with(D - 2), (9, vec![1, 2]));
}

#[test]
fn room() {
    assert_eq!(outcome(&held(), &ASK, 3), (7, vec![]));
    assert_eq!(outcome(&held(), &ASK, 4).0, 0);
    assert_eq!(outcome(&held(), &ASK, 5).0, 0);
}

/// The margin is short with Y-1 eligible days and a relevant day before F; one
/// eligible day more, or none relevant before F, is enough.
#[test]
fn margin() {
    let saturday = 6972;
    let ask = |p| request(p, saturday, 152, 156, 148);
    let table = flat(6952, saturday, 1000);
    assert_eq!(outcome(&table, &ask(6900), 4), (8, vec![42]));
    assert_eq!(outcome(&table, &ask(6951), 4), (8, vec![21]));
    assert_eq!(outcome(&table, &ask(6952), 4), (0, vec![]));
    let table = flat(6951, saturday, 1000);
    assert_eq!(outcome(&table, &ask(6900), 4), (0, vec![]));
}

/// Spare days do not make up a short margin.
#[test]
fn margin_before_spares() {
    let mut table = flat(6946, 6972, 1000);
    set_mark(&mut table, 6951, 1);
    let ask = |p| request(p, 6972, 152, 156, 148);
    assert_eq!(outcome(&table, &ask(0), 4), (8, vec![42]));
    assert_eq!(outcome(&table, &ask(6944), 4), (8, vec![28]));
    assert_eq!(outcome(&table, &ask(6945), 4), (0, vec![]));
}

#[test]
fn too_few() {
    let mut table = flat(6946, 6972, 1000);
    let ask = request(6946, 6972, 152, 156, 148);
    set_mark(&mut table, 6951, 2);
    assert_eq!(outcome(&table, &ask, 4).0, 0);
    set_mark(&mut table, 6958, 3);
    assert_eq!(outcome(&table, &ask, 4), (9, vec![1, 21]));
    set_mark(&mut table, 6958, 1);
    assert_eq!(outcome(&table, &ask, 4).0, 0);
}

#[test]
fn no_adjustment_window() {
    let mut table = held();
    for quarter in 0..96 {
        set_reading(&mut table, D - 1, quarter, MISSING);
        set_reading(&mut table, D, quarter, MISSING);
    }
    assert_eq!(outcome(&table, &ASK, 4), (10, vec![16]));
    for quarter in 45..57 {
        set_reading(&mut table, D, quarter, 1000);
    }
    assert_eq!(outcome(&table, &ASK, 4), (10, vec![16]));
    set_reading(&mut table, D, 44, 1000);
    assert_eq!(outcome(&table, &ASK, 4).0, 0);
}

/// Every refusal goes before all later ones.
#[test]
fn order() {
    let mut table = flat(D, D, MISSING);
    let mut ask = request(36_525, D + 1, 300, 200, 500);
    let mut room = 0;
    table.marks[0] = 4;
    table.readings[7] = HIGHEST + 1;
    table.readings.push(0);
    assert_eq!(outcome(&table, &ask, room), (1, vec![]));
    table.readings.pop();
    assert_eq!(outcome(&table, &ask, room), (2, vec![0]));
    table.marks[0] = 0;
    assert_eq!(outcome(&table, &ask, room), (3, vec![7]));
    table.readings[7] = MISSING;
    assert_eq!(outcome(&table, &ask, room), (4, vec![]));
    ask = request(D + 2, D + 1, 152, 156, 148);
    assert_eq!(outcome(&table, &ask, room), (5, vec![]));
    ask.d = D;
    assert_eq!(outcome(&table, &ask, room), (6, vec![]));
    ask.p = 0;
    assert_eq!(outcome(&table, &ask, room), (7, vec![]));
    room = 4;
    assert_eq!(outcome(&table, &ask, room), (8, vec![44]));
    ask.p = D;
    assert_eq!(outcome(&table, &ask, room), (9, vec![0, 0]));
}

#[test]
fn day_parts() {
    let mut table = flat(6951, 6972, 1000);
    table.marks[0] = 255;
    table.readings[0] = HIGHEST + 1;
    assert_eq!(day_part(table.view(), 6950), None);
    assert_eq!(day_part(table.view(), 6951), Some(0..96));
    assert_eq!(day_part(table.view(), 6972), Some(21 * 96..22 * 96));
    assert_eq!(day_part(table.view(), 6973), None);
    table.readings.pop();
    assert_eq!(day_part(table.view(), 6951), None);
}

#[test]
fn numbers() {
    assert_eq!(Refusal::File { offset: 8 }.number(), 11);
    assert_eq!(Refusal::File { offset: 8 }.carries(), [8]);
    assert_eq!(Refusal::NoEvent.number(), 12);
    assert!(Refusal::NoEvent.carries().is_empty());
    assert_eq!(Refusal::Unwritable.number(), 13);
    assert!(Refusal::Unwritable.carries().is_empty());
}
