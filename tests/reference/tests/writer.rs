//! The writer (02, order 1, with order 2's list and order 3's method): both sides of each line of its refusals, their
//! order, and that writing and reading undo each other.

mod common;

use common::{flat, worked_file, worked_table};
use reference::record::read;
use reference::table::{HIGHEST, MISSING};
use reference::writer::{written, Reason, Values};
use reference::{gen_file, gen_small_file, gen_writing, write, Table};

/// Room for any file: 8 + 6·16 + 390·128 + 8·64.
const ANY: usize = 50_536;
const KEPT: u8 = 0xA5;

/// What comes back. The rest of the output is kept, and what was written reads
/// back as the same values.
fn given(values: &Values, room: usize) -> i64 {
    let mut out = vec![KEPT; room];
    let given = write(values, &mut out);
    let length = usize::try_from(given).unwrap_or(0);
    assert!(out[length..].iter().all(|&byte| byte == KEPT));
    if given >= 0 {
        assert_eq!(length, values.length());
        let contents = read(&out[..length]).expect("a file as laid down");
        assert_eq!(Values::of(&contents), *values);
    }
    given
}

/// So many days from a first on.
fn held(first: u32, h: usize) -> Table {
    Table {
        first,
        marks: vec![0; h],
        readings: vec![1000; 96 * h],
    }
}

/// So many events.
fn events(count: usize) -> Vec<u32> {
    [6972, 152, 156, 148, 1].repeat(count)
}

fn values(table: Table, events: Vec<u32>) -> Values {
    Values {
        p: 6900,
        portfolio: 77,
        table,
        moves: vec![],
        events,
    }
}

/// One day and one event, with a list.
fn with_moves(moves: Vec<u32>) -> Values {
    Values {
        moves,
        ..values(held(6951, 1), events(1))
    }
}

/// So many moves, which mean nothing.
fn moves(count: usize) -> Vec<u32> {
    [8888, 8893].repeat(count)
}

/// 01's worked case; include/honeyplank.h names its length.
fn worked() -> Values {
    values(
        worked_table(),
        vec![6972, 152, 156, 148, 0, 6966, 152, 156, 148, 0],
    )
}

#[test]
fn worked_case() {
    assert_eq!(given(&worked(), ANY), 8604);
    assert_eq!(written(&worked(), ANY), Ok(worked_file()));
}

/// Each byte another, with no help of the records.
#[test]
fn every_byte() {
    let values = Values {
        p: 0x0201,
        portfolio: 0x0605_0403,
        table: Table {
            first: 0xFFFE,
            marks: vec![0x09, 0x0A],
            readings: (0..192).map(|place| 0x7F6F_5F00 + place).collect(),
        },
        moves: vec![0x1615, 0x1817, 0x1A19, 0x1C1B],
        events: vec![
            0x0C0B, 0x0D, 0x0E, 0x0F, 0x1D, 0x1110, 0x12, 0x13, 0x14, 0x1E,
        ],
    };
    let mut file = b"PF\x01\x02\x03\x04\x05\x06".to_vec();
    file.extend(b"MV\x15\x16\x17\x18MV\x19\x1A\x1B\x1C");
    for (day, mark) in [(0xFE, 0x09), (0xFF, 0x0A)] {
        file.extend([b'D', b'Y', day, 0xFF, mark, 0]);
        let first = 96 * (day - 0xFE);
        file.extend((first..first + 96).flat_map(|place| [place, 0x5F, 0x6F, 0x7F]));
    }
    file.extend(b"EV\x0B\x0C\x0D\x0E\x0F\x1DEV\x10\x11\x12\x13\x14\x1E");
    assert_eq!(given(&values, ANY), 816);
    assert_eq!(written(&values, 816), Ok(file));
}

#[test]
fn days() {
    let with = |h| given(&values(held(6951, h), events(1)), 2 * ANY);
    assert_eq!(with(1), 406);
    assert_eq!(with(127), 8 + 390 * 127 + 8);
    assert_eq!(with(128), 8 + 390 * 128 + 8);
    assert_eq!(with(129), -1);
    assert_eq!(with(130), -1);
}

#[test]
fn readings_of_each_day() {
    let with = |h, count| {
        let mut table = held(if h == 0 { 0 } else { 6951 }, h);
        table.readings.resize(count, 1000);
        given(&values(table, events(1)), ANY)
    };
    for h in [1, 2, 3, 128] {
        assert_eq!(with(h, 96 * h), 8 + 390 * h as i64 + 8);
        for count in [0, 95 * h, 96 * h - 1, 96 * h + 1, 97 * h, 96 * (h + 1)] {
            assert_eq!(with(h, count), -1);
        }
    }
    assert_eq!(with(0, 0), 16);
    assert_eq!(with(0, 1), -1);
    assert_eq!(with(0, 96), -1);
}

#[test]
fn count_of_events() {
    let with = |count| given(&values(held(6951, 1), events(count)), ANY);
    assert_eq!(with(0), 398);
    assert_eq!(with(63), 398 + 8 * 63);
    assert_eq!(with(64), 398 + 8 * 64);
    assert_eq!(with(65), -13);
    assert_eq!(with(66), -13);
}

#[test]
fn five_numbers_for_each_event() {
    let with = |numbers: usize| {
        let numbers = events(65).into_iter().take(numbers).collect();
        given(&values(held(6951, 1), numbers), ANY)
    };
    for numbers in 0..=325 {
        let fits = numbers % 5 == 0 && numbers <= 320;
        let length = 398 + 8 * (numbers as i64 / 5);
        assert_eq!(with(numbers), if fits { length } else { -13 });
    }
}

#[test]
fn count_of_moves() {
    let with = |count| given(&with_moves(moves(count)), ANY);
    for count in 0..=16 {
        assert_eq!(with(count), 406 + 6 * count as i64);
    }
    assert_eq!([17, 18, 64, 65_536].map(with), [-13; 4]);
}

#[test]
fn two_numbers_for_each_move() {
    for numbers in 0..=34 {
        let given = given(&with_moves(moves(17)[..numbers].to_vec()), ANY);
        let fits = numbers % 2 == 0 && numbers <= 32;
        let length = 406 + 3 * numbers as i64;
        assert_eq!(given, if fits { length } else { -13 });
    }
}

/// Days past the calendar, days that are no holidays and repeated ones are
/// carried; what two bytes can't hold is not.
#[test]
fn days_of_moves() {
    for place in 0..4 {
        let with = |number| {
            let mut numbers = moves(2);
            numbers[place] = number;
            given(&with_moves(numbers), ANY)
        };
        assert_eq!([0, 36_524, 36_525, 65_535].map(with), [418; 4]);
        assert_eq!([65_536, 65_537, 1 << 31, u32::MAX].map(with), [-13; 4]);
    }
}

/// What a field's bytes hold, and the first that they do not, which is 0 in them.
#[test]
fn fields() {
    let above = [0x1_0000, 0x1_0001, 0x10_0000, 1 << 31, u32::MAX];
    let with_p = |p| given(&Values { p, ..worked() }, ANY);
    assert_eq!([0, 36_525, 65_535].map(with_p), [8604; 3]);
    assert_eq!(above.map(with_p), [-13; 5]);
    let with_portfolio = |portfolio| {
        let values = Values {
            portfolio,
            ..worked()
        };
        given(&values, ANY)
    };
    assert_eq!([0, 65_536, u32::MAX].map(with_portfolio), [8604; 3]);
    for place in 0..10 {
        let with = |number| {
            let mut values = worked();
            values.events[place] = number;
            given(&values, ANY)
        };
        assert_eq!([0, 254, 255].map(with), [8604; 3]);
        assert_eq!(above.map(with), [-13; 5]);
        let wide = if place % 5 == 0 { 8604 } else { -13 };
        assert_eq!([256, 257, 511, 512, 65_535].map(with), [wide; 5]);
    }
}

#[test]
fn held_days() {
    let with = |first, h| given(&values(held(first, h), events(0)), ANY);
    for h in [1, 2, 128] {
        let length = 8 + 390 * i64::from(h);
        let with = |first| with(first, h as usize);
        assert_eq!([0, 36_525 - h, 36_526 - h].map(with), [length; 3]);
        assert_eq!(with(65_536 - h), length);
        assert_eq!([65_537 - h, 65_536, 1 << 31].map(with), [-13; 3]);
        assert_eq!(with(0u32.wrapping_sub(h)), -13);
    }
    assert_eq!(with(u32::MAX, 1), -13);
    assert_eq!(with(u32::MAX, 2), -13);
    assert_eq!(with(u32::MAX, 128), -13);
    assert_eq!(with(u32::MAX - 126, 128), -13);
}

#[test]
fn no_days() {
    let with = |first| given(&values(held(first, 0), events(1)), ANY);
    assert_eq!(with(0), 16);
    assert_eq!([1, 6951, 65_535, 65_536, u32::MAX].map(with), [-13; 5]);
    assert_eq!(given(&values(held(0, 0), vec![]), ANY), 8);
}

#[test]
fn room() {
    for (pairs, h, count) in [(0, 0, 0), (1, 0, 1), (0, 1, 0), (2, 3, 1), (16, 128, 64)] {
        let first = if h == 0 { 0 } else { 6951 };
        let values = Values {
            moves: moves(pairs),
            ..values(held(first, h), events(count))
        };
        let length = 8 + 6 * pairs + 390 * h + 8 * count;
        assert_eq!(given(&values, length), length as i64);
        assert_eq!(given(&values, length + 1), length as i64);
        assert_eq!(given(&values, 2 * ANY), length as i64);
        for room in [0, 7, length - 8, length - 1] {
            assert_eq!(given(&values, room), -7);
        }
    }
}

/// "Bad marks, bad readings and days past the calendar are carried as they are."
#[test]
fn carried() {
    for first in [36_500, 65_408] {
        for marks in [0..=127, 128..=255] {
            let mut table = flat(first, first + 127, MISSING - 1);
            table.marks = marks.collect();
            table.readings[0] = HIGHEST + 1;
            let values = Values {
                moves: moves(16),
                ..values(table, events(64))
            };
            assert_eq!(given(&values, ANY), ANY as i64);
        }
    }
}

/// The clauses of 13, each alone.
fn unwritable() -> Vec<(Reason, Values)> {
    let altered = |place: usize, number| {
        let mut values = worked();
        values.events[place] = number;
        values
    };
    vec![
        (Reason::Events, values(held(6951, 1), events(65))),
        (
            Reason::Fives,
            values(held(6951, 1), vec![6972, 152, 156, 148]),
        ),
        (Reason::Moves, with_moves(moves(17))),
        (Reason::Twos, with_moves(vec![8887])),
        (Reason::First, with_moves(vec![65_536, 0])),
        (Reason::Second, with_moves(vec![0, 0, 0, 65_536])),
        (
            Reason::P,
            Values {
                p: 65_536,
                ..worked()
            },
        ),
        (Reason::Held, values(held(u32::MAX, 2), events(1))),
        (Reason::D, altered(5, 65_536)),
        (Reason::S, altered(1, 256)),
        (Reason::E, altered(7, 256)),
        (Reason::N, altered(3, 256)),
        (Reason::Method, altered(9, 256)),
        (Reason::NoDays, values(held(1, 0), events(1))),
    ]
}

/// 1 goes before each clause of 13 and before 7, and 13 before 7.
#[test]
fn order() {
    assert_eq!(unwritable().len(), Reason::ALL.len());
    for (reason, values) in unwritable() {
        assert_eq!(values.reasons(), [reason]);
        let mut misshapen = values.clone();
        misshapen.table.readings.push(0);
        for room in [0, 7, values.length() - 1, values.length(), 2 * ANY] {
            assert_eq!(given(&values, room), -13);
            assert_eq!(given(&misshapen, room), -1);
        }
    }
    let long = values(held(6951, 129), events(1));
    assert_eq!(given(&long, 0), -1);
    let every = Values {
        p: 65_536,
        portfolio: 77,
        table: held(u32::MAX, 129),
        moves: vec![65_536; 35],
        events: vec![65_536; 326],
    };
    assert_eq!(every.reasons(), Reason::ALL[..13]);
    assert_eq!(given(&every, 0), -1);
}

/// "a file the reader accepts is written again byte for byte".
#[test]
fn files_are_written_again() {
    let mut again = 0;
    for seed in 0..4_000 {
        for file in [gen_file(seed), gen_small_file(seed)] {
            if let Ok(contents) = read(&file) {
                assert_eq!(written(&Values::of(&contents), file.len()), Ok(file));
                again += 1;
            }
        }
    }
    assert!(again > 4_000, "{again}");
}

/// "What is written reads back as the same values".
#[test]
fn generated_values_read_back() {
    let mut outcomes = [0; 14];
    for seed in 0..10_000 {
        let (values, room) = gen_writing(seed);
        let refused = usize::try_from(-given(&values, room)).unwrap_or(0);
        outcomes[refused] += 1;
    }
    println!("outcomes {outcomes:?}");
    assert!([0, 1, 7, 13].iter().all(|&number| outcomes[number] > 500));
}
