//! The working of an event and the overlap that it needs: 01's worked case, each
//! reason, how far it goes where the event is refused 8, 9 or 10, and that it leads to
//! the answer on generated calls.

mod common;

use common::{
    august, average, flat, request, set_day, set_mark, set_reading, worked_file, worked_table,
};
use reference::calendar::{days_after_easter, fixed_date, is_easter, is_fixed, Group, LAST_DAY};
use reference::record::{read, Contents};
use reference::table::{AVERAGE, HIGHEST, MISSING, OUTAGE};
use reference::working::{Adjustment, Ranking};
use reference::writer::{event_record, head_record, move_record};
use reference::{
    cut_from, gen_call, gen_file, overlap, verdict, working, Answer, Draft, Overlap, Reason,
    Refusal, Request, Table, Working,
};

fn worked() -> Contents {
    read(&worked_file()).unwrap()
}

fn worked_working(place: usize) -> Working {
    let contents = worked();
    working(contents.table.view(), &[], &contents.events[place]).unwrap()
}

fn reasons(working: &Working) -> Vec<Reason> {
    working.rows.iter().map(|row| row.reason).collect()
}

/// So many of them in a row.
fn of(times: usize, reason: Reason) -> Vec<Reason> {
    vec![reason; times]
}

#[test]
fn the_worked_case() {
    let working = worked_working(0);
    assert_eq!((working.group, working.most), (Group::Saturday, 3));
    for row in &working.rows {
        let day = 6972 - row.back;
        let reason = match row.back % 7 {
            0 if day >= 6951 => Reason::Eligible,
            0 => Reason::NotHeld,
            _ => Reason::AnotherGroup,
        };
        let sum = match day {
            6951 => Some(5207),
            6958 => Some(4400),
            6965 => Some(4800),
            6952.. => Some(4000),
            _ => None,
        };
        assert_eq!((row.day, row.reason, row.sum), (Some(day), reason, sum));
        let ranks = [(21, 1), (7, 2), (14, 3)];
        let rank = ranks.iter().find(|&&(back, _)| back == row.back);
        let rank = rank.map_or(0, |&(_, rank)| rank);
        assert_eq!(working.rank(row.back), Some(rank));
        assert_eq!(working.is_chosen(row.back), Some(rank == 1 || rank == 2));
    }
    assert_eq!(working.rows.len(), 45);
    let adjustment = Adjustment {
        end: 148,
        a: 15_132,
        b: 30_000,
    };
    assert_eq!(working.adjustment, Some(adjustment));
    let sums = working.sums.unwrap();
    assert_eq!(
        (sums[151], sums[152], sums[56], sums[0]),
        (2500, 2507, 2507, 2500)
    );
    assert_eq!(
        working.numerators,
        Some(vec![30_348, 30_264, 30_264, 30_264])
    );
}

/// 8: what the window is does not show, and nothing that comes of it; the days do.
#[test]
fn the_worked_case_that_is_too_short() {
    let working = worked_working(1);
    assert_eq!((working.group, working.most), (Group::Holiday, 3));
    assert_eq!(working.row(7).unwrap().reason, Reason::Eligible);
    assert_eq!(working.row(7).unwrap().sum, Some(4000));
    // 1 January 2019, a Tuesday
    assert_eq!(working.row(26).unwrap().group, Some(Group::Holiday));
    assert_eq!(working.row(26).unwrap().reason, Reason::NotHeld);
    assert_eq!(working.row(25).unwrap().reason, Reason::AnotherGroup);
    assert_eq!(working.ranking, None);
    assert_eq!((working.rank(7), working.is_chosen(7)), (None, None));
    assert_eq!((working.sums, working.adjustment), (None, None));
    assert_eq!(working.numerators, None);
}

#[test]
fn the_worked_overlaps() {
    let contents = worked();
    let found = [0, 1].map(|place| overlap(&contents, &contents.events[place]));
    let due = |held, more, from| {
        Ok(Overlap {
            held: Some(held),
            suffices: 42,
            more: Some(more),
            from,
        })
    };
    assert_eq!(found, [due(21, 21, 6930), due(15, 27, 6924)]);
    assert_eq!(cut_from(&contents), Some(6924));
}

#[test]
fn the_worked_readings() {
    let contents = worked();
    assert_eq!(contents.reading(6951, 56), Some(1307));
    assert_eq!(contents.reading(6972, 95), Some(1261));
    assert_eq!(contents.reading(6972, 96), None);
    assert_eq!(contents.reading(6950, 0), None);
    assert_eq!(contents.reading(6973, 0), None);
    assert_eq!((contents.mark(6951), contents.mark(6973)), (Some(0), None));
}

/// Wednesday 28 August 2024, held from 25 July, P on 23 July.
#[test]
fn each_reason() {
    let mut table = august(8972);
    set_mark(&mut table, 9000, 3);
    set_mark(&mut table, 8999, 1);
    set_reading(&mut table, 8999, 0, MISSING);
    set_reading(&mut table, 8998, 57, MISSING);
    let ask = request(8970, 9006, 152, 156, 148);
    let working = working(table.view(), &[], &ask).unwrap();
    let days: Vec<_> = [1, 2, 3, 5, 6, 7, 8, 13, 34, 35, 36, 37]
        .map(|back| working.row(back).unwrap())
        .iter()
        .map(|row| (row.reason, row.sum))
        .collect();
    let due = [
        (Reason::DayBefore, Some(4000)),
        (Reason::Eligible, Some(4000)),
        (Reason::AnotherGroup, Some(4000)),
        (Reason::EventRecorded, Some(4000)),
        (Reason::Outage, Some(4000)),
        (Reason::ReadingMissing, Some(4000)),
        (Reason::ReadingMissing, None),
        (Reason::AnotherGroup, Some(4000)),
        (Reason::Eligible, Some(4000)),
        (Reason::NotHeld, None),
        (Reason::NotHeld, None),
        (Reason::TooEarly, None),
    ];
    assert_eq!(days, due);
    // ten count, so it does not matter that days before 25 July are not held
    let Ranking {
        backs,
        passed,
        taken,
    } = working.ranking.clone().unwrap();
    assert_eq!(backs, [2, 9, 12, 14, 15, 16, 19, 20, 22, 23]);
    assert_eq!((passed, taken), (0, 5));
    assert_eq!(working.rank(5), Some(0));
}

/// The calendar starts 20 days before the event.
#[test]
fn below_day_0() {
    let table = flat(0, 20, 1000);
    let ask = request(0, 20, 152, 156, 148);
    let working = working(table.view(), &[], &ask).unwrap();
    let row = |back| working.row(back).unwrap();
    assert_eq!(
        (row(20).day, row(20).group),
        (Some(0), Some(Group::Holiday))
    );
    assert_eq!((row(21).day, row(21).group), (None, None));
    assert_eq!((row(21).reason, row(21).sum), (Reason::TooEarly, None));
    assert_eq!(working.rank(21), Some(0));
    assert_eq!(reasons(&working)[20..], of(25, Reason::TooEarly));
}

/// 9 tells the window, and 10 the chosen days too; of Average X of Y there is no
/// adjustment.
#[test]
fn as_far_as_it_goes() {
    let mut table = worked_table();
    let ask = request(6951, 6972, 152, 156, 148);
    set_mark(&mut table, 6951, OUTAGE);
    set_mark(&mut table, 6958, OUTAGE);
    let few = working(table.view(), &[], &ask).unwrap();
    let ranking = few.ranking.clone().unwrap();
    assert_eq!((&ranking.backs[..], ranking.taken), (&[7][..], 0));
    assert_eq!((few.rank(7), few.is_chosen(7)), (Some(1), Some(false)));
    assert_eq!(
        (few.sums, few.adjustment, few.numerators),
        (None, None, None)
    );

    let mut table = worked_table();
    set_day(&mut table, 6971, MISSING);
    set_day(&mut table, 6972, MISSING);
    let unadjusted = working(table.view(), &[], &ask).unwrap();
    assert_eq!(unadjusted.sums.unwrap()[152], 2507);
    assert_eq!((unadjusted.adjustment, unadjusted.numerators), (None, None));

    let averaged = working(table.view(), &[], &average(6951, 6972)).unwrap();
    let ranking = averaged.ranking.clone().unwrap();
    assert_eq!((&ranking.backs[..], ranking.passed), (&[21, 7, 14][..], 1));
    assert_eq!(ranking.chosen(), [7, 14]);
    assert_eq!(averaged.adjustment, None);
    assert_eq!(averaged.numerators, Some(vec![2300; 4]));
}

/// The days of a spare: highest first by High X of Y, the latest by Average X of Y.
#[test]
fn spares_in_the_window() {
    let mut table = flat(9006 - 20, 9006, 1000);
    for day in 8986..9006 {
        set_mark(&mut table, day, 1);
    }
    set_mark(&mut table, 9004, 0);
    set_day(&mut table, 8987, 3000);
    set_day(&mut table, 8990, 2000);
    let ranked = |ask: &Request| {
        let working = working(table.view(), &[], ask).unwrap();
        working.ranking.unwrap().backs
    };
    assert_eq!(
        ranked(&request(8986, 9006, 152, 156, 148)),
        [19, 16, 2, 5, 6]
    );
    assert_eq!(ranked(&average(8986, 9006)), [2, 5, 6, 7]);
}

/// A refusal leaves nothing to show.
#[test]
fn refusals() {
    let refused = |table: &Table, moves: &[u32], ask: &Request| {
        working(table.view(), moves, ask).unwrap_err().number()
    };
    let ask = request(6900, 6972, 152, 156, 148);
    let mut table = worked_table();
    assert_eq!(refused(&Table::default(), &[], &ask), 1);
    assert_eq!(refused(&table, &[1, 1], &ask), 14);
    assert_eq!(refused(&table, &[], &request(6900, 6972, 152, 152, 148)), 4);
    assert_eq!(refused(&table, &[], &request(6900, 6950, 152, 156, 148)), 5);
    assert_eq!(refused(&table, &[], &request(6973, 6972, 152, 156, 148)), 6);
    set_reading(&mut table, 6960, 0, HIGHEST + 1);
    assert_eq!(refused(&table, &[], &ask), 3);
    set_mark(&mut table, 6960, 4);
    assert_eq!(refused(&table, &[], &ask), 2);
}

/// A file with no days, moves, and events before P and after it.
#[test]
fn overlaps_without_days() {
    let events = [
        event_record(6899, 152, 156, 148),
        event_record(6920, 152, 156, 148),
        event_record(6972, 152, 152, 148),
        event_record(6972, 152, 156, 148),
    ];
    let file = [head_record(6900, 77), events.concat()].concat();
    let contents = read(&file).unwrap();
    let found: Vec<_> = contents
        .events
        .iter()
        .map(|event| overlap(&contents, event).map_err(|refusal| refusal.number()))
        .collect();
    let due = |suffices, from| {
        Ok(Overlap {
            held: None,
            suffices,
            more: None,
            from,
        })
    };
    // 6920 is a Wednesday, and P the Thursday 20 days before it
    assert_eq!(found, [Err(6), due(20, 6900), Err(4), due(42, 6930)]);
    assert_eq!(cut_from(&contents), Some(6900));

    let moved = [head_record(6900, 77), move_record(1, 1), events.concat()].concat();
    let contents = read(&moved).unwrap();
    let refused = overlap(&contents, &contents.events[0]);
    assert_eq!(refused.unwrap_err().number(), 14);
    assert_eq!(cut_from(&contents), None);
}

/// As the answer has them.
fn leads_to(answer: &Answer, working: &Working, d: u32) {
    let chosen = working.ranking.as_ref().unwrap().chosen();
    let days: Vec<u32> = chosen.iter().map(|back| d - back).collect();
    assert_eq!(days, answer.days);
    let adjustment = working
        .adjustment
        .map(|Adjustment { a, b, .. }| days.len() as i64 * a - b);
    assert_eq!(adjustment.unwrap_or(0), answer.adjustment);
    let floored = working
        .numerators
        .iter()
        .flatten()
        .map(|&n| n.max(0) as u32);
    assert!(floored.eq(answer.numerators.iter().copied()));
}

/// Either way of working, of generated calls.
#[test]
fn the_working_leads_to_the_answer() {
    let mut met = [0; 15];
    for seed in 0..40_000 {
        let Draft {
            table,
            moves,
            request,
            ..
        } = gen_call(seed);
        let result = verdict(table.view(), &moves, &request, 96);
        met[result.as_ref().err().map_or(0, Refusal::number) as usize] += 1;
        let found = working(table.view(), &moves, &request);
        match (result, found) {
            (Ok(answer), Ok(working)) => leads_to(&answer, &working, request.d),
            (Err(Refusal::Margin { .. }), Ok(working)) => assert_eq!(working.ranking, None),
            (Err(Refusal::TooFew { size, .. }), Ok(working)) => {
                let ranking = working.ranking.unwrap();
                assert_eq!((ranking.backs.len() as u64, ranking.taken), (size, 0));
            }
            (Err(Refusal::NoAdjustment { .. }), Ok(working)) => {
                assert!(working.sums.is_some() && working.numerators.is_none());
                assert_ne!(request.method, AVERAGE);
            }
            (result, found) => assert_eq!(result.unwrap_err(), found.unwrap_err()),
        }
    }
    let others = [1, 2, 3, 4, 5, 6, 14];
    let least = [0, 8, 9, 10]
        .iter()
        .chain(&others)
        .map(|&n: &usize| met[n])
        .min();
    assert!(least > Some(200), "{met:?}");
}

/// A table that starts so many days before the event, with an outage on every day:
/// nothing is short of days that does not have to be.
fn is_short(contents: &Contents, request: &Request, before: u32) -> bool {
    let first = request.d - before;
    let table = Table {
        first,
        marks: vec![OUTAGE; before as usize + 1],
        readings: vec![1000; 96 * (before as usize + 1)],
    };
    let result = verdict(table.view(), &contents.moves, request, 96);
    matches!(result, Err(Refusal::Margin { .. }))
}

/// So many days always suffice, and one fewer do not.
#[test]
fn the_overlap_is_the_least_that_suffices() {
    let (mut longer, mut none) = (0, 0);
    for seed in 0..1_500 {
        let Ok(contents) = read(&gen_file(seed)) else {
            continue;
        };
        for request in &contents.events {
            let Ok(overlap) = overlap(&contents, request) else {
                continue;
            };
            if request.d > LAST_DAY {
                continue;
            }
            let needed = overlap.suffices;
            assert!(
                !is_short(&contents, request, needed),
                "seed {seed}: {request:?}"
            );
            if needed > 0 {
                assert!(
                    is_short(&contents, request, needed - 1),
                    "seed {seed}: {request:?}"
                );
                longer += 1;
            } else {
                none += 1;
            }
        }
    }
    assert!(longer > 1_000 && none > 20, "{longer} {none}");
}

#[test]
fn days_of_the_calendar() {
    // 1 May 2021 is Holy Saturday, 4 May 2024 too, and 15 August 2024 a Thursday
    assert_eq!(
        (fixed_date(7791), days_after_easter(7791)),
        (Some(501), Some(-1))
    );
    assert_eq!(
        (fixed_date(8890), days_after_easter(8890)),
        (None, Some(-1))
    );
    assert_eq!(
        (fixed_date(8993), days_after_easter(8993)),
        (Some(815), None)
    );
    for day in 0..=LAST_DAY + 1 {
        assert_eq!(fixed_date(day).is_some(), is_fixed(day), "day {day}");
        assert_eq!(
            days_after_easter(day).is_some(),
            is_easter(day),
            "day {day}"
        );
    }
}
