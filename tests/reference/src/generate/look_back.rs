//! Record files of one event, by both methods, whose look-back is cut by the file in every way, with one day spoiled: at the file's ends, at the ends of the
//! look-back, and just past them.

use std::ops::RangeInclusive;

use super::source::Source;
use crate::table::{HIGHEST, MISSING, QUARTERS};
use crate::writer::{day_record, head_record, method_record, move_record};

/// The first day of each, 23 April 2024.
const FIRST: i64 = 8879;
const FIRST_OF_MAY: u16 = 8887;
const LENGTHS: [i64; 8] = [1, 31, 45, 46, 47, 48, 92, 128];
/// How far before the event day the spoiled day is.
const DAYS_BACK: [i64; 7] = [46, 45, 44, 1, 0, -1, -2];

/// What is done to a day.
#[derive(Clone, Copy)]
enum Spoil {
    Nothing,
    Mark,
    Reading(usize),
    Missing,
    /// A bad reading there and one on the last day: the earlier is reported.
    ReadingAndLast,
    /// A bad reading there, and a bad mark on the last day: the mark is reported.
    ReadingAndLastMark,
    /// An outage on every day but this, the highest, and the week up to the event: this day is chosen where it can be.
    Others,
    /// The same, and 1 May 2024 moved to this day, which is a holiday then.
    OthersMoved,
}

const SPOILS: [Spoil; 9] = [
    Spoil::Nothing,
    Spoil::Mark,
    Spoil::Reading(0),
    Spoil::Reading(QUARTERS - 1),
    Spoil::Missing,
    Spoil::ReadingAndLast,
    Spoil::ReadingAndLastMark,
    Spoil::Others,
    Spoil::OthersMoved,
];

/// All of them, one after the other.
pub fn gen_look_backs() -> impl Iterator<Item = Vec<u8>> {
    LENGTHS.into_iter().flat_map(|h| {
        places(-1..=h, [-1, 0, 1, 44, 45, 46, h / 2, h - 2, h - 1, h])
            .into_iter()
            .flat_map(move |d| {
                let around = DAYS_BACK.map(|back| d - back);
                let spoiled = places(0..=h - 1, [0, h - 1].into_iter().chain(around));
                spoiled
                    .into_iter()
                    .flat_map(move |day| SPOILS.map(|spoil| file(h, d, day as usize, spoil)))
            })
    })
}

/// Those that are in a range, each once.
fn places(within: RangeInclusive<i64>, any: impl IntoIterator<Item = i64>) -> Vec<i64> {
    let mut kept: Vec<i64> = any
        .into_iter()
        .filter(|place| within.contains(place))
        .collect();
    kept.sort_unstable();
    kept.dedup();
    kept
}

/// What is done to the spoiled day itself.
fn spoil_day(spoil: Spoil, mark: &mut u8, readings: &mut [u32]) {
    match spoil {
        Spoil::Nothing => {}
        Spoil::Mark => *mark = 4,
        Spoil::Reading(quarter) => readings[quarter] = HIGHEST + 1,
        Spoil::Missing => readings[QUARTERS / 2] = MISSING,
        Spoil::ReadingAndLast | Spoil::ReadingAndLastMark => readings[7] = MISSING - 1,
        Spoil::Others | Spoil::OthersMoved => {
            *mark = 0;
            readings.iter_mut().for_each(|reading| *reading += 5000);
        }
    }
}

/// The file of `h` days with an event by each method on the day at place `d`, which need not be one of them, and the day at place `spoiled` spoiled.
fn file(h: i64, d: i64, spoiled: usize, spoil: Spoil) -> Vec<u8> {
    let source = &mut Source::new((h * 1000 + d) as u64);
    let last = h as usize - 1;
    let mut records = vec![head_record(8000, 77)];
    if let Spoil::OthersMoved = spoil {
        records.push(move_record(FIRST_OF_MAY, (FIRST + spoiled as i64) as u16));
    }
    for place in 0..h as usize {
        let mut mark = u8::from(source.once_in(9));
        let mut readings: Vec<u32> = (0..QUARTERS).map(|_| 1000 + source.below(2000)).collect();
        if place == spoiled {
            spoil_day(spoil, &mut mark, &mut readings);
        }
        match spoil {
            Spoil::ReadingAndLast if place == last => readings[QUARTERS - 1] = HIGHEST + 1,
            Spoil::ReadingAndLastMark if place == last => mark = 128,
            Spoil::Others | Spoil::OthersMoved if place != spoiled => {
                mark = if (0..=7).contains(&(d - place as i64)) {
                    0
                } else {
                    2
                }
            }
            _ => {}
        }
        records.push(day_record((FIRST + place as i64) as u16, mark, &readings));
    }
    for method in [0, 1] {
        records.push(method_record((FIRST + d) as u16, 152, 160, 148, method));
    }
    records.concat()
}
