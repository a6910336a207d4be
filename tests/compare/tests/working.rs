//! The working of an event, its overlap, readings and marks, and days of the calendar: the proved entries and the reference agree on generated files,
//! valid, at each edge and damaged, on the samples, and on every day of the calendar.

use compare::program::root;
use compare::shrink::keep;
use compare::working::{compare, every_name, of_calendar, proved_calendar, Met};
use reference::calendar::LAST_DAY;
use reference::{gen_file, gen_small_file, gen_worked_file};
use std::fs;

/// As many files as are compared at each run, and every so manieth is asked for all that matters.
const FILES: u64 = 5_000;
const WHOLE: u64 = 50;
/// Of the other files one in so many of the places that matter.
const SOME: u64 = 4;

fn check(name: &str, file: &[u8], every: u64, seed: u64, met: &mut Met) {
    if let Err(difference) = compare(file, every, seed, met) {
        let kept = keep(name, file, |smaller| compare(smaller, every, seed, &mut Met::default()).is_err());
        panic!("{name} (seed {seed}): {kept}\n{difference}");
    }
}

#[test]
fn generated_files_agree() {
    let mut met = Met::default();
    for seed in 0..FILES {
        let file = match seed % 3 {
            0 => gen_file(seed),
            1 => gen_small_file(seed),
            _ => gen_worked_file(seed),
        };
        let every = if seed % WHOLE == 0 { 1 } else { SOME };
        check(&format!("working-{seed}"), &file, every, seed, &mut met);
    }
    println!("{FILES} files, seeds 0 to {}: {met:?}", FILES - 1);
    assert!(met.least() > 30, "each kind occurs: {met:?}");
}

#[test]
fn samples_agree() {
    let mut count = 0;
    for entry in fs::read_dir(root("samples")).unwrap() {
        let path = entry.unwrap().path();
        if path.extension().is_some_and(|extension| extension == "rec") {
            let name = path.file_stem().unwrap().to_string_lossy().into_owned();
            check(&name, &fs::read(&path).unwrap(), 1, 0, &mut Met::default());
            count += 1;
        }
    }
    assert!(count >= 13, "{count}");
}

/// Every day by the names of the calendar, and some by every name.
#[test]
fn every_day_of_the_calendar_agrees() {
    for day in (0..=LAST_DAY + 1_000).chain([65_535, 65_536, 1 << 31, u32::MAX]) {
        let names: Vec<u32> = if day % 97 == 0 { every_name().collect() } else { (45..=47).collect() };
        for name in names {
            assert_eq!(proved_calendar(day, name), of_calendar(day, name), "day {day}, name {name}");
        }
    }
}
