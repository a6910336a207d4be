//! The proved entries over record files and the reference agree on generated files: valid, at each edge, damaged and cut.

use compare::files::{compare, compare_plain, Met};
use compare::shrink::keep;
use reference::{gen_cuts, gen_file, gen_look_backs, gen_small_file};

/// As many files as are compared at each run, and every so manieth is a large one.
const FILES: u64 = 220_000;
const LARGE: u64 = 24;
/// Small files cut at every length.
const CUT: u64 = 24;

fn check(name: &str, file: &[u8], seed: u64, met: &mut Met) {
    if let Err(difference) = compare(file, seed, met) {
        let kept = keep(name, file, |smaller| compare(smaller, seed, &mut Met::default()).is_err());
        panic!("{name} (seed {seed}): {kept}\n{difference}");
    }
}

#[test]
fn generated_files_agree() {
    let mut met = Met::default();
    let (mut large, mut longest) = (0, 0);
    for seed in 0..FILES {
        let file = if seed % LARGE == 0 { gen_file(seed) } else { gen_small_file(seed) };
        large += u64::from(file.len() > 8 + 40 * 390);
        longest = longest.max(file.len());
        check(&format!("file-{seed}"), &file, seed, &mut met);
    }
    println!("{FILES} files, seeds 0 to {}, {large} of over 40 days, the longest {longest} bytes: {met:?}", FILES - 1);
    assert!(met.least() > 500 && met.least_moves() > 100 && met.averages.least() > 100, "each outcome occurs: {met:?}");
    assert!(large > 2_000 && longest >= 8 + 128 * 390 && met.listed > 10_000 && met.written > 100_000);
}

#[test]
fn cut_files_agree() {
    let mut met = Met::default();
    let mut count = 0;
    let mut cuts = gen_cuts();
    let small = (0..).map(gen_small_file).filter(|file| file.len() < 2000);
    for file in small.take(CUT as usize) {
        cuts.extend((0..=file.len()).map(|length| file[..length].to_vec()));
    }
    for (seed, file) in cuts.iter().enumerate() {
        check(&format!("cut-{seed}"), file, seed as u64, &mut met);
        count += 1;
    }
    println!("{count} files cut at every length: {met:?}");
    assert!(met.refused[11] > 5_000);
}

/// What an event can ask for, what it cannot, and the days on both sides of the line.
#[test]
fn look_backs_agree() {
    let mut met = Met::default();
    let mut count = 0;
    for (seed, file) in gen_look_backs().enumerate() {
        check(&format!("look-back-{seed}"), &file, seed as u64, &mut met);
        count += 1;
    }
    println!("{count} files around a look-back: {met:?}");
    let answered = met.weekdays + met.saturdays + met.holidays;
    assert!(answered > 200 && met.refused[2] > 500 && met.refused[3] > 800 && met.refused[5] > 50 && met.refused[8] > 100);
}

/// The measure for speed and for the fuzzer works out the same.
#[test]
fn plain_c_agrees() {
    for seed in 0..FILES / 4 {
        let file = if seed % LARGE == 0 { gen_file(seed) } else { gen_small_file(seed) };
        compare_plain(&file, seed).unwrap_or_else(|difference| panic!("seed {seed}: {difference}"));
    }
}
