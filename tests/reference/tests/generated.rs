//! The generator: the same seed gives the same case, every refusal and every
//! kind of answer comes up, and no case stops the call.

use reference::record::read;
use reference::table::AVERAGE;
use reference::{gen_call, gen_file, gen_writing, host, listing, verdict};

#[test]
fn seeds_are_kept() {
    for seed in 0..500 {
        assert_eq!(gen_call(seed), gen_call(seed));
        assert_eq!(gen_file(seed), gen_file(seed));
        assert_eq!(gen_writing(seed), gen_writing(seed));
    }
    assert_ne!(gen_call(1), gen_call(2));
}

#[test]
fn calls_reach_every_outcome() {
    let mut outcomes = [0; 15];
    let (mut floored, mut falling, mut weekdays) = (0, 0, 0);
    let mut averaged = [0; 2];
    for seed in 0..40_000 {
        let call = gen_call(seed);
        match verdict(call.table.view(), &call.moves, &call.request, call.room) {
            Ok(answer) if call.request.method == AVERAGE => {
                averaged[answer.days.len() - 1] += 1;
            }
            Ok(answer) => {
                outcomes[0] += 1;
                floored += u32::from(answer.numerators.contains(&0));
                falling += u32::from(answer.adjustment < 0);
                weekdays += u32::from(answer.denominator == 60);
            }
            Err(refusal) => outcomes[refusal.number() as usize] += 1,
        }
    }
    println!("outcomes {outcomes:?}, floored {floored}, falling {falling}, weekdays {weekdays}");
    println!("averages of one day and of two {averaged:?}");
    assert!(outcomes[..=10].iter().all(|&count| count > 200) && outcomes[14] > 200);
    assert!([floored, falling, weekdays]
        .iter()
        .chain(&averaged)
        .all(|&count| count > 200));
}

#[test]
fn files_reach_every_outcome() {
    let mut outcomes = [0; 15];
    let (mut refused, mut most) = (0, 0);
    for seed in 0..16_000 {
        let file = gen_file(seed);
        let lines = listing(&file);
        assert_eq!(lines.last(), Some(&b'\n'));
        refused += u32::from(lines.starts_with(b"file refused "));
        let events = read(&file).map_or(0, |contents| contents.events.len());
        most = most.max(events);
        for place in 0..=events {
            let mut out = [0; 4 * 96];
            let room = if seed % 4 == 0 { 4 * 12 } else { out.len() };
            outcomes[host(&file, place, &mut out[..room]) as usize] += 1;
        }
    }
    println!("outcomes {outcomes:?}, refused files {refused}");
    assert!(outcomes[..=12].iter().all(|&count| count > 50) && outcomes[14] > 50);
    assert_eq!(most, 64);
}
