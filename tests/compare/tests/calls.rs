//! The proved call and the reference agree: every number, and every word of the output.

use compare::told::{some_names, Told, NAMES};
use compare::{compare, expected_output, plain, Met};
use reference::{gen_call, verdict};

/// As many calls as are compared at each run; `cargo run --release --bin search` goes on.
const CALLS: u64 = 300_000;

#[test]
fn generated_calls_agree() {
    let mut outcomes = [0u64; 15];
    let mut met = Met::default();
    for seed in 0..CALLS {
        match compare(seed, &mut met) {
            Ok(number) => outcomes[number as usize] += 1,
            Err(difference) => panic!("{difference}"),
        }
    }
    let Met { lists, methods } = met;
    println!("{CALLS} calls from seed 0: {outcomes:?}; of those with a list: {lists:?}; by their methods: {methods:?}");
    assert!(outcomes[..=10].iter().all(|&n| n > 1000) && outcomes[14] > 1000, "each outcome occurs: {outcomes:?}");
    assert!(lists.least() > 100, "each outcome of a list occurs: {lists:?}");
    assert!(methods.rows.least() > 500 && methods.least_others() > 100, "each outcome of a method occurs: {methods:?}");
}

/// Each name, and one that there is not, is asked for at thousands of calls.
#[test]
fn every_name_is_asked() {
    let mut asked = [0u64; NAMES + 1];
    for name in (0..CALLS).flat_map(some_names).filter(|&name| name as usize <= NAMES) {
        asked[name as usize] += 1;
    }
    assert!(asked.iter().all(|&n| n > 10_000), "{asked:?}");
}

/// The measure for speed works out the same.
#[test]
fn plain_c_agrees() {
    for seed in 0..CALLS / 3 {
        let call = gen_call(seed);
        let result = verdict(call.table.view(), &call.moves, &call.request, call.room);
        let expected = (expected_output(&result, call.room), Told::of(&result));
        assert_eq!(plain(&call), expected, "seed {seed}: {:?}, moves {:?}", call.request, call.moves);
    }
}
