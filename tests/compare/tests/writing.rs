//! The proved writer, plain C's and the reference's agree: what they give back, and every byte of the output and around it.

use compare::writing::{compare, Met};

/// As many writings as are compared at each run; `cargo run --release --bin search` goes on.
const WRITINGS: u64 = 100_000;

#[test]
fn generated_writings_agree() {
    let mut met = Met::default();
    for seed in 0..WRITINGS {
        compare(seed, &mut met).unwrap_or_else(|difference| panic!("{difference}"));
    }
    println!("{WRITINGS} writings from seed 0: {met:?}");
    assert!(met.least() > 200, "each outcome occurs: {met:?}");
}
