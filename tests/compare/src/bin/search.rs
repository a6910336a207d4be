//! search [FIRST [COUNT]]: compares COUNT generated calls (a million), and as many of the writer, from seed FIRST (0) on, and stops at the first that
//! differs.

use compare::met::Counts;
use compare::{writing, Met};

fn main() {
    let mut words = std::env::args().skip(1);
    let mut number = |default: u64| match words.next() {
        None => default,
        Some(word) => word.parse().unwrap_or_else(|_| {
            eprintln!("search [FIRST [COUNT]]: compares generated calls with the reference; FIRST and COUNT are numbers");
            std::process::exit(2)
        }),
    };
    let (first, count) = (number(0), number(1_000_000));
    let mut outcomes = [0u64; 15];
    let (mut met, mut written) = (Met::default(), Counts::default());
    for seed in first..first + count {
        match compare::compare(seed, &mut met).and_then(|number| writing::compare(seed, &mut written).map(|()| number)) {
            Ok(number) => outcomes[number as usize] += 1,
            Err(difference) => {
                println!("{difference}");
                std::process::exit(1);
            }
        }
    }
    println!("{count} calls from seed {first} agree: answers {}, refusals 1 to 10 {:?}, 14 {}", outcomes[0], &outcomes[1..=10], outcomes[14]);
    println!("of those with a list: {:?}", met.lists);
    println!("by their methods: {:?}", met.methods);
    println!("{count} writings from seed {first} agree: {written:?}");
}
