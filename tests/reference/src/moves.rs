//! The list of moved holidays (02, order 2): two numbers for each pair, a
//! fixed-date holiday and the day that replaces it.

use crate::calendar::{is_fixed, LAST_DAY};
use crate::refusal::Refusal;

/// "a list of up to 16 pairs".
pub const MOST_MOVES: usize = 16;

/// The numbers of a pair.
pub const MOVE_NUMBERS: usize = 2;

/// The fixed-date holidays of a list.
pub fn first_days(moves: &[u32]) -> impl Iterator<Item = u32> + '_ {
    moves.iter().copied().step_by(MOVE_NUMBERS)
}

/// The days that replace them.
pub fn second_days(moves: &[u32]) -> impl Iterator<Item = u32> + '_ {
    moves.iter().copied().skip(1).step_by(MOVE_NUMBERS)
}

/// The clauses of refusal 14.
#[derive(Clone, Copy, PartialEq, Eq, Debug)]
pub enum Fault {
    /// "a pair whose first day is no fixed-date holiday".
    NotFixed,
    /// "a repeated first day".
    Repeated,
    /// "more than 16 pairs".
    TooMany,
    /// "a day past 36,524".
    Past,
    /// Not two numbers for each pair (include/honeyplank.h).
    Half,
}

impl Fault {
    pub const ALL: [Fault; 5] = [
        Fault::NotFixed,
        Fault::Repeated,
        Fault::TooMany,
        Fault::Past,
        Fault::Half,
    ];

    fn applies(self, moves: &[u32]) -> bool {
        match self {
            Fault::NotFixed => first_days(moves).any(|first| !is_fixed(first)),
            Fault::Repeated => has_repeated(moves),
            Fault::TooMany => moves.len() > MOVE_NUMBERS * MOST_MOVES,
            Fault::Past => moves.iter().any(|&day| day > LAST_DAY),
            Fault::Half => moves.len() % MOVE_NUMBERS != 0,
        }
    }
}

/// A first day that stands at an earlier pair too, whatever their second days.
fn has_repeated(moves: &[u32]) -> bool {
    let firsts: Vec<u32> = first_days(moves).collect();
    (0..firsts.len()).any(|place| firsts[..place].contains(&firsts[place]))
}

/// Refusal 14: the clauses that apply.
pub fn faults(moves: &[u32]) -> Vec<Fault> {
    let applies = |fault: &Fault| fault.applies(moves);
    Fault::ALL.into_iter().filter(applies).collect()
}

/// Refusal 14.
pub fn check_moves(moves: &[u32]) -> Result<(), Refusal> {
    if faults(moves).is_empty() {
        Ok(())
    } else {
        Err(Refusal::Moves)
    }
}
