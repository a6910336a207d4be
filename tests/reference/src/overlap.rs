//! The overlap that an event needs (include/honeyplank.h, `hp_overlap`), and the day
//! to cut a file's days from (`hp_cut_from`): by the calendar, the moves and the event
//! alone.

use crate::moves::check_moves;
use crate::record::Contents;
use crate::refusal::Refusal;
use crate::table::{check_bounds, check_participation, Request};
use crate::working::{irrelevant, LOOK_BACK};

/// How long the overlap has to be, and how long it is.
#[derive(Clone, Copy, PartialEq, Eq, Debug)]
pub struct Overlap {
    /// Days held before the event; none where the event day is not held.
    pub held: Option<u32>,
    /// So many days before the event always suffice: D minus the oldest relevant day,
    /// or 0 if none is relevant.
    pub suffices: u32,
    /// How many of these are not held; none where the event day is not.
    pub more: Option<u32>,
    /// The first day of these.
    pub from: u32,
}

/// D minus the oldest relevant day, or 0.
fn suffices(moves: &[u32], request: &Request) -> u32 {
    let mut backs = (1..=LOOK_BACK).rev();
    let oldest = backs.find(|&back| irrelevant(moves, request, back).is_none());
    oldest.unwrap_or(0)
}

/// The overlap of an event of a file, or refusal 14, 4 or 6.
pub fn overlap(contents: &Contents, request: &Request) -> Result<Overlap, Refusal> {
    let Contents { moves, table, .. } = contents;
    check_moves(moves)?;
    check_bounds(request)?;
    check_participation(request)?;
    let suffices = suffices(moves, request);
    let held = table.view().place(request.d).map(|place| place as u32);
    Ok(Overlap {
        held,
        suffices,
        more: held.map(|held| suffices.saturating_sub(held)),
        from: request.d - suffices,
    })
}

/// The least first day of any event that has one.
pub fn cut_from(contents: &Contents) -> Option<u32> {
    let overlaps = contents.events.iter().map(|event| overlap(contents, event));
    overlaps.flatten().map(|overlap| overlap.from).min()
}
