//! Generated record files whose first event mostly has a working to show: to its end, or as far as refusals 8, 9 and 10 let it go.

use super::calls::{around, blank, calm_all, count_edges, ruler_edges, Draft};
use super::files::plain_file;
use super::methods::short;
use super::source::Source;
use crate::calendar::LAST_DAY;
use crate::table::{HIGH, OUTAGE, QUARTERS};
use crate::working::RULER;

/// The file of a seed.
pub fn gen_worked_file(seed: u64) -> Vec<u8> {
    let source = &mut Source::new(seed ^ 0x3023_ED00_0000_0000);
    let draft = match source.below(10) {
        0 => ruler_edges(source),
        1 | 2 => broken(source),
        3 | 4 => few(source),
        5 => short(source),
        6 => falling(source),
        7 | 8 => started(source),
        _ => count_edges(source),
    };
    plain_file(source, draft)
}

/// A ruler with a reading missing at every so manieth quarter: twelve in a row are present only where that is the thirteenth.
fn broken(source: &mut Source) -> Draft {
    let mut draft = ruler_edges(source);
    draft.request.method = HIGH;
    let every = source.pick(&[1, 5, 12, 12, 13, 14]);
    for t in (source.below(every) as usize..RULER).step_by(every as usize) {
        blank(&mut draft, t);
    }
    draft
}

/// So few eligible days by High X of Y that others fill the window up, all of the look-back held.
fn few(source: &mut Source) -> Draft {
    let mut draft = count_edges(source);
    draft.request.method = HIGH;
    let kept = source.below(4) as usize;
    for mark in draft.table.marks.iter_mut().skip(kept) {
        *mark = match source.below(6) {
            0 => OUTAGE,
            1 => 0,
            _ => 1,
        };
    }
    draft.request.p = draft.request.p.max(draft.table.first);
    draft
}

/// A load that is gone before notice, and days that use little in the event's quarters: a baseline at its floor.
fn falling(source: &mut Source) -> Draft {
    let before = source.pick(&[45, 46, 60]);
    let d = source.between(before, LAST_DAY);
    let mut draft = around(source, d, before, 0);
    draft.request.method = HIGH;
    calm_all(&mut draft);
    let event = draft.request.event_quarters();
    for day in draft.table.readings.chunks_mut(QUARTERS) {
        day.fill(1000 + source.below(1000));
        day[event.clone()].fill(source.below(200));
    }
    let today = (d - draft.table.first) as usize * QUARTERS;
    draft.table.readings[today..today + QUARTERS].fill(source.below(3));
    draft
}

/// A portfolio that has just started: a few days, and all of them held.
fn started(source: &mut Source) -> Draft {
    let mut draft = short(source);
    let back = source.between(2, 9);
    draft.request.p = draft.request.d.saturating_sub(back);
    calm_all(&mut draft);
    draft
}
