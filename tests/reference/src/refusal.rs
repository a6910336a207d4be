//! The refusals and the numbers they carry (01, "Refusal numbers"; 13 and 14 are
//! 02's, and so are the methods).

/// Each refusal is a case of its own.
#[derive(Clone, Copy, PartialEq, Eq, Debug)]
pub enum Refusal {
    /// 1: h is 0 or above 128, readings not 96·h, or F+h-1 above 36,524.
    Shape,
    /// 2: a mark with another bit; the day place of the first.
    Mark { place: u64 },
    /// 3: a reading above 10,000,000 that is not the missing mark; its place.
    Reading { place: u64 },
    /// 4: P, s, e or n out of bounds, or an unknown method (02, order 3).
    Bounds,
    /// 5: D not held.
    NotHeld,
    /// 6: P later than D.
    StartsLater,
    /// 7: output shorter than e-s quarters; the writer's, than the file.
    Room,
    /// 8: margin too short; D minus the oldest relevant day.
    Margin { days: u64 },
    /// 9: window below N, or none of it to average (02, order 3); its size and
    /// the reach.
    TooFew { size: u64, reach: u64 },
    /// 10: no adjustment window; the reach.
    NoAdjustment { reach: u64 },
    /// 11: file not as laid down; the byte offset of that record.
    File { offset: u64 },
    /// 12: no event at that place.
    NoEvent,
    /// 13: more than 64 events, more than 16 pairs, a field or day that its
    /// bytes can't hold, or no days with F other than 0.
    Unwritable,
    /// 14: a pair whose first day is no fixed-date holiday, a repeated first
    /// day, more than 16 pairs or a day past 36,524.
    Moves,
}

impl Refusal {
    /// The number in 01's table.
    pub fn number(&self) -> u32 {
        match self {
            Refusal::Shape => 1,
            Refusal::Mark { .. } => 2,
            Refusal::Reading { .. } => 3,
            Refusal::Bounds => 4,
            Refusal::NotHeld => 5,
            Refusal::StartsLater => 6,
            Refusal::Room => 7,
            Refusal::Margin { .. } => 8,
            Refusal::TooFew { .. } => 9,
            Refusal::NoAdjustment { .. } => 10,
            Refusal::File { .. } => 11,
            Refusal::NoEvent => 12,
            Refusal::Unwritable => 13,
            Refusal::Moves => 14,
        }
    }

    /// The column "Carries" of 01's table, in its order.
    pub fn carries(&self) -> Vec<u64> {
        match *self {
            Refusal::Mark { place } | Refusal::Reading { place } => vec![place],
            Refusal::Margin { days } => vec![days],
            Refusal::TooFew { size, reach } => vec![size, reach],
            Refusal::NoAdjustment { reach } => vec![reach],
            Refusal::File { offset } => vec![offset],
            _ => vec![],
        }
    }
}
