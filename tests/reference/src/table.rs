//! The lent table, the request, and refusals 1 to 7
//! (01, "The lent table and the request").

use crate::calendar::LAST_DAY;
use crate::refusal::Refusal;
use std::ops::Range;

/// Quarters in a dispatch day.
pub const QUARTERS: usize = 96;
/// The most days a table may hold (refusal 1).
pub const MOST_DAYS: usize = 128;
/// The highest reading (kW).
pub const HIGHEST: u32 = 10_000_000;
/// The missing mark.
pub const MISSING: u32 = 4_294_967_295;
/// Mark bit 0: a demand response event was recorded.
pub const EVENT: u8 = 1;
/// Mark bit 1: outage or force majeure.
pub const OUTAGE: u8 = 2;
/// The methods (02, order 3): "0 High X of Y, 1 this one", Average X of Y.
pub const HIGH: u32 = 0;
pub const AVERAGE: u32 = 1;

/// An extract that owns its bytes.
#[derive(Clone, PartialEq, Eq, Debug, Default)]
pub struct Table {
    pub first: u32,
    pub marks: Vec<u8>,
    pub readings: Vec<u32>,
}

/// An extract as lent: first day F, one mark a day, 96 readings a day.
#[derive(Clone, Copy, Debug)]
pub struct View<'a> {
    pub first: u32,
    pub marks: &'a [u8],
    pub readings: &'a [u32],
}

/// Participation start P, event day D, s, e, n on the two-day ruler, and the
/// method.
#[derive(Clone, Copy, PartialEq, Eq, Debug)]
pub struct Request {
    pub p: u32,
    pub d: u32,
    pub s: u32,
    pub e: u32,
    pub n: u32,
    pub method: u32,
}

impl Request {
    /// The event's own quarters within a day: s up to but not e, less 96.
    pub fn event_quarters(&self) -> Range<usize> {
        (self.s as usize - QUARTERS)..(self.e as usize - QUARTERS)
    }
}

impl Table {
    pub fn view(&self) -> View<'_> {
        View {
            first: self.first,
            marks: &self.marks,
            readings: &self.readings,
        }
    }
}

impl<'a> View<'a> {
    /// The place of a day among the held days.
    pub fn place(&self, day: u32) -> Option<usize> {
        let place = day.checked_sub(self.first)? as usize;
        (place < self.marks.len()).then_some(place)
    }

    /// The mark of a held day.
    pub fn mark(&self, day: u32) -> Option<u8> {
        self.place(day).map(|place| self.marks[place])
    }

    /// The ninety-six readings of a held day.
    pub fn day(&self, day: u32) -> Option<&'a [u32]> {
        day_part(*self, day).map(|part| &self.readings[part])
    }
}

/// The part of the readings that is a day's (01: a day not held, or a table
/// that refusal 1 turns away, gives an empty part, and nothing else does).
pub fn day_part(view: View, day: u32) -> Option<Range<usize>> {
    check_shape(view).ok()?;
    let start = view.place(day)? * QUARTERS;
    Some(start..start + QUARTERS)
}

/// Refusals 1 to 3, in order.
pub fn check_table(view: View) -> Result<(), Refusal> {
    check_shape(view)?;
    check_marks(view)?;
    check_readings(view)
}

/// Refusals 4 to 7, in order; `room` is the number of output quarters.
pub fn check_request(view: View, request: &Request, room: usize) -> Result<(), Refusal> {
    check_bounds(request)?;
    if view.place(request.d).is_none() {
        return Err(Refusal::NotHeld);
    }
    check_participation(request)?;
    if room < (request.e - request.s) as usize {
        return Err(Refusal::Room);
    }
    Ok(())
}

fn check_shape(view: View) -> Result<(), Refusal> {
    let h = view.marks.len();
    if h == 0 || h > MOST_DAYS {
        return Err(Refusal::Shape);
    }
    let last = u64::from(view.first) + h as u64 - 1;
    if view.readings.len() != QUARTERS * h || last > u64::from(LAST_DAY) {
        return Err(Refusal::Shape);
    }
    Ok(())
}

fn check_marks(view: View) -> Result<(), Refusal> {
    let strange = |&mark: &u8| mark & !(EVENT | OUTAGE) != 0;
    match view.marks.iter().position(strange) {
        Some(place) => Err(Refusal::Mark {
            place: place as u64,
        }),
        None => Ok(()),
    }
}

fn check_readings(view: View) -> Result<(), Refusal> {
    let strange = |&reading: &u32| reading > HIGHEST && reading != MISSING;
    match view.readings.iter().position(strange) {
        Some(place) => Err(Refusal::Reading {
            place: place as u64,
        }),
        None => Ok(()),
    }
}

/// Refusal 6.
pub fn check_participation(request: &Request) -> Result<(), Refusal> {
    if request.p > request.d {
        return Err(Refusal::StartsLater);
    }
    Ok(())
}

/// Refusal 4.
pub fn check_bounds(request: &Request) -> Result<(), Refusal> {
    let Request { p, s, e, n, .. } = *request;
    let inside = p <= LAST_DAY && (96..=191).contains(&s) && s < e && e <= 192 && n <= s;
    let known = [HIGH, AVERAGE].contains(&request.method);
    if inside && known {
        Ok(())
    } else {
        Err(Refusal::Bounds)
    }
}
