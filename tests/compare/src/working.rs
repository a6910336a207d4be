//! The entries that tell of the working of an event, of the overlap that it needs, of a file's readings and marks, and of a day of the calendar,
//! beside the reference.

use crate::files::places;
use crate::lists::number;
use crate::met::Counts;
use crate::told::NOTHING;
use reference::calendar::{days_after_easter, fixed_date, group_of, Group, LAST_DAY};
use reference::record::{read, Contents};
use reference::table::{AVERAGE, HIGH};
use reference::working::{Adjustment, Ranking, Row, LOOK_BACK};
use reference::{cut_from, overlap, verdict, working, Overlap, Reason, Refusal, Request, Working};

extern "C" {
    fn hp_working(file: *const u8, file_len: usize, place: usize, at: u32, name: u32) -> i64;
    fn hp_overlap(file: *const u8, file_len: usize, place: usize, name: u32) -> i64;
    fn hp_cut_from(file: *const u8, file_len: usize) -> i64;
    fn hp_reading(file: *const u8, file_len: usize, day: u32, quarter: u32) -> i64;
    fn hp_mark(file: *const u8, file_len: usize, day: u32) -> i64;
    fn hp_calendar(day: u32, name: u32) -> i64;
}

/// The names of include/honeyplank.h, which tests/c/header.cpp holds to the same numbers.
const WORKING_GROUP: u32 = 25;
const WORKING_MOST: u32 = 26;
const WORKING_SIZE: u32 = 27;
const WORKING_PASSED: u32 = 28;
const WORKING_TAKEN: u32 = 29;
const WORKING_END: u32 = 30;
const WORKING_A: u32 = 31;
const WORKING_B: u32 = 32;
const BACK_DAY: u32 = 33;
const BACK_GROUP: u32 = 34;
const BACK_REASON: u32 = 35;
const BACK_SUM: u32 = 36;
const BACK_RANK: u32 = 37;
const BACK_CHOSEN: u32 = 38;
const QUARTER_S: u32 = 39;
const QUARTER_NUMERATOR: u32 = 40;
const OVERLAP_HELD: u32 = 41;
const OVERLAP_SUFFICES: u32 = 42;
const OVERLAP_MORE: u32 = 43;
const OVERLAP_FROM: u32 = 44;
const CALENDAR_GROUP: u32 = 45;
const CALENDAR_FIXED: u32 = 46;
const CALENDAR_EASTER: u32 = 47;

/// What is told of the working of the event at a place.
pub fn proved_working(file: &[u8], place: usize, at: u32, name: u32) -> i64 {
    // SAFETY: the pointer is lent with its own length.
    unsafe { hp_working(file.as_ptr(), file.len(), place, at, name) }
}

/// What is told of the overlap that it needs.
pub fn proved_overlap(file: &[u8], place: usize, name: u32) -> i64 {
    // SAFETY: as above.
    unsafe { hp_overlap(file.as_ptr(), file.len(), place, name) }
}

/// The day to cut a file's days from.
pub fn proved_cut_from(file: &[u8]) -> i64 {
    // SAFETY: as above.
    unsafe { hp_cut_from(file.as_ptr(), file.len()) }
}

/// A reading as a file has it.
pub fn proved_reading(file: &[u8], day: u32, quarter: u32) -> i64 {
    // SAFETY: as above.
    unsafe { hp_reading(file.as_ptr(), file.len(), day, quarter) }
}

/// A mark as a file has it.
pub fn proved_mark(file: &[u8], day: u32) -> i64 {
    // SAFETY: as above.
    unsafe { hp_mark(file.as_ptr(), file.len(), day) }
}

/// What is told of a day of the calendar.
pub fn proved_calendar(day: u32, name: u32) -> i64 {
    // SAFETY: it takes any numbers.
    unsafe { hp_calendar(day, name) }
}

/// Every name, names that are none, and some that a narrower number would take for one.
pub fn every_name() -> impl Iterator<Item = u32> {
    (0..=60).chain([256 + BACK_SUM, 65_536, 65_536 + WORKING_A, 1 << 31, u32::MAX])
}

/// HP_GROUP_..
fn group_number(group: Group) -> i64 {
    match group {
        Group::Weekday => 0,
        Group::Saturday => 1,
        Group::Holiday => 2,
    }
}

/// Of a refusal by its name: its number, or what it carries.
fn of_refusal(refusal: &Refusal, name: u32) -> Option<i64> {
    match name {
        0 => Some(i64::from(refusal.number())),
        name => refusal.carries().get(name as usize - 1).map(|&carried| carried as i64),
    }
}

fn of_row(working: &Working, row: &Row, name: u32) -> Option<i64> {
    match name {
        BACK_DAY => row.day.map(i64::from),
        BACK_GROUP => row.group.map(group_number),
        BACK_REASON => Some(row.reason as i64),
        BACK_SUM => row.sum.map(|sum| sum as i64),
        BACK_RANK => working.rank(row.back).map(|rank| rank as i64),
        _ => working.is_chosen(row.back).map(i64::from),
    }
}

fn of_ranking(ranking: &Ranking, name: u32) -> i64 {
    let count = match name {
        WORKING_SIZE => ranking.backs.len(),
        WORKING_PASSED => ranking.passed,
        _ => ranking.taken,
    };
    count as i64
}

fn of_adjustment(adjustment: &Adjustment, name: u32) -> i64 {
    match name {
        WORKING_END => i64::from(adjustment.end),
        WORKING_A => adjustment.a,
        _ => adjustment.b,
    }
}

/// The numerator before the floor, of one of the event's quarters.
fn numerator(working: &Working, start: u32, at: u32) -> Option<i64> {
    let quarter = at.checked_sub(start)? as usize;
    working.numerators.as_ref()?.get(quarter).copied()
}

/// What `hp_working` has to tell of an event that starts there.
fn of_working(working: &Working, start: u32, at: u32, name: u32) -> Option<i64> {
    match name {
        0 => Some(0),
        WORKING_GROUP => Some(group_number(working.group)),
        WORKING_MOST => Some(working.most as i64),
        WORKING_SIZE..=WORKING_TAKEN => working.ranking.as_ref().map(|ranking| of_ranking(ranking, name)),
        WORKING_END..=WORKING_B => working.adjustment.as_ref().map(|adjustment| of_adjustment(adjustment, name)),
        BACK_DAY..=BACK_CHOSEN => of_row(working, working.row(at)?, name),
        QUARTER_S => working.sums.as_ref()?.get(at as usize).copied(),
        QUARTER_NUMERATOR => numerator(working, start, at),
        _ => None,
    }
}

fn of_overlap(overlap: &Overlap, name: u32) -> Option<i64> {
    match name {
        0 => Some(0),
        OVERLAP_HELD => overlap.held.map(i64::from),
        OVERLAP_SUFFICES => Some(i64::from(overlap.suffices)),
        OVERLAP_MORE => overlap.more.map(i64::from),
        OVERLAP_FROM => Some(i64::from(overlap.from)),
        _ => None,
    }
}

/// What `hp_calendar` has to tell.
pub fn of_calendar(day: u32, name: u32) -> i64 {
    let told = match name {
        0 => Some(0),
        CALENDAR_GROUP => group_of(day, &[]).map(group_number),
        CALENDAR_FIXED => fixed_date(day).map(i64::from),
        CALENDAR_EASTER => days_after_easter(day),
        _ => None,
    };
    told.unwrap_or(NOTHING)
}

/// How often each kind was met: of events by how their working ends, of days of a look-back, of overlaps, and of files.
#[derive(Default, Debug, Clone)]
pub struct Met {
    pub events: Counts,
    pub days: Counts,
    pub overlaps: Counts,
    pub files: Counts,
}

impl Met {
    pub fn least(&self) -> u64 {
        [&self.events, &self.days, &self.overlaps, &self.files].iter().map(|counts| counts.least()).min().unwrap()
    }
}

/// The row of a rank, from 1.
fn ranked(working: &Working, rank: usize) -> Option<&Row> {
    let ranking = working.ranking.as_ref()?;
    ranking.backs.get(rank - 1).and_then(|&back| working.row(back))
}

fn has_spares(working: &Working) -> bool {
    (1..=10).filter_map(|rank| ranked(working, rank)).any(|row| row.reason == Reason::EventRecorded)
}

/// Two days of the window with equal sums, of which one is chosen and one is not.
fn is_tied(working: &Working) -> bool {
    let rank = |back| working.rank(back).unwrap_or(0);
    let chosen = |row: &Row| working.is_chosen(row.back) == Some(true);
    let window = || working.rows.iter().filter(|row| rank(row.back) > 0);
    window().any(|row| window().any(|other| row.sum == other.sum && chosen(row) && !chosen(other)))
}

/// Of an event that is shown: the number of its refusal, and its method.
fn count_shown(working: &Working, contents: &Contents, request: &Request, met: &mut Met) {
    let number = number(&verdict(contents.table.view(), &contents.moves, request, 96));
    let by = |method: u32, wanted: u32| request.method == method && number == wanted;
    let below_0 = working.numerators.iter().flatten().any(|&numerator| numerator < 0);
    let end = working.adjustment.map(|adjustment| adjustment.end);
    let ranking = working.ranking.as_ref();
    let passes = |passed: usize| ranking.is_some_and(|ranking| ranking.taken > 0 && ranking.passed == passed);
    let size = ranking.map_or(0, |ranking| ranking.backs.len());
    let outcomes = [
        ("a weekday", working.group == Group::Weekday),
        ("a Saturday", working.group == Group::Saturday),
        ("a holiday", working.group == Group::Holiday),
        ("High answered", by(HIGH, 0)),
        ("High refused 8", by(HIGH, 8)),
        ("High refused 9", by(HIGH, 9)),
        ("High refused 10", by(HIGH, 10)),
        ("Average answered", by(AVERAGE, 0)),
        ("Average refused 8", by(AVERAGE, 8)),
        ("Average refused 9", by(AVERAGE, 9)),
        ("a whole window", size == working.most),
        ("a smaller one", size > 0 && size < working.most),
        ("none", ranking.is_some() && size == 0),
        ("spares by High", request.method == HIGH && has_spares(working)),
        ("spares by Average", request.method == AVERAGE && has_spares(working)),
        ("equal sums at the edge", is_tied(working)),
        ("none passed", passes(0)),
        ("one passed", passes(1)),
        ("four passed", passes(4)),
        ("refused 9, one passed", number == 9 && ranking.is_some_and(|ranking| ranking.passed == 1)),
        ("one taken", ranking.is_some_and(|ranking| ranking.taken == 1)),
        ("ends at notice", end == Some(request.n)),
        ("ends elsewhere", end.is_some_and(|end| end != request.n)),
        ("begins on the day before", end.is_some_and(|end| (97..108).contains(&end))),
        ("a numerator below 0", below_0),
        ("moves", !contents.moves.is_empty()),
    ];
    met.events.count(outcomes.into_iter());
    working.rows.iter().for_each(|row| count_row(working, row, met));
}

fn count_row(working: &Working, row: &Row, met: &mut Met) {
    let rank = working.rank(row.back);
    let is = |reason| row.reason == reason;
    let outcomes = [
        ("below day 0", row.day.is_none()),
        ("too early", row.day.is_some() && is(Reason::TooEarly)),
        ("another group", is(Reason::AnotherGroup)),
        ("the day before", is(Reason::DayBefore)),
        ("not held", is(Reason::NotHeld)),
        ("a reading missing", is(Reason::ReadingMissing)),
        ("summed all the same", is(Reason::ReadingMissing) && row.sum.is_some()),
        ("an outage", is(Reason::Outage)),
        ("an event", is(Reason::EventRecorded)),
        ("an event, in the window", is(Reason::EventRecorded) && rank > Some(0)),
        ("eligible", is(Reason::Eligible)),
        ("eligible, past the window", is(Reason::Eligible) && rank == Some(0)),
        ("in the window, not chosen", rank > Some(0) && working.is_chosen(row.back) == Some(false)),
        ("chosen", working.is_chosen(row.back) == Some(true)),
        ("no rank told", rank.is_none()),
    ];
    met.days.count(outcomes.into_iter());
}

fn count_overlap(found: &Result<Overlap, Refusal>, contents: &Contents, request: &Request, met: &mut Met) {
    let number = number(found);
    let held = |test: fn(&Overlap) -> bool| found.as_ref().is_ok_and(test);
    let unmoved = Contents { moves: vec![], ..contents.clone() };
    let outcomes = [
        ("refused 14", number == 14),
        ("refused 4", number == 4),
        ("refused 6", number == 6),
        ("long enough", held(|overlap| overlap.more == Some(0) && overlap.suffices > 0)),
        ("too short", held(|overlap| overlap.more > Some(0))),
        ("not held", held(|overlap| overlap.held.is_none())),
        ("of no days", number == 0 && contents.table.marks.is_empty()),
        ("nothing needed", held(|overlap| overlap.suffices == 0)),
        ("all of it needed", held(|overlap| overlap.suffices == LOOK_BACK)),
        ("another by the moves", number == 0 && overlap(&unmoved, request) != *found),
        ("of a table that is refused", number == 0 && matches!(self::number(&working(contents.table.view(), &contents.moves, request)), 1..=3)),
        ("after the calendar", number == 0 && request.d > LAST_DAY),
    ];
    met.overlaps.count(outcomes.into_iter());
}

/// The working at a place: refusal 11, then 12, then the call's own.
fn event_at(read: &Result<Contents, Refusal>, place: usize) -> Result<(&Contents, &Request), Refusal> {
    let contents = read.as_ref().map_err(|&refusal| refusal)?;
    let request = contents.events.get(place).ok_or(Refusal::NoEvent)?;
    Ok((contents, request))
}

/// All of a kind, or one in so many, by the seed.
fn some(all: impl Iterator<Item = u32>, every: u64, seed: u64) -> Vec<u32> {
    all.enumerate().filter(|(turn, _)| (seed + *turn as u64) % every == 0).map(|(_, at)| at).collect()
}

/// The places that matter of the look-back, of the ruler, and of neither: all of them, or some by the seed.
struct Ats {
    back: Vec<u32>,
    quarter: Vec<u32>,
    neither: Vec<u32>,
}

fn ats(request: Option<&Request>, every: u64, seed: u64) -> Ats {
    let ends = [95, 96, 191, 192, u32::MAX];
    let far = [256 + 7, 65_536 + 7, (1 << 31) + 7];
    let about = request.map_or(vec![], |r| vec![r.n, r.s - 1, r.s, r.s + 1, r.e - 1, r.e]);
    let quarters = (0..=46).chain(ends).chain([60, 83, 84, 97, 150, 190, 256 + 96]).chain(about);
    let back = (0..=46).chain(ends).chain(far);
    Ats {
        back: some(back, every, seed),
        quarter: some(quarters, every, seed / 3),
        neither: if every == 1 { vec![0, 1, 45, 152, u32::MAX] } else { vec![(seed % 200) as u32] },
    }
}

/// Compares what is told of the working at a place, by every name; of one in `every` of the places that matter, or of all of them.
fn compare_working(file: &[u8], read: &Result<Contents, Refusal>, place: usize, every: u64, seed: u64, met: &mut Met) -> Result<(), String> {
    let event = event_at(read, place);
    let found = event.and_then(|(contents, request)| working(contents.table.view(), &contents.moves, request));
    let start = event.as_ref().map_or(0, |(_, request)| request.s);
    let shown = event.as_ref().ok().filter(|_| found.is_ok());
    let ats = ats(shown.map(|(_, request)| *request), every, seed);
    for name in every_name() {
        let ats = match name {
            BACK_DAY..=BACK_CHOSEN if found.is_ok() => &ats.back,
            QUARTER_S..=QUARTER_NUMERATOR if found.is_ok() => &ats.quarter,
            _ => &ats.neither,
        };
        for &at in ats {
            let due = found.as_ref().map_or_else(|refusal| of_refusal(refusal, name), |working| of_working(working, start, at, name));
            let (due, told) = (due.unwrap_or(NOTHING), proved_working(file, place, at, name));
            if told != due {
                return Err(format!("hp_working at place {place}, at {at}, name {name}: expected {due}, found {told}"));
            }
        }
    }
    if let (Ok((contents, request)), Ok(working)) = (event, &found) {
        count_shown(working, contents, request, met);
    }
    Ok(())
}

/// Compares what is told of the overlap at a place, by every name.
fn compare_overlap(file: &[u8], read: &Result<Contents, Refusal>, place: usize, met: &mut Met) -> Result<(), String> {
    let event = event_at(read, place);
    let found = event.and_then(|(contents, request)| overlap(contents, request));
    for name in every_name() {
        let due = found.as_ref().map_or_else(|refusal| of_refusal(refusal, name), |overlap| of_overlap(overlap, name));
        let (due, told) = (due.unwrap_or(NOTHING), proved_overlap(file, place, name));
        if told != due {
            return Err(format!("hp_overlap at place {place}, name {name}: expected {due}, found {told}"));
        }
    }
    if let Ok((contents, request)) = event {
        count_overlap(&found, contents, request, met);
    }
    Ok(())
}

/// The days to ask for: about the first and the last that are held, and about each of these places.
fn some_days(contents: Option<&Contents>, seed: u64) -> Vec<u32> {
    let Some(Contents { table, events, .. }) = contents else {
        return vec![0, seed as u32 % 40_000];
    };
    let (first, h) = (table.first, table.marks.len() as u32);
    let within = first + (seed % (u64::from(h) + 1)) as u32;
    let event = events.first().map_or(0, |request| request.d);
    vec![first.wrapping_sub(1), first, within, event, event.wrapping_sub(1), first + h.max(1) - 1, first + h, first + (1 << 16), u32::MAX]
}

/// Compares readings and marks as the file has them, and the day to cut from.
fn compare_file(file: &[u8], read: &Result<Contents, Refusal>, seed: u64) -> Result<(), String> {
    let contents = read.as_ref().ok();
    let due = contents.and_then(cut_from).map_or(NOTHING, i64::from);
    let told = proved_cut_from(file);
    if told != due {
        return Err(format!("hp_cut_from: expected {due}, found {told}"));
    }
    for day in some_days(contents, seed) {
        let due = contents.and_then(|contents| contents.mark(day)).map_or(NOTHING, i64::from);
        let told = proved_mark(file, day);
        if told != due {
            return Err(format!("hp_mark of {day}: expected {due}, found {told}"));
        }
        for quarter in [0, 1, (seed % 96) as u32, 95, 96, 256, 65_536, u32::MAX] {
            let due = contents.and_then(|contents| contents.reading(day, quarter)).map_or(NOTHING, i64::from);
            let told = proved_reading(file, day, quarter);
            if told != due {
                return Err(format!("hp_reading of {day} at {quarter}: expected {due}, found {told}"));
            }
        }
    }
    Ok(())
}

fn count_file(read: &Result<Contents, Refusal>, met: &mut Met) {
    let contents = read.as_ref().ok();
    let numbers: Vec<u32> = contents.map_or(vec![], |contents| {
        contents.events.iter().map(|request| number(&working(contents.table.view(), &contents.moves, request))).collect()
    });
    let froms: Vec<u32> = contents.map_or(vec![], |contents| contents.events.iter().flat_map(|event| overlap(contents, event)).map(|o| o.from).collect());
    let later = froms.iter().skip(1).any(|from| from < &froms[0]);
    let any = |wanted: u32| numbers.contains(&wanted);
    let outcomes = [
        ("refused 11", contents.is_none()),
        ("refused 1", any(1)),
        ("refused 2", any(2)),
        ("refused 3", any(3)),
        ("refused 14", any(14)),
        ("refused 4", any(4)),
        ("refused 5", any(5)),
        ("refused 6", any(6)),
        ("no days", contents.is_some_and(|contents| contents.table.marks.is_empty())),
        ("nothing to cut from", contents.is_some() && froms.is_empty()),
        ("cut by a later event", later),
    ];
    met.files.count(outcomes.into_iter());
}

/// Compares every one of these entries over a file with the reference; by every one of the places that matter, or by one in `every`.
pub fn compare(file: &[u8], every: u64, seed: u64, met: &mut Met) -> Result<(), String> {
    let read = read(file);
    let events = read.as_ref().map_or(0, |contents| contents.events.len());
    let places = if every == 1 { (0..=events).collect() } else { places(events, seed) };
    for (turn, place) in places.into_iter().enumerate() {
        compare_working(file, &read, place, every, seed + turn as u64, met)?;
        compare_overlap(file, &read, place, met)?;
    }
    compare_file(file, &read, seed)?;
    count_file(&read, met);
    Ok(())
}
