//! The proved entries over a record file, beside the reference.

use crate::lists::{count_event, count_file, number};
use crate::met::Counts;
use crate::methods;
use crate::told::{some_names, Told, MOVE};
use crate::writing::{self, compare_again};
use crate::{begins, same, PlainAnswer, QUARTERS};
use reference::calendar::{group_of, Group};
use reference::moves::MOVE_NUMBERS;
use reference::record::{read, Contents};
use reference::{listing, verdict, Answer, Refusal};

extern "C" {
    fn hp_baseline(file: *const u8, file_len: usize, place: usize, out: *mut u8, out_len: usize) -> u32;
    fn hp_told(file: *const u8, file_len: usize, place: usize, name: u32) -> i64;
    fn hp_file(file: *const u8, file_len: usize, name: u32) -> i64;
    fn hp_event(file: *const u8, file_len: usize, place: usize, name: u32) -> i64;
    fn hp_move(file: *const u8, file_len: usize, place: usize, name: u32) -> i64;
    fn hp_listing(file: *const u8, file_len: usize, out: *mut u8, out_len: usize) -> i64;
    fn plain_host(file: *const u8, length: usize, place: usize, out: *mut u8, room: usize, answer: *mut PlainAnswer) -> u32;
}

/// A byte that an output holds before a call.
pub const FILL: u8 = 0xA5;

/// No listing is longer.
pub const MOST_LISTING: usize = 213_194;

/// 0 or the refusal number, and the output after the call.
pub fn proved(file: &[u8], place: usize, room: usize) -> (u32, Vec<u8>) {
    let mut out = vec![FILL; room];
    // SAFETY: every pointer is lent with its own length, and no two overlap.
    let number = unsafe { hp_baseline(file.as_ptr(), file.len(), place, out.as_mut_ptr(), room) };
    (number, out)
}

/// What is told of the result by a name.
pub fn proved_told(file: &[u8], place: usize, name: u32) -> i64 {
    // SAFETY: as above.
    unsafe { hp_told(file.as_ptr(), file.len(), place, name) }
}

/// What is told of the file.
pub fn proved_file(file: &[u8], name: u32) -> i64 {
    // SAFETY: as above.
    unsafe { hp_file(file.as_ptr(), file.len(), name) }
}

/// What is told of the event at a place.
pub fn proved_event(file: &[u8], place: usize, name: u32) -> i64 {
    // SAFETY: as above.
    unsafe { hp_event(file.as_ptr(), file.len(), place, name) }
}

/// What is told of the move at a place.
pub fn proved_move(file: &[u8], place: usize, name: u32) -> i64 {
    // SAFETY: as above.
    unsafe { hp_move(file.as_ptr(), file.len(), place, name) }
}

/// The length of the listing or -7, and the output after the call.
pub fn proved_listing(file: &[u8], room: usize) -> (i64, Vec<u8>) {
    let mut out = vec![FILL; room];
    // SAFETY: as above.
    let length = unsafe { hp_listing(file.as_ptr(), file.len(), out.as_mut_ptr(), room) };
    (length, out)
}

/// The plain C version: its number and output, and what it tells.
fn plain(file: &[u8], place: usize, room: usize) -> ((u32, Vec<u8>), Told) {
    let mut out = vec![FILL; room];
    let mut answer = PlainAnswer::default();
    // SAFETY: as above.
    let number = unsafe { plain_host(file.as_ptr(), file.len(), place, out.as_mut_ptr(), room, &mut answer) };
    ((number, out), Told::of_plain(number, &answer))
}

/// The numerators, four bytes each, the low byte first.
pub fn bytes_of(numerators: &[u32]) -> Vec<u8> {
    numerators.iter().flat_map(|numerator| numerator.to_le_bytes()).collect()
}

/// Refusal 11, then 12, then the call's own.
fn expected_result(read: &Result<Contents, Refusal>, place: usize, room: usize) -> Result<Answer, Refusal> {
    let contents = read.as_ref().map_err(|&refusal| refusal)?;
    let request = contents.events.get(place).ok_or(Refusal::NoEvent)?;
    verdict(contents.table.view(), &contents.moves, request, room / 4)
}

/// The number and the output that a result calls for.
fn expected_output(result: &Result<Answer, Refusal>, room: usize) -> (u32, Vec<u8>) {
    match result {
        Ok(answer) => (0, begins(&bytes_of(&answer.numerators), FILL, room)),
        Err(refusal) => (refusal.number(), begins(&[], FILL, room)),
    }
}

/// How often each outcome was met: answers by group of the event day, refusals by number, what comes of moves, the rows of Average X of Y, listings, and
/// files written again.
#[derive(Default, Debug, Clone)]
pub struct Met {
    pub weekdays: u64,
    pub saturdays: u64,
    pub holidays: u64,
    pub refused: [u64; 15],
    pub moves: Counts,
    pub moved_events: Counts,
    pub averages: Counts,
    pub listed: u64,
    pub written: u64,
}

impl Met {
    fn count(&mut self, read: &Result<Contents, Refusal>, place: usize, answer: &Result<Answer, Refusal>) {
        match (read, answer) {
            (_, Err(refusal)) => self.refused[refusal.number() as usize] += 1,
            (Ok(contents), Ok(_)) => match group_of(contents.events[place].d, &contents.moves).expect("an answered day") {
                Group::Weekday => self.weekdays += 1,
                Group::Saturday => self.saturdays += 1,
                Group::Holiday => self.holidays += 1,
            },
            (Err(_), Ok(_)) => unreachable!(),
        }
    }

    /// The least that was met of anything that can be; 13 is the writer's.
    pub fn least(&self) -> u64 {
        let answers = [self.weekdays, self.saturdays, self.holidays];
        *answers.iter().chain(&self.refused[1..=12]).chain(&self.refused[14..]).min().unwrap()
    }

    /// The least that was met of what comes of moves.
    pub fn least_moves(&self) -> u64 {
        self.moves.least().min(self.moved_events.least())
    }
}

/// The places to ask for: the first, one by the seed, now and then the first that is not there, and one far off.
pub fn places(events: usize, seed: u64) -> Vec<usize> {
    let mut places = vec![0];
    if events > 1 {
        places.push(1 + (seed as usize / 7) % (events - 1));
    }
    if seed % 8 == 0 {
        places.push(events);
    }
    if seed % 64 == 1 {
        places.push(usize::MAX - seed as usize % 3);
    }
    places
}

/// The bytes of the output: most often just enough, else one fewer, more, or none.
fn room(read: &Result<Contents, Refusal>, place: usize, seed: u64) -> usize {
    let event = read.as_ref().ok().and_then(|c| c.events.get(place));
    let need = event.map_or(16, |r| 4 * r.e.saturating_sub(r.s) as usize);
    match seed / 3 % 16 {
        0 => need.saturating_sub(1),
        1 => need + 1,
        2 => 0,
        3 => 4 * 96 + 7,
        _ => need,
    }
}

/// Compares what is told of a file's moves: both days of each, the first that is not there, and now and then one far off.
fn compare_moves(file: &[u8], read: &Result<Contents, Refusal>, seed: u64) -> Result<(), String> {
    let count = read.as_ref().map_or(0, |contents| contents.moves.len() / MOVE_NUMBERS);
    let far = (seed % 64 == 2).then(|| usize::MAX - seed as usize % 3);
    for place in (0..=count).chain(far) {
        let days = [MOVE, MOVE + 1].map(|name| name as u32);
        let names = if count == 0 { some_names(seed) } else { [&days[..], &some_names(seed)].concat() };
        let what = format!("hp_move at place {place}");
        Told::of_move(read, place).check(&what, &names, |name| proved_move(file, place, name))?;
    }
    Ok(())
}

/// Compares every entry over a file with the reference; the seed only picks places, rooms and names.
pub fn compare(file: &[u8], seed: u64, met: &mut Met) -> Result<(), String> {
    let read = read(file);
    let events = read.as_ref().map_or(0, |contents| contents.events.len());
    Told::of_file(&read).check("hp_file", &some_names(seed), |name| proved_file(file, name))?;
    compare_moves(file, &read, seed)?;
    count_file(file, &read, &mut met.moves);
    for (turn, place) in places(events, seed).into_iter().enumerate() {
        let seed = seed + 5 * turn as u64;
        let room = room(&read, place, seed);
        let result = expected_result(&read, place, room);
        let at = |entry: &str| format!("{entry} at place {place} with {room} bytes");
        same(&at("hp_baseline"), &proved(file, place, room), &expected_output(&result, room))?;
        met.count(&read, place, &result);
        if let Ok(contents) = &read {
            count_event(contents, place, room / 4, &result, &mut met.moved_events);
            if let Some(request) = contents.events.get(place) {
                methods::count_event(contents.table.view(), &contents.moves, request, number(&result), &mut met.averages);
            }
        }
        let told = match result {
            Err(Refusal::Room) => Told::of(&expected_result(&read, place, 4 * QUARTERS)),
            _ => Told::of(&result),
        };
        told.check(&at("hp_told"), &some_names(seed / 2), |name| proved_told(file, place, name))?;
        Told::of_event(&read, place).check(&at("hp_event"), &some_names(seed / 3), |name| proved_event(file, place, name))?;
    }
    if let Ok(contents) = &read {
        compare_again(file, contents, "hp_write", writing::proved)?;
        met.written += 1;
    }
    if seed % 15 == 0 {
        compare_listing(file, &listing(file), seed / 15)?;
        met.listed += 1;
    }
    Ok(())
}

/// Compares the listing, with just its room, a byte less, more, or room for any.
pub fn compare_listing(file: &[u8], text: &[u8], turn: u64) -> Result<(), String> {
    let need = text.len();
    let room = [need, need - 1, need, need + 1, need + 4000, MOST_LISTING, 0][(turn % 7) as usize];
    let length = if room < need { -7 } else { need as i64 };
    same(&format!("hp_listing with {room} bytes"), &proved_listing(file, room), &(length, begins(text, FILL, room)))
}

/// Compares the plain C version with the reference in the same way.
pub fn compare_plain(file: &[u8], seed: u64) -> Result<(), String> {
    let read = read(file);
    let events = read.as_ref().map_or(0, |contents| contents.events.len());
    for place in places(events, seed) {
        let room = room(&read, place, seed);
        let result = expected_result(&read, place, room);
        let expected = (expected_output(&result, room), Told::of(&result));
        same(&format!("plain_host at place {place}"), &plain(file, place, room), &expected)?;
    }
    read.map_or(Ok(()), |contents| compare_again(file, &contents, "plain_write", writing::plain))
}
