//! The proved calls, through the archive's C entries, and the plain C version, beside the reference.

pub mod chart;
pub mod files;
pub mod lists;
pub mod met;
pub mod methods;
pub mod page;
pub mod probe;
pub mod program;
pub mod shrink;
pub mod told;
pub mod working;
pub mod writing;

use met::Counts;
use reference::{verdict, Answer, Draft, Refusal, Request, Table};
use told::{some_names, Told, NOTHING};

/// What an output holds before a call.
pub const UNTOUCHED: u32 = 0xA5A5_A5A5;

/// The quarters of a day: an output of so many has room for any event.
pub const QUARTERS: usize = 96;

/// What the plain C version tells of a result.
#[repr(C)]
#[derive(Default)]
pub struct PlainAnswer {
    pub days: [u32; 5],
    pub count: u32,
    pub reach: u32,
    pub denominator: u32,
    pub adjustment: i64,
    pub carried: [u64; 2],
    pub carries: u32,
}

/// Declares C functions over a table that end in the parameters given.
macro_rules! over_a_table {
    ($($name:ident($($last:ident: $kind:ty),*) -> $given:ty;)*) => {
        extern "C" {
            $(fn $name(
                first: u32,
                marks: *const u8,
                days: usize,
                readings: *const u32,
                count: usize,
                $($last: $kind),*
            ) -> $given;)*
        }
    };
}

over_a_table! {
    hp_baseline_table(
        moves: *const u32, moves_len: usize, p: u32, d: u32, s: u32, e: u32, n: u32, method: u32, out: *mut u32, room: usize
    ) -> u32;
    hp_told_table(moves: *const u32, moves_len: usize, p: u32, d: u32, s: u32, e: u32, n: u32, method: u32, name: u32) -> i64;
    hp_day_part(day: u32) -> i64;
    plain_baseline(
        moves: *const u32, moves_len: usize, p: u32, d: u32, s: u32, e: u32, n: u32, method: u32, out: *mut u32, room: usize,
        answer: *mut PlainAnswer
    ) -> u32;
}

extern "C" {
    fn hp_day(year: u32, month: u32, day: u32) -> i64;
    fn hp_date(day: u32) -> i64;
    fn hp_version() -> u32;
}

/// The day number of a date, or nothing.
pub fn proved_day(year: u32, month: u32, day: u32) -> i64 {
    // SAFETY: it takes any numbers.
    unsafe { hp_day(year, month, day) }
}

/// The digits of a day's date, or nothing.
pub fn proved_date(day: u32) -> i64 {
    // SAFETY: it takes any number.
    unsafe { hp_date(day) }
}

/// The version of the archive.
pub fn proved_version() -> u32 {
    // SAFETY: it takes nothing.
    unsafe { hp_version() }
}

/// Calls such a function with a table, each pointer with its own length, and with the rest.
macro_rules! call {
    ($name:ident, $table:expr, $($last:expr),*) => {{
        let table = $table;
        // SAFETY: every pointer is lent with its own length, and no two overlap.
        unsafe {
            $name(table.first, table.marks.as_ptr(), table.marks.len(), table.readings.as_ptr(), table.readings.len(), $($last),*)
        }
    }};
}

/// A list as C lends it: where there is none, no address either.
fn lent(moves: &[u32]) -> *const u32 {
    if moves.is_empty() {
        std::ptr::null()
    } else {
        moves.as_ptr()
    }
}

/// 0 or the refusal number, and an output of so many words after the call.
pub fn proved(table: &Table, moves: &[u32], request: &Request, room: usize) -> (u32, Vec<u32>) {
    let Request { p, d, s, e, n, method } = *request;
    let mut out = vec![UNTOUCHED; room];
    let number = call!(hp_baseline_table, table, lent(moves), moves.len(), p, d, s, e, n, method, out.as_mut_ptr(), room);
    (number, out)
}

/// What is told of the result by a name.
pub fn proved_told(table: &Table, moves: &[u32], request: &Request, name: u32) -> i64 {
    let Request { p, d, s, e, n, method } = *request;
    call!(hp_told_table, table, lent(moves), moves.len(), p, d, s, e, n, method, name)
}

/// The place of a day's first reading, or nothing.
pub fn proved_part(table: &Table, day: u32) -> i64 {
    call!(hp_day_part, table, day)
}

/// The plain C version: its number and output, and what it tells.
pub fn plain(call: &Draft) -> ((u32, Vec<u32>), Told) {
    let Draft { table, moves, request, room } = call;
    let Request { p, d, s, e, n, method } = *request;
    let mut out = vec![UNTOUCHED; *room];
    let mut answer = PlainAnswer::default();
    let number = call!(plain_baseline, table, lent(moves), moves.len(), p, d, s, e, n, method, out.as_mut_ptr(), *room, &mut answer);
    ((number, out), Told::of_plain(number, &answer))
}

/// A buffer of so many values that begins with these, where all of them fit, and is filled with another.
pub fn begins<T: Copy>(values: &[T], fill: T, room: usize) -> Vec<T> {
    let mut buffer = vec![fill; room];
    if values.len() <= room {
        buffer[..values.len()].copy_from_slice(values);
    }
    buffer
}

/// The number and the output that a result calls for.
pub fn expected_output(result: &Result<Answer, Refusal>, room: usize) -> (u32, Vec<u32>) {
    match result {
        Ok(answer) => (0, begins(&answer.numerators, UNTOUCHED, room)),
        Err(refusal) => (refusal.number(), begins(&[], UNTOUCHED, room)),
    }
}

/// The days whose part is asked for: about the table's ends, the event's and one by the seed.
fn some_days(table: &Table, request: &Request, seed: u64) -> [u32; 4] {
    let end = table.first.wrapping_add(table.marks.len() as u32);
    let within = seed % (table.marks.len() as u64 + 2);
    [request.d, table.first.wrapping_add(within as u32).wrapping_sub(1), end.wrapping_sub(1), end]
}

fn expected_part(table: &Table, day: u32) -> i64 {
    reference::day_part(table.view(), day).map_or(NOTHING, |part| part.start as i64)
}

/// How often each outcome of a call was met: of lists, and of methods.
#[derive(Default)]
pub struct Met {
    pub lists: Counts,
    pub methods: methods::Met,
}

/// Compares one generated call, what is told of it and the part of a day; gives its number, 0 for an answer.
pub fn compare(seed: u64, met: &mut Met) -> Result<u32, String> {
    let call = reference::gen_call(seed);
    let number = compare_call(&call, seed).map_err(|difference| {
        let Draft { request, moves, .. } = &call;
        format!("seed {seed}: {request:?}, moves {moves:?}: {difference}")
    })?;
    lists::count_call(&call, number, &mut met.lists);
    methods::count_call(&call, number, &mut met.methods);
    Ok(number)
}

fn compare_call(call: &Draft, seed: u64) -> Result<u32, String> {
    let Draft { table, moves, request, room } = call;
    let mut result = verdict(table.view(), moves, request, *room);
    let (number, output) = expected_output(&result, *room);
    same("hp_baseline_table", &proved(table, moves, request, *room), &(number, output))?;
    if result == Err(Refusal::Room) {
        result = verdict(table.view(), moves, request, QUARTERS);
    }
    Told::of(&result).check("hp_told_table", &some_names(seed), |name| proved_told(table, moves, request, name))?;
    if seed % 16 == 0 {
        for day in some_days(table, request, seed / 16) {
            same(&format!("hp_day_part of {day}"), &proved_part(table, day), &expected_part(table, day))?;
        }
    }
    Ok(number)
}

pub(crate) fn same<T: PartialEq + std::fmt::Debug>(what: &str, found: &T, expected: &T) -> Result<(), String> {
    if found == expected {
        return Ok(());
    }
    Err(format!("{what}: expected {expected:?}, found {found:?}"))
}
