//! The listing (01, "Record file, listing, host entry").

use crate::baseline::{verdict, Answer};
use crate::record::{read, Contents};
use crate::refusal::Refusal;
use crate::table::{Request, QUARTERS};

/// The nearest whole number, halves up.
pub fn rounded(numerator: u32, denominator: u32) -> u64 {
    let (numerator, denominator) = (u64::from(numerator), u64::from(denominator));
    (2 * numerator + denominator) / (2 * denominator)
}

/// Number, P, F, h.
fn header(contents: &Contents) -> String {
    let Contents {
        p,
        portfolio,
        table,
        ..
    } = contents;
    let (first, h) = (table.first, table.marks.len());
    format!("portfolio {portfolio} from {p} held {first} {h}\n")
}

/// D, s, e, number and what it carries.
fn refusal_line(request: &Request, refusal: &Refusal) -> String {
    let Request { d, s, e, .. } = request;
    let mut line = format!("{d} {s} {e} refused {}", refusal.number());
    for carried in refusal.carries() {
        line += &format!(" {carried}");
    }
    line + "\n"
}

/// D, s, e, N, chosen days by rank, reach, denominator, adjustment numerator.
fn event_line(request: &Request, answer: &Answer) -> String {
    let Request { d, s, e, .. } = request;
    let mut line = format!("{d} {s} {e} days {}", answer.days.len());
    for day in &answer.days {
        line += &format!(" {day}");
    }
    let (reach, denominator, adjustment) = (answer.reach, answer.denominator, answer.adjustment);
    line + &format!(" reach {reach} over {denominator} adj {adjustment}\n")
}

/// t, numerator, rounded kW; one line a quarter.
fn quarter_lines(request: &Request, answer: &Answer) -> String {
    (request.s..request.e)
        .zip(&answer.numerators)
        .map(|(t, &numerator)| {
            let kw = rounded(numerator, answer.denominator);
            format!("{t} {numerator} {kw}\n")
        })
        .collect()
}

/// The lines of one event. There is always room for a day of quarters.
fn event_lines(contents: &Contents, request: &Request) -> String {
    let Contents { table, moves, .. } = contents;
    match verdict(table.view(), moves, request, QUARTERS) {
        Ok(answer) => event_line(request, &answer) + &quarter_lines(request, &answer),
        Err(refusal) => refusal_line(request, &refusal),
    }
}

/// The listing of a file.
pub fn listing(file: &[u8]) -> Vec<u8> {
    let contents = match read(file) {
        Ok(contents) => contents,
        Err(refusal) => return format!("file refused {}\n", refusal.carries()[0]).into_bytes(),
    };
    let mut lines = header(&contents);
    for request in &contents.events {
        lines += &event_lines(&contents, request);
    }
    lines.into_bytes()
}
