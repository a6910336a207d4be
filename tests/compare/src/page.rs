//! What a page of the honeyplank command has to say, made from the reference: the figures of its prose, and its tables word by word.

use reference::baseline::Answer;
use reference::calendar::{dates, Date, Group, LAST_DAY};
use reference::moves::MOVE_NUMBERS;
use reference::record::Contents;
use reference::table::{AVERAGE, HIGH, MISSING, QUARTERS};
use reference::working::{Adjustment, Ranking, Row, LOOK_BACK};
use reference::{overlap, verdict, working, Reason, Refusal, Request, Working};

pub const WEEK: [&str; 7] = ["Saturday", "Sunday", "Monday", "Tuesday", "Wednesday", "Thursday", "Friday"];
/// No line of a sheet is longer, and so much of it stands before the columns of a window.
const WIDTH: usize = 100;
const MARGIN: usize = 11;

/// A word with a figure, or one that stands in place of one.
fn is_figure(word: &str) -> bool {
    word == "-" || word == "?" || word.contains(|c: char| c.is_ascii_digit())
}

fn bare(word: &str) -> &str {
    word.trim_matches(|c: char| ",.;:()".contains(c))
}

/// A line of a table: of a day of the look-back, of a quarter, or of what is chosen.
fn is_row(words: &[&str]) -> bool {
    let is_time = |word: &str| word.len() == 5 && word.as_bytes()[2] == b':';
    let is_quarter = words.len() > 1 && words[0].parse::<u32>().is_ok() && is_time(words[1]);
    let is_choice = words.contains(&"chosen") && words.iter().all(|&word| word == "chosen" || word == "-");
    words.first().is_some_and(|word| word.starts_with("D-")) || is_quarter || is_choice
}

/// The figures of a text, and all words of its tables.
pub fn figures(text: &str) -> Vec<String> {
    let mut found = vec![];
    for line in text.lines() {
        let words: Vec<&str> = line.split_whitespace().collect();
        let whole = is_row(&words);
        found.extend(words.into_iter().map(bare).filter(|word| whole || is_figure(word)).map(str::to_owned));
    }
    found
}

/// 2024-08-28; - below day 0, and the number of a day after the calendar.
pub fn date(day: i64) -> String {
    match usize::try_from(day).map(|day| dates().get(day)) {
        Err(_) => "-".into(),
        Ok(None) => day.to_string(),
        Ok(Some(&Date { year, month, day })) => format!("{year:04}-{month:02}-{day:02}"),
    }
}

/// 08-28.
fn short_date(day: u32) -> String {
    let date = date(i64::from(day));
    date.get(5..).map_or(date.clone(), str::to_owned)
}

/// Wednesday 2024-08-28 (day 9006).
pub fn long_date(day: i64) -> String {
    if day > i64::from(LAST_DAY) {
        format!("day {day}, after 2099")
    } else {
        format!("{} {} (day {day})", WEEK[day as usize % 7], date(day))
    }
}

/// Where a quarter of the ruler starts: quarter 0 at 01:00.
pub fn clock(t: u32) -> String {
    let minutes = 60 + 15 * (t % 96);
    format!("{:02}:{:02}", minutes / 60 % 24, minutes % 60)
}

fn or_dash<T: ToString>(number: Option<T>) -> String {
    number.map_or("-".into(), |number| number.to_string())
}

pub fn group_name(group: Group) -> &'static str {
    match group {
        Group::Weekday => "weekday",
        Group::Saturday => "Saturday",
        Group::Holiday => "holiday",
    }
}

fn reason_words(row: &Row) -> &'static str {
    match row.reason {
        Reason::TooEarly if row.day.is_none() => "before the calendar",
        Reason::TooEarly => "before participation",
        Reason::AnotherGroup => "of another group",
        Reason::DayBefore => "the day before a weekday",
        Reason::NotHeld => "not held by this file",
        Reason::ReadingMissing => "a reading is missing",
        Reason::Outage => "an outage is marked",
        Reason::EventRecorded => "an event is marked",
        Reason::Eligible => "eligible",
    }
}

/// The figures of the header's sentence for a refusal.
fn refusal_figures(number: u32) -> &'static str {
    match number {
        1 => "128 2099 96",
        3 => "10,000,000",
        14 => "16 2099",
        _ => "",
    }
}

/// REFUSED 9, carrying 1 and 42.
pub fn refusal_words(refusal: &Refusal) -> String {
    let carried: Vec<String> = refusal.carries().iter().map(u64::to_string).collect();
    let carrying = if carried.is_empty() { "" } else { ", carrying " };
    format!("REFUSED {}{carrying}{}", refusal.number(), carried.join(" and "))
}

/// An event of a file, with all that the reference knows of it.
pub struct Event<'a> {
    pub contents: &'a Contents,
    pub request: &'a Request,
    pub result: Result<Answer, Refusal>,
    pub working: Result<Working, Refusal>,
}

impl<'a> Event<'a> {
    pub fn new(contents: &'a Contents, place: usize) -> Event<'a> {
        let request = &contents.events[place];
        let (view, moves) = (contents.table.view(), &contents.moves);
        Event { contents, request, result: verdict(view, moves, request, QUARTERS), working: working(view, moves, request) }
    }

    fn ranking(&self) -> Option<&Ranking> {
        self.working.as_ref().ok()?.ranking.as_ref()
    }

    pub fn adjustment(&self) -> Option<Adjustment> {
        self.working.as_ref().ok()?.adjustment
    }

    /// The chosen days by rank.
    pub fn chosen(&self) -> Vec<u32> {
        let chosen = self.ranking().map_or(&[][..], Ranking::chosen);
        chosen.iter().map(|back| self.request.d - back).collect()
    }

    /// The reading of a day at a quarter of the ruler, if it is there.
    pub fn reading(&self, day: u32, t: u32) -> Option<u32> {
        self.contents.reading(day, t % 96).filter(|&reading| reading != MISSING)
    }

    /// The reading along the ruler.
    pub fn load(&self, t: u32) -> Option<u32> {
        self.reading(self.ruler_day(t)?, t)
    }

    fn ruler_day(&self, t: u32) -> Option<u32> {
        if t < 96 {
            self.request.d.checked_sub(1)
        } else {
            Some(self.request.d)
        }
    }

    fn ruler_date(&self, t: u32) -> String {
        date(self.ruler_day(t).map_or(-1, i64::from))
    }
}

/// The text of a page in the making, of which the figures count.
struct Page(String);

macro_rules! say {
    ($page:expr, $($words:tt)*) => {
        $page.0 += &(format!($($words)*) + "\n")
    };
}

/// The figures that the sheet of the event at a place has to have.
pub fn sheet(contents: &Contents, place: usize) -> Vec<String> {
    let event = &Event::new(contents, place);
    let page = &mut Page(String::new());
    say!(page, "portfolio {} place {place} of {} 0", contents.portfolio, contents.events.len());
    say!(page, "{} 96 01:00 to 01:00 and 00:00 to 00:45 ruler 0 to 95 then 96 to 191", version());
    head(page, event);
    match &event.result {
        Ok(_) => say!(page, "step 6"),
        Err(refusal) => grounds(page, event, refusal),
    }
    if let Ok(working) = &event.working {
        look_back(page, event, working);
        window(page, event, working);
        if !event.chosen().is_empty() {
            adjustment(page, event);
            sums(page, event, working);
        }
        if let Ok(answer) = &event.result {
            baseline(page, event, working, answer);
        }
    }
    figures(&page.0)
}

/// The header's version.
fn version() -> String {
    let header = std::fs::read_to_string(crate::program::root("include/honeyplank.h")).unwrap();
    let line = header.lines().find_map(|line| line.strip_prefix("#define HP_VERSION \"")).unwrap();
    line.trim_end_matches('"').into()
}

fn last_held(contents: &Contents) -> i64 {
    i64::from(contents.table.first) + contents.table.marks.len() as i64 - 1
}

/// The request.
fn head(page: &mut Page, event: &Event) {
    let Contents { p, portfolio, table, moves, .. } = event.contents;
    let Request { d, s, e, n, method, .. } = *event.request;
    say!(page, "{portfolio} {}", long_date(i64::from(*p)));
    if !table.marks.is_empty() {
        say!(page, "{}: {} to {}", table.marks.len(), long_date(i64::from(table.first)), long_date(last_held(event.contents)));
    }
    for (place, pair) in moves.chunks(MOVE_NUMBERS).enumerate() {
        let (from, to) = (pair[0], pair[1]);
        let after = if from > LAST_DAY || to > LAST_DAY { "2099" } else { "" };
        say!(page, "move {} {} to {} (days {from} and {to}) {after}", if place == 0 { "first" } else { "" }, date(from.into()), date(to.into()));
    }
    say!(page, "{}", long_date(i64::from(d)));
    for place in [s, e, n] {
        match place {
            193.. => say!(page, "ruler {place}"),
            192 => say!(page, "ends at 01:00 of {} ruler {place}", date(i64::from(d))),
            _ => say!(page, "at {} of {} ruler {place}", clock(place), event.ruler_date(place)),
        }
    }
    if method != HIGH && method != AVERAGE {
        say!(page, "unknown {method}");
    }
}

/// A refusal, and what it was given for.
fn grounds(page: &mut Page, event: &Event, refusal: &Refusal) {
    let (contents, number) = (event.contents, refusal.number());
    say!(page, "{}. {}", refusal_words(refusal), refusal_figures(number));
    let first = i64::from(contents.table.first);
    match *refusal {
        Refusal::Shape if contents.table.marks.is_empty() => {}
        Refusal::Shape => say!(page, "{}", long_date(last_held(contents))),
        Refusal::Mark { place } => {
            let mark = contents.table.marks[place as usize];
            say!(page, "{} at {place}: {mark}", long_date(first + place as i64));
        }
        Refusal::Reading { place } => {
            let (day, quarter) = (first + place as i64 / 96, place as u32 % 96);
            let reading = contents.table.readings[place as usize];
            say!(page, "{} at {} {quarter} {place}: {reading}", long_date(day), clock(quarter));
        }
        Refusal::Bounds => bounds(page, event.request),
        Refusal::NotHeld => say!(page, "{}", long_date(i64::from(event.request.d))),
        Refusal::StartsLater => say!(page, "{}", long_date(i64::from(contents.p))),
        Refusal::Margin { days } => {
            let needed = overlap(contents, event.request).unwrap();
            say!(page, "{days} {} {} {}", needed.held.unwrap(), needed.more.unwrap(), long_date(needed.from.into()));
        }
        Refusal::TooFew { size, reach } => say!(page, "{size} in step 2, reach {reach}"),
        Refusal::NoAdjustment { reach } => say!(page, "step 3, reach {reach}"),
        _ => {}
    }
}

/// Which of the tests of refusal 4.
fn bounds(page: &mut Page, request: &Request) {
    let Request { p, s, e, n, method, .. } = *request;
    if p > LAST_DAY {
        say!(page, "{p} after {LAST_DAY}");
    }
    if !(96..192).contains(&s) {
        say!(page, "{s} not from 96 to 191");
    }
    if e <= s || e > 192 {
        say!(page, "{e} not from 1 to 192");
    }
    if n > s {
        say!(page, "{n}");
    }
    if method != HIGH && method != AVERAGE {
        say!(page, "{method} neither 0 nor 1");
    }
}

fn look_back(page: &mut Page, event: &Event, working: &Working) {
    say!(page, "1. the {LOOK_BACK} days, {} to {}", clock(event.request.s), clock(event.request.e));
    for row in &working.rows {
        let may_stand = matches!(row.reason, Reason::NotHeld | Reason::EventRecorded | Reason::Eligible);
        let rank = match working.rank(row.back) {
            None if may_stand => "?".into(),
            None | Some(0) => "-".into(),
            Some(rank) => rank.to_string(),
        };
        let day = row.day.map_or(-1, i64::from);
        let weekday = row.day.map_or("-", |day| WEEK[day as usize % 7]);
        let sum = row.sum.map_or(String::new(), |sum| sum.to_string());
        let chosen = if working.is_chosen(row.back) == Some(true) { "chosen" } else { "" };
        let group = row.group.map_or("-", group_name);
        say!(page, "D-{} {} {} {weekday} {group} {} {sum} {rank} {chosen}", row.back, or_dash(row.day), date(day), reason_words(row));
    }
    if working.ranking.is_none() {
        say!(page, "?");
    }
}

/// The reach, of an answer and of a refusal that has one.
fn reach(event: &Event) -> u64 {
    match event.result {
        Ok(Answer { reach, .. }) => u64::from(reach),
        Err(Refusal::TooFew { reach, .. }) | Err(Refusal::NoAdjustment { reach }) => reach,
        _ => 0,
    }
}

fn window(page: &mut Page, event: &Event, working: &Working) {
    say!(page, "2.");
    let Some(Ranking { backs, passed, taken }) = &working.ranking else {
        return;
    };
    let Request { p, d, method, .. } = *event.request;
    let (size, most) = (backs.len(), working.most);
    let both = if size == most { [size, most] } else { [most, size] };
    say!(page, "{} {}, rank 1", both[0], both[1]);
    match method {
        AVERAGE => say!(page, "5th 6th 2nd 3rd 7 {}", d - p),
        _ => say!(page, "5 2"),
    }
    match taken {
        0 => {}
        1 => say!(page, "1: rank {}", passed + 1),
        _ => say!(page, "{taken}: ranks {} to {}", passed + 1, passed + taken),
    }
    let reach = reach(event);
    say!(page, "reach {reach} {}", long_date(i64::from(d) - reach as i64));
    blocks(page, event, working, backs);
}

/// The days of the window side by side, as many as a line has room for.
fn blocks(page: &mut Page, event: &Event, working: &Working, backs: &[u32]) {
    let sum = |back: u32| working.row(back).and_then(|row| row.sum).unwrap().to_string();
    let width = backs.first().map_or(8, |&back| 8.max(sum(back).len() + 1));
    let step = if backs.len() * width <= WIDTH - MARGIN { backs.len() } else { 5 };
    for (block, backs) in backs.chunks(step.max(1)).enumerate() {
        let line = |cell: &dyn Fn(u32) -> String| backs.iter().map(|&back| cell(back)).collect::<Vec<_>>().join(" ");
        let ranks: Vec<String> = (1..=backs.len()).map(|rank| (rank + block * step).to_string()).collect();
        say!(page, "rank {}", ranks.join(" "));
        say!(page, "date {}", line(&|back| short_date(event.request.d - back)));
        say!(page, "day {}", line(&|back| (event.request.d - back).to_string()));
        for t in event.request.s..event.request.e {
            say!(page, "{t} {} {}", clock(t), line(&|back| or_dash(event.reading(event.request.d - back, t))));
        }
        say!(page, "sum {}", line(&sum));
        say!(page, "{}", line(&|back| if working.is_chosen(back) == Some(true) { "chosen".into() } else { "-".into() }));
    }
}

/// What the chosen days read at a quarter, and S(t).
fn chosen_line(event: &Event, t: u32) -> String {
    let readings = event.chosen().into_iter().map(|day| or_dash(event.reading(day, t)));
    let sums = event.working.as_ref().unwrap().sums.as_ref().unwrap();
    readings.chain([sums[t as usize].to_string()]).collect::<Vec<_>>().join(" ")
}

fn chosen_dates(event: &Event) -> String {
    event.chosen().into_iter().map(short_date).collect::<Vec<_>>().join(" ")
}

fn adjustment(page: &mut Page, event: &Event) {
    let Request { s, n, method, .. } = *event.request;
    let found = event.adjustment();
    match found {
        _ if method == AVERAGE => say!(page, "3. no step 4"),
        None => {
            say!(page, "3.");
            missing(page, event);
        }
        Some(Adjustment { end, .. }) if end == n => say!(page, "3. ends at {n}"),
        Some(_) => say!(page, "3. not at {n}, at or before {s}"),
    }
    let Some(Adjustment { end, a, b }) = found else {
        return;
    };
    say!(page, "dates {}", chosen_dates(event));
    for t in end - 12..end {
        say!(page, "{t} {} {} {} {} {}", clock(t), event.ruler_date(t), t % 96, or_dash(event.load(t)), chosen_line(event, t));
    }
    say!(page, "A = {a}, B = {b}");
    let taken = event.chosen().len() as i64;
    let (adjusted, over) = (taken * a - b, 12 * taken);
    say!(page, "4. N x A - B = {taken} x {a} - {b} = {} - {b} = {adjusted}", taken * a);
    say!(page, "12 x N = 12 x {taken} = {over}, {adjusted}/{over}");
}

/// The readings that are missing before the event's start: each stretch of a day.
fn missing(page: &mut Page, event: &Event) {
    let mut t = 0;
    while t < event.request.s {
        let day_end = if t < 96 { 96 } else { event.request.s };
        let end = (t..day_end).find(|&later| event.load(later).is_some()).unwrap_or(day_end);
        if end > t {
            say!(page, "   {t} to {}   {} to {} of {}  quarters: {}", end - 1, clock(t), clock(end - 1), event.ruler_date(t), end - t);
        }
        t = end.max(t + 1);
    }
}

fn sums(page: &mut Page, event: &Event, working: &Working) {
    debug_assert!(working.sums.is_some());
    say!(page, "5. dates {}", chosen_dates(event));
    for t in event.request.s..event.request.e {
        say!(page, "{t} {} {}", clock(t), chosen_line(event, t));
    }
}

fn baseline(page: &mut Page, event: &Event, working: &Working, answer: &Answer) {
    let (over, by_average) = (i64::from(answer.denominator), event.request.method == AVERAGE);
    let (sign, added) = (if answer.adjustment < 0 { '-' } else { '+' }, answer.adjustment.abs());
    match by_average {
        true => say!(page, "6. over {over}"),
        false => say!(page, "6. 12 x S(t) + N x A - B = 12 x S(t) {sign} {added}; below 0 it is 0; over {over}, 12 x S(t)"),
    }
    let (sums, numerators) = (working.sums.as_ref().unwrap(), working.numerators.as_ref().unwrap());
    for (t, &before) in (event.request.s..).zip(numerators) {
        let (sum, floored) = (sums[t as usize], before.max(0));
        let adjusted = if by_average { String::new() } else { format!("{} {before}", 12 * sum) };
        let kw = (2 * floored + over) / (2 * over);
        say!(page, "{t} {} {sum} {adjusted} {floored} {floored}/{over} = {} {}/{over} {kw}", clock(t), floored / over, floored % over);
    }
}

/// The words that the line of an event has to have among the overlaps.
pub fn overlap_line(contents: &Contents, place: usize) -> String {
    let Event { request, result, .. } = Event::new(contents, place);
    let needed = overlap(contents, request).ok();
    let from = needed.map(|needed| i64::from(needed.from));
    let result = match result {
        Ok(answer) => format!("reach {}", answer.reach),
        Err(refusal) => format!("refused {}", refusal.number()),
    };
    let held = or_dash(needed.and_then(|needed| needed.held));
    let (suffices, more) = (or_dash(needed.map(|needed| needed.suffices)), or_dash(needed.and_then(|needed| needed.more)));
    let dated = date(from.unwrap_or(-1));
    format!("{place} {} {} {held} {suffices} {more} {dated} {} {result}", date(i64::from(request.d)), request.d, or_dash(from))
}
