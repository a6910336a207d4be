//! docs/BY-HAND.md: every table, indented line, quotation and line with a figure is made here again from the archive's replies over
//! samples/by-hand.rec, and has to stand in the page so, in this order. What is left is prose without a figure.

use compare::files::{proved_event, proved_file, proved_listing, MOST_LISTING};
use compare::probe::{Event, Standing};
use compare::proved_date;
use compare::told::EVENT_METHOD;
use reference::record::{read, Contents};
use reference::table::{EVENT, MISSING, OUTAGE};
use reference::{Request, Table};

const MONTHS: [&str; 12] =
    ["January", "February", "March", "April", "May", "June", "July", "August", "September", "October", "November", "December"];
const WEEK: [&str; 7] = ["Saturday", "Sunday", "Monday", "Tuesday", "Wednesday", "Thursday", "Friday"];

/// Names of include/honeyplank.h.
const FILE_PARTICIPATION: u32 = 12;
const EVENT_DAY: u32 = 17;

/// "the 45 days D-45 to D-1".
const LOOK_BACK: u32 = 45;

/// What prose may say though it has a figure.
const ALLOWED: [&str; 2] = ["document 01", "two-day ruler"];

/// Figures that are words.
const NUMBERS: [&str; 12] = ["two", "three", "four", "five", "six", "seven", "eight", "nine", "ten", "eleven", "twelve", "forty"];

fn has_figure(line: &str) -> bool {
    let line = ALLOWED.iter().fold(line.to_lowercase(), |line, allowed| line.replace(allowed, ""));
    let mut words = line.split(|c: char| !c.is_alphabetic());
    line.contains(|c: char| c.is_numeric()) || words.any(|word| NUMBERS.contains(&word))
}

/// Whether a line of the page is one that is made here.
fn is_made(line: &str) -> bool {
    ["|", ">", "    "].iter().any(|start| line.starts_with(start)) || has_figure(line)
}

/// 26 August.
fn date(day: u32) -> String {
    let digits = proved_date(day);
    format!("{} {}", digits % 100, MONTHS[(digits / 100 % 100) as usize - 1])
}

fn weekday(day: u32) -> &'static str {
    WEEK[day as usize % 7]
}

/// Monday 26 August 2024.
fn whole_date(day: u32) -> String {
    format!("{} {} {}", weekday(day), date(day), proved_date(day) / 10_000)
}

/// The clock at a place of the ruler, or at a quarter of a day: quarter 0 is 01:00.
fn clock(t: u32) -> String {
    let minutes = (60 + 15 * t) % (24 * 60);
    format!("{:02}:{:02}", minutes / 60, minutes % 60)
}

fn row(cells: &[String]) -> String {
    let cells = cells.iter().map(|cell| if cell.is_empty() { " |".to_string() } else { format!(" {cell} |") });
    format!("|{}", cells.collect::<String>())
}

/// A table: its head, the line below it, its rows.
fn table(head: &[String], rows: impl IntoIterator<Item = Vec<String>>) -> Vec<String> {
    let mut lines = vec![row(head), format!("|{}", "---|".repeat(head.len()))];
    lines.extend(rows.into_iter().map(|cells| row(&cells)));
    lines
}

fn words(cells: &[&str]) -> Vec<String> {
    cells.iter().map(|cell| cell.to_string()).collect()
}

/// The clauses of document 01 that the steps follow, in its own words; `..` stands where words are left out.
const NEEDED: [&str; 5] = [
    "A day is a number, 0 for 1 January 2000 (a Saturday) ..",
    "A dispatch day starts at 01:00 Eastern European Time and has 96 quarters; quarter 0 is 01:00 to 01:15 (003, section 4), so 15:00 is quarter 56.",
    "Mark bit 0: a demand response event was recorded. Bit 1: outage or force majeure.",
    "A request: participation start P; event day D; and three places s, e, n on a two-day ruler where day D-1 is 0 to 95 and day D is 96 to 191.",
    "The event covers s up to but not e; notification came at the start of quarter n.",
];
const NO_PART: [&str; 1] = ["Day D's marks, its readings from s on, and all later days play no part beyond refusals 1 to 3."];
const ELIGIBLE: [&str; 6] = [
    "Look-back: the 45 days D-45 to D-1.",
    "A day is relevant if it lies there, is not below 0 or P, is of D's group and, when D is a weekday, is not D-1.",
    "Each day is in one group: holiday group (a Sunday or any holiday), Saturday (a Saturday that is no holiday), weekday (the rest).",
    "Holidays (003, section 2): 1 January, 6 January, 25 March, 1 May, 15 August, 28 October, 25 and 26 December ..",
    "It is complete if none of its 96 readings is missing (desk rule). It is eligible if relevant, complete, and both bits are clear.",
    "Y and N are 10 and 5 for a weekday, 3 and 2 otherwise. The window is the Y most recent eligible days ..",
];
const RANKED: [&str; 2] = [
    "'Highest' is the sum of the day's readings over the event's own quarters; equal sums put the day nearer D first ..",
    "The window is then ranked by that order and the first N are chosen, listed in rank order.",
];
const REACH: [&str; 1] = ["Reach: if the window holds Y days, D minus its oldest .."];
const ADJUSTMENT_WINDOW: [&str; 4] = [
    "Adjustment window: the twelve ruler quarters ending at n, if n is at least 12 and all twelve readings are present.",
    "Readings of D-1 may enter through the adjustment even when D-1 is excluded.",
    "For a ruler quarter t let S(t) be the sum, over the N chosen days, of the reading at quarter t mod 96.",
    "A is the sum of the twelve readings of the adjustment window, B the sum of S over it.",
];
const ADJUSTMENT: [&str; 1] = ["The adjustment is (N·A - B)/(12N), possibly negative."];
const BASELINE: [&str; 2] = [
    "The baseline at event quarter t is max(0, 12·S(t) + N·A - B)/(12N).",
    "Rounded kW is the nearest whole number, halves up; it is for the listing only.",
];
const LISTING: [&str; 1] =
    ["Event line: D, s, e, N, chosen days by rank, reach, denominator, adjustment numerator. Quarter line: t, numerator, rounded kW."];

fn quoted(clauses: &[&str]) -> Vec<String> {
    clauses.iter().map(|clause| format!("> - \"{clause}\"")).collect()
}

/// A step: its heading, the clauses that it follows, and its figures.
fn step(number: u32, name: &str, clauses: &[&str], figures: Vec<String>) -> Vec<String> {
    [vec![format!("### {number}. {name}")], quoted(clauses), figures].concat()
}

/// The days that the file marks, or of which a reading is missing.
fn marks(event: &Event) -> Vec<String> {
    let Table { first, marks, .. } = &event.table;
    let what = |day: u32| {
        let missing = (0..96).filter(|&quarter| event.reading(day, quarter) == MISSING);
        let missing = missing.map(|quarter| format!("the reading of {} is missing", clock(quarter)));
        let event_mark = (event.mark(day) & EVENT != 0).then(|| "event".to_string());
        let outage_mark = (event.mark(day) & OUTAGE != 0).then(|| "outage".to_string());
        event_mark.into_iter().chain(outage_mark).chain(missing).collect::<Vec<_>>().join(", ")
    };
    let days = (*first..).take(marks.len()).filter(|&day| !what(day).is_empty());
    table(&words(&["day", "number", ""]), days.map(|day| vec![date(day), day.to_string(), what(day)]))
}

fn portfolio(event: &Event) -> Vec<String> {
    let Event { table: held, request, .. } = event;
    let last = held.first + held.marks.len() as u32 - 1;
    let days = [("participation starts, P", request.p), ("first day held, F", held.first), ("last day held", last)];
    let rows = days.map(|(what, day)| vec![what.to_string(), whole_date(day), day.to_string()]);
    [quoted(&NEEDED), table(&words(&["", "day", "number"]), rows), marks(event)].concat()
}

fn asked(event: &Event) -> Vec<String> {
    let Request { d, s, e, n, .. } = event.request;
    let places = [("start, s", s), ("end, e", e), ("notice, n", n)];
    let mut rows = vec![vec!["event day, D".to_string(), whole_date(d), d.to_string()]];
    rows.extend(places.map(|(what, place)| vec![what.to_string(), clock(place), place.to_string()]));
    table(&words(&["", "", "number or place"]), rows)
}

/// The quarters of a day that the event, or its adjustment, asks for.
fn quarters_used(event: &Event) -> Vec<u32> {
    let before = event.adjustment_window().into_iter().map(|t| event.on_ruler(t).1);
    before.chain(event.quarters()).collect()
}

/// The readings of D, of the day before and of the relevant days within the reach; of D only those before the event.
fn readings(event: &Event) -> Vec<String> {
    let d = event.request.d;
    let quarters = quarters_used(event);
    let cell = |day: u32, quarter: u32| match day == d && 96 + quarter >= event.request.s {
        true => "-".to_string(),
        false => event.reading(day, quarter).to_string(),
    };
    let days = (d - event.reach() as u32..=d).rev().filter(|&day| day >= d - 1 || event.is_relevant(day));
    let rows = days.map(|day| std::iter::once(date(day)).chain(quarters.iter().map(|&quarter| cell(day, quarter))).collect());
    let head: Vec<String> = std::iter::once("kW".to_string()).chain(quarters.iter().map(|&quarter| clock(quarter))).collect();
    table(&head, rows)
}

/// The days back to the oldest of the window, and how each stands to the event; only the relevant ones where the others are many.
fn look_back(event: &Event, only_relevant: bool) -> Vec<String> {
    let window = event.window();
    let stands = |day: u32| match event.standing(day) {
        Standing::InWindow => format!("eligible, in the window: {}", 1 + window.iter().position(|&other| other == day).unwrap()),
        Standing::Marked => "not eligible: an event is marked".to_string(),
        Standing::Out => "not eligible: an outage is marked".to_string(),
        Standing::Incomplete => "not eligible: not complete".to_string(),
        Standing::DayBefore => "not relevant: D-1 of a weekday".to_string(),
        Standing::OfSaturdays => "not relevant: of the Saturdays".to_string(),
        Standing::OfSundays => "not relevant: of the holiday group".to_string(),
        Standing::OfWeekdays => "not relevant: of the weekdays".to_string(),
    };
    let (from, to) = (event.request.d - LOOK_BACK, event.request.d - 1);
    let within_reach = event.days_before().take(event.reach() as usize);
    let (listed, other): (Vec<u32>, Vec<u32>) = within_reach.partition(|&day| !only_relevant || event.is_relevant(day));
    let rows = listed.into_iter().map(|day| vec![date(day), day.to_string(), weekday(day).to_string(), stands(day)]);
    let mut lines = vec![format!("    look-back: {} ({from}) to {} ({to})", date(from), date(to))];
    lines.extend(table(&words(&["day", "number", "", ""]), rows));
    assert!(other.iter().all(|&day| matches!(event.standing(day), Standing::OfSundays | Standing::OfWeekdays)));
    if !other.is_empty() {
        lines.push(format!("    of other groups, between these: {} days", other.len()));
    }
    lines
}

/// The window with its readings over the event, sums and ranks.
fn ranks(event: &Event) -> Vec<String> {
    let (ranked, chosen) = (event.ranked(), event.chosen());
    let rank = |day: u32| 1 + ranked.iter().position(|&other| other == day).expect("a day of the window");
    let mut head = words(&["day"]);
    head.extend(event.quarters().map(clock));
    head.extend(words(&["sum", "rank", ""]));
    let rows = event.window().into_iter().map(|day| {
        let mut cells = vec![date(day)];
        cells.extend(event.quarters().map(|quarter| event.reading(day, quarter).to_string()));
        let is_chosen = if chosen.contains(&day) { "chosen" } else { "" };
        cells.extend([event.sum(day).to_string(), rank(day).to_string(), is_chosen.to_string()]);
        cells
    });
    let mut lines = table(&head, rows);
    let whole = event.highest_of_whole_days();
    lines.push(format!("    chosen, by rank: {}", chosen.iter().map(|&day| date(day)).collect::<Vec<_>>().join(", ")));
    lines.push(format!("    the highest of the window over its whole day: {}, here of rank {}", date(whole), rank(whole)));
    lines
}

fn reach(event: &Event) -> Vec<String> {
    let (d, reach) = (event.request.d, event.reach() as u32);
    assert_eq!(event.window().last(), Some(&(d - reach)));
    vec![format!("    reach: {d} - {} = {reach} days", d - reach)]
}

/// The adjustment window with its readings, those of the chosen days, and S; then A and B.
fn adjustment_window(event: &Event) -> Vec<String> {
    let chosen = event.chosen();
    let twelve = event.adjustment_window();
    let mut head = words(&["t", "time", "of", "t mod 96", "reading"]);
    head.extend(chosen.iter().map(|&day| date(day)));
    head.push("S(t)".to_string());
    let rows = twelve.iter().map(|&t| {
        let (day, quarter) = event.on_ruler(t);
        let mut cells = vec![t.to_string(), clock(t), date(day), quarter.to_string(), event.reading(day, quarter).to_string()];
        cells.extend(chosen.iter().map(|&day| event.reading(day, quarter).to_string()));
        cells.push(event.sum_before(t).to_string());
        cells
    });
    let mut lines = table(&head, rows);
    let reading = |&t: &u32| event.reading(event.on_ruler(t).0, event.on_ruler(t).1);
    assert_eq!(twelve.iter().map(|t| i64::from(reading(t))).sum::<i64>(), event.a());
    assert_eq!(twelve.iter().map(|&t| event.sum_before(t)).sum::<i64>(), event.b());
    lines.push(format!("    A = {}, the sum of the column of readings", event.a()));
    lines.push(format!("    B = {}, the sum of the column S(t)", event.b()));
    lines
}

fn adjustment(event: &Event) -> Vec<String> {
    let (n, over, adjustment) = (event.count(), event.denominator(), event.adjustment());
    vec![
        format!("    N·A - B = {n}·{} - {} = {adjustment}", event.a(), event.b()),
        format!("    12N = 12·{n} = {over}"),
        format!("    adjustment: {adjustment}/{over} kW"),
    ]
}

/// The lines of the event in the listing of the file: its own, then one a quarter.
fn listed(file: &[u8], event: &Event) -> Vec<String> {
    let (length, text) = proved_listing(file, MOST_LISTING);
    let text = String::from_utf8(text[..length as usize].to_vec()).expect("a text");
    let own = format!("{} {} {} days", event.request.d, event.request.s, event.request.e);
    let lines = text.lines().skip_while(|line| !line.starts_with(&own));
    lines.take(1 + event.quarters().len()).map(str::to_string).collect()
}

/// S, the numerator, and the kW as they are and as they are listed, at each quarter of the event.
fn baseline(event: &Event, listed: &[String]) -> Vec<String> {
    let over = event.denominator();
    let quarters = event.request.s..event.request.e;
    let rows = quarters.zip(event.sums()).zip(event.numerators()).zip(&listed[1..]).map(|(((t, sum), numerator), line)| {
        let told: Vec<&str> = line.split(' ').collect();
        assert_eq!(told[..2], [t.to_string(), numerator.to_string()]);
        let exact = format!("{} {}/{over}", numerator / over, numerator % over);
        vec![t.to_string(), clock(t), sum.to_string(), (12 * sum).to_string(), numerator.to_string(), exact, told[2].to_string()]
    });
    table(&words(&["t", "time", "S(t)", "12·S(t)", "12·S(t) + N·A - B", "kW", "rounded"]), rows)
}

/// All of an event.
fn worked(file: &[u8], event: &Event, kind: &str, only_relevant: bool) -> Vec<String> {
    let listed = listed(file, event);
    let listing = listed.iter().map(|line| format!("    {line}")).collect();
    let parts = [
        vec![format!("## {kind}: {}", whole_date(event.request.d))],
        asked(event),
        quoted(&NO_PART),
        readings(event),
        step(1, "The eligible days and the window", &ELIGIBLE, look_back(event, only_relevant)),
        step(2, "The ranks", &RANKED, ranks(event)),
        step(3, "The reach", &REACH, reach(event)),
        step(4, "The adjustment window", &ADJUSTMENT_WINDOW, adjustment_window(event)),
        step(5, "The adjustment", &ADJUSTMENT, adjustment(event)),
        step(6, "The baseline", &BASELINE, baseline(event, &listed)),
        step(7, "The listing", &LISTING, listing),
    ];
    parts.concat()
}

/// The event at a place of the file.
fn event(file: &[u8], place: usize) -> Event {
    let told = |name: u32| proved_event(file, place, name) as u32;
    let [d, s, e, n] = [0, 1, 2, 3].map(|name| told(EVENT_DAY + name));
    let method = told(EVENT_METHOD as u32);
    let p = proved_file(file, FILE_PARTICIPATION) as u32;
    let Contents { table, moves, .. } = read(file).expect("a record file");
    Event { table, moves, request: Request { p, d, s, e, n, method } }
}

#[test]
fn page_has_the_figures_of_the_archive() {
    let file = std::fs::read("../../samples/by-hand.rec").expect("the sample");
    let page = std::fs::read_to_string("../../docs/BY-HAND.md").expect("the page");
    let (weekday, saturday) = (event(&file, 0), event(&file, 1));
    let due = [portfolio(&weekday), worked(&file, &weekday, "A weekday", false), worked(&file, &saturday, "A Saturday", true)].concat();
    let found: Vec<(usize, &str)> = (1..).zip(page.lines()).filter(|(_, line)| is_made(line)).collect();
    for ((number, found), due) in found.iter().zip(&due) {
        assert_eq!(found, due, "docs/BY-HAND.md:{number}");
    }
    assert_eq!(found.len(), due.len());
}
