//! The honeyplank command says what the reference works out: every figure of the sheets, every line of the overlaps, and every value that a chart draws,
//! of the samples and of generated files; and every day of the calendar.

use compare::chart;
use compare::page::{date, figures, group_name, long_date, overlap_line, sheet, Event, WEEK};
use compare::program::{built, root, run};
use compare::shrink::keep;
use reference::calendar::{days_after_easter, fixed_date, group_of, LAST_DAY};
use reference::record::{read, Contents};
use reference::{cut_from, gen_file, gen_small_file, gen_worked_file, Refusal};
use std::fs;
use std::process::Output;
use std::thread::scope;

const FILES: u64 = 1_000;
/// How many run at a time.
const LANES: u64 = 2;

fn honeyplank(words: &[&str], file: &[u8]) -> Output {
    run(built("honeyplank").args(words), file)
}

/// What it prints, where it ends with this status and says nothing else.
fn printed(words: &[&str], file: &[u8], status: i32) -> Result<String, String> {
    let output = honeyplank(words, file);
    if output.status.code() != Some(status) || !output.stderr.is_empty() {
        return Err(format!("{words:?}: {}, expected status {status}: {}", output.status, String::from_utf8_lossy(&output.stderr)));
    }
    String::from_utf8(output.stdout).map_err(|error| error.to_string())
}

/// 1 where some event is refused.
fn status(contents: &Contents) -> i32 {
    let is_refused = |place| Event::new(contents, place).result.is_err();
    i32::from((0..contents.events.len()).any(is_refused))
}

/// The first that differs, with those before it.
fn same(what: &str, found: &[String], due: &[String]) -> Result<(), String> {
    let Some(at) = (0..found.len().max(due.len())).find(|&at| found.get(at) != due.get(at)) else {
        return Ok(());
    };
    let about = |words: &[String]| words[at.saturating_sub(12).min(words.len())..(at + 4).min(words.len())].join(" ");
    Err(format!("{what}: figure {at}: expected .. {} .., found .. {} ..", about(due), about(found)))
}

/// A refused file: nothing is printed, and standard error names the record.
fn check_refused(file: &[u8], offset: u64) -> Result<(), String> {
    for words in [&["sheet", "-"][..], &["overlap", "-"], &["chart", "-", "0"]] {
        let Output { status, stdout, stderr } = honeyplank(words, file);
        let said = String::from_utf8_lossy(&stderr).into_owned();
        let due = ["11".to_string(), offset.to_string()];
        if status.code() != Some(2) || !stdout.is_empty() || figures(&said) != due {
            return Err(format!("{words:?}: {status}, expected status 2 and byte {offset}: {said}"));
        }
    }
    Ok(())
}

fn check_sheets(contents: &Contents, file: &[u8]) -> Result<usize, String> {
    let text = printed(&["sheet", "-"], file, status(contents))?;
    if let Some(line) = text.lines().find(|line| line.chars().count() > 100) {
        return Err(format!("a line is longer than 100: {line}"));
    }
    let due: Vec<String> = (0..contents.events.len()).flat_map(|place| sheet(contents, place)).collect();
    same("sheet", &figures(&text), &due)?;
    Ok(due.len())
}

fn check_overlaps(contents: &Contents, file: &[u8]) -> Result<(), String> {
    let text = printed(&["overlap", "-"], file, status(contents))?;
    let is_event = |line: &&str| line.trim_start().starts_with(|c: char| c.is_ascii_digit());
    let found: Vec<String> = text.lines().filter(is_event).map(|line| line.split_whitespace().collect::<Vec<_>>().join(" ")).collect();
    let due: Vec<String> = (0..contents.events.len()).map(|place| overlap_line(contents, place)).collect();
    same("overlap", &found, &due)?;
    let cut = text.lines().last().map(figures).unwrap_or_default();
    let due = cut_from(contents).map_or(String::new(), |day| format!("from {} refused 8", long_date(i64::from(day))));
    same("the day to cut from", &cut, &figures(&due))
}

fn check_chart(contents: &Contents, file: &[u8], place: usize) -> Result<(), String> {
    let event = Event::new(contents, place);
    let svg = printed(&["chart", "-", &place.to_string()], file, i32::from(event.result.is_err()))?;
    chart::check(&svg, &event).map_err(|difference| format!("chart of place {place}: {difference}"))
}

/// Every page of a file: how many figures there were. The chart is of one event by the seed, or of every one.
fn check(file: &[u8], seed: Option<u64>) -> Result<usize, String> {
    let contents = match read(file) {
        Ok(contents) => contents,
        Err(Refusal::File { offset }) => return check_refused(file, offset).map(|()| 2),
        Err(refusal) => return Err(format!("{refusal:?}")),
    };
    let events = contents.events.len();
    let some = |seed: u64| seed as usize % events;
    let charts = seed.map_or(0..events, |seed| if events == 0 { 0..0 } else { some(seed)..some(seed) + 1 });
    for place in charts {
        check_chart(&contents, file, place)?;
    }
    check_overlaps(&contents, file)?;
    check_sheets(&contents, file)
}

fn checked(name: &str, file: &[u8], seed: Option<u64>) -> usize {
    check(file, seed).unwrap_or_else(|difference| {
        let kept = keep(name, file, |smaller| check(smaller, seed).is_err());
        panic!("{name}: {kept}\n{difference}");
    })
}

#[test]
fn generated_files_are_worked() {
    let lane = |lane: u64| {
        let mut figures = 0;
        for seed in (lane..FILES).step_by(LANES as usize) {
            let file = match seed / LANES % 3 {
                0 => gen_file(seed),
                1 => gen_small_file(seed),
                _ => gen_worked_file(seed),
            };
            figures += checked(&format!("sheet-{seed}"), &file, Some(seed));
        }
        figures
    };
    let figures: usize = scope(|all| {
        let lanes: Vec<_> = (0..LANES).map(|number| all.spawn(move || lane(number))).collect();
        lanes.into_iter().map(|lane| lane.join().unwrap()).sum()
    });
    println!("{FILES} files, seeds 0 to {}: {figures} figures on their sheets", FILES - 1);
    assert!(figures > 500_000, "{figures}");
}

#[test]
fn samples_are_worked() {
    let mut count = 0;
    for entry in fs::read_dir(root("samples")).unwrap() {
        let path = entry.unwrap().path();
        if path.extension().is_some_and(|extension| extension == "rec") {
            let name = path.file_stem().unwrap().to_string_lossy().into_owned();
            checked(&name, &fs::read(&path).unwrap(), None);
            count += 1;
        }
    }
    assert!(count >= 13, "{count}");
}

/// The name of a holiday, where its number is among these.
fn name<T: PartialEq>(names: &[(T, &'static str)], number: Option<T>) -> Option<&'static str> {
    names.iter().find(|(other, _)| Some(other) == number.as_ref()).map(|&(_, name)| name)
}

/// Every day of the calendar, with its group and its holidays.
#[test]
fn days_are_told() {
    let fixed = [
        (101, "New Year's Day"),
        (106, "Epiphany"),
        (325, "Annunciation"),
        (501, "Labour Day"),
        (815, "Assumption"),
        (1028, "Ohi Day"),
        (1225, "Christmas Day"),
        (1226, "Synaxis of the Theotokos"),
    ];
    let easter: [(i64, _); 6] =
        [(-48, "Clean Monday"), (-2, "Good Friday"), (-1, "Holy Saturday"), (0, "Easter Sunday"), (1, "Easter Monday"), (50, "Whit Monday")];
    let text = printed(&["days", "2000-01-01", "36524"], &[], 0).unwrap();
    let found = text.lines().map(|line| line.split_whitespace().collect::<Vec<_>>().join(" "));
    let mut count = 0;
    for (line, day) in found.zip(0u32..) {
        let group = group_name(group_of(day, &[]).unwrap());
        let holidays: Vec<&str> = [name(&fixed, fixed_date(day)), name(&easter, days_after_easter(day))].into_iter().flatten().collect();
        let due = format!("{day} {} {} {group} {}", date(i64::from(day)), WEEK[day as usize % 7], holidays.join(", "));
        assert_eq!(line, due.trim_end());
        count += 1;
    }
    assert_eq!(count, LAST_DAY + 1);
}

/// One figure of each kind changed is seen.
#[test]
fn another_figure_is_seen() {
    let file = fs::read(root("samples/worked.rec")).unwrap();
    let contents = read(&file).unwrap();
    let text = printed(&["sheet", "-", "0"], &file, 0).unwrap();
    let due = sheet(&contents, 0);
    let reason = ("eligible  ", "of another group  ");
    for (from, to) in [("15132", "15133"), reason, ("  chosen\n", "\n"), ("5207", "5206"), ("1265\n", "1264\n"), ("01-26", "01-27")] {
        assert!(text.contains(from), "{from}");
        assert!(same("sheet", &figures(&text.replacen(from, to, 1)), &due).is_err(), "{from}");
    }
}

/// A chart with one value changed, as a number or where it is drawn, is seen.
#[test]
fn another_line_is_seen() {
    let file = fs::read(root("samples/worked.rec")).unwrap();
    let contents = read(&file).unwrap();
    let event = Event::new(&contents, 0);
    let svg = printed(&["chart", "-", "0"], &file, 0).unwrap();
    assert_eq!(chart::check(&svg, &event), Ok(()));
    let changes = [("30348 ", "30347 "), (" 1307 ", " 1306 "), ("data-from=\"136\"", "data-from=\"137\""), ("data-rank=\"2\"", "data-rank=\"3\"")];
    for (from, to) in changes.into_iter().chain([("reach 21", "reach 20"), ("data-kw-high=\"", "data-kw-high=\"1"), (": 2019-01-12", ": 2019-01-13")]) {
        assert!(svg.contains(from), "{from}");
        assert!(chart::check(&svg.replacen(from, to, 1), &event).is_err(), "{from}");
    }
    for class in ["load", "chosen", "baseline"] {
        let start = svg.find(&format!("class=\"{class}\"")).unwrap();
        let drawn = start + svg[start..].find("<path d=\"M").unwrap() + 10;
        let lower = svg[..drawn].to_owned() + "1" + &svg[drawn..];
        assert!(chart::check(&lower, &event).is_err(), "{class}");
    }
}
