//! What a chart of the honeyplank command has to draw, from the reference: each value as a number, and each line where its numbers put it.

use crate::page::{clock, date, figures, long_date, refusal_words, Event};
use reference::table::HIGH;
use reference::Request;

/// The value of an attribute of a line of SVG.
fn attribute<'a>(line: &'a str, name: &str) -> Option<&'a str> {
    let (_, rest) = line.split_once(&format!(" {name}=\""))?;
    rest.split('"').next()
}

fn number<T: std::str::FromStr>(line: &str, name: &str) -> Result<T, String> {
    let value = attribute(line, name).ok_or(format!("no {name} in {line}"))?;
    value.parse().map_err(|_| format!("{name} is no number: {value}"))
}

/// The lines of a class.
fn of_class<'a>(svg: &'a str, class: &str) -> Vec<&'a str> {
    let class = format!(" class=\"{class}\"");
    svg.lines().filter(|line| line.contains(&class)).collect()
}

/// Where quarters and kW stand in the plot, as the axes say.
struct Scale {
    from: u32,
    to: u32,
    x: [f64; 2],
    kw: [f64; 2],
    y: [f64; 2],
}

impl Scale {
    fn read(svg: &str) -> Result<Scale, String> {
        let axes = *of_class(svg, "axes").first().ok_or("no axes")?;
        let pair = |names: [&str; 2]| Ok::<_, String>([number(axes, names[0])?, number(axes, names[1])?]);
        Ok(Scale {
            from: number(axes, "data-from")?,
            to: number(axes, "data-to")?,
            x: pair(["data-x-from", "data-x-to"])?,
            kw: pair(["data-kw-low", "data-kw-high"])?,
            y: pair(["data-y-low", "data-y-high"])?,
        })
    }

    fn x(&self, t: u32) -> f64 {
        let part = f64::from(t - self.from) / f64::from(self.to - self.from);
        self.x[0] + part * (self.x[1] - self.x[0])
    }

    fn y(&self, kw: f64) -> f64 {
        let part = (kw - self.kw[0]) / (self.kw[1] - self.kw[0]);
        self.y[0] + part * (self.y[1] - self.y[0])
    }
}

/// The level stretches of a path: from where to where, and how high.
fn stretches(path: &str) -> Result<Vec<[f64; 3]>, String> {
    let mut found = vec![];
    let (mut x, mut y) = (0.0, 0.0);
    let mut rest = path;
    while let Some(command) = rest.chars().next() {
        let end = rest[1..].find(|c: char| c.is_ascii_alphabetic()).map_or(rest.len(), |end| end + 1);
        let numbers: Result<Vec<f64>, _> = rest[1..end].split(',').map(str::parse).collect();
        let numbers = numbers.map_err(|_| format!("no numbers: {}", &rest[..end]))?;
        match (command, &numbers[..]) {
            ('M', &[to_x, to_y]) => (x, y) = (to_x, to_y),
            ('V', &[to_y]) => y = to_y,
            ('H', &[to_x]) => {
                found.push([x, to_x, y]);
                x = to_x;
            }
            _ => return Err(format!("not a line of quarters: {}", &rest[..end])),
        }
        rest = &rest[end..];
    }
    Ok(found)
}

/// The path of a line has one level stretch for each value, where the scale puts it, within a hundredth of a pixel.
fn is_drawn(line: &str, scale: &Scale, from: u32, values: &[Option<f64>]) -> Result<(), String> {
    let (_, path) = line.split_once("<path d=\"").ok_or("no path")?;
    let found = stretches(path.split('"').next().unwrap_or(""))?;
    let due = (from..).zip(values).filter_map(|(t, value)| value.map(|kw| [scale.x(t), scale.x(t + 1), scale.y(kw)]));
    let due: Vec<[f64; 3]> = due.collect();
    let close = |one: &[f64; 3], other: &[f64; 3]| one.iter().zip(other).all(|(one, other)| (one - other).abs() < 0.0101);
    if found.len() != due.len() {
        return Err(format!("{} stretches, expected {}: {line:.120}", found.len(), due.len()));
    }
    match found.iter().zip(&due).find(|(found, due)| !close(found, due)) {
        Some((found, due)) => Err(format!("drawn at {found:?}, expected {due:?}: {line:.120}")),
        None => Ok(()),
    }
}

fn same(what: &str, found: Option<&str>, due: &str) -> Result<(), String> {
    if found == Some(due) {
        return Ok(());
    }
    Err(format!("{what}: expected {due:.400}, found {:.400}", found.unwrap_or("nothing")))
}

/// The readings of a line as numbers and as it is drawn.
fn readings(line: &str, scale: &Scale, reading: impl Fn(u32) -> Option<u32>) -> Result<(), String> {
    let values: Vec<Option<u32>> = (scale.from..scale.to).map(reading).collect();
    let words: Vec<String> = values.iter().map(|value| value.map_or("-".into(), |kw| kw.to_string())).collect();
    same("data-from", attribute(line, "data-from"), &scale.from.to_string())?;
    same("data-kw", attribute(line, "data-kw"), &words.join(" "))?;
    let values: Vec<Option<f64>> = values.into_iter().map(|value| value.map(f64::from)).collect();
    is_drawn(line, scale, scale.from, &values)
}

/// The baseline over the event, where there is one.
fn baseline(svg: &str, scale: &Scale, event: &Event) -> Result<(), String> {
    let lines = of_class(svg, "baseline");
    let Ok(answer) = &event.result else {
        return same("baselines", Some(&lines.len().to_string()), "0");
    };
    let line = *lines.first().ok_or("no baseline")?;
    let Request { s, e, .. } = *event.request;
    let numerators: Vec<String> = answer.numerators.iter().map(u32::to_string).collect();
    same("data-from of the baseline", attribute(line, "data-from"), &s.to_string())?;
    same("data-to of the baseline", attribute(line, "data-to"), &e.to_string())?;
    same("data-denominator", attribute(line, "data-denominator"), &answer.denominator.to_string())?;
    same("data-numerators", attribute(line, "data-numerators"), &numerators.join(" "))?;
    let kw = |&numerator: &u32| Some(f64::from(numerator) / f64::from(answer.denominator));
    is_drawn(line, scale, s, &answer.numerators.iter().map(kw).collect::<Vec<_>>())
}

/// A stretch of the ruler that is shaded, or none.
fn band(svg: &str, class: &str, due: Option<[u32; 2]>) -> Result<(), String> {
    let found: Vec<String> = of_class(svg, class)
        .iter()
        .map(|line| format!("{} {}", attribute(line, "data-from").unwrap_or("-"), attribute(line, "data-to").unwrap_or("-")))
        .collect();
    let due = due.map_or(String::new(), |[from, to]| format!("{from} {to}"));
    same(class, Some(&found.join(", ")), &due)
}

/// The figures of the lines over the plot and under it: the request, the result, and the chosen days.
fn words(svg: &str, event: &Event) -> Result<(), String> {
    let Request { d, s, e, .. } = *event.request;
    let title = svg.lines().find_map(|line| line.strip_prefix("<title>")).unwrap_or("").trim_end_matches("</title>");
    let times = if is_on_ruler(event) { format!("{} to {}", clock(s), clock(e)) } else { format!("{s} to {e}") };
    let due = format!("portfolio {} {} at {times}", event.contents.portfolio, long_date(i64::from(d)));
    same("title", Some(&figures(title).join(" ")), &figures(&due).join(" "))?;
    let result = match &event.result {
        Ok(answer) => format!(">answered; reach {} days; adjustment {}/{} kW<", answer.reach, answer.adjustment, answer.denominator),
        Err(refusal) => format!(">{}: ", refusal_words(refusal)),
    };
    let days: Vec<String> = event.chosen().into_iter().map(|day| date(i64::from(day))).collect();
    let legend = if days.is_empty() { String::new() } else { format!(": {}<", days.join(", ")) };
    match [result, legend].into_iter().find(|part| !svg.contains(&part[..])) {
        Some(part) => Err(format!("it does not say {part}")),
        None => Ok(()),
    }
}

fn is_on_ruler(event: &Event) -> bool {
    let Request { s, e, .. } = *event.request;
    (96..192).contains(&s) && s < e && e <= 192
}

/// Whether a chart draws the event.
pub fn check(svg: &str, event: &Event) -> Result<(), String> {
    let scale = Scale::read(svg)?;
    let Request { s, e, n, method, d, .. } = *event.request;
    let adjustment = event.adjustment().map(|adjustment| [adjustment.end - 12, adjustment.end]);
    if scale.to != 192 || scale.from > 48 || adjustment.is_some_and(|[from, _]| from < scale.from) {
        return Err(format!("the plot goes from {} to {}", scale.from, scale.to));
    }
    words(svg, event)?;
    band(svg, "adjustment", adjustment)?;
    band(svg, "event", is_on_ruler(event).then_some([s, e]))?;
    let notice = of_class(svg, "notice").first().and_then(|line| attribute(line, "data-at"));
    let is_shown = method == HIGH && (scale.from..=scale.to).contains(&n);
    same("notice", Some(notice.unwrap_or("none")), &if is_shown { n.to_string() } else { "none".into() })?;
    let load = *of_class(svg, "load").first().ok_or("no load")?;
    same("data-day of the load", attribute(load, "data-day"), &d.to_string())?;
    readings(load, &scale, |t| event.load(t))?;
    let (lines, chosen) = (of_class(svg, "chosen"), event.chosen());
    same("chosen days", Some(&lines.len().to_string()), &chosen.len().to_string())?;
    let first = event.working.as_ref().ok().and_then(|working| working.ranking.as_ref()).map_or(0, |ranking| ranking.passed) + 1;
    for ((line, day), rank) in lines.into_iter().zip(chosen).zip(first..) {
        same("data-day", attribute(line, "data-day"), &day.to_string())?;
        same("data-rank", attribute(line, "data-rank"), &rank.to_string())?;
        readings(line, &scale, |t| event.reading(day, t))?;
    }
    baseline(svg, &scale, event)
}
