//! Writes a run as one page that needs no network and no server: its data, style and script stand in it.

use std::fmt::Write;

use crate::figure::LINES;
use crate::moment::{Event, Moment, Run};
use crate::places::REGISTERS;
use crate::row::Change;

const PAGE: &str = include_str!("../page/page.html");
const STYLE: &str = include_str!("../page/page.css");
/// One after another, each standing on those before it.
const SCRIPTS: [&str; 4] = [
    include_str!("../page/table.js"),
    include_str!("../page/picture.js"),
    include_str!("../page/panels.js"),
    include_str!("../page/player.js"),
];

/// The page of a run, under a title.
pub fn page(title: &str, run: &Run) -> String {
    // The data come last: nothing is looked for in them.
    PAGE.replace("{{title}}", &escaped(title))
        .replace("{{style}}", STYLE.trim_end())
        .replace("{{script}}", SCRIPTS.join("\n").trim_end())
        .replace("{{run}}", &data(run))
}

/// A text as HTML.
fn escaped(text: &str) -> String {
    text.replace('&', "&amp;")
        .replace('<', "&lt;")
        .replace('>', "&gt;")
}

/// The run as JSON, a moment a line; `page/table.js` says what each name means.
pub fn data(run: &Run) -> String {
    let mut json = String::from("{\"steps\":{\n");
    let steps = LINES.iter().map(|line| {
        let holds: String = REGISTERS
            .iter()
            .filter(|register| line.holds.contains(register))
            .map(|register| format!("{register:?}"))
            .collect();
        let (left, right) = (quoted(&line.said(0)), quoted(&line.said(1)));
        format!(
            "\"{}\":{{\"holds\":\"{holds}\",\"said\":[{left},{right}]}}",
            line.step
        )
    });
    json += &steps.collect::<Vec<_>>().join(",\n");
    json += "},\n\"lines\":[\n";
    let lines = run
        .lines
        .iter()
        .map(|line| format!("[{},{}]", quoted(&line.text), quoted(&line.printed)));
    json += &lines.collect::<Vec<_>>().join(",\n");
    let (ticks, lines) = (run.cut.ticks, run.cut.lines);
    write!(
        json,
        "],\n\"cut\":{{\"ticks\":{ticks},\"lines\":{lines}}},\n\"moments\":[\n"
    )
    .expect("a string");
    json += &run
        .moments
        .iter()
        .map(moment)
        .collect::<Vec<_>>()
        .join(",\n");
    json += "]}";
    json
}

fn moment(moment: &Moment) -> String {
    let mut json = format!("{{\"line\":{}", moment.line);
    let said = match &moment.event {
        Event::Start => {
            let words: Vec<String> = moment
                .wrote
                .iter()
                .map(|(_, word)| word.to_string())
                .collect();
            format!(",\"kind\":\"start\",\"table\":[{}]", words.join(","))
        }
        Event::Begin { task } => format!(",\"kind\":\"begin\",\"task\":{task}"),
        Event::Idle => ",\"kind\":\"idle\"".to_owned(),
        Event::Lane { lane } => format!(",\"kind\":\"lane\",\"lane\":{lane}"),
        Event::Refused { number } => format!(",\"kind\":\"refused\",\"number\":{number}"),
        Event::Unread => ",\"kind\":\"unread\"".to_owned(),
        Event::Tick(tick) => {
            let looked = tick.looked.iter().map(|looked| {
                let wanted: String = looked
                    .wanted
                    .iter()
                    .map(|word| format!(",{word}"))
                    .collect();
                format!("[{}{wanted}]", looked.place)
            });
            let looked = looked.collect::<Vec<_>>().join(",");
            let mut json = format!(
                ",\"kind\":\"tick\",\"task\":{},\"step\":{},\"hint\":{},\"answer\":\"{}\",\"looked\":[{looked}]",
                tick.task, tick.step, tick.hint, tick.answer
            );
            if tick.dispatched {
                json += ",\"dispatched\":true";
            }
            if tick.lost {
                json += ",\"lost\":true";
            }
            if let Some(slot) = tick.took {
                write!(json, ",\"took\":{slot}").expect("a string");
            }
            json
        }
    };
    json += &said;
    if !moment.wrote.is_empty() && !matches!(moment.event, Event::Start) {
        let wrote = moment
            .wrote
            .iter()
            .map(|(place, word)| format!("{place},{word}"));
        write!(json, ",\"wrote\":[{}]", wrote.collect::<Vec<_>>().join(",")).expect("a string");
    }
    match moment.row {
        Some(Change::Put { lane, side, tag }) => write!(json, ",\"put\":[{lane},{side},\"{tag}\"]"),
        Some(Change::Taken { lane, side }) => write!(json, ",\"taken\":[{lane},{side}]"),
        None => Ok(()),
    }
    .expect("a string");
    json.push('}');
    json
}

/// A text as JSON that may stand inside a script.
fn quoted(text: &str) -> String {
    let mut json = String::from("\"");
    for character in text.chars() {
        match character {
            '"' => json += "\\\"",
            '\\' => json += "\\\\",
            '<' => json += "\\u003c",
            control if control < ' ' => {
                write!(json, "\\u{:04x}", control as u32).expect("a string")
            }
            other => json.push(other),
        }
    }
    json.push('"');
    json
}
