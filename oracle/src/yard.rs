//! What the command for the yard must print with `--numbers`. The list is read
//! here by its format, in plain Rust; the matches are the crate's, and the
//! moves are the model's. The model's own matches have to be the crate's.

use crate::crate_answers;
use crate::model::Model;
use crate::refusals::in_ample_slots;
use crate::tables::{Found, List, Match, Pattern, LEFTMOST_FIRST, LEFTMOST_LONGEST, STANDARD};
use std::fs;

const MOST_LINES: usize = 1024;
const MOST_TEXT: usize = 65_536;

/// `oracle yard LIST SHEET SEARCH`.
pub fn run(list: &str, sheet: &str, search: &str) -> Result<String, String> {
    let kind = match search {
        "overlapping" | "plain" => STANDARD,
        "longest" => LEFTMOST_LONGEST,
        "first" => LEFTMOST_FIRST,
        _ => return Err(format!("unknown search {search}")),
    };
    let list = List {
        kind,
        patterns: patterns(&read(list)?)?,
    };
    answer(&list, &read(sheet)?, search == "plain")
}

fn read(name: &str) -> Result<Vec<u8>, String> {
    fs::read(name).map_err(|error| format!("{name}: {error}"))
}

fn answer(list: &List, sheet: &[u8], is_plain: bool) -> Result<String, String> {
    let built = crate_answers::build(list)?;
    if let Some((number, _)) = in_ample_slots(list, &built.tables()?) {
        return Err(format!("refusal {number}"));
    }
    if sheet.len() > MOST_TEXT {
        return Err("refusal 10".to_string());
    }
    let model = Model::of(list);
    let found = built.found(sheet);
    if found != model.found(sheet) {
        return Err("crate and model differ".to_string());
    }
    let (matches, moves) = match found {
        Found::Standard { plain, .. } if is_plain => (plain, model.plain_moves(sheet)),
        Found::Standard { overlapping, .. } => (overlapping, model.overlapping_moves(sheet)),
        Found::Leftmost(matches) => (matches, 0),
    };
    let mut lines: Vec<String> = matches.iter().map(line).collect();
    lines.push(format!("moves {moves}"));
    Ok(lines.join("\n"))
}

fn line(found: &Match) -> String {
    format!("{} {} {}", found.start, found.end, found.value)
}

/// A line ends with LF, the last one perhaps without; after a final LF there is
/// no line. The first bad line is told: one past the limit, or one whose value
/// is none.
fn patterns(file: &[u8]) -> Result<Vec<Pattern>, String> {
    let mut lines: Vec<&[u8]> = file.split(|byte| *byte == b'\n').collect();
    if lines.last().is_some_and(|last| last.is_empty()) {
        lines.pop();
    }
    let mut patterns = vec![];
    for (number, line) in lines.iter().enumerate() {
        if number == MOST_LINES {
            return Err("refusal 3".to_string());
        }
        let told = || format!("line {}: bad value", number + 1);
        patterns.push(pattern(number, line).ok_or_else(told)?);
    }
    Ok(patterns)
}

fn pattern(number: usize, line: &[u8]) -> Option<Pattern> {
    let line = line.strip_suffix(b"\r").unwrap_or(line);
    let number = u32::try_from(number).ok()?;
    let Some(tab) = line.iter().position(|byte| *byte == b'\t') else {
        return Some(Pattern {
            bytes: line.to_vec(),
            value: number,
        });
    };
    let value = match line[..tab].strip_prefix(b"!") {
        Some(b"") => number,
        Some(digits) => decimal(digits)?,
        None => decimal(&line[..tab])?,
    };
    Some(Pattern {
        bytes: line[tab + 1..].to_vec(),
        value,
    })
}

fn decimal(digits: &[u8]) -> Option<u32> {
    if !digits.iter().all(u8::is_ascii_digit) {
        return None;
    }
    std::str::from_utf8(digits).ok()?.parse().ok()
}
