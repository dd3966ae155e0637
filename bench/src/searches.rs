//! The searches: every search on every list with its text.

use crate::lists::{self, Listed};
use crate::race::{race, Pace, Times};
use crate::sides::{Sides, Way, CRATE, ITERATOR, LOOP, OVERLAPPING, SHEET, WAYS};
use crate::spread::{median, Ratio};
use crate::texts;

/// A list with a text for it.
struct Subject {
    name: String,
    list: Listed,
    text: Vec<u8>,
}

/// What a race of searches gave.
pub struct Searched {
    pub way: Way,
    pub subject: String,
    pub matches: usize,
    /// Nanoseconds for a byte of text: the medians of the contestants, by their places.
    pub medians: Vec<f64>,
    pub sheet_to_crate: Ratio,
    pub iterator_to_crate: Ratio,
    pub sheet_to_loop: Ratio,
}

pub fn run(pace: Pace) -> Result<Vec<Searched>, String> {
    let subjects = subjects();
    let mut rows = Vec::new();
    for way in WAYS {
        for subject in &subjects {
            rows.push(searched(pace, way, subject)?);
        }
    }
    Ok(rows)
}

fn subjects() -> Vec<Subject> {
    let crew = || lists::crew(900);
    let on_crew = |name: &str, text: fn(&[_]) -> Vec<u8>| subject(name, crew(), text);
    vec![
        on_crew("job sheet", texts::job_sheet),
        on_crew("running text", texts::running_text),
        on_crew("nothing but codes", texts::nothing_but_codes),
        subject("three letters", lists::three_letters(), |_| {
            texts::three_letters()
        }),
        on_crew("all bytes", |_| texts::all_bytes()),
        subject("all bytes", lists::all_bytes(), |_| texts::all_bytes()),
    ]
}

fn subject(
    text_name: &str,
    list: Listed,
    text: fn(&[crate::tables::Pattern]) -> Vec<u8>,
) -> Subject {
    Subject {
        name: format!("{}, {text_name}", list.name),
        text: text(&list.patterns),
        list,
    }
}

fn searched(pace: Pace, way: Way, subject: &Subject) -> Result<Searched, String> {
    let sides = Sides::build(&subject.list, way.kind)?;
    let what = format!("{} search, {}", way.name, subject.name);
    let times = timed(pace, &what, &sides, way, &[&subject.text])?;
    Ok(Searched {
        way,
        subject: subject.name.clone(),
        matches: times.sum.count,
        medians: medians(&times, subject.text.len()),
        sheet_to_crate: Ratio::of(&times.rounds[SHEET], &times.rounds[CRATE]),
        iterator_to_crate: Ratio::of(&times.rounds[ITERATOR], &times.rounds[CRATE]),
        sheet_to_loop: Ratio::of(&times.rounds[SHEET], &times.rounds[LOOP]),
    })
}

fn timed(
    pace: Pace,
    what: &str,
    sides: &Sides,
    way: Way,
    texts: &[&[u8]],
) -> Result<Times, String> {
    eprintln!("{what}");
    race(pace, what, &mut sides.contestants(way.which, texts))
}

fn medians(times: &Times, bytes: usize) -> Vec<f64> {
    let per_byte = |rounds: &Vec<f64>| median(rounds) / bytes as f64;
    times.rounds.iter().map(per_byte).collect()
}

/// Nanoseconds for a byte, by contestant, of the overlapping search of a job sheet of 64 KiB that
/// is cut into texts of so many bytes. All lengths have the same bytes, so that a short text
/// isn't learned by heart by the machine; each text is a search of its own.
pub fn by_text(pace: Pace, length: usize) -> Result<Vec<f64>, String> {
    let list = lists::crew(900);
    let sheet = texts::job_sheet(&list.patterns);
    let cut: Vec<&[u8]> = sheet.chunks(length).collect();
    overlapping(pace, &format!("texts of {length} bytes"), &list, &cut)
}

/// The same of whole job sheets, each for a list of so many codes and phrases.
pub fn by_list(pace: Pace, rows: usize) -> Result<Vec<f64>, String> {
    let list = lists::crew(rows);
    let sheet = texts::job_sheet(&list.patterns);
    overlapping(pace, &format!("a list of {rows}"), &list, &[&sheet])
}

fn overlapping(pace: Pace, what: &str, list: &Listed, texts: &[&[u8]]) -> Result<Vec<f64>, String> {
    let sides = Sides::build(list, OVERLAPPING.kind)?;
    let times = timed(pace, what, &sides, OVERLAPPING, texts)?;
    Ok(medians(&times, texts::BYTES))
}
