//! In how many cases each thing happens: each line of the damage list, each refusal, each reading
//! and each way to stop. Of the cases that are thrown those are recorded that show something of
//! which there are few so far.

use super::case::{is_long, thrown};
use super::course::{searched, start, Course};
use super::CALLS;
use crate::damage::{Notes, SEARCHES};
use std::collections::{BTreeMap, BTreeSet};

/// How many cases are thrown, and in how many each thing has happened often enough.
const THROWN: u32 = 40_000;
const ENOUGH: usize = 100;

/// The numbers of the recorded cases, and in how many of them each thing happens.
fn recorded() -> (Vec<u32>, BTreeMap<String, usize>) {
    let mut numbers = vec![];
    let mut tally: BTreeMap<String, usize> = BTreeMap::new();
    for number in 1..=THROWN {
        let happened = happened(number);
        let is_rare = |what| tally.get(what).copied().unwrap_or(0) < ENOUGH;
        if happened.iter().any(is_rare) {
            numbers.push(number);
            happened
                .into_iter()
                .for_each(|what| *tally.entry(what).or_default() += 1);
        }
    }
    (numbers, tally)
}

pub fn cases() -> Vec<u32> {
    recorded().0
}

/// `oracle tally`.
pub fn run_tally() -> Result<String, String> {
    let (numbers, tally) = recorded();
    let lines = tally
        .iter()
        .map(|(what, cases)| format!("{cases:>6} {what}\n"));
    Ok(format!(
        "{:>6} damaged cases\n{}",
        numbers.len(),
        lines.collect::<String>()
    ))
}

fn happened(number: u32) -> BTreeSet<String> {
    let notes = Notes::default();
    let case = thrown(number);
    let courses = searched(&case.tables, &case.text, start(&case), CALLS, &notes);
    let mut happened: BTreeSet<String> = notes.all().iter().map(|note| note.to_string()).collect();
    for (search, course) in SEARCHES.iter().zip(&courses) {
        for what in told_of(course, is_long(number)) {
            happened.insert(format!("{}: {what}", search.name()));
        }
    }
    happened
}

fn told_of(course: &Course, is_long: bool) -> Vec<String> {
    let stop = course.stop();
    let is_match = course.matches() > 0;
    let told = [
        (is_match, "a match"),
        (is_match && stop == "11", "a match, then 11"),
        (
            course.is_refused_by_own_moves(),
            "11 by moves that it handed back itself",
        ),
        (is_long && stop == "end", "the end of a long text"),
    ];
    let mut all: Vec<String> = told
        .iter()
        .filter(|(holds, _)| *holds)
        .map(|(_, what)| what.to_string())
        .collect();
    all.push(format!("stops with {stop}"));
    all
}
