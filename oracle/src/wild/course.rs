//! A search called again and again on the value that it hands back, until it stops.

use super::case::Case;
use super::values::Start;
use crate::damage::{call, Answer, Notes, Search, Tables, Value, SEARCHES};

pub struct Course {
    pub answers: Vec<Answer>,
}

/// The value that the searches of a case start from.
pub fn start(case: &Case) -> Value {
    match case.start {
        Start::At(value) => value,
        Start::Walked {
            search,
            bytes,
            calls,
        } => {
            let text = &case.text[..bytes];
            let fresh = Value::default();
            course(&case.tables, search, text, fresh, calls, &Notes::default()).value()
        }
    }
}

/// The three searches, all from the same value.
pub fn searched(
    tables: &Tables,
    text: &[u8],
    start: Value,
    calls: u32,
    notes: &Notes,
) -> Vec<Course> {
    let of = |search: &Search| course(tables, *search, text, start, calls, notes);
    SEARCHES.iter().map(of).collect()
}

/// The calls of one search from a value: to the first answer that is no match, or as many as are
/// allowed; and one more after an end.
fn course(
    tables: &Tables,
    search: Search,
    text: &[u8],
    start: Value,
    calls: u32,
    notes: &Notes,
) -> Course {
    let ask = |value: Value| call(search, tables, text, value, notes);
    let mut answers = vec![ask(start)];
    while let Some(Answer::Match(_, value)) = answers.last() {
        if answers.len() == calls as usize {
            break;
        }
        answers.push(ask(*value));
    }
    if let Some(Answer::End(value)) = answers.last() {
        answers.push(ask(*value));
    }
    Course { answers }
}

impl Course {
    /// What was handed back last.
    pub fn value(&self) -> Value {
        self.answers[self.answers.len() - 1].value()
    }

    pub fn matches(&self) -> usize {
        let is_match = |answer: &&Answer| matches!(answer, Answer::Match(..));
        self.answers.iter().filter(is_match).count()
    }

    /// How the search stopped; after an end, also what came if it was no end.
    pub fn stop(&self) -> String {
        let stops: Vec<String> = self.answers.iter().filter_map(stop).collect();
        match stops.as_slice() {
            [] => "more".to_string(),
            [first, second] if first == second => first.clone(),
            all => all.join(" "),
        }
    }

    /// On damaged tables a walk can make more moves than a value may have.
    pub fn is_refused_by_own_moves(&self) -> bool {
        match self.answers.as_slice() {
            [_, .., Answer::Refused(11, value)] => value.moves > 2 * value.place,
            _ => false,
        }
    }
}

fn stop(answer: &Answer) -> Option<String> {
    match answer {
        Answer::Match(..) => None,
        Answer::End(_) => Some("end".to_string()),
        Answer::Refused(number, _) => Some(number.to_string()),
    }
}
