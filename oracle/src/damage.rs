//! A model of the three searches over any tables, any search value and any text, made from
//! document 01 and the readings in docs/DECISIONS.md, and not from our search code. It is slow
//! and plain on purpose: a walk is collected as a list of steps, and each line of the damage
//! list is a function of its own (`rules.rs`).

mod rules;
mod walks;

use std::cell::RefCell;

pub const ROOT: u32 = 0;
pub const DEAD: u32 = 1;

const STANDARD: u32 = 0;
const LAST_KIND: u32 = 2;
const LONGEST_TEXT: usize = 65_536;

#[derive(Clone, Debug, Default)]
pub struct Counts {
    pub kind: u32,
    pub accepted: u32,
    pub states: u32,
    pub cells: u32,
}

/// What is lent to a search. The columns may be unequally long.
#[derive(Clone, Debug, Default)]
pub struct Tables {
    pub base: Vec<u32>,
    pub link: Vec<u32>,
    pub output: Vec<u32>,
    pub check: Vec<u8>,
    pub depth: Vec<u8>,
    /// Value, length, next of each output.
    pub outs: Vec<[u32; 3]>,
    pub counts: Counts,
}

/// A search value.
#[derive(Clone, Copy, Debug, Default, PartialEq, Eq)]
pub struct Value {
    pub state: u32,
    pub output: u32,
    pub place: u64,
    pub moves: u64,
}

#[derive(Clone, Copy, Debug, PartialEq, Eq)]
pub struct Match {
    pub start: u64,
    pub end: u64,
    pub value: u32,
}

#[derive(Clone, Copy, Debug, PartialEq, Eq)]
pub enum Search {
    Overlapping,
    Plain,
    Leftmost,
}

impl Search {
    pub fn name(self) -> &'static str {
        match self {
            Search::Overlapping => "overlapping",
            Search::Plain => "plain",
            Search::Leftmost => "leftmost",
        }
    }
}

pub const SEARCHES: [Search; 3] = [Search::Overlapping, Search::Plain, Search::Leftmost];

/// An answer with the value handed back. A refusal is its number in document 01.
#[derive(Clone, Copy, Debug, PartialEq, Eq)]
pub enum Answer {
    Match(Match, Value),
    End(Value),
    Refused(u32, Value),
}

impl Answer {
    pub fn value(&self) -> Value {
        match self {
            Answer::Match(_, value) | Answer::End(value) | Answer::Refused(_, value) => *value,
        }
    }
}

/// What happened on the way to the answers. It decides nothing: it is there to be counted.
#[derive(Default)]
pub struct Notes(RefCell<Vec<&'static str>>);

impl Notes {
    pub fn note(&self, what: &'static str) {
        self.0.borrow_mut().push(what);
    }

    pub fn note_if(&self, holds: bool, what: &'static str) {
        if holds {
            self.note(what);
        }
    }

    pub fn all(&self) -> Vec<&'static str> {
        self.0.borrow().clone()
    }
}

/// One call of a search.
pub fn call(search: Search, tables: &Tables, text: &[u8], value: Value, notes: &Notes) -> Answer {
    let due = refusals_at_once(search, tables, text, value, notes);
    let answer = match due.first() {
        Some(refusal) => Answer::Refused(*refusal, value),
        None => walks::run(search, tables, text, value, notes).unwrap_or_else(|damage| {
            notes.note(damage.name());
            notes.note("refusals: 11 on the walk");
            Answer::Refused(11, value)
        }),
    };
    let has_moves = matches!(answer, Answer::Refused(_, value) if value.moves != 0);
    notes.note_if(has_moves, "B10: a refusal with moves");
    answer
}

/// The refusals that are due before the walk, lowest first: the first of them is given (B7).
fn refusals_at_once(
    search: Search,
    tables: &Tables,
    text: &[u8],
    value: Value,
    notes: &Notes,
) -> Vec<u32> {
    let damages = rules::damages_at_once(tables, text, value);
    let due: Vec<u32> = [
        (9, is_wrong_kind(search, tables.counts.kind)),
        (10, text.len() > LONGEST_TEXT),
        (11, !damages.is_empty()),
    ]
    .iter()
    .filter(|(_, is_due)| *is_due)
    .map(|(refusal, _)| *refusal)
    .collect();
    if due == [11] {
        damages.iter().for_each(|damage| notes.note(damage.name()));
        let is_short = rules::one_column_is_short(tables);
        notes.note_if(is_short, "B9: one column is too short");
    }
    match due.as_slice() {
        [] => {}
        [9] => notes.note("refusals: 9 alone"),
        [9, 10] => notes.note("refusals: 9, and 10 due too"),
        [9, 11] => notes.note("refusals: 9, and 11 due too"),
        [10] => notes.note("refusals: 10 alone"),
        [10, 11] => notes.note("refusals: 10, and 11 due too (B7)"),
        [11] => notes.note("refusals: 11 before the walk"),
        _ => notes.note("refusals: 9, and 10 and 11 due too"),
    }
    due
}

/// Refusal 9. A kind above 2 is neither Standard nor leftmost: it is damage.
fn is_wrong_kind(search: Search, kind: u32) -> bool {
    match search {
        Search::Overlapping | Search::Plain => (1..=LAST_KIND).contains(&kind),
        Search::Leftmost => kind == STANDARD,
    }
}
