//! One search on one text beside the crate's matches: the records of repeated calls on a sheet,
//! the value handed back by each call, the end and the end again.

use super::fault::Fault;
use oracle::cell_walk::Step;
use oracle::tables::Match;
use rotspangle::lent::{self, Record, Search, Stop, Tables, Which};
use rotspangle::{Matcher, Refusal};

/// What a slot of a sheet holds before a call.
pub const EMPTY: Record = [usize::MAX, usize::MAX - 1, usize::MAX - 2];

/// The sizes of sheets; 0 stands for one slot more than there are matches.
pub const SIZES: [usize; 6] = [1, 2, 3, 7, 64, 0];

/// A search, a text, and what is due.
pub struct Asked<'a> {
    pub which: Which,
    pub text: &'a [u8],
    pub matches: &'a [Match],
    /// The walk in the crate's cells; none for leftmost search, which is handed back at root with
    /// no moves.
    pub steps: &'a [Step],
}

impl Asked<'_> {
    /// Repeated calls on a sheet of this size, from a fresh value to the end.
    pub fn run(&self, tables: &Tables, size: usize, fault: Fault) -> Result<(), String> {
        let slots = if size == 0 {
            self.matches.len() + 1
        } else {
            size
        };
        let mut sheet = vec![EMPTY; slots];
        let mut value = Search::default();
        let mut due = self.matches;
        loop {
            let call = lent::fill(self.which, tables, self.text, &mut value, &mut sheet);
            let (mut written, stop) = call;
            fault.spoil_call(&mut written, &mut sheet, &mut value);
            due = records(&sheet, written, due)?;
            let last = written.checked_sub(1).map(|slot| sheet[slot][1]);
            match stop {
                Stop::Full if written == slots => {
                    self.handed_back(value, last.unwrap_or(0), due)?
                }
                Stop::Ended if written < slots => break,
                _ => return Err(format!("{stop:?} with {written} records of {slots} slots")),
            }
            sheet.fill(EMPTY);
        }
        if let Some(missed) = due.first() {
            return Err(format!("the end, but {missed:?} is due"));
        }
        self.handed_back(value, self.text.len(), &[])?;
        self.ends_again(tables, value)
    }

    /// The value after a match or at the end: where the walk is there. An output is pending exactly
    /// if the next match has the same end.
    fn handed_back(&self, value: Search, place: usize, next: &[Match]) -> Result<(), String> {
        let is_pending = next.first().is_some_and(|next| next.end as usize == place);
        let step = self.step(place);
        let due = Search {
            state: step.cell,
            pending: if is_pending { value.pending.max(1) } else { 0 },
            place,
            moves: u64::from(step.moves),
        };
        if value == due {
            return Ok(());
        }
        Err(format!("{value:?} is handed back; due is {due:?}"))
    }

    fn step(&self, place: usize) -> Step {
        let before = place.checked_sub(1);
        let step = before.and_then(|before| self.steps.get(before));
        step.copied().unwrap_or_default()
    }

    fn ends_again(&self, tables: &Tables, last: Search) -> Result<(), String> {
        let mut value = last;
        let mut sheet = [EMPTY];
        let told = lent::fill(self.which, tables, self.text, &mut value, &mut sheet);
        if told == (0, Stop::Ended) && value == last && sheet == [EMPTY] {
            return Ok(());
        }
        Err(format!("after the end {told:?} with {value:?}"))
    }

    /// The matcher's iterator.
    pub fn run_matcher(&self, matcher: &Matcher) -> Result<(), String> {
        let found = iterator(matcher, self.which, self.text);
        let mut found = found.map_err(|refusal| format!("matcher: {refusal}"))?;
        let mut due = self.matches.iter();
        for given in found.by_ref() {
            let given = Match {
                start: given.start as u32,
                end: given.end as u32,
                value: given.value,
            };
            let due = due.next();
            if due != Some(&given) {
                return Err(format!("matcher: {given:?} where {due:?} is due"));
            }
        }
        let moves = u64::from(self.step(self.text.len()).moves);
        match due.next() {
            Some(missed) => Err(format!("matcher: the end, but {missed:?} is due")),
            None if found.moves() != moves => {
                Err(format!("matcher: {} moves, due are {moves}", found.moves()))
            }
            None => Ok(()),
        }
    }
}

/// The written records are the next that are due, and the other slots are as they were. What is due
/// after them.
fn records<'a>(sheet: &[Record], written: usize, due: &'a [Match]) -> Result<&'a [Match], String> {
    let (given, rest) = sheet
        .split_at_checked(written)
        .ok_or("more written than slots")?;
    for (slot, record) in given.iter().enumerate() {
        let is_due = |due: &Match| *record == [due.start, due.end, due.value].map(|n| n as usize);
        if !due.get(slot).is_some_and(is_due) {
            return Err(format!("{record:?} where {:?} is due", due.get(slot)));
        }
    }
    if rest.iter().any(|record| *record != EMPTY) {
        return Err("a slot past the written ones was changed".to_string());
    }
    Ok(&due[written..])
}

fn iterator<'a>(
    matcher: &'a Matcher,
    which: Which,
    text: &'a [u8],
) -> Result<rotspangle::Matches<'a>, Refusal> {
    match which {
        Which::Overlapping => matcher.overlapping(text),
        Which::Plain => matcher.plain(text),
        Which::Leftmost => matcher.leftmost(text),
    }
}

/// A call that must be refused: nothing is written and the value comes back as it was.
pub fn refused(matcher: &Matcher, which: Which, text: &[u8], number: u32) -> Result<(), String> {
    let mut value = Search::default();
    let mut sheet = [EMPTY; 2];
    let told = lent::fill(which, matcher.tables(), text, &mut value, &mut sheet);
    let by_matcher = iterator(matcher, which, text).err().map(Refusal::number);
    let is_kept = value == Search::default() && sheet == [EMPTY; 2];
    if told == (0, Stop::Refused(number)) && is_kept && by_matcher == Some(number) {
        return Ok(());
    }
    Err(format!(
        "{which:?}: {told:?}, matcher {by_matcher:?}; due is refusal {number}"
    ))
}
