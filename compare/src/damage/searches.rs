//! A case for the three searches: what is lent, what the oracle's model of damage says of it, and
//! whether our code says the same and writes nothing else.

use super::boundary::SearchCall;
use super::fault::Fault;
use super::ground::{Access, Ground};
use super::tally::Tally;
use super::watch::watched;
use oracle::damage::{call, Answer, Notes, Search, Tables, Value, SEARCHES};
use oracle::dice::Dice;

/// A search that gives matches still is left alone after so many calls.
const CALLS: usize = 12;

/// What is in a slot, and in `written`, before a call.
const EMPTY: [usize; 3] = [usize::MAX, usize::MAX - 1, usize::MAX - 2];

const ENDED: u32 = 0;
const FULL: u32 = 1;

#[derive(Debug)]
pub struct SearchCase {
    pub tables: Tables,
    pub text: Vec<u8>,
    pub value: Value,
    /// The slots of the sheet.
    pub slots: usize,
}

/// A few slots, and seldom none at all.
pub fn sheet_slots(dice: &mut Dice) -> usize {
    match dice.below(24) {
        0 => 0,
        throw => 1 + throw % 5,
    }
}

/// What one call is to say.
#[derive(Debug, PartialEq, Eq)]
struct Told {
    number: u32,
    records: Vec<[usize; 3]>,
    value: Value,
}

/// What the model says of all calls of the three searches.
pub struct Due(Vec<(Search, Vec<Told>)>);

impl SearchCase {
    pub fn due(&self) -> Due {
        let courses = SEARCHES
            .iter()
            .map(|search| (*search, self.course(*search)));
        Due(courses.collect())
    }

    /// Calls to the first refusal, or the end and the end again, or as many as are allowed.
    fn course(&self, search: Search) -> Vec<Told> {
        let mut course: Vec<Told> = vec![];
        let mut value = self.value;
        while course.len() < CALLS {
            let told = self.filled(search, value);
            value = told.value;
            let ended = course.last().is_some_and(|last| last.number == ENDED);
            let is_last = ended || told.number > FULL || self.slots == 0;
            course.push(told);
            if is_last {
                break;
            }
        }
        course
    }

    /// The model's answers in turn, up to the last slot, the end or a refusal.
    fn filled(&self, search: Search, from: Value) -> Told {
        let mut told = Told {
            number: FULL,
            records: vec![],
            value: from,
        };
        if self.slots == 0 {
            told.number = self.filled_at_once(search, from);
        }
        while told.records.len() < self.slots {
            let notes = Notes::default();
            let answer = call(search, &self.tables, &self.text, told.value, &notes);
            told.value = answer.value();
            match answer {
                Answer::Match(found, _) => {
                    let numbers = [found.start, found.end, u64::from(found.value)];
                    told.records.push(numbers.map(|number| number as usize));
                }
                Answer::End(_) => {
                    return Told {
                        number: ENDED,
                        ..told
                    }
                }
                Answer::Refused(number, _) => return Told { number, ..told },
            }
        }
        told
    }

    /// An empty sheet is full at once, but 9 and 10 come first.
    fn filled_at_once(&self, search: Search, from: Value) -> u32 {
        let answer = call(search, &self.tables, &self.text, from, &Notes::default());
        match answer {
            Answer::Refused(number @ (9 | 10), _) => number,
            _ => FULL,
        }
    }

    /// Plays the case on a ground: each call says what is due, slots past the written ones are as
    /// they were, and in the end tables and text are.
    pub fn play(
        &self,
        due: &Due,
        ground: &mut impl Ground,
        fault: Fault,
        tally: &mut Tally,
    ) -> Result<(), String> {
        let lent = self.lend(ground);
        for (search, course) in &due.0 {
            // SAFETY: all is lent in places of its own until it is taken back below.
            unsafe { put(&lent, self.value) };
            for (number, due) in course.iter().enumerate() {
                let told = unsafe { played(&lent, *search, fault) };
                let told = told.map_err(|error| format!("{search:?}, call {number}: {error}"))?;
                if told != *due {
                    return Err(format!(
                        "{search:?}, call {number}: {told:?}, due is {due:?}"
                    ));
                }
                tally.call(told.number, told.records.len());
            }
        }
        let is_kept = unsafe { self.is_kept(&lent) };
        ground.take_back();
        match is_kept {
            true => Ok(()),
            false => Err("tables or text were written".to_string()),
        }
    }

    fn lend(&self, ground: &mut impl Ground) -> SearchCall {
        let tables = &self.tables;
        SearchCall {
            base: ground.lend(&tables.base, Access::Read),
            link: ground.lend(&tables.link, Access::Read),
            output: ground.lend(&tables.output, Access::Read),
            check: ground.lend(&tables.check, Access::Read),
            depth: ground.lend(&tables.depth, Access::Read),
            outs: ground.lend(&tables.outs, Access::Read),
            kind: tables.counts.kind,
            accepted: tables.counts.accepted,
            cells: tables.counts.cells,
            text: ground.lend(&self.text, Access::Read),
            state: ground.lend(&[0], Access::Write),
            pending: ground.lend(&[0], Access::Write),
            place: ground.lend(&[0], Access::Write),
            moves: ground.lend(&[0], Access::Write),
            sheet: ground.lend(&vec![EMPTY; self.slots], Access::Write),
            written: ground.lend(&[0], Access::Write),
        }
    }

    unsafe fn is_kept(&self, lent: &SearchCall) -> bool {
        let tables = &self.tables;
        lent.base.read() == tables.base
            && lent.link.read() == tables.link
            && lent.output.read() == tables.output
            && lent.check.read() == tables.check
            && lent.depth.read() == tables.depth
            && lent.outs.read() == tables.outs
            && lent.text.read() == self.text
    }
}

unsafe fn put(lent: &SearchCall, value: Value) {
    *lent.state.start = value.state;
    *lent.pending.start = value.output;
    *lent.place.start = value.place as usize;
    *lent.moves.start = value.moves;
}

/// One call on an empty sheet.
unsafe fn played(lent: &SearchCall, search: Search, fault: Fault) -> Result<Told, String> {
    let slots = lent.sheet.length;
    lent.sheet.write(&vec![EMPTY; slots]);
    *lent.written.start = EMPTY[0];
    let number = watched(|| {
        let number = lent.call(search);
        fault.strike(lent, number)
    });
    let written = *lent.written.start;
    let sheet = lent.sheet.read();
    let (records, rest) = sheet
        .split_at_checked(written)
        .ok_or("more written than slots")?;
    if rest.iter().any(|slot| *slot != EMPTY) {
        return Err("a slot past the written ones was changed".to_string());
    }
    Ok(Told {
        number,
        records: records.to_vec(),
        value: Value {
            state: *lent.state.start,
            output: *lent.pending.start,
            place: *lent.place.start as u64,
            moves: *lent.moves.start,
        },
    })
}
