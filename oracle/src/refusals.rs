//! The refusals 1 to 8 of document 01, line by line of its table: 1 to 5 told from what is lent
//! alone, 6 to 8 from what the tables need.

use crate::lent::{LentList, Slots};
use crate::tables::{List, Tables};

const LAST_KIND: u32 = 2;
const MOST_PATTERNS: usize = 1024;
const LONGEST_PATTERN: u32 = 64;
const MOST_CELLS: usize = 65_536;

/// A refusal, and the row that it names or 0.
pub type Refusal = (u32, u32);

/// The lowest refusal of a list that is due before anything is built.
pub fn at_once(list: &LentList) -> Option<Refusal> {
    if list.kind > LAST_KIND {
        return Some((1, 0));
    }
    if !cuts(list) {
        return Some((2, 0));
    }
    if list.ends.len() > MOST_PATTERNS {
        return Some((3, 0));
    }
    let lengths = lengths(list);
    let lowest = |bad: &dyn Fn(u32) -> bool| lengths.iter().position(|length| bad(*length));
    let empty = lowest(&|length| length == 0).map(|row| (4, row as u32));
    let long = lowest(&|length| length > LONGEST_PATTERN).map(|row| (5, row as u32));
    empty.or(long)
}

/// Whether the ends cut the bytes into as many patterns as there are values.
fn cuts(list: &LentList) -> bool {
    let last = list.ends.last().copied().unwrap_or(0);
    list.ends.len() == list.values.len()
        && list.ends.windows(2).all(|pair| pair[0] <= pair[1])
        && last as usize == list.bytes.len()
}

fn lengths(list: &LentList) -> Vec<u32> {
    let starts = std::iter::once(&0).chain(&list.ends);
    let length = |(start, end): (&u32, &u32)| end - start;
    starts.zip(&list.ends).map(length).collect()
}

/// The lowest refusal of a sound list that needs these tables. Dead is counted with the states.
pub fn by_slots(tables: &Tables, slots: &Slots) -> Option<Refusal> {
    let cells = tables.cells.len();
    if tables.states as usize + 1 > slots.states() {
        Some((6, 0))
    } else if cells > slots.cells() || cells > MOST_CELLS {
        Some((7, 0))
    } else if tables.outputs.len() > slots.outputs() {
        Some((8, 0))
    } else {
        None
    }
}

/// The refusal of a list that needs these tables, if every table has the slots for it.
pub fn in_ample_slots(list: &List, tables: &Tables) -> Option<Refusal> {
    at_once(&LentList::of(list)).or_else(|| by_slots(tables, &Slots::needed(tables)))
}
