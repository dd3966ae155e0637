//! The cases: what is lent and what is told of it, and the rest from the files beside this one.

use super::tables::{self, CELLS, OUTPUTS};
use super::texts;
use super::throws::{below, wild_number, Throws};
use super::values::{self, Start};
use crate::damage::{Counts, Tables};

/// One case in so many has a long text.
const LONG_EVERY: u32 = 50;

pub struct Case {
    pub tables: Tables,
    pub text: Vec<u8>,
    pub start: Start,
}

/// What the fields of a case go by.
pub struct Shape {
    /// No field of the tables or of the text is wild.
    pub calm: bool,
    /// The cells have no outputs, but for a wild one: the walks are long.
    pub bare: bool,
    pub counts: Counts,
}

pub fn is_long(case: u32) -> bool {
    case % LONG_EVERY == 0
}

pub fn thrown(case: u32) -> Case {
    let mut throws = Throws::of_case(case);
    let flags = throws.next();
    let kind = kind_for(throws.next());
    let lengths = lengths(&mut throws);
    let rows = outputs_length(throws.next());
    let slots = lengths.into_iter().min().unwrap_or(0);
    let counts = Counts {
        kind,
        cells: count_for(throws.next(), slots, CELLS),
        accepted: count_for(throws.next(), rows, OUTPUTS),
        states: throws.next() % 1000,
    };
    let shape = Shape {
        calm: flags % 4 == 0 || is_long(case),
        bare: flags / 4 % 6 == 0,
        counts,
    };
    let tables = tables::thrown(&mut throws, &shape, lengths, rows);
    let text = texts::thrown(&mut throws, &shape, is_long(case));
    let start = values::thrown(&mut throws, &shape.counts, text.len());
    Case {
        tables,
        text,
        start,
    }
}

fn kind_for(x: u32) -> u32 {
    match x % 32 {
        0 => 3,
        1 => wild_number(x / 32, 7),
        2..=17 => 0,
        18..=24 => 1,
        _ => 2,
    }
}

/// How much is lent of each of the five columns.
fn lengths(throws: &mut Throws) -> [u32; 5] {
    let mode = throws.next();
    [0, 1, 2, 3, 4].map(|column| column_length(mode, column, throws.next()))
}

/// All of a column, as much as of each other one, or less of one or of each.
fn column_length(mode: u32, column: u32, x: u32) -> u32 {
    match mode % 32 {
        0 => mode / 32 % (CELLS + 1),
        1 => x % (CELLS + 1),
        2 | 3 => CELLS - x % 3,
        4..=7 if mode / 32 % 5 == column => x % (CELLS + 1),
        _ => CELLS,
    }
}

fn outputs_length(x: u32) -> u32 {
    match x % 8 {
        0 => x / 8 % (OUTPUTS + 1),
        _ => OUTPUTS,
    }
}

/// A count of the tables, which should not be above its slots. The room is what the slots would be
/// if all of it were lent.
fn count_for(x: u32, slots: u32, room: u32) -> u32 {
    match x % 64 {
        0 => slots + 1,
        1 => x / 64,
        2 => u32::MAX,
        3..=9 => slots.saturating_sub(1),
        10..=12 => below(x / 64, slots + 1),
        13..=16 => room,
        _ => slots,
    }
}
