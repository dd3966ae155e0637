//! Faults that can be planted into our side before it is compared, to show that a true one would be
//! seen. They strike lists of three patterns alone, so that a run has to come to one.

use super::searches::EMPTY;
use oracle::tables::List;
use rotspangle::lent::{Record, Search, Tables};

#[derive(Clone, Copy, Debug, PartialEq, Eq)]
pub enum Fault {
    None,
    /// A bit of a check.
    Cell,
    /// A depth that is one more.
    Depth,
    /// A bit of an output's value.
    Output,
    /// The first record of a call is dropped.
    Record,
    /// The first two records of a call are swapped.
    Order,
    /// One move more.
    Moves,
    /// A slot past the written ones is changed.
    Slot,
    /// A refusal is not given.
    Refusal,
}

const NAMES: [(&str, Fault); 8] = [
    ("cell", Fault::Cell),
    ("depth", Fault::Depth),
    ("output", Fault::Output),
    ("record", Fault::Record),
    ("order", Fault::Order),
    ("moves", Fault::Moves),
    ("slot", Fault::Slot),
    ("refusal", Fault::Refusal),
];

impl Fault {
    pub fn named(name: &str) -> Result<Fault, String> {
        let found = NAMES.iter().find(|(known, _)| *known == name);
        let names = NAMES.map(|(known, _)| known).join(", ");
        found
            .map(|(_, fault)| *fault)
            .ok_or(format!("no such fault; there are {names}"))
    }

    /// The fault as it strikes this list.
    pub fn on(self, list: &List) -> Fault {
        match list.patterns.len() {
            3 => self,
            _ => Fault::None,
        }
    }

    pub fn spoil_tables(self, tables: &mut Tables) {
        match self {
            Fault::Cell => tables.check[200] ^= 4,
            Fault::Depth => tables.depth[2] += 1,
            Fault::Output => tables.outs[2][0] ^= 1 << 31,
            _ => {}
        }
    }

    pub fn spoil_build(self, told: &mut Result<(), (u32, u32)>) {
        if self == Fault::Refusal {
            *told = Ok(());
        }
    }

    pub fn spoil_call(self, written: &mut usize, sheet: &mut [Record], value: &mut Search) {
        match self {
            Fault::Record if *written > 0 => {
                *written -= 1;
                sheet.rotate_left(1);
                sheet[*written..].fill(EMPTY);
            }
            Fault::Order if *written > 1 => sheet.swap(0, 1),
            Fault::Moves if *written > 0 => value.moves += 1,
            Fault::Slot if *written < sheet.len() => sheet[*written][1] = 0,
            _ => {}
        }
    }
}
