//! What a build left, held to what is due: its answer, and every element of every lent table.

use crate::slots::JUNK;
use oracle::tables::{self, Cell, Output};
use rotspangle::lent::{Counts, Tables, Work};
use std::fmt::Debug;

/// An answer of our build, and the tables as it left them.
pub struct Left {
    pub told: Result<(), (u32, u32)>,
    pub work: Work,
    pub tables: Tables,
}

/// The tables that are due.
#[derive(Clone, Copy)]
pub struct Made<'a> {
    pub kind: u32,
    pub tables: &'a tables::Tables,
    pub depths: &'a [u8],
}

impl Left {
    /// A refusal: 1 to 5 leave everything as it was, 6 to 8 leave zeros.
    pub fn is_refused(&self, due: (u32, u32)) -> Result<(), String> {
        same("refusal", &self.told.err(), &Some(due))?;
        let (content, kept) = match due.0 {
            1..=5 => (JUNK, "as it was"),
            _ => (0, "zero"),
        };
        if holds_only(&self.work, &self.tables, 0, 0, content) {
            return Ok(());
        }
        Err(format!("refusal {due:?} leaves not everything {kept}"))
    }

    /// A good build: the working tables and the slots past the used part are zero.
    pub fn is_made(&self, due: Made) -> Result<(), String> {
        same("refusal", &self.told.err(), &None)?;
        due.same_tables(&self.tables)?;
        let (cells, outputs) = (due.tables.cells.len(), due.tables.outputs.len());
        if holds_only(&self.work, &self.tables, cells, outputs, 0) {
            return Ok(());
        }
        Err("a working table or an unused slot is not zero".to_string())
    }
}

/// Whether the working tables, the cells from one on and the outputs from one on hold this alone.
fn holds_only(work: &Work, tables: &Tables, cells: usize, outputs: usize, number: u32) -> bool {
    let rows = |row: &[u32]| row.iter().all(|element| *element == number);
    let bytes = |column: &[u8]| column.iter().all(|element| *element == number as u8);
    let columns = [&tables.base, &tables.link, &tables.output];
    rows(work.trie.as_flattened())
        && rows(work.notes.as_flattened())
        && rows(work.owns.as_flattened())
        && rows(work.spots.as_flattened())
        && rows(tables.outs[outputs..].as_flattened())
        && columns.iter().all(|column| rows(&column[cells..]))
        && bytes(&tables.check[cells..])
        && bytes(&tables.depth[cells..])
}

impl Made<'_> {
    /// Counts, every cell, every output.
    pub fn same_tables(&self, ours: &Tables) -> Result<(), String> {
        let Made {
            kind,
            tables,
            depths,
        } = self;
        let counts = Counts {
            kind: *kind,
            accepted: tables.outputs.len() as u32,
            states: tables.states,
            cells: tables.cells.len() as u32,
        };
        same("counts", &ours.counts, &counts)?;
        for (number, due) in tables.cells.iter().enumerate() {
            let cell = Cell {
                base: ours.base[number],
                link: ours.link[number],
                output: ours.output[number],
                check: u32::from(ours.check[number]),
            };
            if cell != *due || ours.depth[number] != depths[number] {
                same(&format!("cell {number}"), &cell, due)?;
                let what = format!("depth of cell {number}");
                same(&what, &ours.depth[number], &depths[number])?;
            }
        }
        for (place, due) in tables.outputs.iter().enumerate() {
            let [value, length, next] = ours.outs[place];
            let output = Output {
                value,
                length,
                next,
            };
            same(&format!("output {}", place + 1), &output, due)?;
        }
        Ok(())
    }
}

fn same<T: PartialEq + Debug>(what: &str, ours: &T, due: &T) -> Result<(), String> {
    if ours == due {
        return Ok(());
    }
    Err(format!("{what}: ours {ours:?}, due {due:?}"))
}
