//! What is lent to a build: a list with the bytes of all patterns in a row, the end of each pattern
//! in them and a value for each, and so many elements of each table.

use crate::tables::{List, Tables};

#[derive(Clone, Debug, Default)]
pub struct LentList {
    pub kind: u32,
    pub bytes: Vec<u8>,
    pub ends: Vec<u32>,
    pub values: Vec<u32>,
}

impl LentList {
    pub fn of(list: &List) -> LentList {
        let mut lent = LentList {
            kind: u32::from(list.kind),
            ..LentList::default()
        };
        for pattern in &list.patterns {
            lent.bytes.extend(&pattern.bytes);
            lent.ends.push(lent.bytes.len() as u32);
            lent.values.push(pattern.value);
        }
        lent
    }

    /// The patterns that the ends cut, if they do.
    pub fn as_list(&self) -> List {
        let starts = std::iter::once(&0).chain(&self.ends);
        let pattern = |(start, end): (&u32, &u32)| &self.bytes[*start as usize..*end as usize];
        let patterns: Vec<&[u8]> = starts.zip(&self.ends).map(pattern).collect();
        List::with_values(self.kind as u8, &patterns, &self.values)
    }
}

#[derive(Clone, Copy, Debug)]
pub struct Slots {
    pub trie: usize,
    pub owns: usize,
    pub notes: usize,
    pub spots: usize,
    pub base: usize,
    pub link: usize,
    pub output: usize,
    pub check: usize,
    pub depth: usize,
    pub outs: usize,
}

impl Slots {
    pub fn of(states: usize, outputs: usize, cells: usize) -> Slots {
        Slots {
            trie: states,
            owns: outputs,
            notes: states,
            spots: cells,
            base: cells,
            link: cells,
            output: cells,
            check: cells,
            depth: cells,
            outs: outputs,
        }
    }

    /// Just enough for what a build leaves. Dead needs a slot of a state too.
    pub fn needed(tables: &Tables) -> Slots {
        Slots::of(
            tables.states as usize + 1,
            tables.outputs.len(),
            tables.cells.len(),
        )
    }

    /// Of each table, in the order of a build's parameters.
    pub fn in_order(&mut self) -> [&mut usize; 10] {
        [
            &mut self.trie,
            &mut self.owns,
            &mut self.notes,
            &mut self.spots,
            &mut self.base,
            &mut self.link,
            &mut self.output,
            &mut self.check,
            &mut self.depth,
            &mut self.outs,
        ]
    }

    pub fn states(&self) -> usize {
        self.trie.min(self.notes)
    }

    pub fn outputs(&self) -> usize {
        self.owns.min(self.outs)
    }

    pub fn cells(&self) -> usize {
        let columns = [self.base, self.link, self.output, self.check, self.depth];
        columns.into_iter().fold(self.spots, usize::min)
    }
}
