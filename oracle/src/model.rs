//! Our own model of document 01, made from its rules and not from the crate's
//! code. A state is its string; links are found by looking at suffixes, matches
//! by trying every pattern at every place. It is slow and plain on purpose: what
//! it shares with the crate is the document alone.

mod links;
mod occurrence;
mod placement;
mod trie;
mod walk;

use crate::cell_walk::probe;
use crate::tables::{Cell, Found, List, Output, Tables, BLOCK};
use links::Link;
use placement::Placement;
use trie::{Trie, ROOT};

/// The window of document 01: the last 16 blocks are looked at.
pub const WINDOW: Option<usize> = Some(16);

const DEAD_CELL: u32 = 1;

pub struct Model<'a> {
    list: &'a List,
    trie: Trie,
    links: Vec<Link>,
}

impl<'a> Model<'a> {
    pub fn of(list: &'a List) -> Model<'a> {
        let trie = Trie::of(list);
        let links = links::by_occurrence(&trie, list.is_standard());
        Model { list, trie, links }
    }

    pub fn tables(&self) -> Tables {
        self.tables_with_window(WINDOW)
    }

    /// The tables that another window would give; `None` is no window at all.
    pub fn tables_with_window(&self, window: Option<usize>) -> Tables {
        let placement = Placement::of(&self.trie, window);
        let (outputs, output_places) = self.outputs();
        Tables {
            states: self.trie.states.len() as u32,
            cells: self.cells(&placement, &output_places),
            outputs,
        }
    }

    /// The depth of each cell: 0 for root, dead and vacant.
    pub fn depths(&self) -> Vec<u8> {
        let placement = Placement::of(&self.trie, WINDOW);
        let mut depths = vec![0; placement.cell_count()];
        for (state, string) in self.trie.states.iter().enumerate() {
            depths[placement.cell_of[state]] = string.len() as u8;
        }
        depths
    }

    pub fn found(&self, text: &[u8]) -> Found {
        occurrence::found(self.list, text)
    }

    pub fn overlapping_moves(&self, text: &[u8]) -> u32 {
        walk::moves(&self.trie, text, false)
    }

    pub fn plain_moves(&self, text: &[u8]) -> u32 {
        walk::moves(&self.trie, text, true)
    }

    /// Document 01 tells the links as a hunt; the model finds them by looking
    /// for occurrences. Whether both ways give the same.
    pub fn hunt_agrees(&self) -> bool {
        links::by_hunt(&self.trie, self.list.is_standard()) == self.links
    }

    /// Whether, in these cells, a probe is accepted exactly when the state has
    /// that child.
    pub fn probes_are_exact(&self, cells: &[Cell]) -> bool {
        let mut cell_of = vec![0; self.trie.states.len()];
        for (state, children) in self.trie.children.iter().enumerate() {
            for byte in 0..=255 {
                let reached = probe(cells, cell_of[state], byte);
                if reached.is_some() != children.contains(&byte) {
                    return false;
                }
                if let (Some(cell), Some(child)) = (reached, self.trie.child(state, byte)) {
                    cell_of[child] = cell;
                }
            }
        }
        true
    }

    /// Over the breadth-first order: a state's own outputs, last listed first,
    /// on top of the chain of its link. Also each state's place in them.
    fn outputs(&self) -> (Vec<Output>, Vec<u32>) {
        let mut outputs: Vec<Output> = vec![];
        let mut places = vec![0; self.trie.states.len()];
        for state in 0..self.trie.states.len() {
            let mut place = match self.links[state] {
                Link::To(target) if state != ROOT => places[target],
                _ => 0,
            };
            for index in self.trie.own[state].iter().rev() {
                outputs.push(Output {
                    value: self.list.patterns[*index].value,
                    length: self.trie.states[state].len() as u32,
                    next: place,
                });
                place = outputs.len() as u32;
            }
            places[state] = place;
        }
        (outputs, places)
    }

    fn cells(&self, placement: &Placement, output_places: &[u32]) -> Vec<Cell> {
        let mut cells = vec![Cell::default(); placement.cell_count()];
        for (state, string) in self.trie.states.iter().enumerate() {
            cells[placement.cell_of[state]] = Cell {
                base: placement.base_of[state] as u32,
                link: match self.links[state] {
                    Link::Dead => DEAD_CELL,
                    Link::To(target) => placement.cell_of[target] as u32,
                },
                output: output_places[state],
                check: string.last().map_or(0, |byte| u32::from(*byte)),
            };
        }
        for block in 0..cells.len() / BLOCK {
            fill_vacant_checks(&mut cells, placement, block);
        }
        cells
    }
}

/// A vacant cell's check is the byte that only the smallest unused base of the
/// block would look there with. Cells 0 and 1 are nobody's children either.
fn fill_vacant_checks(cells: &mut [Cell], placement: &Placement, block: usize) {
    let range = block * BLOCK..(block + 1) * BLOCK;
    let unused = range.clone().find(|base| !placement.base_is_used(*base));
    for cell in range {
        if cell < 2 || !placement.cell_is_used(cell) {
            let unused = unused.expect("a block with a vacant cell has an unused base");
            cells[cell].check = (unused ^ cell) as u32;
        }
    }
}
