//! Where states lie. Sibling groups are placed one after the other, each at the
//! first base that serves within the window, else in a new block.

use super::trie::{Trie, ROOT};
use crate::tables::BLOCK;

pub struct Placement {
    pub cell_of: Vec<usize>,
    /// 0 for a state without children.
    pub base_of: Vec<usize>,
    used_cells: Vec<bool>,
    used_bases: Vec<bool>,
}

impl Placement {
    pub fn of(trie: &Trie, window: Option<usize>) -> Placement {
        let mut placement = Placement {
            cell_of: vec![0; trie.states.len()],
            base_of: vec![0; trie.states.len()],
            used_cells: vec![false; BLOCK],
            used_bases: vec![false; BLOCK],
        };
        placement.used_cells[0] = true;
        placement.used_cells[1] = true;
        for parent in parents_in_order(trie) {
            placement.place_group(trie, parent, window);
        }
        placement
    }

    pub fn cell_count(&self) -> usize {
        self.used_cells.len()
    }

    pub fn cell_is_used(&self, cell: usize) -> bool {
        self.used_cells[cell]
    }

    pub fn base_is_used(&self, base: usize) -> bool {
        self.used_bases[base]
    }

    fn place_group(&mut self, trie: &Trie, parent: usize, window: Option<usize>) {
        let bytes = &trie.children[parent];
        let base = loop {
            if let Some(base) = self.first_base(bytes, window) {
                break base;
            }
            self.add_block();
        };
        self.base_of[parent] = base;
        self.used_bases[base] = true;
        for byte in bytes {
            let child = trie.child(parent, *byte).expect("a child");
            self.cell_of[child] = base ^ usize::from(*byte);
            self.used_cells[self.cell_of[child]] = true;
        }
    }

    fn first_base(&self, bytes: &[u8], window: Option<usize>) -> Option<usize> {
        (self.first_cell(window)..self.cell_count())
            .filter(|cell| !self.used_cells[*cell])
            .map(|cell| cell ^ usize::from(bytes[0]))
            .find(|base| self.base_serves(*base, bytes))
    }

    fn base_serves(&self, base: usize, bytes: &[u8]) -> bool {
        let is_vacant = |byte: &u8| !self.used_cells[base ^ usize::from(*byte)];
        base != 0 && !self.used_bases[base] && bytes.iter().all(is_vacant)
    }

    fn first_cell(&self, window: Option<usize>) -> usize {
        let blocks = self.cell_count() / BLOCK;
        window.map_or(0, |window| blocks.saturating_sub(window) * BLOCK)
    }

    fn add_block(&mut self) {
        let cells = self.cell_count() + BLOCK;
        self.used_cells.resize(cells, false);
        self.used_bases.resize(cells, false);
    }
}

/// The states that have children, depth first from a stack: children are pushed
/// by rising byte, so that the highest byte's subtree comes first.
fn parents_in_order(trie: &Trie) -> Vec<usize> {
    let mut order = vec![];
    let mut stack = vec![ROOT];
    while let Some(state) = stack.pop() {
        let bytes = &trie.children[state];
        if !bytes.is_empty() {
            order.push(state);
        }
        stack.extend(bytes.iter().filter_map(|byte| trie.child(state, *byte)));
    }
    order
}
