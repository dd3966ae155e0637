//! The count of moves a second time, over the crate's cells: the walk of
//! document 01 by probes and links. The model counts it over strings; that both
//! counts agree is asked in every comparison.

use crate::tables::{Cell, List};

const ROOT: usize = 0;

/// The child's cell, if the probe is accepted. Base 0 is no base.
pub fn probe(cells: &[Cell], cell: usize, byte: u8) -> Option<usize> {
    let base = cells[cell].base as usize;
    let child = base ^ usize::from(byte);
    (base != 0 && cells[child].check == u32::from(byte)).then_some(child)
}

/// The moves at the end of the text, with or without a restart at each match.
pub fn moves(cells: &[Cell], text: &[u8], restarts: bool) -> u32 {
    let steps = steps(cells, text, restarts);
    steps.last().map_or(0, |step| step.moves)
}

/// Where the walk is after a byte, and the moves so far.
#[derive(Clone, Copy, Debug, Default, PartialEq, Eq)]
pub struct Step {
    pub cell: u32,
    pub moves: u32,
}

/// The walk, byte by byte.
pub fn steps(cells: &[Cell], text: &[u8], restarts: bool) -> Vec<Step> {
    let mut cell = ROOT;
    let mut moves = 0;
    let mut steps = Vec::with_capacity(text.len());
    for byte in text {
        let mut next = probe(cells, cell, *byte);
        while next.is_none() && cell != ROOT {
            cell = cells[cell].link as usize;
            moves += 1;
            next = probe(cells, cell, *byte);
        }
        moves += 1;
        let is_match = |cell: &usize| cells[*cell].output != 0;
        cell = next
            .filter(|cell| !restarts || !is_match(cell))
            .unwrap_or(ROOT);
        let cell = cell as u32;
        steps.push(Step { cell, moves });
    }
    steps
}

/// The depth of each cell: each pattern is walked from root as far as it is there. A dropped one is
/// not there to its end, and what is there of it are states all the same.
pub fn depths(list: &List, cells: &[Cell]) -> Vec<u8> {
    let mut depths = vec![0; cells.len()];
    for pattern in &list.patterns {
        let mut cell = 0;
        for (place, byte) in pattern.bytes.iter().enumerate() {
            let Some(child) = probe(cells, cell, *byte) else {
                break;
            };
            depths[child] = (place + 1) as u8;
            cell = child;
        }
    }
    depths
}
