//! The tables of a case, mostly sane, with a wild number here and there. They have six levels of two
//! cells, since there are two letters, 0 and 1. Root stands in the first level, and every state of a
//! level has its children in the next one, so that probes are often accepted. Two parents may share
//! a child, which no build makes and no search minds.

use super::case::Shape;
use super::throws::{below, is_wild, rest, wild_byte, wild_number, Throws};
use crate::damage::{Tables, DEAD, ROOT};

/// The room of a column and of the outputs.
pub const CELLS: u32 = 12;
pub const OUTPUTS: u32 = 4;

pub fn thrown(throws: &mut Throws, shape: &Shape, lengths: [u32; 5], rows: u32) -> Tables {
    Tables {
        base: column(throws, lengths[0], |k, x| base_for(k, x, shape)),
        link: column(throws, lengths[1], |k, x| link_for(k, x, shape)),
        output: column(throws, lengths[2], |k, x| output_for(k, x, shape)),
        check: column(throws, lengths[3], |k, x| check_for(k, x, shape)),
        depth: column(throws, lengths[4], |k, x| depth_for(k, x, shape)),
        outs: outs(throws, rows, shape),
        counts: shape.counts.clone(),
    }
}

/// The whole room is thrown, whatever is lent of it.
fn column<T>(throws: &mut Throws, length: u32, field: impl Fn(u32, u32) -> T) -> Vec<T> {
    let mut room: Vec<T> = (0..CELLS).map(|k| field(k, throws.next())).collect();
    room.truncate(length as usize);
    room
}

/// The first cell of the next level, or 0 if that level is not all there. A slot past the cells has
/// the base of root, so that a search that steps there does not stop at once.
fn sane_base(k: u32, cells: u32) -> u32 {
    let next = k / 2 * 2 + 2;
    if k >= cells {
        2
    } else if next < CELLS && next + 2 <= cells {
        next
    } else {
        0
    }
}

fn base_for(k: u32, x: u32, shape: &Shape) -> u32 {
    let y = rest(x);
    if is_wild(x, shape.calm) {
        return wild_number(y, shape.counts.cells);
    }
    match y % 16 {
        0 => y / 16 % CELLS,
        1 | 2 if k != ROOT => 0,
        // Dead has a base now and then.
        3..=12 if k == DEAD => 0,
        _ => sane_base(k, shape.counts.cells),
    }
}

/// Root, dead, or a cell of a lower level than its own: mostly of the one before it.
fn link_for(k: u32, x: u32, shape: &Shape) -> u32 {
    let y = rest(x);
    if is_wild(x, shape.calm) {
        return wild_number(y, shape.counts.cells);
    }
    let lower = (k / 2 * 2).saturating_sub(2);
    match y % 32 {
        _ if k < 2 => ROOT,
        0 | 1 => DEAD,
        2 => shape.counts.cells,
        3 => y / 32 % CELLS,
        4..=11 if shape.counts.kind != 0 => DEAD,
        12 | 13 => ROOT,
        _ if lower == 0 => ROOT,
        14..=17 => 2 + below(y / 32, lower),
        _ => lower + y / 32 % 2,
    }
}

/// Root and dead have outputs now and then, other cells more often than not.
fn output_for(k: u32, x: u32, shape: &Shape) -> u32 {
    let y = rest(x);
    let accepted = shape.counts.accepted;
    if is_wild(x, shape.calm) {
        return wild_number(y, accepted);
    }
    match y % 16 {
        _ if shape.bare => 0,
        12.. => 0,
        1.. if k < 2 => 0,
        _ if accepted < OUTPUTS && y / 16 % 4 != 0 => y / 64 % (accepted + 1),
        _ => 1 + y / 64 % OUTPUTS,
    }
}

fn check_for(k: u32, x: u32, shape: &Shape) -> u8 {
    let y = rest(x);
    if is_wild(x, shape.calm) {
        return wild_byte(y);
    }
    let letter = match y % 8 {
        0 | 1 => y / 8 % 4,
        _ => k % 2,
    };
    letter as u8
}

fn depth_for(k: u32, x: u32, shape: &Shape) -> u8 {
    let y = rest(x);
    if is_wild(x, shape.calm) {
        return wild_byte(y);
    }
    let depth = match y % 24 {
        0 => y / 24 % 7,
        1..=4 if k == DEAD => y / 24 % 7,
        _ if k >= shape.counts.cells => 0,
        _ => k / 2,
    };
    depth as u8
}

fn outs(throws: &mut Throws, length: u32, shape: &Shape) -> Vec<[u32; 3]> {
    let mut room: Vec<[u32; 3]> = (0..OUTPUTS)
        .map(|i| {
            [
                throws.next() % 1000,
                length_for(throws.next(), shape),
                next_for(i, throws.next(), shape),
            ]
        })
        .collect();
    room.truncate(length as usize);
    room
}

/// From 1 to 3 bytes, mostly 1.
fn length_for(x: u32, shape: &Shape) -> u32 {
    let y = rest(x);
    if is_wild(x, shape.calm) {
        return wild_number(y, 8);
    }
    match y % 32 {
        0 => 0,
        1..=3 => 2,
        4 => 3,
        _ => 1,
    }
}

/// Below the output's own place, which is one above its index.
fn next_for(i: u32, x: u32, shape: &Shape) -> u32 {
    let y = rest(x);
    if is_wild(x, shape.calm) {
        return wild_number(y, i + 1);
    }
    match y % 16 {
        0 => i + 1,
        _ => y / 16 % (i + 1),
    }
}
