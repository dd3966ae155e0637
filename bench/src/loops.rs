//! Plain Rust loops over our tables, one for each search: what the same tables allow to a program
//! that trusts them. They leave out the damage tests (a state, a link, an output place or a
//! length that can't be right), the depths, the count of moves, the value to go on with and the
//! refusals. Rust's own tests of indexes stay, since the loops are safe Rust.

use crate::sum::Sum;
use rotspangle::lent::Tables;

const ROOT: u32 = 0;
const DEAD: u32 = 1;

/// The child of a state on a byte. A childless state has base 0.
#[inline(always)]
fn child(tables: &Tables, state: u32, byte: u8) -> Option<u32> {
    let base = tables.base[state as usize];
    let cell = base ^ u32::from(byte);
    (base != 0 && tables.check[cell as usize] == byte).then_some(cell)
}

#[inline(always)]
fn after(tables: &Tables, mut state: u32, byte: u8) -> u32 {
    loop {
        if let Some(child) = child(tables, state, byte) {
            return child;
        }
        if state == ROOT {
            return ROOT;
        }
        state = tables.link[state as usize];
    }
}

/// As `after`, but a link to dead leads to root with the byte taken.
#[inline(always)]
fn after_leftmost(tables: &Tables, mut state: u32, byte: u8) -> u32 {
    loop {
        if let Some(child) = child(tables, state, byte) {
            return child;
        }
        if state == ROOT {
            return ROOT;
        }
        state = tables.link[state as usize];
        if state == DEAD {
            return ROOT;
        }
    }
}

/// The output at a place, which counts from 1: value, length and next place.
#[inline(always)]
fn output(tables: &Tables, place: u32) -> [u32; 3] {
    tables.outs[place as usize - 1]
}

#[inline(never)]
pub fn overlapping(tables: &Tables, text: &[u8], mut sum: Sum) -> Sum {
    let mut state = ROOT;
    for (taken, &byte) in text.iter().enumerate() {
        state = after(tables, state, byte);
        let end = taken + 1;
        let mut place = tables.output[state as usize];
        while place != 0 {
            let [value, length, next] = output(tables, place);
            sum.add(end - length as usize, end, value);
            place = next;
        }
    }
    sum
}

#[inline(never)]
pub fn plain(tables: &Tables, text: &[u8], mut sum: Sum) -> Sum {
    let mut state = ROOT;
    for (taken, &byte) in text.iter().enumerate() {
        state = after(tables, state, byte);
        let end = taken + 1;
        let place = tables.output[state as usize];
        if place != 0 {
            let [value, length, _] = output(tables, place);
            sum.add(end - length as usize, end, value);
            state = ROOT;
        }
    }
    sum
}

#[inline(never)]
pub fn leftmost(tables: &Tables, text: &[u8], mut sum: Sum) -> Sum {
    let mut from = 0;
    while let Some((place, end)) = next_leftmost(tables, text, from) {
        let [value, length, _] = output(tables, place);
        sum.add(end - length as usize, end, value);
        from = end;
    }
    sum
}

/// Output place and end of the next match: the output kept last when a byte ends at root, or the
/// text ends.
#[inline(always)]
fn next_leftmost(tables: &Tables, text: &[u8], from: usize) -> Option<(u32, usize)> {
    let mut state = ROOT;
    let mut kept = None;
    for (taken, &byte) in text.iter().enumerate().skip(from) {
        state = after_leftmost(tables, state, byte);
        if state == ROOT {
            if kept.is_some() {
                return kept;
            }
        } else {
            let place = tables.output[state as usize];
            if place != 0 {
                kept = Some((place, taken + 1));
            }
        }
    }
    kept
}
