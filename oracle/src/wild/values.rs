//! The search value that a case starts from: a fresh one, one that was walked to, or a wild one, each
//! of whose fields is at a bound, just past it, far past it, or anywhere inside.

use super::throws::{below, huge_number, Throws};
use crate::damage::{Counts, Search, Value, DEAD, ROOT};

/// A value, or the one that some calls over the first bytes of the text hand back.
pub enum Start {
    At(Value),
    Walked {
        search: Search,
        bytes: usize,
        calls: u32,
    },
}

pub fn thrown(throws: &mut Throws, counts: &Counts, length: usize) -> Start {
    let x = throws.next();
    let fields = [0; 4].map(|_| throws.next());
    match x % 4 {
        0 => Start::At(Value::default()),
        1 => Start::Walked {
            search: walked_by(x / 4, counts.kind),
            bytes: x as usize / 128 % (length + 1),
            calls: 1 + x / 16 % 5,
        },
        _ => Start::At(wild_value(fields, counts, length as u32)),
    }
}

/// A search that the kind allows, or one of the two if it allows both.
fn walked_by(x: u32, kind: u32) -> Search {
    match kind {
        0 if x % 2 == 0 => Search::Overlapping,
        0 => Search::Plain,
        _ => Search::Leftmost,
    }
}

fn wild_value(fields: [u32; 4], counts: &Counts, length: u32) -> Value {
    let place = place_for(fields[2], length);
    Value {
        state: state_for(fields[0], counts.cells),
        output: pending_for(fields[1], counts.accepted),
        place,
        moves: moves_for(fields[3], place),
    }
}

fn state_for(x: u32, cells: u32) -> u32 {
    match x % 32 {
        0 => cells,
        1 => u32::MAX,
        2 | 3 => cells.saturating_sub(1),
        4..=6 => DEAD,
        7..=9 => ROOT,
        _ => below(x / 32, cells),
    }
}

fn pending_for(x: u32, accepted: u32) -> u32 {
    match x % 32 {
        0 => accepted.saturating_add(1),
        1 => u32::MAX,
        2..=5 => accepted,
        6..=17 => 0,
        _ => below(x / 32, accepted.saturating_add(1)),
    }
}

/// Anywhere in a short text, but rather in its first part; in a long one close to its end.
fn place_inside(x: u32, length: u32) -> u32 {
    if length > 8 {
        length - x / 2 % 16
    } else if x % 2 == 0 {
        x / 2 % (length + 1)
    } else {
        x / 2 % (length / 4 + 1)
    }
}

fn place_for(x: u32, length: u32) -> u64 {
    match x % 32 {
        0 => u64::from(length + 1),
        1 => huge_number(x / 32),
        2..=5 => u64::from(length),
        _ => u64::from(place_inside(x / 32, length)),
    }
}

/// A place that is too large is wild enough: then there are no moves.
fn most_moves(place: u64) -> u64 {
    if place <= 65_537 {
        2 * place
    } else {
        0
    }
}

fn moves_for(x: u32, place: u64) -> u64 {
    let most = most_moves(place);
    match x % 32 {
        0 => most + 1,
        1 => huge_number(x / 32),
        2..=13 => most,
        14 | 15 => 0,
        _ => u64::from(x / 32) % (most + 1),
    }
}
