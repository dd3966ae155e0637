//! Tables that hold junk, for so many lent slots of each.

use oracle::lent::Slots;
use rotspangle::lent::{Counts, Tables, Work};

/// What every lent element holds before a build.
pub const JUNK: u32 = 0xa5a5_a5a5;

pub fn junk(slots: &Slots) -> (Work, Tables) {
    let byte = JUNK as u8;
    let work = Work {
        trie: vec![[JUNK; 5]; slots.trie],
        notes: vec![[JUNK; 6]; slots.notes],
        owns: vec![[JUNK; 2]; slots.owns],
        spots: vec![[JUNK; 2]; slots.spots],
    };
    let tables = Tables {
        base: vec![JUNK; slots.base],
        link: vec![JUNK; slots.link],
        output: vec![JUNK; slots.output],
        check: vec![byte; slots.check],
        depth: vec![byte; slots.depth],
        outs: vec![[JUNK; 3]; slots.outs],
        counts: Counts::default(),
    };
    (work, tables)
}
