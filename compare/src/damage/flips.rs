//! Tables of good builds with one to eight bits flipped, anywhere in tables, counts and value.

use super::pool::{Entry, Pool};
use super::searches::{sheet_slots, SearchCase};
use oracle::damage::{call, Answer, Notes, Search, Tables, Value};
use oracle::dice::Dice;
use oracle::families::random;

pub fn thrown(dice: &mut Dice, pool: &Pool) -> SearchCase {
    let entry = pool.pick(dice);
    let mut texts = random::texts(dice, &entry.patterns, &entry.letters);
    let text = texts.swap_remove(dice.below(4));
    let mut case = SearchCase {
        tables: entry.tables.clone(),
        value: start(dice, &entry.tables, &text),
        text,
        slots: sheet_slots(dice),
    };
    for _ in 0..dice.between(1, 8) {
        flip(dice, &mut case, entry);
    }
    case
}

/// A fresh value, or one that was walked to.
fn start(dice: &mut Dice, tables: &Tables, text: &[u8]) -> Value {
    let search = match (tables.counts.kind, dice.below(2)) {
        (0, 0) => Search::Overlapping,
        (0, _) => Search::Plain,
        _ => Search::Leftmost,
    };
    let mut value = Value::default();
    for _ in 0..dice.below(4) {
        let answer = call(search, tables, text, value, &Notes::default());
        if !matches!(answer, Answer::Match(..)) {
            break;
        }
        value = answer.value();
    }
    value
}

/// Half of the flips are where walks come by: in cells of states.
fn flip(dice: &mut Dice, case: &mut SearchCase, entry: &Entry) {
    let SearchCase { tables, value, .. } = case;
    let any = dice.below(tables.base.len());
    let state = *dice.pick(&entry.states);
    match dice.below(16) {
        0 => flip_counts(dice, tables),
        1..=3 => flip_value(dice, value),
        4..=6 if !tables.outs.is_empty() => {
            let row = dice.below(tables.outs.len());
            tables.outs[row][dice.below(3)] ^= bit(dice);
        }
        7 => flip_cell(dice, tables, any),
        _ => flip_cell(dice, tables, state),
    }
}

fn flip_cell(dice: &mut Dice, tables: &mut Tables, cell: usize) {
    match dice.below(5) {
        0 => tables.base[cell] ^= bit(dice),
        1 => tables.link[cell] ^= bit(dice),
        2 => tables.output[cell] ^= bit(dice),
        3 => tables.check[cell] ^= 1 << dice.below(8),
        _ => tables.depth[cell] ^= 1 << dice.below(8),
    }
}

fn flip_counts(dice: &mut Dice, tables: &mut Tables) {
    match dice.below(3) {
        0 => tables.counts.kind ^= bit(dice),
        1 => tables.counts.accepted ^= bit(dice),
        _ => tables.counts.cells ^= bit(dice),
    }
}

fn flip_value(dice: &mut Dice, value: &mut Value) {
    match dice.below(4) {
        0 => value.state ^= bit(dice),
        1 => value.output ^= bit(dice),
        2 => value.place ^= long_bit(dice),
        _ => value.moves ^= long_bit(dice),
    }
}

/// A low bit more often than a high one.
fn bit(dice: &mut Dice) -> u32 {
    match dice.below(3) {
        0 => 1 << dice.below(32),
        _ => 1 << dice.below(9),
    }
}

fn long_bit(dice: &mut Dice) -> u64 {
    match dice.below(3) {
        0 => 1 << dice.below(64),
        _ => 1 << dice.below(5),
    }
}
