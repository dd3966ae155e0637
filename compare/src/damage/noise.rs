//! Tables of random numbers, cut to so many bits that walks are possible.

use super::searches::{sheet_slots, SearchCase};
use oracle::damage::{Counts, Tables, Value};
use oracle::dice::Dice;

pub fn thrown(dice: &mut Dice) -> SearchCase {
    let mask = *dice.pick(&[3, 7, 15, 63, 255, 511, u32::MAX]);
    let cells = match dice.below(3) {
        0 => dice.below(17),
        1 => dice.between(17, 70),
        _ => dice.between(200, 600),
    };
    let rows = dice.below(12);
    let tables = Tables {
        base: column(dice, cells, mask),
        link: column(dice, cells, mask),
        output: column(dice, cells, 7),
        check: bytes(dice, cells, mask),
        depth: bytes(dice, cells, 255),
        outs: (0..rows).map(|_| row(dice)).collect(),
        counts: counts(dice, rows, cells),
    };
    let length = dice.below(30);
    let text = bytes(dice, length, mask);
    SearchCase {
        tables,
        value: value(dice),
        text,
        slots: sheet_slots(dice),
    }
}

/// One column in twenty has another length.
fn length(dice: &mut Dice, cells: usize) -> usize {
    match dice.below(20) {
        0 => dice.below(cells + 3),
        _ => cells,
    }
}

fn column(dice: &mut Dice, cells: usize, mask: u32) -> Vec<u32> {
    let length = length(dice, cells);
    (0..length).map(|_| dice.throw() as u32 & mask).collect()
}

fn bytes(dice: &mut Dice, cells: usize, mask: u32) -> Vec<u8> {
    let length = length(dice, cells);
    (0..length).map(|_| dice.byte() & mask as u8).collect()
}

/// Lengths are mostly short, and next places mostly low.
fn row(dice: &mut Dice) -> [u32; 3] {
    let mask = *dice.pick(&[1, 3, 3, 7, u32::MAX]);
    let number = dice.throw();
    [
        number as u32,
        (number >> 32) as u32 & mask,
        dice.throw() as u32 & mask,
    ]
}

fn counts(dice: &mut Dice, rows: usize, cells: usize) -> Counts {
    let near = |dice: &mut Dice, count: usize| match dice.below(16) {
        0 => dice.throw() as u32,
        1 => count as u32 + 1,
        2 => dice.below(count + 1) as u32,
        _ => count as u32,
    };
    Counts {
        kind: match dice.below(24) {
            0 => dice.throw() as u32,
            kind => kind as u32 % 3,
        },
        accepted: near(dice, rows),
        states: dice.throw() as u32,
        cells: near(dice, cells),
    }
}

fn value(dice: &mut Dice) -> Value {
    let place = dice.below(12) as u64;
    match dice.below(8) {
        0 => Value {
            state: dice.throw() as u32,
            output: dice.throw() as u32,
            place: dice.throw(),
            moves: dice.throw(),
        },
        1..=3 => Value {
            state: dice.below(16) as u32,
            output: dice.below(4) as u32,
            place,
            moves: dice.below(2 * place as usize + 2) as u64,
        },
        _ => Value::default(),
    }
}
