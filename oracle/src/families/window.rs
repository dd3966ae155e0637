//! Lists that show the window of 16 blocks. Random lists never do: old blocks
//! must be left with vacant cells when later groups would still fit there.
//!
//! A spread set has 31 bytes whose pairwise differences (by xor) are all bytes.
//! Two groups whose children are the same spread set, or one moved by xor,
//! always collide, so each such group takes a block for itself and leaves most
//! of it vacant. Small groups that come later would fit into any of them.

use crate::dice::Dice;
use crate::model::{Model, WINDOW};
use crate::question::Question;
use crate::tables::{List, STANDARD};

/// A random list with 17 to 24 spread groups.
pub fn question(dice: &mut Dice) -> Question {
    let spread = dice.between(17, 24);
    let small = dice.between(1, 6);
    with_groups(dice, spread, small)
}

/// Spread groups stand under the highest bytes of root, so that they are placed
/// first; the small ones under the lowest bytes.
pub fn with_groups(dice: &mut Dice, spread: usize, small: usize) -> Question {
    let set = spread_set(dice);
    let mut patterns: Vec<Vec<u8>> = vec![];
    for group in 0..spread {
        let first = 255 - group as u8;
        let moved = dice.byte();
        patterns.extend(set.iter().map(|byte| vec![first, byte ^ moved]));
    }
    for group in 0..small {
        let (count, length) = (dice.between(1, 3), dice.between(2, 6));
        patterns.extend((0..count).map(|_| small_pattern(dice, group as u8, length)));
    }
    let texts = texts(dice, &patterns);
    let name = format!("window, {spread} spread groups");
    Question::new(&name, List::numbered(STANDARD, &patterns), texts)
}

fn small_pattern(dice: &mut Dice, first: u8, length: usize) -> Vec<u8> {
    let mut pattern = vec![first];
    pattern.extend((1..length).map(|_| dice.byte()));
    pattern
}

/// Two patterns from each end of the list.
fn texts(dice: &mut Dice, patterns: &[Vec<u8>]) -> Vec<Vec<u8>> {
    let last = patterns.len() - 1;
    let early = dice.below(last);
    vec![[
        &patterns[last][..],
        &patterns[early][..],
        &[7],
        &patterns[last][..],
    ]
    .concat()]
}

/// The bytes of the low half and those of the high half differ by every byte.
/// An invertible linear map keeps that and hides the pattern.
fn spread_set(dice: &mut Dice) -> Vec<u8> {
    let columns = invertible_columns(dice);
    let halves = (0..16).chain((1..16).map(|high| high << 4));
    halves.map(|byte: u8| image(&columns, byte)).collect()
}

fn image(columns: &[u8; 8], byte: u8) -> u8 {
    let chosen = (0..8).filter(|bit| byte >> bit & 1 == 1);
    chosen.fold(0, |sum, bit| sum ^ columns[bit])
}

fn invertible_columns(dice: &mut Dice) -> [u8; 8] {
    loop {
        let columns = [0; 8].map(|_: u8| dice.byte());
        if (1..=255).all(|byte| image(&columns, byte) != 0) {
            return columns;
        }
    }
}

/// Which other windows would give other cells: 15 blocks, 17 blocks, none.
pub fn shown_windows(list: &List) -> Vec<&'static str> {
    let model = Model::of(list);
    let tables = model.tables_with_window(WINDOW);
    let others = [("15", Some(15)), ("17", Some(17)), ("none", None)];
    let differs = |window| model.tables_with_window(window).cells != tables.cells;
    let shown = others.into_iter().filter(|other| differs(other.1));
    shown.map(|other| other.0).collect()
}
