//! Lists near the limit of 65,536 cells: patterns of 64 bytes that share at most
//! their first byte. Their states alone are too few to pass the limit; some
//! thousand cells must be wasted too. The tails below do that: with the bytes 0,
//! 1, 2, 4 and 8 in random order a block soon has a few vacant cells left whose
//! bases are all used, and so it falls out of the window.

use crate::dice::Dice;
use crate::question::Question;
use crate::tables::{List, STANDARD};

const SECOND_BYTES: usize = 8;
const TAIL: usize = 62;
const TAIL_BYTES: [u8; 5] = [0, 1, 2, 4, 8];

/// So many patterns, at most 1,024, in the order of their placement: highest
/// bytes first. One pattern more leaves the earlier ones as they are.
pub fn question(dice: &mut Dice, count: usize) -> Question {
    let patterns: Vec<Vec<u8>> = (0..count).map(|index| pattern(dice, index)).collect();
    let values = vec![0; count];
    let text = [&patterns[5][1..], &patterns[count - 1], &patterns[0]].concat();
    let list = List::with_values(STANDARD, &patterns, &values);
    Question {
        shows_cells: false,
        ..Question::new(&format!("crowded, {count} of 64 bytes"), list, vec![text])
    }
}

/// A list on either side of the limit.
pub fn random_question(dice: &mut Dice) -> Question {
    let count = dice.between(940, 970);
    question(dice, count)
}

fn pattern(dice: &mut Dice, index: usize) -> Vec<u8> {
    let first = 127 - index / SECOND_BYTES;
    let second = SECOND_BYTES - 1 - index % SECOND_BYTES;
    let mut pattern = vec![first as u8, second as u8];
    pattern.extend(dice.string(&TAIL_BYTES, TAIL));
    pattern
}
