//! Random lists over alphabets of given sizes, with the relations that make
//! trouble: equal patterns, prefixes, suffixes and continuations of each other.

use crate::dice::Dice;
use crate::question::Question;
use crate::tables::{List, Pattern, STANDARD};

/// A few short patterns over so many letters, and texts in which they occur.
pub fn small(dice: &mut Dice, letters: usize) -> Question {
    let letters = alphabet(dice, letters);
    let count = dice.between(1, 8);
    let longest = if letters.len() == 1 { 5 } else { 6 };
    let mut patterns: Vec<Pattern> = vec![];
    for _ in 0..count {
        let bytes = related_or_new(dice, &patterns, &letters, longest);
        let value = dice.value();
        patterns.push(Pattern { bytes, value });
    }
    let texts = texts(dice, &patterns, &letters);
    let name = format!("random over {} letters", letters.len());
    Question::new(&name, standard(patterns), texts)
}

/// Many longer patterns over all bytes: their states fill several blocks.
pub fn several_blocks(dice: &mut Dice, count: usize) -> Question {
    let letters = alphabet(dice, 256);
    let mut patterns: Vec<Pattern> = vec![];
    for _ in 0..count {
        let bytes = related_or_new(dice, &patterns, &letters, 20);
        let value = dice.value();
        patterns.push(Pattern { bytes, value });
    }
    let texts = texts(dice, &patterns, &letters);
    Question::new("several blocks", standard(patterns), texts)
}

fn standard(patterns: Vec<Pattern>) -> List {
    List {
        kind: STANDARD,
        patterns,
    }
}

/// Letters of the Latin alphabet, bytes from both ends, or all bytes.
fn alphabet(dice: &mut Dice, letters: usize) -> Vec<u8> {
    let letters = letters.min(256);
    if letters > 26 {
        return (0..=255).take(letters).collect();
    }
    match dice.below(3) {
        0 => (0..letters)
            .map(|i| if i % 2 == 0 { i as u8 } else { 255 - i as u8 })
            .collect(),
        _ => (b'a'..=b'z').take(letters).collect(),
    }
}

fn related_or_new(dice: &mut Dice, made: &[Pattern], letters: &[u8], longest: usize) -> Vec<u8> {
    if made.is_empty() || dice.below(2) == 0 {
        let length = dice.between(1, longest);
        return dice.string(letters, length);
    }
    let earlier = dice.pick(made).bytes.clone();
    let cut = dice.between(1, earlier.len());
    match dice.below(4) {
        0 => earlier,
        1 => earlier[..cut].to_vec(),
        2 => earlier[earlier.len() - cut..].to_vec(),
        _ => [earlier, dice.string(letters, 1)].concat(),
    }
}

/// The empty text, one without plan, and two in which patterns stand side by
/// side, cut short, and at the very start and end.
pub fn texts(dice: &mut Dice, patterns: &[Pattern], letters: &[u8]) -> Vec<Vec<u8>> {
    let length = dice.between(1, 16);
    vec![
        vec![],
        dice.string(letters, length),
        glued(dice, patterns, letters, 2),
        glued(dice, patterns, letters, 4),
    ]
}

fn glued(dice: &mut Dice, patterns: &[Pattern], letters: &[u8], pieces: usize) -> Vec<u8> {
    let mut text = dice.pick(patterns).bytes.clone();
    for _ in 0..pieces {
        let piece = &dice.pick(patterns).bytes;
        match dice.below(4) {
            0 => text.extend(&piece[..piece.len() - 1]),
            1 => text.extend(&piece[1..]),
            2 => text.extend(dice.string(letters, 1)),
            _ => text.extend(piece),
        }
    }
    text.extend(&dice.pick(patterns).bytes);
    text
}
