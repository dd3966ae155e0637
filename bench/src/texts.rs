//! The texts that are searched: 65,536 bytes each, from dice with fixed seeds.

use crate::dice::Dice;
use crate::tables::Pattern;

/// The longest text there can be.
pub const BYTES: usize = 65_536;

const WORDS: [&str; 48] = [
    "the", "crew", "went", "out", "after", "rain", "and", "found", "cable", "by", "a", "gate",
    "it", "was", "wet", "we", "left", "lid", "open", "till", "noon", "Then", "Post", "said", "no",
    "one", "had", "keys", "so", "Tom", "drove", "back", "for", "them", "Farmer", "came", "over",
    "with", "tea", "Light", "was", "poor", "but", "test", "held", "at", "last", "Done",
];

/// Numbered lines of codes and phrases with some ink between them, as the oracle's sheets.
pub fn job_sheet(patterns: &[Pattern]) -> Vec<u8> {
    let mut dice = Dice::new(64);
    let mut line = 0;
    grown(|text| {
        line += 1;
        text.extend(format!("{line}. ").bytes());
        for _ in 0..dice.between(2, 6) {
            text.extend(&dice.pick(patterns).bytes);
            text.extend(dice.pick(&[" ", ", ", " to ", "0 ", ""]).bytes());
        }
        text.extend(dice.pick(&[".\n", "; ok\n", "\n"]).bytes());
    })
}

/// Words, and a code now and then.
pub fn running_text(patterns: &[Pattern]) -> Vec<u8> {
    let mut dice = Dice::new(65);
    grown(|text| {
        if dice.below(40) == 0 {
            text.extend(&dice.pick(patterns).bytes);
        } else {
            text.extend(dice.pick(&WORDS).bytes());
        }
        text.extend(dice.pick(&[" ", " ", " ", " ", ", ", ". ", "\n"]).bytes());
    })
}

/// Codes and phrases with nothing between them.
pub fn nothing_but_codes(patterns: &[Pattern]) -> Vec<u8> {
    let mut dice = Dice::new(66);
    grown(|text| text.extend(&dice.pick(patterns).bytes))
}

pub fn three_letters() -> Vec<u8> {
    Dice::new(67).string(b"abc", BYTES)
}

pub fn all_bytes() -> Vec<u8> {
    let mut dice = Dice::new(68);
    (0..BYTES).map(|_| dice.byte()).collect()
}

/// A text to which something is added until it is long enough; what is too much is cut off.
fn grown(mut add: impl FnMut(&mut Vec<u8>)) -> Vec<u8> {
    let mut text = Vec::new();
    while text.len() < BYTES {
        add(&mut text);
    }
    text.truncate(BYTES);
    text
}
