//! How the lists are made that the oracle has no family for: equal patterns, parts of one string, the
//! lowest and highest bytes, and both sides of each limit.

use oracle::dice::Dice;
use oracle::families::{crowded, random};
use oracle::question::Question;
use oracle::tables::{List, Pattern, STANDARD};

fn of_patterns(dice: &mut Dice, name: &str, patterns: Vec<Vec<u8>>) -> Question {
    let with_value = |bytes| Pattern {
        bytes,
        value: dice.value(),
    };
    let list = List {
        kind: STANDARD,
        patterns: patterns.into_iter().map(with_value).collect(),
    };
    Question::new(name, list, vec![vec![]])
}

/// Up to three strings, each several times, in any order.
pub fn duplicates(dice: &mut Dice) -> Question {
    let count = dice.between(1, 3);
    let strings: Vec<Vec<u8>> = (0..count).map(|_| short(dice, b"ab", 4)).collect();
    let rows = dice.between(2, 12);
    let patterns = (0..rows).map(|_| dice.pick(&strings).clone()).collect();
    of_patterns(dice, "duplicates", patterns)
}

/// Parts of one string: from its start, from its end, and from inside.
pub fn prefixes_and_suffixes(dice: &mut Dice) -> Question {
    let letters = dice.between(2, 3);
    let length = dice.between(4, 16);
    let stem = dice.string(&b"abc"[..letters], length);
    let rows = dice.between(3, 12);
    let patterns = (0..rows).map(|_| part(dice, &stem)).collect();
    of_patterns(dice, "prefixes and suffixes", patterns)
}

fn part(dice: &mut Dice, stem: &[u8]) -> Vec<u8> {
    let cut = dice.between(1, stem.len());
    match dice.below(3) {
        0 => stem[..cut].to_vec(),
        1 => stem[stem.len() - cut..].to_vec(),
        _ => {
            let start = dice.below(cut);
            stem[start..cut].to_vec()
        }
    }
}

/// The lowest and the highest bytes, the first of each more often.
pub fn end_bytes(dice: &mut Dice) -> Question {
    let letters = [0, 0, 0, 255, 255, 255, 1, 254];
    let rows = dice.between(1, 8);
    let patterns = (0..rows).map(|_| short(dice, &letters, 5)).collect();
    of_patterns(dice, "bytes 0 and 255", patterns)
}

fn short(dice: &mut Dice, letters: &[u8], longest: usize) -> Vec<u8> {
    let length = dice.between(1, longest);
    dice.string(letters, length)
}

/// On either side of 1,024 listed.
pub fn listed(dice: &mut Dice) -> Question {
    let letters: Vec<u8> = match dice.below(2) {
        0 => (b'a'..=b'z').collect(),
        _ => (0..=255).collect(),
    };
    let rows = dice.between(1020, 1028);
    let patterns = (0..rows).map(|_| short(dice, &letters, 4)).collect();
    of_patterns(dice, "limit 3", patterns)
}

/// A small list, half the time with an empty pattern somewhere, or two.
pub fn empty(dice: &mut Dice) -> Question {
    let mut question = random::small(dice, 3);
    if dice.below(2) == 0 {
        question.texts.clear();
        for _ in 0..dice.between(1, 2) {
            let row = dice.between(0, question.list.patterns.len());
            let value = dice.value();
            let bytes = vec![];
            question.list.patterns.insert(row, Pattern { bytes, value });
        }
    }
    question
}

/// On either side of 64 bytes, which some begin or end like others.
pub fn long(dice: &mut Dice) -> Question {
    let rows = dice.between(1, 6);
    let longest = dice.between(62, 66);
    let stem = dice.string(b"ab", longest);
    let patterns = (0..rows).map(|_| long_pattern(dice, &stem)).collect();
    of_patterns(dice, "limit 5", patterns)
}

fn long_pattern(dice: &mut Dice, stem: &[u8]) -> Vec<u8> {
    let cut = stem.len() - dice.below(4);
    match dice.below(4) {
        0 => stem.to_vec(),
        1 => stem[stem.len() - cut..].to_vec(),
        2 => [&stem[..cut - 1], b"c"].concat(),
        _ => short(dice, b"ab", 5),
    }
}

/// On either side of 65,536 cells, which some 954 patterns of 64 bytes need; above it more often.
pub fn crowded_list(dice: &mut Dice) -> Question {
    let count = dice.between(946, 966);
    crowded::question(dice, count)
}

/// States in one to several blocks.
pub fn blocks(dice: &mut Dice) -> Question {
    let rows = dice.between(5, 90);
    random::several_blocks(dice, rows)
}

/// A small list with texts at the limit: a byte less, all of it, and a byte more.
pub fn long_texts(dice: &mut Dice) -> Question {
    let letters = *dice.pick(&[2, 3, 4, 26]);
    let mut question = random::small(dice, letters);
    let whole = repeated(dice, &question, 65_537);
    question.texts = (65_535..=65_537)
        .map(|length| whole[..length].to_vec())
        .collect();
    question
}

/// The question's texts in a row, until there are so many bytes.
fn repeated(dice: &mut Dice, question: &Question, length: usize) -> Vec<u8> {
    let mut text = vec![];
    while text.len() < length {
        text.extend(dice.pick(&question.texts));
        text.push(dice.byte());
    }
    text
}
