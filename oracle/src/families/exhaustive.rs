//! All small lists and all small texts over two letters.

use crate::tables::{List, STANDARD};

const LETTERS: [u8; 2] = *b"ab";

/// All lists of at most so many patterns of at most so many bytes, values rising.
pub fn lists(patterns: usize, bytes: usize) -> Vec<List> {
    let choices: Vec<Vec<u8>> = strings(bytes).into_iter().skip(1).collect();
    let lists = sequences(&choices, patterns);
    lists
        .iter()
        .map(|list| List::numbered(STANDARD, list))
        .collect()
}

/// All strings of at most that length, the empty one first.
pub fn strings(length: usize) -> Vec<Vec<u8>> {
    sequences(&LETTERS, length)
}

/// All sequences of at most that many choices, shorter ones first.
fn sequences<T: Clone>(choices: &[T], length: usize) -> Vec<Vec<T>> {
    let mut all = vec![vec![]];
    let mut longest = all.clone();
    for _ in 0..length {
        longest = longest
            .iter()
            .flat_map(|start| choices.iter().map(|last| with_last(start, last)))
            .collect();
        all.extend(longest.iter().cloned());
    }
    all
}

fn with_last<T: Clone>(start: &[T], last: &T) -> Vec<T> {
    let mut sequence = start.to_vec();
    sequence.push(last.clone());
    sequence
}
