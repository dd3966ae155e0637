//! Which patterns are accepted, and the states that they make. States are kept
//! breadth first, which is by length and then by bytes; the order in which the
//! bytes made them cannot be seen in any answer.

use crate::tables::{List, LEFTMOST_FIRST};
use std::collections::{BTreeMap, BTreeSet};

/// The number of the empty string.
pub const ROOT: usize = 0;

pub struct Trie {
    pub states: Vec<Vec<u8>>,
    /// For each state the indexes of the accepted patterns that equal it.
    pub own: Vec<Vec<usize>>,
    /// For each state the bytes that lead on, rising.
    pub children: Vec<Vec<u8>>,
    numbers: BTreeMap<Vec<u8>, usize>,
}

impl Trie {
    pub fn of(list: &List) -> Trie {
        let accepted = accepted(list);
        let states = states(list, &accepted);
        let numbered = states.iter().cloned().enumerate();
        let mut trie = Trie {
            own: vec![vec![]; states.len()],
            children: vec![vec![]; states.len()],
            numbers: numbered.map(|(number, state)| (state, number)).collect(),
            states,
        };
        trie.note_children();
        for index in accepted {
            let state = trie.numbers[&list.patterns[index].bytes];
            trie.own[state].push(index);
        }
        trie
    }

    pub fn number(&self, string: &[u8]) -> Option<usize> {
        self.numbers.get(string).copied()
    }

    pub fn child(&self, state: usize, byte: u8) -> Option<usize> {
        if !self.children[state].contains(&byte) {
            return None;
        }
        let mut string = self.states[state].clone();
        string.push(byte);
        self.number(&string)
    }

    /// Where the longest proper suffix that is a state starts, and which state
    /// it is. Not asked of root.
    pub fn longest_suffix(&self, state: usize) -> (usize, usize) {
        let string = &self.states[state];
        (1..=string.len())
            .find_map(|start| self.number(&string[start..]).map(|number| (start, number)))
            .expect("the empty string is a state")
    }

    /// Where the longest accepted pattern that ends the state's string starts.
    pub fn longest_pattern_at_end(&self, state: usize) -> Option<usize> {
        let string = &self.states[state];
        let is_pattern = |start: &usize| match self.number(&string[*start..]) {
            Some(number) => !self.own[number].is_empty(),
            None => false,
        };
        (0..string.len()).find(is_pattern)
    }

    /// The states stand sorted, so each one's bytes are noted rising.
    fn note_children(&mut self) {
        for state in 1..self.states.len() {
            let (last, rest) = self.states[state].split_last().expect("not root");
            let parent = self.numbers[rest];
            self.children[parent].push(*last);
        }
    }
}

/// Under LeftmostFirst a pattern is dropped if an accepted one is a proper
/// prefix of it: the state of that prefix has an own output.
fn accepted(list: &List) -> Vec<usize> {
    let mut accepted: Vec<usize> = vec![];
    for (index, pattern) in list.patterns.iter().enumerate() {
        let hides =
            |earlier: &usize| is_proper_prefix(&list.patterns[*earlier].bytes, &pattern.bytes);
        if list.kind != LEFTMOST_FIRST || !accepted.iter().any(hides) {
            accepted.push(index);
        }
    }
    accepted
}

fn is_proper_prefix(short: &[u8], long: &[u8]) -> bool {
    short.len() < long.len() && long.starts_with(short)
}

/// All prefixes of accepted patterns, the empty one included.
fn states(list: &List, accepted: &[usize]) -> Vec<Vec<u8>> {
    let mut found = BTreeSet::from([vec![]]);
    for index in accepted {
        let bytes = &list.patterns[*index].bytes;
        found.extend((1..=bytes.len()).map(|end| bytes[..end].to_vec()));
    }
    let mut states: Vec<Vec<u8>> = found.into_iter().collect();
    states.sort_by_key(|state| state.len());
    states
}
