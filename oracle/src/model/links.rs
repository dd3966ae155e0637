//! The failure links, twice: from what occurs in a state's string, and by the
//! hunt that document 01 tells. The tables use the first; the comparison asks
//! that both agree.

use super::trie::{Trie, ROOT};

#[derive(Clone, Copy, Debug, PartialEq, Eq)]
pub enum Link {
    Dead,
    To(usize),
}

/// Standard: the longest proper suffix that is a state. Leftmost kinds: dead if
/// an accepted pattern occurs in the string before the place where that suffix
/// starts, since giving up the bytes before it would give up that match.
pub fn by_occurrence(trie: &Trie, is_standard: bool) -> Vec<Link> {
    let firsts = first_occurrences(trie);
    let link = |state: usize| {
        let (start, target) = trie.longest_suffix(state);
        match firsts[state] {
            Some(first) if first < start && !is_standard => Link::Dead,
            _ => Link::To(target),
        }
    };
    let mut links = vec![Link::To(ROOT)];
    links.extend((1..trie.states.len()).map(link));
    links
}

/// For each state the first place in its string where an accepted pattern
/// occurs: in the parent's string, or ending with the last byte.
fn first_occurrences(trie: &Trie) -> Vec<Option<usize>> {
    let mut firsts: Vec<Option<usize>> = vec![None; trie.states.len()];
    for state in 1..trie.states.len() {
        let string = &trie.states[state];
        let parent = trie.number(&string[..string.len() - 1]).expect("a state");
        let at_end = trie.longest_pattern_at_end(state);
        firsts[state] = firsts[parent].into_iter().chain(at_end).min();
    }
    firsts
}

/// Breadth first, and a state with an own output is dead (leftmost kinds)
/// before its children are handled.
pub fn by_hunt(trie: &Trie, is_standard: bool) -> Vec<Link> {
    let mut links = vec![Link::To(ROOT); trie.states.len()];
    for state in 0..trie.states.len() {
        if !is_standard && !trie.own[state].is_empty() {
            links[state] = Link::Dead;
        }
        for byte in &trie.children[state] {
            let child = trie.child(state, *byte).expect("a child");
            links[child] = hunt(trie, &links, state, *byte);
        }
    }
    links
}

/// The child is tried at each state of the chain before that state's own link
/// is looked at, also where that link is dead.
fn hunt(trie: &Trie, links: &[Link], parent: usize, byte: u8) -> Link {
    if parent == ROOT {
        return Link::To(ROOT);
    }
    let mut link = links[parent];
    while let Link::To(state) = link {
        if let Some(child) = trie.child(state, byte) {
            return Link::To(child);
        }
        if state == ROOT {
            return Link::To(ROOT);
        }
        link = links[state];
    }
    Link::Dead
}
