//! The count of moves. The walk of document 01 over strings: each link followed
//! and each byte taken is one move. The crate counts none, so this number is
//! ours; a second count over the crate's cells stands in `cell_walk.rs`.

use super::trie::{Trie, ROOT};

/// The moves at the end of the text. A plain search restarts at root after each
/// match, and the count goes on.
pub fn moves(trie: &Trie, text: &[u8], restarts: bool) -> u32 {
    let mut state = ROOT;
    let mut moves = 0;
    for byte in text {
        let (next, links) = take(trie, state, *byte);
        moves += links + 1;
        let is_match = trie.longest_pattern_at_end(next).is_some();
        state = if restarts && is_match { ROOT } else { next };
    }
    moves
}

/// The state after the byte, and how many links were followed before it.
fn take(trie: &Trie, mut state: usize, byte: u8) -> (usize, u32) {
    let mut links = 0;
    loop {
        if let Some(child) = trie.child(state, byte) {
            return (child, links);
        }
        if state == ROOT {
            return (ROOT, links);
        }
        state = trie.longest_suffix(state).1;
        links += 1;
    }
}
