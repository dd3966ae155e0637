//! The four functions as C has them, on any pointers: damage is lent in places of its own, which the
//! safe crate's owned tables cannot be.

use oracle::damage::Search;
use rotspangle::raw::{
    rotspangle_build, rotspangle_leftmost, rotspangle_overlapping, rotspangle_plain,
};

/// A lent slice.
#[derive(Clone, Copy)]
pub struct Slice<T> {
    pub start: *mut T,
    pub length: usize,
}

impl<T: Copy> Slice<T> {
    /// A copy of what it holds.
    ///
    /// # Safety
    /// The slice is lent still.
    pub unsafe fn read(&self) -> Vec<T> {
        std::slice::from_raw_parts(self.start, self.length).to_vec()
    }

    /// Writes into it.
    ///
    /// # Safety
    /// The slice is lent still, writable and as long as the content.
    pub unsafe fn write(&self, content: &[T]) {
        std::slice::from_raw_parts_mut(self.start, self.length).copy_from_slice(content);
    }
}

/// What is lent to a search.
pub struct SearchCall {
    pub base: Slice<u32>,
    pub link: Slice<u32>,
    pub output: Slice<u32>,
    pub check: Slice<u8>,
    pub depth: Slice<u8>,
    pub outs: Slice<[u32; 3]>,
    pub kind: u32,
    pub accepted: u32,
    pub cells: u32,
    pub text: Slice<u8>,
    pub state: Slice<u32>,
    pub pending: Slice<u32>,
    pub place: Slice<usize>,
    pub moves: Slice<u64>,
    pub sheet: Slice<[usize; 3]>,
    pub written: Slice<usize>,
}

impl SearchCall {
    /// # Safety
    /// The slices are lent, and those that are written lie apart from all others.
    pub unsafe fn call(&self, search: Search) -> u32 {
        let function = match search {
            Search::Overlapping => rotspangle_overlapping,
            Search::Plain => rotspangle_plain,
            Search::Leftmost => rotspangle_leftmost,
        };
        function(
            self.base.start,
            self.base.length,
            self.link.start,
            self.link.length,
            self.output.start,
            self.output.length,
            self.check.start,
            self.check.length,
            self.depth.start,
            self.depth.length,
            self.outs.start,
            self.outs.length,
            self.kind,
            self.accepted,
            self.cells,
            self.text.start,
            self.text.length,
            self.state.start,
            self.pending.start,
            self.place.start,
            self.moves.start,
            self.sheet.start,
            self.sheet.length,
            self.written.start,
        )
    }
}

/// What is lent to a build.
pub struct BuildCall {
    pub kind: u32,
    pub bytes: Slice<u8>,
    pub ends: Slice<u32>,
    pub values: Slice<u32>,
    pub trie: Slice<[u32; 5]>,
    pub owns: Slice<[u32; 2]>,
    pub notes: Slice<[u32; 6]>,
    pub spots: Slice<[u32; 2]>,
    pub base: Slice<u32>,
    pub link: Slice<u32>,
    pub output: Slice<u32>,
    pub check: Slice<u8>,
    pub depth: Slice<u8>,
    pub outs: Slice<[u32; 3]>,
    pub counts: Slice<[u32; 4]>,
}

impl BuildCall {
    /// # Safety
    /// As for a search.
    pub unsafe fn call(&self) -> u32 {
        rotspangle_build(
            self.kind,
            self.bytes.start,
            self.bytes.length,
            self.ends.start,
            self.ends.length,
            self.values.start,
            self.values.length,
            self.trie.start,
            self.trie.length,
            self.owns.start,
            self.owns.length,
            self.notes.start,
            self.notes.length,
            self.spots.start,
            self.spots.length,
            self.base.start,
            self.base.length,
            self.link.start,
            self.link.length,
            self.output.start,
            self.output.length,
            self.check.start,
            self.check.length,
            self.depth.start,
            self.depth.length,
            self.outs.start,
            self.outs.length,
            self.counts.start,
        )
    }
}
