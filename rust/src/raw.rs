//! The functions of the static library as C has them: the declarations of `c/rotspangle.h`. A slice is a pointer and a length.
//!
//! # Safety
//! A pointer leads to as many elements as its length says and is not null; what is written overlaps nothing else that is lent.
//! Nothing else is asked. [`crate::lent`] has the same over slices, where neither can go wrong.

extern "C" {
    /// See `c/rotspangle.h`.
    pub fn rotspangle_build(
        kind: u32,
        bytes: *const u8,
        bytes_length: usize,
        ends: *const u32,
        ends_length: usize,
        values: *const u32,
        values_length: usize,
        trie: *mut [u32; 5],
        trie_length: usize,
        owns: *mut [u32; 2],
        owns_length: usize,
        notes: *mut [u32; 6],
        notes_length: usize,
        spots: *mut [u32; 2],
        spots_length: usize,
        base: *mut u32,
        base_length: usize,
        link: *mut u32,
        link_length: usize,
        output: *mut u32,
        output_length: usize,
        check: *mut u8,
        check_length: usize,
        depth: *mut u8,
        depth_length: usize,
        outs: *mut [u32; 3],
        outs_length: usize,
        counts: *mut [u32; 4],
    ) -> u32;
}

// The three searches have one signature.
macro_rules! searches {
    ($($name:ident)*) => {
        extern "C" {
            $(/// See `c/rotspangle.h`.
                pub fn $name(
                base: *const u32,
                base_length: usize,
                link: *const u32,
                link_length: usize,
                output: *const u32,
                output_length: usize,
                check: *const u8,
                check_length: usize,
                depth: *const u8,
                depth_length: usize,
                outs: *const [u32; 3],
                outs_length: usize,
                kind: u32,
                accepted: u32,
                cells: u32,
                text: *const u8,
                text_length: usize,
                state: *mut u32,
                pending: *mut u32,
                place: *mut usize,
                moves: *mut u64,
                sheet: *mut [usize; 3],
                sheet_length: usize,
                written: *mut usize,
            ) -> u32;)*
        }
    };
}

searches! { rotspangle_overlapping rotspangle_plain rotspangle_leftmost }
