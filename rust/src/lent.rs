//! The functions of the static library over lent slices.
//!
//! They ask for nothing: on any list, any tables, any search value and any text they answer, end, and touch no memory but what is
//! lent. So they are safe functions here. [`crate::Matcher`] owns its tables and is what most callers want.

use crate::raw;

/// Rows of the working tables: what a build needs while it works, zero again afterwards.
#[derive(Debug, Default, Clone)]
pub struct Work {
    /// Five words for a state slot.
    pub trie: Vec<[u32; 5]>,
    /// Six words for a state slot.
    pub notes: Vec<[u32; 6]>,
    /// Two words for an output slot.
    pub owns: Vec<[u32; 2]>,
    /// Two words for a cell slot.
    pub spots: Vec<[u32; 2]>,
}

impl Work {
    /// Working tables with so many slots.
    pub fn with_slots(states: usize, outputs: usize, cells: usize) -> Work {
        Work {
            trie: vec![[0; 5]; states],
            notes: vec![[0; 6]; states],
            owns: vec![[0; 2]; outputs],
            spots: vec![[0; 2]; cells],
        }
    }
}

/// What a good build says of its tables.
#[derive(Debug, Default, Clone, Copy, PartialEq, Eq)]
pub struct Counts {
    /// 0 Standard, 1 LeftmostLongest, 2 LeftmostFirst.
    pub kind: u32,
    /// The accepted patterns, which are the outputs in use.
    pub accepted: u32,
    /// The states, root counted and dead not.
    pub states: u32,
    /// The cells in use.
    pub cells: u32,
}

/// The result tables, which a search reads.
#[derive(Debug, Default, Clone, PartialEq, Eq)]
pub struct Tables {
    /// Base of each cell.
    pub base: Vec<u32>,
    /// Failure link of each cell.
    pub link: Vec<u32>,
    /// Place of each cell's first output, counted from 1; 0 for none.
    pub output: Vec<u32>,
    /// Check of each cell.
    pub check: Vec<u8>,
    /// Depth of each cell.
    pub depth: Vec<u8>,
    /// Value, length and next place of each output.
    pub outs: Vec<[u32; 3]>,
    /// What the build said of them.
    pub counts: Counts,
}

impl Tables {
    /// Tables with so many slots, all zero.
    pub fn with_slots(outputs: usize, cells: usize) -> Tables {
        Tables {
            base: vec![0; cells],
            link: vec![0; cells],
            output: vec![0; cells],
            check: vec![0; cells],
            depth: vec![0; cells],
            outs: vec![[0; 3]; outputs],
            counts: Counts::default(),
        }
    }
}

/// What a search has come to. Any value may be handed in.
#[repr(C)]
#[derive(Debug, Default, Clone, Copy, PartialEq, Eq)]
pub struct Search {
    /// The cell of the walk's state.
    pub state: u32,
    /// The place of the output that is given next, 0 for none.
    pub pending: u32,
    /// How many bytes of the text are taken.
    pub place: usize,
    /// The moves so far; leftmost search reports 0.
    pub moves: u64,
}

/// A match in a sheet: start, end and value.
pub type Record = [usize; 3];

/// One of the three searches.
#[derive(Debug, Clone, Copy, PartialEq, Eq)]
pub enum Which {
    /// Every occurrence; tables of kind 0.
    Overlapping,
    /// The match that ends first, then the next after it; tables of kind 0.
    Plain,
    /// The match that starts first; tables of kind 1 or 2.
    Leftmost,
}

/// Why a call of a search stopped.
#[derive(Debug, Clone, Copy, PartialEq, Eq)]
pub enum Stop {
    /// The text has no further match.
    Ended,
    /// Every slot of the sheet is written.
    Full,
    /// A refusal: 9, 10 or 11.
    Refused(u32),
}

/// Builds the tables of a list: the bytes of all patterns in a row, the end of each pattern in them, and a value for each.
///
/// On success `tables.counts` is set. Otherwise the answer is the refusal's number, 1 to 8, and for 4 and 5 the lowest row that has it.
/// 1 to 5 leave every table as it was; 6 to 8 leave every slot zero. Where slots lie in several columns, the shortest counts.
pub fn build(
    kind: u32,
    bytes: &[u8],
    ends: &[u32],
    values: &[u32],
    work: &mut Work,
    tables: &mut Tables,
) -> Result<(), (u32, u32)> {
    let mut told = [0; 4];
    // SAFETY: each pointer and length are those of a slice that is lent for the call, and no two of the mutable ones overlap. The
    // function asks for nothing else.
    let number = unsafe {
        raw::rotspangle_build(
            kind,
            bytes.as_ptr(),
            bytes.len(),
            ends.as_ptr(),
            ends.len(),
            values.as_ptr(),
            values.len(),
            work.trie.as_mut_ptr(),
            work.trie.len(),
            work.owns.as_mut_ptr(),
            work.owns.len(),
            work.notes.as_mut_ptr(),
            work.notes.len(),
            work.spots.as_mut_ptr(),
            work.spots.len(),
            tables.base.as_mut_ptr(),
            tables.base.len(),
            tables.link.as_mut_ptr(),
            tables.link.len(),
            tables.output.as_mut_ptr(),
            tables.output.len(),
            tables.check.as_mut_ptr(),
            tables.check.len(),
            tables.depth.as_mut_ptr(),
            tables.depth.len(),
            tables.outs.as_mut_ptr(),
            tables.outs.len(),
            &mut told,
        )
    };
    if number != 0 {
        return Err((number, told[0]));
    }
    let [kind, accepted, states, cells] = told;
    tables.counts = Counts {
        kind,
        accepted,
        states,
        cells,
    };
    Ok(())
}

/// Goes on with a search from `value`: writes the next matches into the sheet from its first slot, and says how many were written and
/// why it stopped. `value` is then the one to go on with; after 9 and 10 it is as it was, after 11 it is the one after the last record.
/// Slots past the written ones stay as they were.
pub fn fill(
    which: Which,
    tables: &Tables,
    text: &[u8],
    value: &mut Search,
    sheet: &mut [Record],
) -> (usize, Stop) {
    let search = match which {
        Which::Overlapping => raw::rotspangle_overlapping,
        Which::Plain => raw::rotspangle_plain,
        Which::Leftmost => raw::rotspangle_leftmost,
    };
    let mut written = 0;
    // SAFETY: as in `build`; the value's fields and `written` are separate places.
    let number = unsafe {
        search(
            tables.base.as_ptr(),
            tables.base.len(),
            tables.link.as_ptr(),
            tables.link.len(),
            tables.output.as_ptr(),
            tables.output.len(),
            tables.check.as_ptr(),
            tables.check.len(),
            tables.depth.as_ptr(),
            tables.depth.len(),
            tables.outs.as_ptr(),
            tables.outs.len(),
            tables.counts.kind,
            tables.counts.accepted,
            tables.counts.cells,
            text.as_ptr(),
            text.len(),
            &mut value.state,
            &mut value.pending,
            &mut value.place,
            &mut value.moves,
            sheet.as_mut_ptr(),
            sheet.len(),
            &mut written,
        )
    };
    let stop = match number {
        0 => Stop::Ended,
        1 => Stop::Full,
        refusal => Stop::Refused(refusal),
    };
    (written, stop)
}
