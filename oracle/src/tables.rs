//! The words that questions and answers share: a pattern list, the tables that
//! a build gives, and a match. Crate and model both answer in them, so that an
//! answer is compared as a whole.

pub const STANDARD: u8 = 0;
pub const LEFTMOST_LONGEST: u8 = 1;
pub const LEFTMOST_FIRST: u8 = 2;

/// Cells come in blocks of this many.
pub const BLOCK: usize = 256;

#[derive(Clone, Debug, PartialEq, Eq)]
pub struct Pattern {
    pub bytes: Vec<u8>,
    pub value: u32,
}

/// The listed patterns in list order, and the kind to build them for.
#[derive(Clone, Debug, PartialEq, Eq)]
pub struct List {
    pub kind: u8,
    pub patterns: Vec<Pattern>,
}

impl List {
    /// A list whose values are the indexes.
    pub fn numbered<P: AsRef<[u8]>>(kind: u8, patterns: &[P]) -> List {
        let values: Vec<u32> = (0..patterns.len() as u32).collect();
        List::with_values(kind, patterns, &values)
    }

    pub fn with_values<P: AsRef<[u8]>>(kind: u8, patterns: &[P], values: &[u32]) -> List {
        let pair = |(bytes, value): (&P, &u32)| Pattern {
            bytes: bytes.as_ref().to_vec(),
            value: *value,
        };
        List {
            kind,
            patterns: patterns.iter().zip(values).map(pair).collect(),
        }
    }

    /// The same patterns for another kind.
    pub fn of_kind(&self, kind: u8) -> List {
        List {
            kind,
            patterns: self.patterns.clone(),
        }
    }

    pub fn is_standard(&self) -> bool {
        self.kind == STANDARD
    }
}

#[derive(Clone, Copy, Debug, Default, PartialEq, Eq)]
pub struct Cell {
    pub base: u32,
    pub link: u32,
    pub output: u32,
    pub check: u32,
}

#[derive(Clone, Copy, Debug, PartialEq, Eq)]
pub struct Output {
    pub value: u32,
    pub length: u32,
    pub next: u32,
}

/// What a build leaves. The accepted patterns are as many as the outputs.
#[derive(Clone, Debug, PartialEq, Eq)]
pub struct Tables {
    /// Root counted, dead not.
    pub states: u32,
    pub cells: Vec<Cell>,
    pub outputs: Vec<Output>,
}

#[derive(Clone, Copy, Debug, PartialEq, Eq)]
pub struct Match {
    pub start: u32,
    pub end: u32,
    pub value: u32,
}

/// The matches of one text, by the searches that belong to the kind.
#[derive(Clone, Debug, PartialEq, Eq)]
pub enum Found {
    Standard {
        overlapping: Vec<Match>,
        plain: Vec<Match>,
    },
    Leftmost(Vec<Match>),
}
