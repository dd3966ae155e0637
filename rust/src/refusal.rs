//! The refusals, with their numbers.

use std::error::Error;
use std::fmt;

/// Why a list was not built or a text not searched. Each has a fixed number.
#[derive(Debug, Clone, Copy, PartialEq, Eq, Hash)]
pub enum Refusal {
    /// 1: the kind is above 2. A [`crate::Kind`] never is.
    BadKind,
    /// 2: the ends don't cut the bytes into patterns, or values and patterns differ in number.
    BadEnds,
    /// 3: more than 1,024 patterns are listed.
    TooMany,
    /// 4: a pattern is empty.
    Empty {
        /// The lowest row that is.
        row: usize,
    },
    /// 5: a pattern has more than 64 bytes.
    TooLong {
        /// The lowest row that has.
        row: usize,
    },
    /// 6: the states exceed the state slots.
    FewStates,
    /// 7: the cells exceed the cell slots, or 65,536.
    FewCells,
    /// 8: the accepted patterns exceed the output slots.
    FewOutputs,
    /// 9: the tables are of a kind that another search is for.
    WrongKind,
    /// 10: the text has more than 65,536 bytes.
    LongText,
    /// 11: the tables or the search value are damaged.
    Damage,
}

impl Refusal {
    /// The refusal of this number, for a row where it names one.
    pub(crate) fn told(number: u32, row: usize) -> Refusal {
        match number {
            1 => Refusal::BadKind,
            2 => Refusal::BadEnds,
            3 => Refusal::TooMany,
            4 => Refusal::Empty { row },
            5 => Refusal::TooLong { row },
            6 => Refusal::FewStates,
            7 => Refusal::FewCells,
            8 => Refusal::FewOutputs,
            9 => Refusal::WrongKind,
            10 => Refusal::LongText,
            _ => Refusal::Damage,
        }
    }

    /// Its number, 1 to 11.
    ///
    /// ```
    /// use rotspangle::{Kind, Matcher, Refusal};
    ///
    /// let refused = Matcher::new(Kind::Standard, ["T10", ""]).unwrap_err();
    /// assert_eq!(refused, Refusal::Empty { row: 1 });
    /// assert_eq!(refused.number(), 4);
    /// ```
    pub fn number(self) -> u32 {
        match self {
            Refusal::BadKind => 1,
            Refusal::BadEnds => 2,
            Refusal::TooMany => 3,
            Refusal::Empty { .. } => 4,
            Refusal::TooLong { .. } => 5,
            Refusal::FewStates => 6,
            Refusal::FewCells => 7,
            Refusal::FewOutputs => 8,
            Refusal::WrongKind => 9,
            Refusal::LongText => 10,
            Refusal::Damage => 11,
        }
    }
}

impl fmt::Display for Refusal {
    fn fmt(&self, f: &mut fmt::Formatter<'_>) -> fmt::Result {
        write!(f, "refusal {}: ", self.number())?;
        match self {
            Refusal::BadKind => write!(f, "the kind is above 2"),
            Refusal::BadEnds => write!(
                f,
                "the ends don't cut the bytes, or the values don't match the patterns in number"
            ),
            Refusal::TooMany => write!(f, "more than 1,024 patterns"),
            Refusal::Empty { row } => write!(f, "pattern {row} is empty"),
            Refusal::TooLong { row } => write!(f, "pattern {row} has more than 64 bytes"),
            Refusal::FewStates => write!(f, "too few state slots"),
            Refusal::FewCells => write!(
                f,
                "too few cell slots, or the list needs more than 65,536 cells"
            ),
            Refusal::FewOutputs => write!(f, "too few output slots"),
            Refusal::WrongKind => write!(f, "the tables are of a kind that another search is for"),
            Refusal::LongText => write!(f, "the text has more than 65,536 bytes"),
            Refusal::Damage => write!(f, "the tables or the search value are damaged"),
        }
    }
}

impl Error for Refusal {}
