//! Matches in turn, fetched a sheet at a time.

use crate::lent::{self, Record, Search, Stop, Tables, Which};
use crate::Refusal;

/// A match: the bytes `start..end` of the text are a pattern with this value.
#[derive(Debug, Clone, Copy, PartialEq, Eq, Hash)]
pub struct Match {
    /// Where it starts.
    pub start: usize,
    /// Where it ends; the byte there is no longer part of it.
    pub end: usize,
    /// The pattern's value.
    pub value: u32,
}

/// The slots of a sheet: one foreign call serves so many matches.
const SLOTS: usize = 128;

/// The matches of one search, in its order.
#[derive(Debug, Clone)]
pub struct Matches<'a> {
    which: Which,
    tables: &'a Tables,
    text: &'a [u8],
    value: Search,
    sheet: [Record; SLOTS],
    /// The records that are still to be given are those from `next` to `written`.
    next: usize,
    written: usize,
    ended: bool,
}

impl<'a> Matches<'a> {
    pub(crate) fn begin(
        which: Which,
        tables: &'a Tables,
        text: &'a [u8],
    ) -> Result<Matches<'a>, Refusal> {
        let mut matches = Matches {
            which,
            tables,
            text,
            value: Search::default(),
            sheet: [[0; 3]; SLOTS],
            next: 0,
            written: 0,
            ended: false,
        };
        matches.fetch()?;
        Ok(matches)
    }

    fn fetch(&mut self) -> Result<(), Refusal> {
        let (written, stop) = lent::fill(
            self.which,
            self.tables,
            self.text,
            &mut self.value,
            &mut self.sheet,
        );
        self.next = 0;
        self.written = written;
        match stop {
            Stop::Full => Ok(()),
            Stop::Ended => {
                self.ended = true;
                Ok(())
            }
            Stop::Refused(number) => Err(Refusal::told(number, 0)),
        }
    }

    /// The moves of the walk so far: at the end of a text of n bytes at most 2n - 1. Leftmost search reports 0.
    ///
    /// A sheet is fetched ahead, so before the end this counts up to the last match that was fetched.
    pub fn moves(&self) -> u64 {
        self.value.moves
    }
}

impl Iterator for Matches<'_> {
    type Item = Match;

    fn next(&mut self) -> Option<Match> {
        if self.next == self.written {
            if self.ended {
                return None;
            }
            // Tables of a good build meet no damage, and 9 and 10 were told when the search began.
            self.fetch()
                .expect("tables of a good build are searched to the end");
            if self.written == 0 {
                return None;
            }
        }
        let [start, end, value] = self.sheet[self.next];
        self.next += 1;
        Some(Match {
            start,
            end,
            value: value as u32,
        })
    }
}
