//! A matcher that owns its tables.

use crate::lent::{self, Counts, Tables, Which, Work};
use crate::{Matches, Refusal};

/// What a list is built for.
#[derive(Debug, Clone, Copy, PartialEq, Eq, Hash)]
pub enum Kind {
    /// For overlapping and plain search. Every pattern is accepted.
    Standard = 0,
    /// For leftmost search: of the matches that start first, the longest.
    LeftmostLongest = 1,
    /// For leftmost search: of the matches that start first, the one listed first. A pattern that begins with an earlier one is dropped.
    LeftmostFirst = 2,
}

/// The most cells that tables can have.
const MOST_CELLS: usize = 65_536;

/// The most patterns of a list, and bytes of a pattern.
const MOST_PATTERNS: usize = 1_024;
const MOST_BYTES: usize = 64;

/// A list of patterns, built once and searched as often as wanted.
///
/// ```
/// use rotspangle::{Kind, Matcher};
///
/// let crew = Matcher::new(Kind::Standard, ["T10", "T100", "LIVE NEUTRAL"])?;
/// let sheet = b"T100 at pole 7, LIVE NEUTRAL";
/// for found in crew.overlapping(sheet)? {
///     println!("{}..{}: row {}", found.start, found.end, found.value);
/// }
/// let rows: Vec<u32> = crew.overlapping(sheet)?.map(|found| found.value).collect();
/// assert_eq!(rows, [0, 1, 2]);
/// # Ok::<(), rotspangle::Refusal>(())
/// ```
#[derive(Debug, Clone)]
pub struct Matcher {
    tables: Tables,
}

impl Matcher {
    /// Builds a list; the value of a pattern is its row, counted from 0.
    ///
    /// # Errors
    /// Refusals 3, 4, 5 and 7.
    pub fn new<P: AsRef<[u8]>>(
        kind: Kind,
        patterns: impl IntoIterator<Item = P>,
    ) -> Result<Matcher, Refusal> {
        Matcher::with_values(kind, patterns.into_iter().zip(0..))
    }

    /// Builds a list of patterns with their values.
    ///
    /// ```
    /// use rotspangle::{Kind, Matcher};
    ///
    /// let crew = Matcher::with_values(Kind::LeftmostLongest, [("T10", 70), ("T100", 71)])?;
    /// let found = crew.leftmost(b"a T100 box")?.next().unwrap();
    /// assert_eq!((found.start, found.end, found.value), (2, 6, 71));
    /// # Ok::<(), rotspangle::Refusal>(())
    /// ```
    ///
    /// # Errors
    /// Refusals 3, 4, 5 and 7.
    pub fn with_values<P: AsRef<[u8]>>(
        kind: Kind,
        patterns: impl IntoIterator<Item = (P, u32)>,
    ) -> Result<Matcher, Refusal> {
        let mut bytes = Vec::new();
        let mut ends = Vec::new();
        let mut values = Vec::new();
        // One pattern past the limit, and one byte past it, are refused as any more would be: so an end always fits its type.
        for (pattern, value) in patterns.into_iter().take(MOST_PATTERNS + 1) {
            let pattern = pattern.as_ref();
            bytes.extend_from_slice(&pattern[..pattern.len().min(MOST_BYTES + 1)]);
            ends.push(bytes.len() as u32);
            values.push(value);
        }
        let states = bytes.len() + 2;
        let mut cells = first_cells(states);
        loop {
            let mut tables = Tables::with_slots(ends.len(), cells);
            let mut work = Work::with_slots(states, ends.len(), cells);
            match lent::build(kind as u32, &bytes, &ends, &values, &mut work, &mut tables) {
                Ok(()) => {
                    shrink(&mut tables);
                    return Ok(Matcher { tables });
                }
                // Only placing tells how many cells a list needs.
                Err((7, _)) if cells < MOST_CELLS => cells = MOST_CELLS.min(cells * 4),
                Err((number, row)) => return Err(Refusal::told(number, row as usize)),
            }
        }
    }

    /// Every occurrence of every pattern, by its end; at one end the longer first, equal ones in list order.
    ///
    /// # Errors
    /// 9 for a leftmost kind, 10 for a text above 65,536 bytes.
    pub fn overlapping<'a>(&'a self, text: &'a [u8]) -> Result<Matches<'a>, Refusal> {
        Matches::begin(Which::Overlapping, &self.tables, text)
    }

    /// The match that ends first, the longest such; then the same from its end on.
    ///
    /// ```
    /// use rotspangle::{Kind, Matcher};
    ///
    /// let crew = Matcher::new(Kind::Standard, ["T10", "T100"])?;
    /// let found: Vec<_> = crew.plain(b"T100")?.collect();
    /// assert_eq!(found.len(), 1);
    /// assert_eq!((found[0].start, found[0].end, found[0].value), (0, 3, 0));
    /// # Ok::<(), rotspangle::Refusal>(())
    /// ```
    ///
    /// # Errors
    /// 9 for a leftmost kind, 10 for a text above 65,536 bytes.
    pub fn plain<'a>(&'a self, text: &'a [u8]) -> Result<Matches<'a>, Refusal> {
        Matches::begin(Which::Plain, &self.tables, text)
    }

    /// The match that starts first, chosen by the kind among those; then the same from its end on.
    ///
    /// # Errors
    /// 9 for kind Standard, 10 for a text above 65,536 bytes.
    pub fn leftmost<'a>(&'a self, text: &'a [u8]) -> Result<Matches<'a>, Refusal> {
        Matches::begin(Which::Leftmost, &self.tables, text)
    }

    /// The tables, for [`lent::fill`] and for looking at them.
    pub fn tables(&self) -> &Tables {
        &self.tables
    }

    /// What the build said of them.
    pub fn counts(&self) -> Counts {
        self.tables.counts
    }
}

/// Cell slots to begin with: blocks of 256 for a third more cells than states. It is a guess, which a build refused by 7 corrects.
fn first_cells(states: usize) -> usize {
    MOST_CELLS.min((states + states / 3).div_ceil(256).saturating_mul(256))
}

/// Keeps the slots in use alone.
fn shrink(tables: &mut Tables) {
    let cells = tables.counts.cells as usize;
    for column in [&mut tables.base, &mut tables.link, &mut tables.output] {
        column.truncate(cells);
        column.shrink_to_fit();
    }
    for column in [&mut tables.check, &mut tables.depth] {
        column.truncate(cells);
        column.shrink_to_fit();
    }
    tables.outs.truncate(tables.counts.accepted as usize);
    tables.outs.shrink_to_fit();
}
