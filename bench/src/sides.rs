//! The contestants of a search: our library with a sheet for the whole text, our iterator, the
//! crate's iterator with its prefilter off, and a plain loop over our tables. All of them do the
//! same with each match (`Sum::add`).

use crate::lists::Listed;
use crate::loops;
use crate::race::Contestant;
use crate::sum::Sum;
use daachorse::{DoubleArrayAhoCorasick, DoubleArrayAhoCorasickBuilder, MatchKind};
use rotspangle::lent::{self, Record, Search, Stop, Tables, Which};
use rotspangle::{Kind, Match, Matcher};

/// The crate's automaton.
pub type Theirs = DoubleArrayAhoCorasick<u32>;

/// A search, and the kind of tables that it is done on.
#[derive(Clone, Copy)]
pub struct Way {
    pub name: &'static str,
    pub which: Which,
    pub kind: Kind,
}

pub const OVERLAPPING: Way = Way {
    name: "overlapping",
    which: Which::Overlapping,
    kind: Kind::Standard,
};

pub const WAYS: [Way; 4] = [
    OVERLAPPING,
    Way {
        name: "plain",
        which: Which::Plain,
        kind: Kind::Standard,
    },
    Way {
        name: "leftmost, longest",
        which: Which::Leftmost,
        kind: Kind::LeftmostLongest,
    },
    Way {
        name: "leftmost, first",
        which: Which::Leftmost,
        kind: Kind::LeftmostFirst,
    },
];

/// The places of the contestants.
pub const SHEET: usize = 0;
pub const ITERATOR: usize = 1;
pub const CRATE: usize = 2;
pub const LOOP: usize = 3;

/// A list as either side has built it.
pub struct Sides {
    ours: Matcher,
    theirs: Theirs,
}

impl Sides {
    pub fn build(list: &Listed, kind: Kind) -> Result<Sides, String> {
        Ok(Sides {
            ours: build_ours(list, kind)?,
            theirs: build_theirs(list, kind)?,
        })
    }

    /// The contestants of a search over these texts, one after the other.
    pub fn contestants<'a>(&'a self, which: Which, texts: &'a [&[u8]]) -> Vec<Contestant<'a>> {
        let tables = self.ours.tables();
        let most = texts
            .iter()
            .map(|text| in_theirs(&self.theirs, which, text, Sum::default()).count);
        let mut sheet = vec![[0; 3]; most.max().unwrap_or(0) + 1];
        vec![
            each("ours, sheet", texts, move |text, sum| {
                in_sheet(tables, which, text, &mut sheet, sum)
            }),
            each("ours, iterator", texts, move |text, sum| {
                in_turn(&self.ours, which, text, sum)
            }),
            each("crate", texts, move |text, sum| {
                in_theirs(&self.theirs, which, text, sum)
            }),
            each("loop", texts, move |text, sum| {
                in_loop(tables, which, text, sum)
            }),
        ]
    }
}

pub fn build_ours(list: &Listed, kind: Kind) -> Result<Matcher, String> {
    Matcher::with_values(kind, list.patterns.iter().map(|p| (&p.bytes, p.value)))
        .map_err(|refusal| format!("{}: {refusal}", list.name))
}

pub fn build_theirs(list: &Listed, kind: Kind) -> Result<Theirs, String> {
    DoubleArrayAhoCorasickBuilder::new()
        .match_kind(MatchKind::from(kind as u8))
        .use_prefilter(false)
        .build_with_values(list.patterns.iter().map(|p| (&p.bytes, p.value)))
        .map_err(|error| format!("{}: the crate refuses: {error}", list.name))
}

/// A contestant that searches each text and folds all matches into one sum.
fn each<'a>(
    name: &'static str,
    texts: &'a [&[u8]],
    mut search: impl FnMut(&[u8], Sum) -> Sum + 'a,
) -> Contestant<'a> {
    Contestant::new(name, move || {
        texts
            .iter()
            .fold(Sum::default(), |sum, text| search(text, sum))
    })
}

/// One call fills the sheet, which has a slot for each match and one more.
fn in_sheet(tables: &Tables, which: Which, text: &[u8], sheet: &mut [Record], mut sum: Sum) -> Sum {
    let mut value = Search::default();
    let (written, stop) = lent::fill(which, tables, text, &mut value, sheet);
    assert_eq!(stop, Stop::Ended, "a whole text fits its sheet");
    for &[start, end, value] in &sheet[..written] {
        sum.add(start, end, value as u32);
    }
    sum
}

fn in_turn(ours: &Matcher, which: Which, text: &[u8], mut sum: Sum) -> Sum {
    let matches = match which {
        Which::Overlapping => ours.overlapping(text),
        Which::Plain => ours.plain(text),
        Which::Leftmost => ours.leftmost(text),
    };
    for Match { start, end, value } in matches.expect("the kind is that of the search") {
        sum.add(start, end, value);
    }
    sum
}

fn in_theirs(theirs: &Theirs, which: Which, text: &[u8], sum: Sum) -> Sum {
    match which {
        Which::Overlapping => folded(theirs.find_overlapping_iter(text), sum),
        Which::Plain => folded(theirs.find_iter(text), sum),
        Which::Leftmost => folded(theirs.leftmost_find_iter(text), sum),
    }
}

/// A function of its own for each of the crate's iterators, so that each has its own loop.
#[inline(never)]
fn folded(matches: impl Iterator<Item = daachorse::Match<u32>>, mut sum: Sum) -> Sum {
    for found in matches {
        sum.add(found.start(), found.end(), found.value());
    }
    sum
}

fn in_loop(tables: &Tables, which: Which, text: &[u8], sum: Sum) -> Sum {
    match which {
        Which::Overlapping => loops::overlapping(tables, text, sum),
        Which::Plain => loops::plain(tables, text, sum),
        Which::Leftmost => loops::leftmost(tables, text, sum),
    }
}
