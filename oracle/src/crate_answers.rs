//! The crate's answers. Its tables are private, but `serialize()` writes them
//! all: this file reads that form, and runs the crate's searches.

use crate::tables::{Cell, Found, List, Match, Output, Tables};
use daachorse::{DoubleArrayAhoCorasick, DoubleArrayAhoCorasickBuilder, MatchKind};

/// An automaton that the crate built, prefilter off.
pub struct Built {
    automaton: DoubleArrayAhoCorasick<u32>,
    is_standard: bool,
}

pub fn build(list: &List) -> Result<Built, String> {
    let patterns = list.patterns.iter().map(|p| (&p.bytes, p.value));
    let automaton = DoubleArrayAhoCorasickBuilder::new()
        .match_kind(MatchKind::from(list.kind))
        .use_prefilter(false)
        .build_with_values(patterns)
        .map_err(|error| format!("the crate refuses: {error}"))?;
    Ok(Built {
        automaton,
        is_standard: list.is_standard(),
    })
}

impl Built {
    pub fn tables(&self) -> Result<Tables, String> {
        let tables = read_tables(&self.automaton.serialize())
            .ok_or("the crate's saved form has another shape than expected")?;
        if tables.states as usize != self.automaton.num_states() {
            return Err("the crate's saved form and num_states() differ".to_string());
        }
        Ok(tables)
    }

    pub fn found(&self, text: &[u8]) -> Found {
        if self.is_standard {
            Found::Standard {
                overlapping: gather(self.automaton.find_overlapping_iter(text)),
                plain: gather(self.automaton.find_iter(text)),
            }
        } else {
            Found::Leftmost(gather(self.automaton.leftmost_find_iter(text)))
        }
    }
}

fn gather(matches: impl Iterator<Item = daachorse::Match<u32>>) -> Vec<Match> {
    let ours = |m: daachorse::Match<u32>| Match {
        start: m.start() as u32,
        end: m.end() as u32,
        value: m.value(),
    };
    matches.map(ours).collect()
}

/// Reads little-endian numbers from the front of the saved form.
struct Saved<'a>(&'a [u8]);

impl Saved<'_> {
    fn byte(&mut self) -> Option<u8> {
        let (first, rest) = self.0.split_first()?;
        self.0 = rest;
        Some(*first)
    }

    fn number(&mut self) -> Option<u32> {
        let four = [self.byte()?, self.byte()?, self.byte()?, self.byte()?];
        Some(u32::from_le_bytes(four))
    }

    /// A count, then that many items.
    fn counted<T>(&mut self, item: impl Fn(&mut Self) -> Option<T>) -> Option<Vec<T>> {
        let count = self.number()?;
        (0..count).map(|_| item(self)).collect()
    }
}

/// Standard kinds save whole cells; leftmost kinds save cells without their
/// links, and the links apart. The unused tables are there, with count 0.
fn read_tables(bytes: &[u8]) -> Option<Tables> {
    let mut saved = Saved(bytes);
    let whole_cells = saved.counted(read_whole_cell)?;
    let linkless_cells = saved.counted(read_linkless_cell)?;
    let links = saved.counted(Saved::number)?;
    let outputs = saved.counted(read_output)?;
    let kind = saved.byte()?;
    let states = saved.number()?;
    let prefilter = saved.byte()?;
    if prefilter != 0 || !saved.0.is_empty() || linkless_cells.len() != links.len() {
        return None;
    }
    let cells = match kind {
        0 if linkless_cells.is_empty() => whole_cells,
        1 | 2 if whole_cells.is_empty() => join_links(linkless_cells, &links),
        _ => return None,
    };
    Some(Tables {
        states,
        cells,
        outputs,
    })
}

fn join_links(mut cells: Vec<Cell>, links: &[u32]) -> Vec<Cell> {
    for (cell, link) in cells.iter_mut().zip(links) {
        cell.link = *link;
    }
    cells
}

fn read_whole_cell(saved: &mut Saved) -> Option<Cell> {
    let base = saved.number()?;
    let link = saved.number()?;
    let packed = saved.number()?;
    Some(unpack(base, link, packed))
}

fn read_linkless_cell(saved: &mut Saved) -> Option<Cell> {
    let base = saved.number()?;
    let packed = saved.number()?;
    Some(unpack(base, 0, packed))
}

/// Output place and check share a number: three high bytes and the lowest one.
fn unpack(base: u32, link: u32, packed: u32) -> Cell {
    Cell {
        base,
        link,
        output: packed >> 8,
        check: packed & 0xff,
    }
}

fn read_output(saved: &mut Saved) -> Option<Output> {
    Some(Output {
        value: saved.number()?,
        length: saved.number()?,
        next: saved.number()?,
    })
}
