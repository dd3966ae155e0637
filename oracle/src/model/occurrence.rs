//! Matches by plain occurrence: every listed pattern is tried at every place of
//! the text, and the three lists are chosen from what occurs as document 01
//! says. No state, no link and no table is used.

use crate::tables::{Found, List, Match, LEFTMOST_LONGEST};
use std::cmp::Reverse;

/// A listed pattern that stands in the text.
#[derive(Clone, Copy)]
struct Occurrence {
    start: usize,
    end: usize,
    index: usize,
}

pub fn found(list: &List, text: &[u8]) -> Found {
    let all = occurrences(list, text);
    if list.is_standard() {
        Found::Standard {
            overlapping: matches(list, overlapping(&all)),
            plain: matches(list, chosen(&all, |o| (o.end, o.start, o.index))),
        }
    } else if list.kind == LEFTMOST_LONGEST {
        let longest = |o: &Occurrence| (o.start, Reverse(o.end), o.index);
        Found::Leftmost(matches(list, chosen(&all, longest)))
    } else {
        Found::Leftmost(matches(list, chosen(&all, |o| (o.start, o.index))))
    }
}

fn occurrences(list: &List, text: &[u8]) -> Vec<Occurrence> {
    let mut all = vec![];
    for start in 0..text.len() {
        for (index, pattern) in list.patterns.iter().enumerate() {
            if text[start..].starts_with(&pattern.bytes) {
                let end = start + pattern.bytes.len();
                all.push(Occurrence { start, end, index });
            }
        }
    }
    all
}

/// All of them: by end, then the longest, then the earliest listed.
fn overlapping(all: &[Occurrence]) -> Vec<Occurrence> {
    let mut ordered = all.to_vec();
    ordered.sort_by_key(|o| (o.end, o.start, o.index));
    ordered
}

/// From place p on, again and again the least by the key; p becomes its end.
fn chosen<K: Ord>(all: &[Occurrence], key: impl Fn(&Occurrence) -> K) -> Vec<Occurrence> {
    let mut chosen: Vec<Occurrence> = vec![];
    let mut place = 0;
    while let Some(next) = all
        .iter()
        .filter(|o| o.start >= place)
        .min_by_key(|o| key(o))
    {
        chosen.push(*next);
        place = next.end;
    }
    chosen
}

fn matches(list: &List, occurrences: Vec<Occurrence>) -> Vec<Match> {
    let as_match = |o: Occurrence| Match {
        start: o.start as u32,
        end: o.end as u32,
        value: list.patterns[o.index].value,
    };
    occurrences.into_iter().map(as_match).collect()
}
