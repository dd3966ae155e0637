//! A matcher beside the recorded answers of the crate: every list, every cell, every match.

mod sample;

use rotspangle::{Match, Matcher, Matches, Refusal};
use sample::{cases, Case, Found};

fn built(case: &Case) -> Result<Matcher, Refusal> {
    let patterns = case.patterns.iter();
    Matcher::with_values(case.kind, patterns.map(|(bytes, value)| (bytes, *value)))
}

fn wide(bytes: &[u8]) -> Vec<u32> {
    bytes.iter().map(|byte| u32::from(*byte)).collect()
}

#[test]
fn every_list_is_built_as_the_crate_builds_it() {
    let cases = cases();
    assert!(cases.len() > 388, "the sample has lists");
    let mut shown = 0;
    for case in cases.iter().filter(|case| case.refusal[0] == 0) {
        let matcher = built(case).expect("within the limits");
        let counts = matcher.counts();
        let ours = [counts.kind, counts.accepted, counts.states, counts.cells];
        assert_eq!(ours, case.counts);
        let tables = matcher.tables();
        assert_eq!(tables.outs.as_flattened(), case.outputs);
        if let [base, link, output, check, depth] = case.columns.as_slice() {
            assert_eq!(tables.base, *base);
            assert_eq!(tables.link, *link);
            assert_eq!(tables.output, *output);
            assert_eq!(wide(&tables.check), *check);
            assert_eq!(wide(&tables.depth), *depth);
            shown += base.len();
        }
    }
    assert!(shown > 100_000, "the sample shows cells");
}

#[test]
fn every_text_is_searched_as_the_crate_searches_it() {
    let mut searches = 0;
    for case in cases().iter().filter(|case| case.refusal[0] == 0) {
        let matcher = built(case).expect("within the limits");
        for text in &case.texts {
            let found = [
                matcher.overlapping(&text.bytes),
                matcher.plain(&text.bytes),
                matcher.leftmost(&text.bytes),
            ];
            for (ours, due) in found.into_iter().zip(&text.found) {
                searches += 1;
                match ours {
                    Ok(ours) => same(ours, due),
                    Err(refusal) => assert_eq!(refusal.number(), due.refusal),
                }
            }
        }
    }
    assert!(searches > 1_000, "the sample has texts");
}

fn same(mut ours: Matches, due: &Found) {
    let matches: Vec<Match> = ours.by_ref().collect();
    assert_eq!(due.refusal, 0);
    assert_eq!(matches, due.matches);
    assert_eq!(ours.moves(), u64::from(due.moves));
    assert_eq!(ours.next(), None, "the end again");
}

#[test]
fn every_list_beyond_a_limit_is_refused() {
    let mut met = vec![];
    for case in cases().iter().filter(|case| case.refusal[0] != 0) {
        let refusal = built(case).expect_err("beyond a limit");
        assert_eq!([refusal.number(), row(refusal)], case.refusal);
        met.push(refusal.number());
    }
    for number in [3, 4, 5, 7] {
        assert!(met.contains(&number), "the sample has refusal {number}");
    }
}

/// The row that a refusal names, or 0.
fn row(refusal: Refusal) -> u32 {
    match refusal {
        Refusal::Empty { row } | Refusal::TooLong { row } => row as u32,
        _ => 0,
    }
}
