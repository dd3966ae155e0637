//! Tables of good builds, to be damaged.

use super::watch::watched;
use oracle::damage::{Counts, Tables};
use oracle::dice::Dice;
use oracle::families::{crowded, fibre, random, window};
use oracle::question::Question;
use oracle::tables::Pattern;
use rotspangle::{Kind, Matcher};
use std::sync::OnceLock;

pub struct Entry {
    pub tables: Tables,
    /// The cells of states.
    pub states: Vec<usize>,
    pub patterns: Vec<Pattern>,
    pub letters: Vec<u8>,
}

/// Small lists, larger ones, and one near 65,536 cells, which is made when it is first wanted.
pub struct Pool {
    small: Vec<Entry>,
    large: Vec<Entry>,
    vast: OnceLock<Vec<Entry>>,
}

const SEED: u64 = 20_261_115;

impl Pool {
    pub fn new() -> Result<Pool, String> {
        let mut dice = Dice::new(SEED);
        let small: Vec<Question> = (0..240)
            .map(|index| random::small(&mut dice, [1, 2, 3, 4, 26, 256][index % 6]))
            .collect();
        let mut large: Vec<Question> = (0..6)
            .map(|_| random::several_blocks(&mut dice, 50))
            .collect();
        large.push(fibre::question(&mut dice, 900));
        large.push(window::question(&mut dice));
        Ok(Pool {
            small: entries(&small)?,
            large: entries(&large)?,
            vast: OnceLock::new(),
        })
    }

    /// A small one mostly: flipped bits meet a walk there more often.
    pub fn pick(&self, dice: &mut Dice) -> &Entry {
        match dice.below(2000) {
            0 => dice.pick(self.vast.get_or_init(vast)),
            1..=60 => dice.pick(&self.large),
            _ => dice.pick(&self.small),
        }
    }
}

fn vast() -> Vec<Entry> {
    let question = crowded::question(&mut Dice::new(SEED), 945);
    entries(&[question]).expect("945 patterns fit")
}

fn entries(questions: &[Question]) -> Result<Vec<Entry>, String> {
    let kinds = [Kind::Standard, Kind::LeftmostLongest, Kind::LeftmostFirst];
    let mut entries = vec![];
    for question in questions {
        for kind in kinds {
            entries.push(entry(question, kind)?);
        }
    }
    Ok(entries)
}

fn entry(question: &Question, kind: Kind) -> Result<Entry, String> {
    let patterns = &question.list.patterns;
    let pairs = patterns.iter().map(|p| (&p.bytes, p.value));
    let built = watched(|| Matcher::with_values(kind, pairs))
        .map_err(|refusal| format!("{}: {refusal}", question.name))?;
    let built = built.tables();
    let is_state = |cell: &usize| *cell == 0 || built.depth[*cell] > 0;
    let mut letters: Vec<u8> = patterns.iter().flat_map(|p| p.bytes.clone()).collect();
    letters.sort();
    letters.dedup();
    Ok(Entry {
        states: (0..built.base.len()).filter(is_state).collect(),
        tables: Tables {
            base: built.base.clone(),
            link: built.link.clone(),
            output: built.output.clone(),
            check: built.check.clone(),
            depth: built.depth.clone(),
            outs: built.outs.clone(),
            counts: Counts {
                kind: built.counts.kind,
                accepted: built.counts.accepted,
                states: built.counts.states,
                cells: built.counts.cells,
            },
        },
        patterns: patterns.clone(),
        letters,
    })
}
