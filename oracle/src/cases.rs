//! The case table of document 01, written down from the document, against the
//! crate and against the model.

use crate::compare::{answers, difference, Answers};
use crate::families::fixed;
use crate::model::Model;
use crate::question::Question;
use crate::tables::{Cell, Found, Match, Output, Tables};
use crate::tables::{LEFTMOST_FIRST, LEFTMOST_LONGEST, STANDARD};
use std::fmt::Debug;

/// Counts the answers that agree; the first that does not ends the run.
struct Table {
    agreed: usize,
}

pub fn run() -> Result<String, String> {
    let mut table = Table { agreed: 0 };
    table.p1()?;
    table.p2_and_p3()?;
    table.p4()?;
    table.p5()?;
    table.p6()?;
    table.p7()?;
    table.p8()?;
    table.p9()?;
    table.edges()?;
    Ok(format!("cases: {} answers agree", table.agreed))
}

impl Table {
    fn agree<T: PartialEq + Debug>(&mut self, what: &str, given: T, said: T) -> Result<(), String> {
        if given != said {
            return Err(format!(
                "cases: {what}: given {given:?}, document 01 says {said:?}"
            ));
        }
        self.agreed += 1;
        Ok(())
    }

    /// The crate's answers to a case, which the model must give too.
    fn ask(&mut self, question: &Question) -> Result<Answers, String> {
        let answers = answers(question)?;
        difference(question, &answers)
            .map_err(|told| format!("cases: {}: {told}", question.name))?;
        self.agreed += 1 + answers.found.len();
        Ok(answers)
    }

    fn p1(&mut self) -> Result<(), String> {
        let question = fixed::bcd_ab_a();
        let given = self.ask(&question)?;
        self.agree("P1", given.tables, p1_tables())?;
        let mut depths = vec![0; 256];
        depths[2..8].copy_from_slice(&[2, 3, 1, 0, 2, 1]);
        self.agree("P1 depths", Model::of(&question.list).depths(), depths)
    }

    fn p2_and_p3(&mut self) -> Result<(), String> {
        let given = self.ask(&fixed::bcd_ab_a())?;
        let said = Found::Standard {
            overlapping: matches(&[(0, 1, 2), (0, 2, 1), (1, 4, 0)]),
            plain: matches(&[(0, 1, 2), (1, 4, 0)]),
        };
        self.agree("P2, P3", &given.found[0], &said)?;
        self.agree("P3 moves", given.moves[0][0], 5)
    }

    fn p4(&mut self) -> Result<(), String> {
        let given = self.ask(&fixed::he_she())?;
        let said = matches(&[(1, 4, 1), (2, 4, 0), (2, 6, 3)]);
        self.agree("P4", overlapping(&given), said)?;
        self.agree("P4 moves", given.moves[0][0], 7)
    }

    fn p5(&mut self) -> Result<(), String> {
        let given = self.ask(&fixed::aa())?;
        self.agree("P5 moves", given.moves[0][0], 5)
    }

    fn p6(&mut self) -> Result<(), String> {
        let longest = self.ask(&of_kind(fixed::t10_t100(), LEFTMOST_LONGEST))?;
        self.agree("P6 kind 1", leftmost(&longest), matches(&[(0, 4, 1)]))?;
        let first = self.ask(&of_kind(fixed::t10_t100(), LEFTMOST_FIRST))?;
        self.agree("P6 kind 2", leftmost(&first), matches(&[(0, 3, 0)]))?;
        self.agree("P6 kind 2 accepted", first.tables.outputs.len(), 1)?;
        self.agree("P6 kind 2 states", first.tables.states, 4)
    }

    fn p7(&mut self) -> Result<(), String> {
        let given = self.ask(&of_kind(fixed::t100_t10(), LEFTMOST_FIRST))?;
        self.agree("P7", leftmost(&given), matches(&[(0, 4, 0)]))?;
        self.agree("P7 accepted", given.tables.outputs.len(), 2)
    }

    fn p8(&mut self) -> Result<(), String> {
        let standard = self.ask(&of_kind(fixed::ab_twice(), STANDARD))?;
        let said = matches(&[(0, 2, 5), (0, 2, 7)]);
        self.agree("P8", overlapping(&standard), said)?;
        let longest = self.ask(&of_kind(fixed::ab_twice(), LEFTMOST_LONGEST))?;
        self.agree("P8 kind 1", leftmost(&longest), matches(&[(0, 2, 5)]))
    }

    fn p9(&mut self) -> Result<(), String> {
        let given = self.ask(&fixed::no_patterns())?;
        self.agree("P9 accepted", given.tables.outputs.len(), 0)?;
        self.agree("P9 states", given.tables.states, 1)?;
        self.agree("P9 cells", given.tables.cells.len(), 256)?;
        self.agree("P9 matches", overlapping(&given), vec![])?;
        self.agree("P9 moves", given.moves[0], [0, 0])
    }

    /// The crate takes all of these lists; the refusals are document 01's.
    fn edges(&mut self) -> Result<(), String> {
        let edges = [
            (fixed::long(64), 0),
            (fixed::long(65), 5),
            (fixed::listed(1024), 0),
            (fixed::listed(1025), 3),
        ];
        for (question, said) in edges {
            let given = self.ask(&question)?;
            let refusal = given.refusal.map_or(0, |(number, _)| number);
            self.agree(&question.name, refusal, said)?;
        }
        Ok(())
    }
}

fn of_kind(question: Question, kind: u8) -> Question {
    Question {
        list: question.list.of_kind(kind),
        ..question
    }
}

fn matches(said: &[(u32, u32, u32)]) -> Vec<Match> {
    said.iter()
        .map(|&(start, end, value)| Match { start, end, value })
        .collect()
}

/// What the first text's overlapping search found.
fn overlapping(given: &Answers) -> Vec<Match> {
    match &given.found[0] {
        Found::Standard { overlapping, .. } => overlapping.clone(),
        Found::Leftmost(_) => vec![],
    }
}

/// What the first text's leftmost search found.
fn leftmost(given: &Answers) -> Vec<Match> {
    match &given.found[0] {
        Found::Standard { .. } => vec![],
        Found::Leftmost(matches) => matches.clone(),
    }
}

/// P1, cell for cell: from 8 on a cell has only its check, equal to its number.
fn p1_tables() -> Tables {
    let first: [[u32; 4]; 8] = [
        [101, 0, 0, 0],
        [0, 0, 0, 1],
        [103, 0, 0, 99],
        [0, 0, 3, 100],
        [100, 0, 1, 97],
        [0, 0, 0, 5],
        [0, 7, 2, 98],
        [97, 0, 0, 98],
    ];
    let vacant = (8..256).map(|check| [0, 0, 0, check]);
    let cell = |[base, link, output, check]: [u32; 4]| Cell {
        base,
        link,
        output,
        check,
    };
    let output = |[value, length, next]: [u32; 3]| Output {
        value,
        length,
        next,
    };
    Tables {
        states: 6,
        cells: first.into_iter().chain(vacant).map(cell).collect(),
        outputs: [[2, 1, 0], [1, 2, 0], [0, 3, 0]].map(output).to_vec(),
    }
}
