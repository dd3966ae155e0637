//! Crate and model side by side. One question is compared whole: tables cell for
//! cell, outputs, and all matches. The command runs many questions and stops at
//! the first difference with a case that `oracle answer` reads.

use crate::cell_walk;
use crate::crate_answers::{self, Built};
use crate::dice::Dice;
use crate::families::{self, Family};
use crate::model::Model;
use crate::notation;
use crate::question::Question;
use crate::refusals::{in_ample_slots, Refusal};
use crate::tables::{Found, Tables};

/// The crate's answers, with our two numbers beside them.
pub struct Answers {
    /// Ours: the refusal that document 01 demands in ample slots, if any.
    pub refusal: Option<Refusal>,
    pub tables: Tables,
    /// For each text what the crate found; none where the list is refused.
    pub found: Vec<Found>,
    /// Ours: for each text the moves of the overlapping and the plain search;
    /// leftmost search reports 0.
    pub moves: Vec<[u32; 2]>,
}

impl Answers {
    /// For each text what was found, with the moves.
    pub fn searched(&self) -> impl Iterator<Item = (&Found, [u32; 2])> {
        self.found.iter().zip(self.moves.iter().copied())
    }
}

/// The crate's answers, whether the model agrees or not.
pub fn answers(question: &Question) -> Result<Answers, String> {
    let built = crate_answers::build(&question.list)?;
    let tables = built.tables()?;
    let refusal = in_ample_slots(&question.list, &tables);
    let (found, moves) = match refusal {
        None => searched(&built, question),
        Some(_) => (vec![], vec![]),
    };
    Ok(Answers {
        refusal,
        tables,
        found,
        moves,
    })
}

fn searched(built: &Built, question: &Question) -> (Vec<Found>, Vec<[u32; 2]>) {
    let model = Model::of(&question.list);
    let moves = |text: &Vec<u8>| match question.list.is_standard() {
        true => [model.overlapping_moves(text), model.plain_moves(text)],
        false => [0, 0],
    };
    let found = |text: &Vec<u8>| built.found(text);
    (
        question.texts.iter().map(found).collect(),
        question.texts.iter().map(moves).collect(),
    )
}

/// Where the model and the crate's answers differ first. Empty patterns are
/// outside the model, as they are outside document 01.
pub fn difference(question: &Question, answers: &Answers) -> Result<(), String> {
    if question.has_empty_pattern() {
        return Ok(());
    }
    let model = Model::of(&question.list);
    same_tables(&answers.tables, &model.tables())?;
    let depths = cell_walk::depths(&question.list, &answers.tables.cells);
    same("depths", &depths, &model.depths())?;
    if !model.hunt_agrees() {
        return Err("the two tellings of the links differ".to_string());
    }
    if !model.probes_are_exact(&answers.tables.cells) {
        return Err("a probe is not exact".to_string());
    }
    for (index, found) in answers.found.iter().enumerate() {
        let text = &question.texts[index];
        let told = |error| format!("text {text:?}: {error}");
        same("found", found, &model.found(text)).map_err(told)?;
        if question.list.is_standard() {
            same_moves(&answers.tables, text, answers.moves[index]).map_err(told)?;
        }
    }
    Ok(())
}

/// Both counts are ours: one over the crate's cells, one over strings.
fn same_moves(tables: &Tables, text: &[u8], over_strings: [u32; 2]) -> Result<(), String> {
    let over_cells = moves_over_cells(tables, text);
    if over_cells == over_strings {
        return Ok(());
    }
    Err(format!(
        "moves over cells {over_cells:?}, over strings {over_strings:?}"
    ))
}

fn moves_over_cells(tables: &Tables, text: &[u8]) -> [u32; 2] {
    [false, true].map(|restarts| cell_walk::moves(&tables.cells, text, restarts))
}

fn same_tables(crates: &Tables, models: &Tables) -> Result<(), String> {
    same("states", &crates.states, &models.states)?;
    same("number of cells", &crates.cells.len(), &models.cells.len())?;
    same("accepted", &crates.outputs.len(), &models.outputs.len())?;
    for (number, pair) in crates.cells.iter().zip(&models.cells).enumerate() {
        same(&format!("cell {number}"), pair.0, pair.1)?;
    }
    for (place, pair) in crates.outputs.iter().zip(&models.outputs).enumerate() {
        same(&format!("output {}", place + 1), pair.0, pair.1)?;
    }
    Ok(())
}

fn same<T: PartialEq + std::fmt::Debug>(what: &str, crates: &T, models: &T) -> Result<(), String> {
    if crates == models {
        return Ok(());
    }
    Err(format!("{what}: crate {crates:?}, model {models:?}"))
}

/// Compares one question and tells how many answers agreed: the tables, and one
/// for each text.
pub fn compare(question: &Question) -> Result<usize, String> {
    Ok(1 + agreed(question)?.found.len())
}

/// The crate's answers, with which the model agrees.
pub fn agreed(question: &Question) -> Result<Answers, String> {
    let told = |told: String| replayable(question, &told);
    let answers = answers(question).map_err(told)?;
    difference(question, &answers).map_err(told)?;
    Ok(answers)
}

fn replayable(question: &Question, told: &str) -> String {
    let case = notation::write_question(question);
    format!("{}: {told}\n{case}", question.name)
}

/// `oracle compare N`: N lists of each family, and all lists of up to 2 patterns
/// of up to 2 bytes with all texts of up to 4 bytes; everything in three kinds.
pub fn run(lists: usize) -> Result<String, String> {
    let mut told = vec![];
    for family in families::all() {
        told.push(run_family(&family, lists)?);
    }
    told.push(run_exhaustive(2, 2, 4)?);
    Ok(told.join("\n"))
}

fn run_family(family: &Family, lists: usize) -> Result<String, String> {
    let mut dice = Dice::new(family.seed);
    let mut tally = Tally::default();
    for _ in 0..lists.div_ceil(family.cost) {
        tally.compare(&(family.make)(&mut dice))?;
    }
    Ok(tally.told(family.name))
}

/// `oracle exhaustive P B T`: all lists of up to P patterns of up to B bytes
/// over two letters, all texts of up to T bytes.
pub fn run_exhaustive(patterns: usize, bytes: usize, text: usize) -> Result<String, String> {
    let texts = families::exhaustive::strings(text);
    let mut tally = Tally::default();
    for list in families::exhaustive::lists(patterns, bytes) {
        tally.compare(&Question::new("exhaustive", list, texts.clone()))?;
    }
    Ok(tally.told("exhaustive"))
}

#[derive(Default)]
struct Tally {
    lists: usize,
    answers: usize,
}

impl Tally {
    fn compare(&mut self, question: &Question) -> Result<(), String> {
        for question in question.in_all_kinds() {
            self.answers += compare(&question)?;
            self.lists += 1;
        }
        Ok(())
    }

    fn told(&self, name: &str) -> String {
        let Tally { lists, answers } = self;
        format!("compare: {name}: {lists} lists, {answers} answers agree")
    }
}
