//! One question, compared whole: the build in its ways, then every text by every search of the kind.

use super::builds::{self, WAYS};
use super::expected::Expected;
use super::fault::Fault;
use super::searches::{refused, Asked, SIZES};
use super::tally::Tally;
use oracle::cell_walk;
use oracle::families::window;
use oracle::model::Model;
use oracle::question::Question;
use oracle::tables::{Found, List};
use rotspangle::lent::{Tables, Which};
use rotspangle::Matcher;

const LONGEST_TEXT: usize = 65_536;

/// How much is asked of a question.
#[derive(Clone, Copy)]
pub struct Care {
    /// Whether all kinds are built in lent slots, or kind 0 alone. A matcher builds them all.
    pub lent_in_all_kinds: bool,
    /// With how many sizes of sheets a search is run.
    pub sheets: usize,
    /// In how many ways a slot is taken away from a build.
    pub ways: usize,
    /// On how many texts the moves are counted over strings too.
    pub over_strings: usize,
    /// Whether to ask if the list shows the window of 16 blocks.
    pub window: bool,
}

impl Care {
    pub const WHOLE: Care = Care {
        lent_in_all_kinds: true,
        sheets: SIZES.len(),
        ways: WAYS,
        over_strings: usize::MAX,
        window: false,
    };
}

/// What differs, and the text on which it does.
pub struct Difference {
    pub told: String,
    pub text: Option<usize>,
}

impl From<String> for Difference {
    fn from(told: String) -> Difference {
        Difference { told, text: None }
    }
}

/// `turn` says which sizes and ways come first where not all are asked.
pub fn judge(
    question: &Question,
    care: Care,
    turn: usize,
    fault: Fault,
) -> Result<Tally, Difference> {
    let fault = fault.on(&question.list);
    let expected = Expected::of(&question.list)?;
    let mut tally = Tally::default();
    let matcher = builds::matcher(&expected)?;
    let is_lent = care.lent_in_all_kinds || question.list.is_standard();
    let tables = match is_lent {
        true => builds::ample(&expected, fault)?,
        false => matcher.as_ref().map(|matcher| matcher.tables().clone()),
    };
    let (Some(tables), Some(matcher)) = (tables, matcher) else {
        tally.refused = 1;
        return Ok(tally);
    };
    tally.built = 1;
    tally.cells = (1 + u64::from(is_lent)) * u64::from(tables.counts.cells);
    if care.window && question.list.is_standard() {
        tally.window = u64::from(shows_window(&question.list));
    }
    if care.ways > 0 {
        builds::exact(&expected, fault)?;
        for way in turn..turn + care.ways {
            builds::one_too_few(&expected, way, fault)?;
        }
        tally.slots = 1 + care.ways as u64;
    }
    for which in [Which::Overlapping, Which::Plain, Which::Leftmost] {
        if (which == Which::Leftmost) == question.list.is_standard() {
            refused(&matcher, which, b"", 9)?;
        }
    }
    let judge = Judge {
        expected: &expected,
        model: (care.over_strings > 0).then(|| Model::of(&question.list)),
        tables,
        matcher,
        care,
        fault,
    };
    for (index, text) in question.texts.iter().enumerate() {
        let at_text = |told| Difference {
            told,
            text: Some(index),
        };
        judge.text(index, text, turn, &mut tally).map_err(at_text)?;
    }
    Ok(tally)
}

/// Whether a window of 15 blocks, of 17 and none would each give other cells.
fn shows_window(list: &List) -> bool {
    window::shown_windows(list).len() == 3
}

struct Judge<'a> {
    expected: &'a Expected<'a>,
    model: Option<Model<'a>>,
    tables: Tables,
    matcher: Matcher,
    care: Care,
    fault: Fault,
}

impl Judge<'_> {
    fn text(
        &self,
        index: usize,
        text: &[u8],
        turn: usize,
        tally: &mut Tally,
    ) -> Result<(), String> {
        if text.len() > LONGEST_TEXT {
            return self.refuses(text, tally);
        }
        let cells = &self.expected.tables.cells;
        let searches = match self.expected.built.found(text) {
            Found::Standard { overlapping, plain } => vec![
                (
                    Which::Overlapping,
                    overlapping,
                    cell_walk::steps(cells, text, false),
                ),
                (Which::Plain, plain, cell_walk::steps(cells, text, true)),
            ],
            Found::Leftmost(matches) => vec![(Which::Leftmost, matches, vec![])],
        };
        for (which, matches, steps) in &searches {
            let asked = Asked {
                which: *which,
                text,
                matches,
                steps,
            };
            let told = |error| format!("{which:?} on text {index}: {error}");
            self.search(&asked, index + turn, tally).map_err(told)?;
            if index < self.care.over_strings {
                self.same_over_strings(&asked, tally)?;
            }
        }
        Ok(())
    }

    fn search(&self, asked: &Asked, turn: usize, tally: &mut Tally) -> Result<(), String> {
        for size in turn..turn + self.care.sheets {
            let size = SIZES[size % SIZES.len()];
            let told = |error| format!("sheet of {size}: {error}");
            asked.run(&self.tables, size, self.fault).map_err(told)?;
        }
        asked.run_matcher(&self.matcher)?;
        tally.searches += 1;
        tally.runs += self.care.sheets as u64 + 1;
        tally.matches += asked.matches.len() as u64;
        Ok(())
    }

    /// The walk over strings against the one over the crate's cells, which ours was held to.
    fn same_over_strings(&self, asked: &Asked, tally: &mut Tally) -> Result<(), String> {
        let Some(model) = &self.model else {
            return Ok(());
        };
        let over_strings = match asked.which {
            Which::Overlapping => model.overlapping_moves(asked.text),
            Which::Plain => model.plain_moves(asked.text),
            Which::Leftmost => return Ok(()),
        };
        tally.over_strings += 1;
        let over_cells = asked.steps.last().map_or(0, |step| step.moves);
        if over_strings == over_cells {
            return Ok(());
        }
        Err(format!(
            "moves over strings {over_strings}, over cells {over_cells}"
        ))
    }

    fn refuses(&self, text: &[u8], tally: &mut Tally) -> Result<(), String> {
        let searches: &[Which] = match self.expected.list.is_standard() {
            true => &[Which::Overlapping, Which::Plain],
            false => &[Which::Leftmost],
        };
        for which in searches {
            refused(&self.matcher, *which, text, 10)?;
            tally.searches += 1;
            tally.runs += 2;
        }
        Ok(())
    }
}

/// The same question with the text alone on which it differs.
pub fn narrowed(question: &Question, difference: &Difference) -> Question {
    let texts: Vec<Vec<u8>> = match difference.text {
        Some(index) => vec![question.texts[index].clone()],
        None => vec![],
    };
    Question {
        texts,
        ..question.clone()
    }
}
