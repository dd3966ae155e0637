//! The questions of the recorded sample, in its order. What a list is there to
//! show is checked here, so that the sample cannot lose it unseen.

use super::{crowded, fibre, fixed, random, window};
use crate::dice::Dice;
use crate::model::Model;
use crate::question::Question;
use crate::tables::{LEFTMOST_FIRST, STANDARD};

const SEED: u64 = 20_260_501;
const LISTS_FOR_EACH_ALPHABET: usize = 12;

pub fn questions() -> Result<Vec<Question>, String> {
    let mut questions = fixed::case_table();
    questions.extend(fixed::limits());
    questions.extend(fixed::end_bytes());
    questions.extend(fixed::equal_patterns());
    questions.extend(fixed::prefixes_and_suffixes());
    questions.extend(fixed::leftmost_traps());
    questions.extend(small_lists());
    questions.extend(several_blocks());
    questions.extend(fibre::question(&mut Dice::new(SEED), 900).in_all_kinds());
    questions.extend(full_block()?);
    questions.extend(window_lists()?);
    questions.extend(crowded_lists()?);
    Ok(questions)
}

fn small_lists() -> Vec<Question> {
    let mut dice = Dice::new(SEED + 1);
    let mut questions = vec![];
    for letters in [1, 2, 3, 4, 26, 256] {
        for _ in 0..LISTS_FOR_EACH_ALPHABET {
            questions.extend(random::small(&mut dice, letters).in_all_kinds());
        }
    }
    questions
}

fn several_blocks() -> Vec<Question> {
    let mut dice = Dice::new(SEED + 2);
    let lists = [40, 70].map(|count| random::several_blocks(&mut dice, count));
    let mut questions: Vec<Question> = lists.iter().flat_map(Question::in_all_kinds).collect();
    questions.push(random::several_blocks(&mut dice, 180));
    questions
}

/// All 256 bases of block 1 are used.
fn full_block() -> Result<Vec<Question>, String> {
    let question = fixed::full_block();
    let cells = Model::of(&question.list).tables().cells;
    let in_block = cells.iter().filter(|cell| (256..512).contains(&cell.base));
    if in_block.count() != 256 {
        return Err("the full block is not full".to_string());
    }
    Ok(question.in_all_kinds())
}

/// Lists of 16 blocks, where only a smaller window can be seen, and of more,
/// where 15 blocks, 17 blocks and no window at all each give other cells.
fn window_lists() -> Result<Vec<Question>, String> {
    let mut dice = Dice::new(SEED + 3);
    let mut questions = vec![];
    for (spread, small, kind, shown) in [
        (16, 3, STANDARD, "15"),
        (17, 3, STANDARD, "15, 17, none"),
        (18, 4, STANDARD, "15, 17, none"),
        (20, 5, STANDARD, "15, 17, none"),
        (24, 6, STANDARD, "15, 17, none"),
        (19, 4, LEFTMOST_FIRST, "15, 17, none"),
    ] {
        let question = window::with_groups(&mut dice, spread, small);
        if window::shown_windows(&question.list).join(", ") != shown {
            return Err(format!("{} does not show {shown}", question.name));
        }
        questions.push(Question {
            name: format!("{}, other cells with a window of {shown}", question.name),
            list: question.list.of_kind(kind),
            ..question
        });
    }
    Ok(questions)
}

/// The most cells that are allowed, and one block more.
fn crowded_lists() -> Result<Vec<Question>, String> {
    let mut questions = vec![];
    for (count, cells) in [(954, 65_536), (955, 65_792)] {
        let question = crowded::question(&mut Dice::new(SEED + 4), count);
        if Model::of(&question.list).tables().cells.len() != cells {
            return Err(format!("{} does not need {cells} cells", question.name));
        }
        questions.push(question);
    }
    Ok(questions)
}
