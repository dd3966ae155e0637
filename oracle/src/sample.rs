//! Writes the recorded sample: lists that the crate answers, lists over scarce slots, and damaged
//! tables. What the crate answers is compared with the models before it is written.

use crate::cell_walk::depths;
use crate::compare::{agreed, answers, difference, Answers};
use crate::damage::{Answer, Counts, Notes, Tables, Value};
use crate::families::{self, scarce};
use crate::lent::{LentList, Slots};
use crate::notation::Writer;
use crate::question::Question;
use crate::refusals::{self, Refusal};
use crate::tables::{Found, Match};
use crate::wild::{self, searched, Course};

const HEAD: &str = "\
Recorded answers: of the crate daachorse 5.1.0 (byte part, prefilter off) to lists, and of a model
of document 01 to damaged tables. Only decimal numbers, blanks, line ends, remarks like this one,
and a semicolon after each case.

case     = 1, list, slots, refusal, index, counts, cells, outs, texts: a list that is built
         | 2, list, slots, refusal, index, counts, outs, texts: the same, its cells are left out
         | 3, counts, cells, outs, texts: tables that are searched as they are
list     = kind, bytes, ends, values: as it is handed over
slots    = how many are lent of trie, owns, notes, spots, base, link, output, check, depth, outs
counts   = kind, accepted, states (root counted, dead not), cells; after a refusal all 0
cells    = base, link, output, check, depth
outs     = length (3 to an output), the length again, 0, then value, length, next of each
texts    = number of texts, then for each: bytes, the value that the searches start from, and the
           answers of overlapping, plain and leftmost search
start    = state, output place, place and moves (two numbers each: times 2^32, and the rest)
answers  = number of calls, and for each
           1, start, end, value of the match, then state, output place, place, moves handed back
         | 2, state, output place, place, moves handed back: the end
         | 9, 10 or 11: the refusal, which hands back the value as it came in
All others are sequences: length, n, back, n numbers. Past these come zeros; or, where back is not
0, the last so many of them again and again.

How the tables are left where nothing is recorded of them is told by document 01: after refusals
1 to 5 as they were, else zero.";

/// What a case begins with.
const BUILT: u32 = 1;
const UNSEEN: u32 = 2;
const GIVEN: u32 = 3;

pub fn run() -> Result<String, String> {
    let mut writer = Writer::default();
    writer.remark(HEAD);
    for (number, question) in families::sample::questions()?.iter().enumerate() {
        let answers = agreed(question)?;
        write_question(&mut writer, question, &answers, number)?;
    }
    for case in scarce::cases() {
        write_scarce(&mut writer, &case)?;
    }
    for number in wild::cases() {
        write_wild(&mut writer, number);
    }
    Ok(writer.into_text())
}

/// A list of the crate's over just enough slots, or up to two more of a table.
fn write_question(
    writer: &mut Writer,
    question: &Question,
    answers: &Answers,
    number: usize,
) -> Result<(), String> {
    let list = LentList::of(&question.list);
    let mut slots = Slots::needed(&answers.tables);
    for (place, table) in slots.in_order().into_iter().enumerate() {
        *table += (number + place) % 3;
    }
    writer.begin(&format!("{}, kind {}", question.name, list.kind));
    write_built(writer, question, answers, &list, slots, answers.refusal)
}

/// A list over given slots. If nothing is wrong with it the crate is asked what it needs; the refusal
/// is document 01's.
fn write_scarce(writer: &mut Writer, case: &scarce::Case) -> Result<(), String> {
    let at_once = refusals::at_once(&case.list);
    let list = match at_once {
        None => case.list.as_list(),
        Some(_) => LentList::default().as_list(),
    };
    let question = Question::new(&case.name, list, vec![]);
    let answers = agreed(&question)?;
    let refusal = at_once.or_else(|| refusals::by_slots(&answers.tables, &case.slots));
    if refusal.map_or(0, |(number, _)| number) != case.due {
        return Err(format!("{} does not show {}", case.name, case.due));
    }
    writer.begin(&case.name);
    write_built(writer, &question, &answers, &case.list, case.slots, refusal)
}

fn write_built(
    writer: &mut Writer,
    question: &Question,
    answers: &Answers,
    list: &LentList,
    slots: Slots,
    refusal: Option<Refusal>,
) -> Result<(), String> {
    let tables = match refusal {
        None => lent_tables(question, answers),
        Some(_) => Tables::default(),
    };
    let is_seen = question.shows_cells || refusal.is_some();
    writer.line(&[if is_seen { BUILT } else { UNSEEN }]);
    writer.built(list, slots, refusal);
    writer.counts(&tables.counts);
    if is_seen {
        writer.cells(&tables);
    }
    writer.outs(&tables.outs);
    writer.line(&[answers.found.len() as u32]);
    for (text, (found, moves)) in question.texts.iter().zip(answers.searched()) {
        let notes = Notes::default();
        let courses = searched(&tables, text, Value::default(), u32::MAX, &notes);
        are_found(&courses, found, moves)?;
        writer.searched(text, Value::default(), &courses);
    }
    writer.end();
    Ok(())
}

/// The crate's tables with the depths that document 01 adds.
fn lent_tables(question: &Question, answers: &Answers) -> Tables {
    let (cells, outputs) = (&answers.tables.cells, &answers.tables.outputs);
    Tables {
        base: cells.iter().map(|cell| cell.base).collect(),
        link: cells.iter().map(|cell| cell.link).collect(),
        output: cells.iter().map(|cell| cell.output).collect(),
        check: cells.iter().map(|cell| cell.check as u8).collect(),
        depth: depths(&question.list, cells),
        outs: outputs
            .iter()
            .map(|output| [output.value, output.length, output.next])
            .collect(),
        counts: Counts {
            kind: u32::from(question.list.kind),
            accepted: outputs.len() as u32,
            states: answers.tables.states,
            cells: cells.len() as u32,
        },
    }
}

/// Whether the model of damage, over the crate's tables, gives what the crate found, and the moves
/// that were counted over strings.
fn are_found(courses: &[Course], found: &Found, moves: [u32; 2]) -> Result<(), String> {
    let [overlapping, plain, leftmost] = courses else {
        return Err("there are three searches".to_string());
    };
    let due = match found {
        Found::Standard {
            overlapping: all,
            plain: some,
        } => vec![(overlapping, all, moves[0]), (plain, some, moves[1])],
        Found::Leftmost(matches) => vec![(leftmost, matches, 0)],
    };
    for (course, matches, moves) in due {
        let given: Vec<Match> = course.answers.iter().filter_map(given).collect();
        if given != *matches || course.value().moves != u64::from(moves) {
            return Err("the model of damage differs from the crate".to_string());
        }
    }
    Ok(())
}

fn given(answer: &Answer) -> Option<Match> {
    match answer {
        Answer::Match(found, _) => Some(Match {
            start: found.start as u32,
            end: found.end as u32,
            value: found.value,
        }),
        _ => None,
    }
}

fn write_wild(writer: &mut Writer, number: u32) {
    let case = wild::thrown(number);
    let start = wild::start(&case);
    let notes = Notes::default();
    let courses = searched(&case.tables, &case.text, start, wild::CALLS, &notes);
    writer.begin(&format!("damaged {number}"));
    writer.line(&[GIVEN]);
    writer.counts(&case.tables.counts);
    writer.cells(&case.tables);
    writer.outs(&case.tables.outs);
    writer.line(&[1]);
    writer.searched(&case.text, start, &courses);
    writer.end();
}

/// `oracle answer`: the case as the sample would hold it, and in a remark where the model differs,
/// if it does.
pub fn answer(question: &Question) -> Result<String, String> {
    let answers = answers(question)?;
    let mut writer = Writer::default();
    if let Err(told) = difference(question, &answers) {
        writer.remark(&format!("the model differs: {told}"));
    }
    write_question(&mut writer, question, &answers, 0)?;
    Ok(writer.into_text())
}
