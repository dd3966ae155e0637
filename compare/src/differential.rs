//! The differential run: every family's lists in all kinds, compared whole with the crate, on two
//! threads. The first difference ends it, with a case that can be replayed.

mod builds;
mod expected;
mod families;
mod fault;
mod judge;
mod lists;
mod searches;
mod tally;

use families::Family;
use fault::Fault;
use judge::{judge, narrowed, Care, Difference};
use oracle::families::exhaustive;
use oracle::notation;
use oracle::question::Question;
use oracle::tables::List;
use std::sync::atomic::{AtomicUsize, Ordering};
use std::sync::Mutex;
use tally::Tally;

const THREADS: usize = 2;

/// The command of a replay, from the top of the repository.
const REPLAY: &str = "target/compare/build/release/compare replay /dev/stdin";

/// `compare differential [short] [--fault FAULT]`.
pub fn run(words: &[&str]) -> Result<String, String> {
    let (is_short, fault) = match words {
        [] => (false, Fault::None),
        ["short"] => (true, Fault::None),
        ["short", "--fault", name] => (true, Fault::named(name)?),
        ["--fault", name] => (false, Fault::named(name)?),
        _ => return Err(crate::USAGE.to_string()),
    };
    let (longest_text, size) = if is_short { (4, 1) } else { (6, 0) };
    let small = run_exhaustive(longest_text, fault)?;
    let mut others = run_written_down(fault)?;
    for family in families::all() {
        others.add(&run_family(&family, family.plan.lists[size], fault)?);
    }
    let mut all = small;
    all.add(&others);
    Ok(format!(
        "differential: outside the exhaustive set: {}\ndifferential: all: {}\nno difference",
        others.told(),
        all.told()
    ))
}

/// All lists of up to 3 patterns of up to 3 bytes over two letters, with all texts.
fn run_exhaustive(longest_text: usize, fault: Fault) -> Result<Tally, String> {
    let lists = exhaustive::lists(3, 3);
    let texts = exhaustive::strings(longest_text);
    let question = |number: usize| Question::new("", lists[number].clone(), texts.clone());
    let name = "all lists of up to 3 patterns of up to 3 bytes";
    in_all_kinds(name, lists.len(), question, Care::WHOLE, fault)
}

fn run_written_down(fault: Fault) -> Result<Tally, String> {
    let questions = families::written_down();
    let question = |number: usize| questions[number].clone();
    on_threads(
        "written down",
        questions.len(),
        question,
        Care::WHOLE,
        fault,
    )
}

fn run_family(family: &Family, lists: usize, fault: Fault) -> Result<Tally, String> {
    let question = |number: usize| family.question(number);
    in_all_kinds(family.name, lists, question, family.plan.care, fault)
}

/// The question of a number stands for three, one of each kind.
fn in_all_kinds(
    name: &str,
    lists: usize,
    question: impl Fn(usize) -> Question + Sync,
    care: Care,
    fault: Fault,
) -> Result<Tally, String> {
    let of_kind = |number: usize| {
        let asked = question(number / 3);
        let kind = (number % 3) as u8;
        Question {
            list: List { kind, ..asked.list },
            ..asked
        }
    };
    on_threads(name, 3 * lists, of_kind, care, fault)
}

/// Each thread takes the next number that is left. Of several differences the one with the lowest
/// number is told.
fn on_threads(
    name: &str,
    questions: usize,
    question: impl Fn(usize) -> Question + Sync,
    care: Care,
    fault: Fault,
) -> Result<Tally, String> {
    let next = AtomicUsize::new(0);
    let first: Mutex<Option<(usize, String)>> = Mutex::new(None);
    let work = || {
        let mut tally = Tally::default();
        loop {
            let number = next.fetch_add(1, Ordering::Relaxed);
            if number >= questions {
                return tally;
            }
            let asked = question(number);
            match judge(&asked, care, number, fault) {
                Ok(done) => tally.add(&done),
                Err(difference) => {
                    next.store(questions, Ordering::Relaxed);
                    let told = replayable(&asked, &difference);
                    let mut first = first.lock().expect("no thread panics with it");
                    if !matches!(*first, Some((earlier, _)) if earlier < number) {
                        *first = Some((number, told));
                    }
                    return tally;
                }
            }
        }
    };
    let mut tally = Tally::default();
    std::thread::scope(|scope| {
        let threads: Vec<_> = (0..THREADS).map(|_| scope.spawn(work)).collect();
        for thread in threads {
            tally.add(&thread.join().expect("a thread does not panic"));
        }
    });
    match first.into_inner().expect("no thread panics with it") {
        Some((number, told)) => Err(format!("DIFFERENCE: {name}, question {number}: {told}")),
        None => {
            println!("differential: {name}: {}", tally.told());
            Ok(tally)
        }
    }
}

/// The case as `oracle answer` and `compare replay` read it, and the command that replays it.
fn replayable(question: &Question, difference: &Difference) -> String {
    let case = notation::write_question(&narrowed(question, difference));
    let told = &difference.told;
    format!("{told}\n{REPLAY} <<'CASE'\n{case}CASE")
}

/// `compare replay FILE`: one case, with every sheet, every lack of a slot and every count.
pub fn replay(file: &str) -> Result<String, String> {
    let input = std::fs::read_to_string(file).map_err(|error| format!("{file}: {error}"))?;
    let question = notation::read_question(&input)?;
    match judge(&question, Care::WHOLE, 0, Fault::None) {
        Ok(tally) => Ok(format!("replay: no difference: {}", tally.told())),
        Err(difference) => Err(format!(
            "DIFFERENCE: {}",
            replayable(&question, &difference)
        )),
    }
}
