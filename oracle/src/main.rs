//! The oracle: it asks the published crate and our own model of document 01 the
//! same questions, and records the crate's answers. README.md tells the commands.

use oracle::{cases, compare, notation, sample, wild, yard};
use std::io::{Read, Write};
use std::process::ExitCode;

const USAGE: &str = "usage: oracle cases | oracle sample | oracle compare N | \
    oracle exhaustive PATTERNS BYTES TEXT | oracle answer | oracle tally | \
    oracle yard LIST SHEET SEARCH";

fn main() -> ExitCode {
    let words: Vec<String> = std::env::args().skip(1).collect();
    let words: Vec<&str> = words.iter().map(String::as_str).collect();
    let told = match words.as_slice() {
        ["cases"] => cases::run(),
        ["sample"] => sample::run(),
        ["compare", lists] => number(lists).and_then(compare::run),
        ["exhaustive", patterns, bytes, text] => exhaustive(patterns, bytes, text),
        ["answer"] => answer(),
        ["yard", list, sheet, search] => yard::run(list, sheet, search),
        ["tally"] => wild::run_tally(),
        _ => Err(USAGE.to_string()),
    };
    match told.and_then(print) {
        Ok(()) => ExitCode::SUCCESS,
        Err(told) => {
            eprintln!("{}", told.trim_end());
            ExitCode::FAILURE
        }
    }
}

fn print(told: String) -> Result<(), String> {
    writeln!(std::io::stdout(), "{}", told.trim_end()).map_err(|error| error.to_string())
}

fn number(word: &str) -> Result<usize, String> {
    word.parse().map_err(|_| USAGE.to_string())
}

fn exhaustive(patterns: &str, bytes: &str, text: &str) -> Result<String, String> {
    compare::run_exhaustive(number(patterns)?, number(bytes)?, number(text)?)
}

/// Reads one case without answers and tells the crate's.
fn answer() -> Result<String, String> {
    let mut input = String::new();
    std::io::stdin()
        .read_to_string(&mut input)
        .map_err(|error| error.to_string())?;
    sample::answer(&notation::read_question(&input)?)
}
