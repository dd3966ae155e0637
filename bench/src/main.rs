//! The bench: our searches and our build against the crate and against a plain Rust loop over our
//! tables, in one run. `bench/run.sh` builds and runs it; docs/BENCH.md tells what is measured.

mod builds;
mod clock;
mod document;
mod growth;
mod lists;
mod loops;
mod machine;
mod plot;
mod race;
mod report;
mod searches;
mod sides;
mod spread;
mod sum;
mod svg;
mod texts;

// The oracle's dice and its family of fibre crews, as they stand there.
#[allow(dead_code)]
#[path = "../../oracle/src/dice.rs"]
mod dice;
#[path = "../../oracle/src/families/fibre.rs"]
mod fibre;
#[allow(dead_code)]
#[path = "../../oracle/src/question.rs"]
mod question;
#[allow(dead_code)]
#[path = "../../oracle/src/tables.rs"]
mod tables;

use race::Pace;
use report::Run;
use std::path::Path;
use std::process::ExitCode;

const USAGE: &str = "usage: bench | bench quick | bench write FOLDER DATE";

fn main() -> ExitCode {
    let words: Vec<String> = std::env::args().skip(1).collect();
    let words: Vec<&str> = words.iter().map(String::as_str).collect();
    let told = match words.as_slice() {
        [] => run(Pace::WHOLE).map(|_| ()),
        ["quick"] => run(Pace::QUICK).map(|_| ()),
        ["write", folder, date] => {
            run(Pace::WHOLE).and_then(|run| document::write(&run, Path::new(folder), date))
        }
        _ => Err(USAGE.to_string()),
    };
    match told {
        Ok(()) => ExitCode::SUCCESS,
        Err(told) => {
            eprintln!("bench: {told}");
            ExitCode::FAILURE
        }
    }
}

fn run(pace: Pace) -> Result<Run, String> {
    let run = Run {
        machine: machine::told(),
        searches: searches::run(pace)?,
        builds: builds::run(pace)?,
        growths: growth::run(pace)?,
    };
    println!("{}", run.tables());
    Ok(run)
}
