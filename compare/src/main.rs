//! Our own build and searches, through the static library, held to the crate (`differential`) and
//! to damaged tables (`damage`). README.md tells the commands.

mod damage;
mod differential;
mod left;
mod slots;

use std::io::Write;
use std::process::ExitCode;

const USAGE: &str = "usage: compare differential [short] [--fault FAULT] | compare replay FILE | \
    compare damage guarded|exact FIRST COUNT [--fault FAULT] | compare damage case NUMBER";

fn main() -> ExitCode {
    let words: Vec<String> = std::env::args().skip(1).collect();
    let words: Vec<&str> = words.iter().map(String::as_str).collect();
    let told = match words.as_slice() {
        ["differential", rest @ ..] => differential::run(rest),
        ["replay", file] => differential::replay(file),
        ["damage", rest @ ..] => damage::run(rest),
        _ => Err(USAGE.to_string()),
    };
    match told.and_then(print) {
        Ok(()) => ExitCode::SUCCESS,
        Err(told) => {
            eprintln!("{}", told.trim_end());
            ExitCode::FAILURE
        }
    }
}

fn print(told: String) -> Result<(), String> {
    writeln!(std::io::stdout(), "{}", told.trim_end()).map_err(|error| error.to_string())
}
