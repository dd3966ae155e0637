//! Puts a run into the documents: the figures between two marks of docs/BENCH.md, and the plot.

use crate::plot::plot;
use crate::report::Run;
use std::fs;
use std::path::Path;

const BEGIN: &str = "<!-- figures: written by the bench -->\n";
const END: &str = "<!-- end of figures -->\n";

pub fn write(run: &Run, folder: &Path, date: &str) -> Result<(), String> {
    let page = folder.join("BENCH.md");
    let old = fs::read_to_string(&page).map_err(|error| format!("BENCH.md: {error}"))?;
    let (before, rest) = old
        .split_once(BEGIN)
        .ok_or("BENCH.md has no begin of figures")?;
    let (_, after) = rest
        .split_once(END)
        .ok_or("BENCH.md has no end of figures")?;
    let figures = format!("Run of {date}: {}.\n{}", run.machine, run.tables());
    save(&page, &format!("{before}{BEGIN}\n{figures}\n{END}{after}"))?;
    save(&folder.join("bench.svg"), &plot(run, date))
}

fn save(path: &Path, content: &str) -> Result<(), String> {
    fs::write(path, content).map_err(|error| format!("{}: {error}", path.display()))
}
