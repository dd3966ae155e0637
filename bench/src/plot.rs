//! The plot: the ratios of every case with their spread, and below them how the costs grow.

mod growths;
mod ratios;

use crate::report::Run;
use crate::svg::{Anchor, Drawing, Mark};

const WIDTH: f64 = 960.0;
const MARGIN: f64 = 24.0;

/// How a contestant or a ratio is drawn.
#[derive(Clone, Copy)]
struct Look {
    colour: &'static str,
    mark: Mark,
}

const BLUE: Look = look("#1f5fa8", Mark::Dot);
const ORANGE: Look = look("#d1731c", Mark::Square);
const GREEN: Look = look("#3b8a4f", Mark::Diamond);
const GREY: Look = look("#777777", Mark::Ring);

const fn look(colour: &'static str, mark: Mark) -> Look {
    Look { colour, mark }
}

pub fn plot(run: &Run, date: &str) -> String {
    let ratios_height = ratios::height(run);
    let mut drawing = Drawing::new(WIDTH, ratios_height + growths::HEIGHT);
    let title = format!("Rotspangle against the crate and a plain loop, run of {date}");
    drawing.text(Anchor::Start, (MARGIN, 30.0), 17, &title);
    ratios::draw(&mut drawing, run);
    growths::draw(&mut drawing, ratios_height, &run.growths);
    drawing.finished()
}

/// A legend in a row: each look with its name.
fn legend(drawing: &mut Drawing, (mut x, y): (f64, f64), entries: &[(Look, &str)]) {
    for (look, name) in entries {
        drawing.mark(look.mark, (x, y - 4.0), look.colour);
        drawing.text(Anchor::Start, (x + 9.0, y), 12, name);
        x += 30.0 + 6.4 * name.len() as f64;
    }
}

/// Which part of the way from the first to the last a number is, by its logarithm.
fn part((first, last): (f64, f64), number: f64) -> f64 {
    (number / first).ln() / (last / first).ln()
}
