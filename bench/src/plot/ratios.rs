//! The ratios: a row for each case, a mark for each ratio, a bar for its spread.

use super::{legend, part, Look, BLUE, GREY, MARGIN, ORANGE, WIDTH};
use crate::report::Run;
use crate::spread::Ratio;
use crate::svg::{Anchor, Drawing, FAINT, INK};

const TOP: f64 = 72.0;
const LEFT: f64 = 330.0;
const ROW: f64 = 21.0;
const BELOW: f64 = 60.0;

/// The ratios that may be marked on the axis; it reaches over as many as are needed.
const TICKS: [f64; 14] = [
    0.1, 0.15, 0.25, 0.5, 0.75, 1.0, 1.25, 1.5, 2.0, 3.0, 4.0, 6.0, 10.0, 20.0,
];

/// A heading, or a case with its ratios.
enum Row {
    Heading(String),
    Case(String, Vec<(Look, Ratio)>),
}

pub fn height(run: &Run) -> f64 {
    TOP + rows(run).len() as f64 * ROW + BELOW
}

pub fn draw(drawing: &mut Drawing, run: &Run) {
    legends(drawing);
    let rows = rows(run);
    let scale = Scale::of(&rows);
    let bottom = TOP + rows.len() as f64 * ROW;
    grid(drawing, &scale, bottom);
    for (place, row) in rows.iter().enumerate() {
        let y = TOP + (place as f64 + 0.5) * ROW;
        match row {
            Row::Heading(words) => {
                drawing.text(Anchor::Start, (MARGIN, y + 4.0), 13, words);
            }
            Row::Case(name, ratios) => {
                drawing.text(Anchor::End, (LEFT - 10.0, y + 4.0), 12, name);
                for (lane, (look, ratio)) in ratios.iter().enumerate() {
                    let lane_y = y + 5.0 * (lane as f64 - 1.0);
                    spread(drawing, &scale, lane_y, *look, *ratio);
                }
            }
        }
    }
}

fn legends(drawing: &mut Drawing) {
    legend(
        drawing,
        (MARGIN + 5.0, 54.0),
        &[
            (BLUE, "ours ÷ crate (search: sheet, build: lent tables)"),
            (ORANGE, "ours ÷ crate (search: iterator, build: Matcher)"),
            (GREY, "ours, sheet ÷ plain loop"),
        ],
    );
}

fn rows(run: &Run) -> Vec<Row> {
    let mut rows = Vec::new();
    let mut heading = "";
    for row in &run.searches {
        if row.way.name != heading {
            heading = row.way.name;
            rows.push(Row::Heading(format!("Search: {heading}")));
        }
        let ratios = vec![
            (BLUE, row.sheet_to_crate),
            (ORANGE, row.iterator_to_crate),
            (GREY, row.sheet_to_loop),
        ];
        rows.push(Row::Case(row.subject.clone(), ratios));
    }
    rows.push(Row::Heading("Build".to_string()));
    for row in &run.builds {
        let ratios = vec![(BLUE, row.lent_to_crate), (ORANGE, row.matcher_to_crate)];
        rows.push(Row::Case(format!("{}, {}", row.list, row.kind), ratios));
    }
    rows
}

/// All ratios of a row.
fn ratios(row: &Row) -> &[(Look, Ratio)] {
    match row {
        Row::Heading(_) => &[],
        Row::Case(_, ratios) => ratios,
    }
}

/// Ratios along the width, by their logarithm.
struct Scale {
    ends: (f64, f64),
}

impl Scale {
    /// From the last tick below every median to the first above; a bar that goes further is cut.
    fn of(rows: &[Row]) -> Scale {
        let middles = || rows.iter().flat_map(ratios).map(|(_, ratio)| ratio.middle);
        let low = middles().fold(0.75, f64::min);
        let high = middles().fold(1.5, f64::max);
        let first = TICKS.iter().rev().find(|tick| **tick <= low);
        let last = TICKS.iter().find(|tick| high <= **tick);
        Scale {
            ends: (
                *first.unwrap_or(&TICKS[0]),
                *last.unwrap_or(&TICKS[TICKS.len() - 1]),
            ),
        }
    }

    fn x(&self, ratio: f64) -> f64 {
        let inside = ratio.clamp(self.ends.0, self.ends.1);
        LEFT + part(self.ends, inside) * (WIDTH - MARGIN - LEFT)
    }
}

fn grid(drawing: &mut Drawing, scale: &Scale, bottom: f64) {
    let (first, last) = scale.ends;
    for tick in TICKS {
        if first <= tick && tick <= last {
            let x = scale.x(tick);
            let colour = if tick == 1.0 { INK } else { FAINT };
            drawing.line((x, TOP), (x, bottom), colour, 1.0);
            drawing.text(Anchor::Middle, (x, bottom + 16.0), 11, &format!("{tick}"));
        }
    }
    let middle = (LEFT + WIDTH - MARGIN) / 2.0;
    let words =
        "ratio of medians (below 1: ours is faster); bars: 10th to 90th percentile of the rounds";
    drawing.text(Anchor::Middle, (middle, bottom + 34.0), 12, words);
}

fn spread(drawing: &mut Drawing, scale: &Scale, y: f64, look: Look, ratio: Ratio) {
    let (low, high) = (scale.x(ratio.low), scale.x(ratio.high));
    drawing.line((low, y), (high, y), look.colour, 2.0);
    drawing.mark(look.mark, (scale.x(ratio.middle), y), look.colour);
}
