//! How the costs grow: a small chart each. Sizes lie by their logarithm; costs too where they are
//! far apart, else from 0 up.

use super::{part, Look, BLUE, GREEN, GREY, MARGIN, ORANGE, WIDTH};
use crate::growth::Growth;
use crate::report::grouped;
use crate::svg::{Anchor, Drawing, FAINT, INK};

/// All of the charts with what is written around them.
pub const HEIGHT: f64 = 380.0;

const CHART_TOP: f64 = 92.0;
const CHART_HEIGHT: f64 = 220.0;
const LEFT: f64 = 42.0;
const LOOKS: [Look; 4] = [BLUE, ORANGE, GREEN, GREY];

pub fn draw(drawing: &mut Drawing, top: f64, growths: &[Growth]) {
    let width = (WIDTH - 2.0 * MARGIN) / growths.len() as f64;
    for (place, growth) in growths.iter().enumerate() {
        let left = MARGIN + place as f64 * width;
        let chart = Chart::of(growth, left + LEFT, left + width - 16.0, top + CHART_TOP);
        words(drawing, growth, left, top);
        chart.axes(drawing, growth);
        chart.lines(drawing, growth);
    }
}

/// Title and legend, two names in a row.
fn words(drawing: &mut Drawing, growth: &Growth, left: f64, top: f64) {
    drawing.text(Anchor::Start, (left, top + 16.0), 13, growth.title);
    drawing.text(Anchor::Start, (left, top + 34.0), 12, growth.unit);
    for (place, (look, name)) in LOOKS.iter().zip(growth.contestants).enumerate() {
        let x = left + 5.0 + 120.0 * (place % 2) as f64;
        let y = top + 54.0 + 17.0 * (place / 2) as f64;
        drawing.mark(look.mark, (x, y - 4.0), look.colour);
        drawing.text(Anchor::Start, (x + 9.0, y), 12, name);
    }
}

/// Where sizes and costs lie on the paper.
struct Chart {
    left: f64,
    right: f64,
    top: f64,
    sizes: (f64, f64),
    /// The costs that have a line across the chart, rising.
    ticks: Vec<f64>,
    by_logarithm: bool,
}

impl Chart {
    fn of(growth: &Growth, left: f64, right: f64, top: f64) -> Chart {
        let costs = || growth.costs.iter().flatten().copied();
        let low = costs().fold(f64::INFINITY, f64::min);
        let high = costs().fold(0.0, f64::max);
        let by_logarithm = 10.0 * low < high;
        let sizes = &growth.sizes;
        Chart {
            left,
            right,
            top,
            sizes: (sizes[0] as f64, sizes[sizes.len() - 1] as f64),
            ticks: if by_logarithm {
                round_costs(low, high)
            } else {
                even_costs(high)
            },
            by_logarithm,
        }
    }

    fn x(&self, size: f64) -> f64 {
        self.left + part(self.sizes, size) * (self.right - self.left)
    }

    fn y(&self, cost: f64) -> f64 {
        let (first, last) = (self.ticks[0], self.ticks[self.ticks.len() - 1]);
        let up = if self.by_logarithm {
            part((first, last), cost)
        } else {
            cost / last
        };
        self.top + (1.0 - up) * CHART_HEIGHT
    }

    fn axes(&self, drawing: &mut Drawing, growth: &Growth) {
        let bottom = self.top + CHART_HEIGHT;
        for &cost in &self.ticks {
            let y = self.y(cost);
            drawing.line((self.left, y), (self.right, y), FAINT, 1.0);
            drawing.text(
                Anchor::End,
                (self.left - 5.0, y + 4.0),
                11,
                &format!("{cost}"),
            );
        }
        for (place, &size) in growth.sizes.iter().enumerate() {
            let x = self.x(size as f64);
            drawing.line((x, bottom), (x, bottom + 4.0), INK, 1.0);
            if place % 2 == 0 || size == growth.sizes[growth.sizes.len() - 1] {
                drawing.text(Anchor::Middle, (x, bottom + 17.0), 11, &grouped(size));
            }
        }
        drawing.line((self.left, bottom), (self.right, bottom), INK, 1.0);
        drawing.line((self.left, self.top), (self.left, bottom), INK, 1.0);
        let middle = (self.left + self.right) / 2.0;
        drawing.text(
            Anchor::Middle,
            (middle, bottom + 35.0),
            12,
            growth.sizes_are,
        );
    }

    fn lines(&self, drawing: &mut Drawing, growth: &Growth) {
        for (who, look) in LOOKS.iter().enumerate() {
            let point =
                |(&size, costs): (&usize, &Vec<f64>)| (self.x(size as f64), self.y(costs[who]));
            let points: Vec<(f64, f64)> =
                growth.sizes.iter().zip(&growth.costs).map(point).collect();
            drawing.path(&points, look.colour);
            for point in points {
                drawing.mark(look.mark, point, look.colour);
            }
        }
    }
}

/// 1, 2, 5, 10, 20 .. from the last at or below the lowest cost to the first at or above the highest.
fn round_costs(low: f64, high: f64) -> Vec<f64> {
    let all: Vec<f64> = [1.0, 10.0, 100.0, 1_000.0, 10_000.0, 100_000.0]
        .iter()
        .flat_map(|ten| [1.0, 2.0, 5.0].map(|step| step * ten))
        .collect();
    let first = all.iter().rposition(|tick| *tick <= low).unwrap_or(0);
    let last = all.iter().position(|tick| high <= *tick);
    all[first..=last.unwrap_or(all.len() - 1)].to_vec()
}

/// From 0 in even steps to above the highest cost, in at most eight.
fn even_costs(high: f64) -> Vec<f64> {
    let steps = [0.1, 0.2, 0.5, 1.0, 2.0, 5.0, 10.0, 20.0];
    let fits = |step: &&f64| high / **step <= 8.0;
    let step = steps.iter().find(fits).unwrap_or(&50.0);
    let count = (high / step).ceil() as usize;
    (0..=count).map(|place| place as f64 * step).collect()
}
