//! A drawing in SVG, shape by shape.

use std::fmt::Write;

pub const INK: &str = "#222222";
pub const FAINT: &str = "#d8d8d4";
const PAPER: &str = "#fcfcf9";

pub struct Drawing {
    width: f64,
    height: f64,
    shapes: String,
}

/// Where a text stands on its point.
#[derive(Clone, Copy)]
pub enum Anchor {
    Start,
    Middle,
    End,
}

#[derive(Clone, Copy)]
pub enum Mark {
    Dot,
    Square,
    Diamond,
    Ring,
}

impl Drawing {
    pub fn new(width: f64, height: f64) -> Drawing {
        Drawing {
            width,
            height,
            shapes: String::new(),
        }
    }

    pub fn line(&mut self, from: (f64, f64), to: (f64, f64), colour: &str, width: f64) {
        let ((x1, y1), (x2, y2)) = (from, to);
        self.shape(&format!(
            r#"<line x1="{x1:.1}" y1="{y1:.1}" x2="{x2:.1}" y2="{y2:.1}" stroke="{colour}" stroke-width="{width}"/>"#
        ));
    }

    pub fn path(&mut self, points: &[(f64, f64)], colour: &str) {
        let points: Vec<String> = points
            .iter()
            .map(|(x, y)| format!("{x:.1},{y:.1}"))
            .collect();
        let points = points.join(" ");
        self.shape(&format!(
            r#"<polyline points="{points}" fill="none" stroke="{colour}" stroke-width="1.5"/>"#
        ));
    }

    pub fn mark(&mut self, mark: Mark, (x, y): (f64, f64), colour: &str) {
        self.shape(&match mark {
            Mark::Dot => format!(r#"<circle cx="{x:.1}" cy="{y:.1}" r="3.6" fill="{colour}"/>"#),
            Mark::Ring => format!(
                r#"<circle cx="{x:.1}" cy="{y:.1}" r="3.2" fill="{PAPER}" stroke="{colour}" stroke-width="1.4"/>"#
            ),
            Mark::Square => format!(
                r#"<rect x="{:.1}" y="{:.1}" width="6.4" height="6.4" fill="{colour}"/>"#,
                x - 3.2,
                y - 3.2
            ),
            Mark::Diamond => format!(
                r#"<path d="M{x:.1} {:.1} l4.4 4.4 l-4.4 4.4 l-4.4 -4.4 z" fill="{colour}"/>"#,
                y - 4.4
            ),
        });
    }

    pub fn text(&mut self, anchor: Anchor, (x, y): (f64, f64), size: u32, words: &str) {
        let anchor = match anchor {
            Anchor::Start => "start",
            Anchor::Middle => "middle",
            Anchor::End => "end",
        };
        let words = words.replace('&', "&amp;").replace('<', "&lt;");
        self.shape(&format!(
            r#"<text x="{x:.1}" y="{y:.1}" font-size="{size}" text-anchor="{anchor}" fill="{INK}">{words}</text>"#
        ));
    }

    fn shape(&mut self, shape: &str) {
        writeln!(self.shapes, "{shape}").expect("a string can be written to");
    }

    pub fn finished(&self) -> String {
        let (width, height, shapes) = (self.width, self.height, &self.shapes);
        format!(
            r#"<svg xmlns="http://www.w3.org/2000/svg" width="{width}" height="{height}" viewBox="0 0 {width} {height}" font-family="sans-serif">
<rect width="{width}" height="{height}" fill="{PAPER}"/>
{shapes}</svg>
"#
        )
    }
}
