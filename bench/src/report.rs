//! The figures as tables in Markdown. A ratio is followed by its spread in brackets.

use crate::builds::{self, Builds};
use crate::growth::Growth;
use crate::searches::Searched;
use crate::sides;
use crate::spread::Ratio;

/// All figures of a run.
pub struct Run {
    /// What it was made on.
    pub machine: String,
    pub searches: Vec<Searched>,
    pub builds: Vec<Builds>,
    pub growths: Vec<Growth>,
}

impl Run {
    pub fn tables(&self) -> String {
        let growths: String = self.growths.iter().map(growth).collect();
        [searches(&self.searches), builds(&self.builds), growths].concat()
    }
}

fn searches(rows: &[Searched]) -> String {
    let mut told = heading(
        "Searches",
        &[
            "Search",
            "List and text",
            "Matches",
            "Sheet ÷ crate",
            "Iterator ÷ crate",
            "Sheet ÷ loop",
            "ns per byte: sheet",
            "iterator",
            "crate",
            "loop",
        ],
    );
    for row in rows {
        let mut cells = vec![
            row.way.name.to_string(),
            row.subject.clone(),
            grouped(row.matches),
            ratio(row.sheet_to_crate),
            ratio(row.iterator_to_crate),
            ratio(row.sheet_to_loop),
        ];
        let places = [sides::SHEET, sides::ITERATOR, sides::CRATE, sides::LOOP];
        cells.extend(places.map(|place| format!("{:.2}", row.medians[place])));
        told += &line(&cells);
    }
    told
}

fn builds(rows: &[Builds]) -> String {
    let mut told = heading(
        "Builds",
        &[
            "List",
            "Kind",
            "Pattern bytes",
            "States",
            "Lent ÷ crate",
            "Matcher ÷ crate",
            "Most slots ÷ crate",
            "µs: lent",
            "Matcher",
            "crate",
            "most slots",
        ],
    );
    for row in rows {
        let mut cells = vec![
            row.list.clone(),
            row.kind.to_string(),
            grouped(row.bytes),
            grouped(row.states),
            ratio(row.lent_to_crate),
            ratio(row.matcher_to_crate),
            ratio(row.most_to_crate),
        ];
        let places = [builds::LENT, builds::MATCHER, builds::CRATE, builds::MOST];
        let whole = |place: usize| row.medians[place] * row.bytes as f64 / 1_000.0;
        cells.extend(places.map(|place| format!("{:.0}", whole(place))));
        told += &line(&cells);
    }
    told
}

fn growth(growth: &Growth) -> String {
    let sizes_are = capital(growth.sizes_are);
    let mut columns = vec![sizes_are.as_str()];
    columns.extend(growth.contestants);
    let title = format!("{}: {}", growth.title, growth.unit);
    let mut told = heading(&title, &columns);
    for (size, costs) in growth.sizes.iter().zip(&growth.costs) {
        let mut cells = vec![grouped(*size)];
        cells.extend(costs.iter().map(|cost| format!("{cost:.2}")));
        told += &line(&cells);
    }
    told
}

fn heading(title: &str, columns: &[&str]) -> String {
    let names: Vec<String> = columns.iter().map(|name| name.to_string()).collect();
    format!(
        "\n### {title}\n\n{}{}|\n",
        line(&names),
        "|---".repeat(columns.len())
    )
}

fn line(cells: &[String]) -> String {
    format!("| {} |\n", cells.join(" | "))
}

fn ratio(ratio: Ratio) -> String {
    format!(
        "{:.2} ({:.2} to {:.2})",
        ratio.middle, ratio.low, ratio.high
    )
}

fn capital(words: &str) -> String {
    words[..1].to_uppercase() + &words[1..]
}

/// A number with commas between its thousands.
pub fn grouped(number: usize) -> String {
    let digits = number.to_string();
    let mut told = String::new();
    for (place, digit) in digits.chars().enumerate() {
        if place > 0 && (digits.len() - place).is_multiple_of(3) {
            told.push(',');
        }
        told.push(digit);
    }
    told
}
