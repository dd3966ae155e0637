//! How the cost grows: of a search with the text and with the list, of a build with the list.

use crate::builds;
use crate::race::Pace;
use crate::searches;

/// Costs at rising sizes, one line for each contestant.
pub struct Growth {
    /// What is counted along the sizes.
    pub sizes_are: &'static str,
    pub title: &'static str,
    pub unit: &'static str,
    pub contestants: [&'static str; 4],
    pub sizes: Vec<usize>,
    /// For each size, a cost for each contestant.
    pub costs: Vec<Vec<f64>>,
}

const SEARCHERS: [&str; 4] = ["ours, sheet", "ours, iterator", "crate", "plain loop"];
const BUILDERS: [&str; 4] = ["ours, lent", "ours, Matcher", "crate", "ours, most slots"];

const TEXTS: [usize; 7] = [1_024, 2_048, 4_096, 8_192, 16_384, 32_768, 65_536];
const LISTS: [usize; 7] = [10, 20, 50, 100, 200, 500, 1_024];

pub fn run(pace: Pace) -> Result<Vec<Growth>, String> {
    Ok(vec![
        Growth {
            title: "Overlapping search, by text length",
            sizes_are: "bytes of a text",
            unit: "ns per byte of text",
            contestants: SEARCHERS,
            sizes: TEXTS.to_vec(),
            costs: costs(&TEXTS, |length| searches::by_text(pace, length))?,
        },
        Growth {
            title: "Overlapping search, by list size",
            sizes_are: "patterns listed",
            unit: "ns per byte of text",
            contestants: SEARCHERS,
            sizes: LISTS.to_vec(),
            costs: costs(&LISTS, |rows| searches::by_list(pace, rows))?,
        },
        Growth {
            title: "Build, by list size",
            sizes_are: "patterns listed",
            unit: "ns per byte of the patterns",
            contestants: BUILDERS,
            sizes: LISTS.to_vec(),
            costs: costs(&LISTS, |rows| builds::by_list(pace, rows))?,
        },
    ])
}

fn costs(
    sizes: &[usize],
    cost: impl Fn(usize) -> Result<Vec<f64>, String>,
) -> Result<Vec<Vec<f64>>, String> {
    sizes.iter().map(|&size| cost(size)).collect()
}
