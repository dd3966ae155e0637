//! The builds: ours into tables that are lent again and again, with the slots that the list needs
//! and with the most slots that any list can need; ours through `Matcher`, which allocates; and
//! the crate's.

use crate::lists::{self, Listed};
use crate::race::{race, Contestant, Pace, Times};
use crate::sides::{build_ours, build_theirs};
use crate::spread::{median, Ratio};
use crate::sum::Sum;
use rotspangle::lent::{self, Tables, Work};
use rotspangle::Kind;

/// The places of the contestants.
pub const LENT: usize = 0;
pub const MATCHER: usize = 1;
pub const CRATE: usize = 2;
pub const MOST: usize = 3;

const MOST_STATES: usize = 65_538;
const MOST_CELLS: usize = 65_536;
const MOST_OUTPUTS: usize = 1_024;

/// What a race of builds gave.
pub struct Builds {
    pub kind: &'static str,
    pub list: String,
    pub bytes: usize,
    pub states: usize,
    /// Nanoseconds for a byte of the patterns: the medians of the contestants, by their places.
    pub medians: Vec<f64>,
    pub lent_to_crate: Ratio,
    pub matcher_to_crate: Ratio,
    pub most_to_crate: Ratio,
}

pub fn run(pace: Pace) -> Result<Vec<Builds>, String> {
    let crew = lists::crew(900);
    [
        raced(pace, Kind::Standard, &crew),
        raced(pace, Kind::LeftmostLongest, &crew),
        raced(pace, Kind::LeftmostFirst, &crew),
        raced(pace, Kind::Standard, &lists::three_letters()),
        raced(pace, Kind::Standard, &lists::all_bytes()),
        raced(pace, Kind::Standard, &lists::longest_over_all_bytes()),
        raced(pace, Kind::Standard, &lists::longest_over_capitals()),
    ]
    .into_iter()
    .collect()
}

/// The same for so many codes and phrases: nanoseconds for a byte of the patterns.
pub fn by_list(pace: Pace, rows: usize) -> Result<Vec<f64>, String> {
    Ok(raced(pace, Kind::Standard, &lists::crew(rows))?.medians)
}

fn raced(pace: Pace, kind: Kind, list: &Listed) -> Result<Builds, String> {
    let kind_name = match kind {
        Kind::Standard => "Standard",
        Kind::LeftmostLongest => "LeftmostLongest",
        Kind::LeftmostFirst => "LeftmostFirst",
    };
    let what = format!("build, {}, {kind_name}", list.name);
    eprintln!("{what}");
    let times = race(pace, &what, &mut contestants(kind, list)?)?;
    Ok(told(kind_name, list, &times))
}

fn told(kind: &'static str, list: &Listed, times: &Times) -> Builds {
    let per_byte = |rounds: &Vec<f64>| median(rounds) / list.bytes() as f64;
    let to_crate = |who: usize| Ratio::of(&times.rounds[who], &times.rounds[CRATE]);
    Builds {
        kind,
        list: list.name.clone(),
        bytes: list.bytes(),
        states: times.sum.count,
        medians: times.rounds.iter().map(per_byte).collect(),
        lent_to_crate: to_crate(LENT),
        matcher_to_crate: to_crate(MATCHER),
        most_to_crate: to_crate(MOST),
    }
}

/// Each makes the automaton and counts its states; what it allocates it frees again. No pattern
/// is cloned: the crate and `Matcher` are lent the patterns, and the row of bytes and ends that
/// `lent::build` reads is made before.
fn contestants(kind: Kind, list: &Listed) -> Result<Vec<Contestant<'_>>, String> {
    let counts = build_ours(list, kind)?.counts();
    let (states, cells) = (counts.states as usize + 1, counts.cells as usize);
    Ok(vec![
        lent_build(
            "ours, lent",
            kind,
            list,
            [states, list.patterns.len(), cells],
        ),
        Contestant::new("ours, Matcher", move || {
            let ours = build_ours(list, kind).expect("it was built before");
            states_made(ours.counts().states as usize)
        }),
        Contestant::new("crate", move || {
            let theirs = build_theirs(list, kind).expect("the crate takes what we take");
            states_made(theirs.num_states())
        }),
        lent_build(
            "ours, most slots",
            kind,
            list,
            [MOST_STATES, MOST_OUTPUTS, MOST_CELLS],
        ),
    ])
}

/// Builds into tables with so many slots for states, outputs and cells, allocated once.
fn lent_build<'a>(
    name: &'static str,
    kind: Kind,
    list: &Listed,
    [states, outputs, cells]: [usize; 3],
) -> Contestant<'a> {
    let (row, ends, values) = (list.row(), list.ends(), list.values());
    let mut work = Work::with_slots(states, outputs, cells);
    let mut tables = Tables::with_slots(outputs, cells);
    Contestant::new(name, move || {
        lent::build(kind as u32, &row, &ends, &values, &mut work, &mut tables)
            .expect("the slots suffice");
        states_made(tables.counts.states as usize)
    })
}

fn states_made(count: usize) -> Sum {
    Sum { count, fold: 0 }
}
