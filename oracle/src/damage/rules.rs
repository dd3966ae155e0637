//! The damage list of document 01, a function for each line of it.

use super::{Tables, Value, DEAD, LAST_KIND};

#[derive(Clone, Copy, Debug, PartialEq, Eq)]
pub enum Damage {
    Kind,
    Accepted,
    Cells,
    ValueState,
    ValueOutput,
    ValuePlace,
    ValueMoves,
    Probe,
    LinkPast,
    LinkNotSmaller,
    DeadNotSmaller,
    OutputPast,
    NextNotBelow,
    LengthZero,
    LengthAboveEnd,
}

impl Damage {
    pub fn name(self) -> &'static str {
        match self {
            Damage::Kind => "damage: a kind above 2",
            Damage::Accepted => "damage: accepted above the output slots",
            Damage::Cells => "damage: cells above the cell slots",
            Damage::ValueState => "damage: the value's state at or past the cells",
            Damage::ValueOutput => "damage: the value's output place past the outputs",
            Damage::ValuePlace => "damage: the value's place past the text",
            Damage::ValueMoves => "damage: the value's moves above twice its place",
            Damage::Probe => "damage: base xor byte at or past the cells",
            Damage::LinkPast => "damage: a failure target at or past the cells",
            Damage::LinkNotSmaller => "damage: a failure target whose depth isn't smaller",
            Damage::DeadNotSmaller => {
                "damage: a leftmost link to dead whose depth isn't smaller (B2)"
            }
            Damage::OutputPast => "damage: an output place past the outputs",
            Damage::NextNotBelow => "damage: a next place not below its own",
            Damage::LengthZero => "damage: a match length of 0",
            Damage::LengthAboveEnd => "damage: a match length above its end",
        }
    }
}

/// What is tested first in each call: kind, counts and the search value. All that applies.
pub fn damages_at_once(tables: &Tables, text: &[u8], value: Value) -> Vec<Damage> {
    [
        (Damage::Kind, tables.counts.kind > LAST_KIND),
        (Damage::Accepted, accepted_above_slots(tables)),
        (Damage::Cells, cells_above_slots(tables)),
        (Damage::ValueState, is_past_cells(tables, value.state)),
        (Damage::ValueOutput, is_past_outputs(tables, value.output)),
        (Damage::ValuePlace, value.place > text.len() as u64),
        (Damage::ValueMoves, moves_above_twice(value)),
    ]
    .into_iter()
    .filter(|(_, applies)| *applies)
    .map(|(damage, _)| damage)
    .collect()
}

fn accepted_above_slots(tables: &Tables) -> bool {
    u64::from(tables.counts.accepted) > tables.outs.len() as u64
}

fn column_lengths(tables: &Tables) -> [u64; 5] {
    [
        tables.base.len(),
        tables.link.len(),
        tables.output.len(),
        tables.check.len(),
        tables.depth.len(),
    ]
    .map(|length| length as u64)
}

/// The slots of the cells: the shortest of the five columns counts (B9), so a column that is too
/// short is enough.
fn cells_above_slots(tables: &Tables) -> bool {
    let cells = u64::from(tables.counts.cells);
    column_lengths(tables).iter().any(|length| cells > *length)
}

/// Whether the cells would fit, were it not for one column.
pub fn one_column_is_short(tables: &Tables) -> bool {
    let cells = u64::from(tables.counts.cells);
    let lengths = column_lengths(tables);
    lengths.iter().filter(|length| cells > **length).count() == 1
}

fn is_past_cells(tables: &Tables, cell: u32) -> bool {
    cell >= tables.counts.cells
}

/// Places count from 1, and slots past the accepted count hold nothing (B8).
fn is_past_outputs(tables: &Tables, place: u32) -> bool {
    place > tables.counts.accepted
}

fn moves_above_twice(value: Value) -> bool {
    u128::from(value.moves) > 2 * u128::from(value.place)
}

/// The cell that a probe looks at.
pub fn probed(tables: &Tables, base: u32, byte: u8) -> Result<u32, Damage> {
    let cell = base ^ u32::from(byte);
    refuse_if(is_past_cells(tables, cell), Damage::Probe).map(|()| cell)
}

/// The failure target of a state.
pub fn target(tables: &Tables, state: u32, leftmost: bool) -> Result<u32, Damage> {
    let target = tables.link[state as usize];
    refuse_if(is_past_cells(tables, target), Damage::LinkPast)?;
    let is_smaller = tables.depth[target as usize] < tables.depth[state as usize];
    let damage = match target {
        DEAD if leftmost => Damage::DeadNotSmaller,
        _ => Damage::LinkNotSmaller,
    };
    refuse_if(!is_smaller, damage).map(|()| target)
}

/// The output at a place for a match that ends at `end`, tested whole: value, length, next.
pub fn whole_output(tables: &Tables, place: u32, end: u64) -> Result<[u32; 3], Damage> {
    refuse_if(is_past_outputs(tables, place), Damage::OutputPast)?;
    let [value, length, next] = tables.outs[place as usize - 1];
    refuse_if(next >= place, Damage::NextNotBelow)?;
    refuse_if(length == 0, Damage::LengthZero)?;
    refuse_if(u64::from(length) > end, Damage::LengthAboveEnd)?;
    Ok([value, length, next])
}

fn refuse_if(holds: bool, damage: Damage) -> Result<(), Damage> {
    if holds {
        Err(damage)
    } else {
        Ok(())
    }
}
