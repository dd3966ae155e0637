//! Our build beside the crate's: through lent slots that hold junk at first, ample, exact or one too
//! few, and through a matcher.

use super::expected::Expected;
use super::fault::Fault;
use crate::left::Left;
use crate::slots::junk;
use oracle::lent::Slots;
use oracle::refusals;
use rotspangle::lent::{self, Tables};
use rotspangle::{Kind, Matcher, Refusal};

/// In how many ways one slot can be lacking.
pub const WAYS: usize = 10;

fn build_in(expected: &Expected, slots: Slots, fault: Fault) -> Left {
    let (mut work, mut tables) = junk(&slots);
    let list = &expected.lent;
    let mut told = lent::build(
        list.kind,
        &list.bytes,
        &list.ends,
        &list.values,
        &mut work,
        &mut tables,
    );
    if told.is_err() {
        fault.spoil_build(&mut told);
    } else {
        fault.spoil_tables(&mut tables);
    }
    Left { told, work, tables }
}

/// The tables in ample slots, or nothing if the list is refused as it must be.
pub fn ample(expected: &Expected, fault: Fault) -> Result<Option<Tables>, String> {
    let states = expected.lent.bytes.len() + 3;
    let outputs = expected.lent.ends.len() + 1;
    let cells = expected.tables.cells.len() + 256;
    let left = build_in(expected, Slots::of(states, outputs, cells), fault);
    let told = |error| format!("ample slots: {error}");
    if let Some(refusal) = expected.refusal {
        left.is_refused(refusal).map_err(told)?;
        return Ok(None);
    }
    left.is_made(expected.made()).map_err(told)?;
    Ok(Some(left.tables))
}

/// Exact slots, which must do.
pub fn exact(expected: &Expected, fault: Fault) -> Result<(), String> {
    let left = build_in(expected, Slots::needed(&expected.tables), fault);
    let told = |error| format!("exact slots: {error}");
    left.is_made(expected.made()).map_err(told)
}

/// One slot less than needed in one table, if it needs any.
pub fn one_too_few(expected: &Expected, way: usize, fault: Fault) -> Result<(), String> {
    let mut slots = Slots::needed(&expected.tables);
    let lacking = &mut slots.in_order()[way % WAYS];
    **lacking = lacking.saturating_sub(1);
    let left = build_in(expected, slots, fault);
    let told = |error| format!("{slots:?}: {error}");
    match refusals::by_slots(&expected.tables, &slots) {
        None => left.is_made(expected.made()).map_err(told),
        Some(refusal) => left.is_refused(refusal).map_err(told),
    }
}

/// The same list as a matcher, or nothing if it is refused as it must be.
pub fn matcher(expected: &Expected) -> Result<Option<Matcher>, String> {
    let kind = match expected.lent.kind {
        0 => Kind::Standard,
        1 => Kind::LeftmostLongest,
        _ => Kind::LeftmostFirst,
    };
    let patterns = expected.list.patterns.iter();
    let built = Matcher::with_values(kind, patterns.map(|p| (&p.bytes, p.value)));
    match (built, expected.refusal) {
        (Ok(matcher), None) => {
            let told = |error| format!("matcher: {error}");
            expected
                .made()
                .same_tables(matcher.tables())
                .map_err(told)?;
            Ok(Some(matcher))
        }
        (Err(given), Some(due)) if (given.number(), row(given)) == due => Ok(None),
        (built, due) => {
            let given = built.map(|_| "built");
            Err(format!("matcher: {given:?}, due is {due:?}"))
        }
    }
}

/// The row that a refusal names, or 0.
fn row(refusal: Refusal) -> u32 {
    match refusal {
        Refusal::Empty { row } | Refusal::TooLong { row } => row as u32,
        _ => 0,
    }
}
