//! Faults that can be planted after a call, as if it had made them, to show that the run sees them.

use super::boundary::SearchCall;
use std::hint::{black_box, spin_loop};

#[derive(Clone, Copy, Debug, PartialEq, Eq)]
pub enum Fault {
    None,
    /// A read past the end of a column.
    Past,
    /// A read before the start of the text.
    Before,
    /// A write into a column.
    Write,
    /// A write past the end of the sheet.
    Sheet,
    /// A write into a slot that is not counted.
    Slot,
    /// Another answer.
    Answer,
    /// A call that does not end.
    Hang,
}

const NAMES: [(&str, Fault); 7] = [
    ("past", Fault::Past),
    ("before", Fault::Before),
    ("write", Fault::Write),
    ("sheet", Fault::Sheet),
    ("slot", Fault::Slot),
    ("answer", Fault::Answer),
    ("hang", Fault::Hang),
];

impl Fault {
    pub fn named(name: &str) -> Result<Fault, String> {
        let found = NAMES.iter().find(|(known, _)| *known == name);
        let names = NAMES.map(|(known, _)| known).join(", ");
        found
            .map(|(_, fault)| *fault)
            .ok_or(format!("no such fault; there are {names}"))
    }

    /// What the call said, or something else.
    ///
    /// # Safety
    /// None, if a fault is planted: that is what it is for.
    pub unsafe fn strike(self, lent: &SearchCall, number: u32) -> u32 {
        match self {
            Fault::None => {}
            // A byte that nobody uses would not be read under valgrind.
            Fault::Past => {
                black_box(lent.check.start.add(lent.check.length).read_volatile());
            }
            Fault::Before => {
                black_box(lent.text.start.sub(1).read_volatile());
            }
            Fault::Write if lent.base.length > 0 => {
                let changed = lent.base.start.read_volatile() ^ 1;
                lent.base.start.write_volatile(changed);
            }
            Fault::Write => {}
            Fault::Sheet => lent
                .sheet
                .start
                .add(lent.sheet.length)
                .write_volatile([0; 3]),
            Fault::Slot if *lent.written.start < lent.sheet.length => {
                lent.sheet
                    .start
                    .add(*lent.written.start)
                    .write_volatile([0; 3]);
            }
            Fault::Slot => {}
            Fault::Answer => return number ^ 1,
            Fault::Hang => loop {
                spin_loop();
            },
        }
        number
    }
}
