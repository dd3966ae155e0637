//! A case for the build: any kind, lists whose ends need not cut the bytes, and tables of any sizes
//! that hold junk. What is due is told by document 01's table of refusals and the oracle's model.

use super::boundary::{BuildCall, Slice};
use super::ground::{Access, Ground};
use super::tally::Tally;
use super::watch::watched;
use crate::left::{Left, Made};
use crate::slots::junk;
use oracle::dice::Dice;
use oracle::lent::{LentList, Slots};
use oracle::model::Model;
use oracle::refusals::{self, Refusal};
use oracle::tables;
use rotspangle::lent::{Counts, Tables, Work};

#[derive(Debug)]
pub struct ListCase {
    pub list: LentList,
    pub slots: Slots,
}

/// The refusal, or the tables and their depths.
pub enum Due {
    Refused(Refusal),
    Made(tables::Tables, Vec<u8>),
}

pub fn thrown(dice: &mut Dice) -> ListCase {
    let mut list = sound_list(dice);
    if dice.below(3) == 0 {
        damage(dice, &mut list);
    }
    ListCase {
        slots: slots(dice, &list),
        list,
    }
}

/// A list whose ends cut its bytes, though a pattern may be empty or too long.
fn sound_list(dice: &mut Dice) -> LentList {
    let letters: &[u8] = dice.pick::<&[u8]>(&[b"ab", b"abcdefgh", &[0, 255], &[0, 1, 254, 255]]);
    let is_crowded = dice.below(150) == 0;
    let rows = match is_crowded {
        true => dice.between(1020, 1028),
        false => dice.below(10),
    };
    let mut list = LentList {
        kind: kind(dice),
        ..LentList::default()
    };
    for _ in 0..rows {
        let length = match dice.below(80) {
            0 if !is_crowded => 0,
            1 | 2 if !is_crowded => dice.between(60, 70),
            _ => dice.between(1, 6),
        };
        list.bytes.extend(dice.string(letters, length));
        list.ends.push(list.bytes.len() as u32);
        list.values.push(dice.value());
    }
    list
}

fn kind(dice: &mut Dice) -> u32 {
    match dice.below(24) {
        0 => dice.throw() as u32,
        1 => 3,
        kind => kind as u32 % 3,
    }
}

fn damage(dice: &mut Dice, list: &mut LentList) {
    let rows = list.ends.len();
    match dice.below(7) {
        0 => list.values.push(0),
        1 => {
            list.values.pop();
        }
        2 => {
            list.ends.pop();
        }
        3 => list.bytes.push(0),
        4 => {
            list.bytes.pop();
        }
        5 if rows > 1 => list.ends.swap(0, dice.below(rows)),
        _ if rows > 0 => {
            let row = dice.below(rows);
            list.ends[row] = match dice.below(4) {
                0 => u32::MAX,
                1 => dice.throw() as u32,
                2 => list.ends[row].wrapping_sub(1),
                _ => list.ends[row] + 1,
            };
        }
        _ => list.ends.push(dice.throw() as u32),
    }
}

/// Mostly enough or nearly so; each table by its own throw.
fn slots(dice: &mut Dice, list: &LentList) -> Slots {
    let (states, outputs) = (list.bytes.len() + 2, list.ends.len());
    let cells = *dice.pick(&[256, 512, 512, 1024, 2048]);
    let mut slots = Slots::of(states, outputs, cells);
    if dice.below(2) == 0 {
        slots.trie = near(dice, slots.trie);
        slots.notes = near(dice, slots.notes);
        slots.owns = near(dice, slots.owns);
        slots.outs = near(dice, slots.outs);
        slots.spots = near(dice, slots.spots);
        slots.base = near(dice, slots.base);
        slots.link = near(dice, slots.link);
        slots.output = near(dice, slots.output);
        slots.check = near(dice, slots.check);
        slots.depth = near(dice, slots.depth);
    }
    slots
}

fn near(dice: &mut Dice, slots: usize) -> usize {
    match dice.below(24) {
        0 => dice.below(slots + 1),
        1 => slots.saturating_sub(dice.between(1, 3)),
        2 => 0,
        3..=6 => slots + dice.below(4),
        _ => slots,
    }
}

impl ListCase {
    pub fn due(&self) -> Due {
        if let Some(refusal) = refusals::at_once(&self.list) {
            return Due::Refused(refusal);
        }
        let list = self.list.as_list();
        let model = Model::of(&list);
        let tables = model.tables();
        match refusals::by_slots(&tables, &self.slots) {
            Some(refusal) => Due::Refused(refusal),
            None => Due::Made(tables, model.depths()),
        }
    }

    /// Plays the case on a ground: the answer and every element of every table are what is due,
    /// and the list is as it was.
    pub fn play(
        &self,
        due: &Due,
        ground: &mut impl Ground,
        tally: &mut Tally,
    ) -> Result<(), String> {
        let (work, tables) = junk(&self.slots);
        let lent = self.lend(&work, &tables, ground);
        // SAFETY: all is lent in places of its own until it is taken back below.
        let (number, left, is_kept) = unsafe {
            let number = watched(|| lent.call());
            (number, read_back(&lent, number), self.is_kept(&lent))
        };
        ground.take_back();
        if !is_kept {
            return Err("the list was written".to_string());
        }
        match due {
            Due::Refused(refusal) => left.is_refused(*refusal)?,
            Due::Made(tables, depths) => left.is_made(Made {
                kind: self.list.kind,
                tables,
                depths,
            })?,
        }
        tally.call(number, 0);
        Ok(())
    }

    fn lend(&self, work: &Work, tables: &Tables, ground: &mut impl Ground) -> BuildCall {
        BuildCall {
            kind: self.list.kind,
            bytes: ground.lend(&self.list.bytes, Access::Read),
            ends: ground.lend(&self.list.ends, Access::Read),
            values: ground.lend(&self.list.values, Access::Read),
            trie: ground.lend(&work.trie, Access::Write),
            owns: ground.lend(&work.owns, Access::Write),
            notes: ground.lend(&work.notes, Access::Write),
            spots: ground.lend(&work.spots, Access::Write),
            base: ground.lend(&tables.base, Access::Write),
            link: ground.lend(&tables.link, Access::Write),
            output: ground.lend(&tables.output, Access::Write),
            check: ground.lend(&tables.check, Access::Write),
            depth: ground.lend(&tables.depth, Access::Write),
            outs: ground.lend(&tables.outs, Access::Write),
            counts: ground.lend(&[[u32::MAX; 4]], Access::Write),
        }
    }

    unsafe fn is_kept(&self, lent: &BuildCall) -> bool {
        let is = |slice: &Slice<u32>, list: &[u32]| slice.read() == list;
        lent.bytes.read() == self.list.bytes
            && is(&lent.ends, &self.list.ends)
            && is(&lent.values, &self.list.values)
    }
}

/// The answer and the tables in the words of the safe crate.
unsafe fn read_back(lent: &BuildCall, number: u32) -> Left {
    let [kind, accepted, states, cells] = *lent.counts.start;
    Left {
        told: match number {
            0 => Ok(()),
            // The first count is the row of 4 and 5, and 0 with all other refusals.
            refusal => Err((refusal, kind)),
        },
        work: Work {
            trie: lent.trie.read(),
            notes: lent.notes.read(),
            owns: lent.owns.read(),
            spots: lent.spots.read(),
        },
        tables: Tables {
            base: lent.base.read(),
            link: lent.link.read(),
            output: lent.output.read(),
            check: lent.check.read(),
            depth: lent.depth.read(),
            outs: lent.outs.read(),
            counts: Counts {
                kind,
                accepted,
                states,
                cells,
            },
        },
    }
}
