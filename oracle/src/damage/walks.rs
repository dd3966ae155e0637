//! The walk on a byte and the three searches over it. The refusals that are due at once have been
//! tested: the state is a cell, the place is in the text, and every cell below the count has its
//! slot in each column.

use super::rules::{probed, target, whole_output, Damage};
use super::{Answer, Match, Notes, Search, Tables, Value, DEAD, ROOT};

pub fn run(
    search: Search,
    tables: &Tables,
    text: &[u8],
    value: Value,
    notes: &Notes,
) -> Result<Answer, Damage> {
    let walk = Walk {
        tables,
        text,
        leftmost: search == Search::Leftmost,
        notes,
    };
    match search {
        Search::Overlapping => walk.overlapping(value),
        Search::Plain => walk.plain(value),
        Search::Leftmost => walk.leftmost(value),
    }
}

struct Walk<'a> {
    tables: &'a Tables,
    text: &'a [u8],
    leftmost: bool,
    notes: &'a Notes,
}

/// Where a byte leads, and the moves that it takes.
struct Step {
    state: u32,
    moves: u64,
}

impl Walk<'_> {
    fn told(&self, holds: bool, what: &'static str) {
        self.notes.note_if(holds, what);
    }

    /// The child of a state on a byte. From base 0 every probe fails, and no cell is read (B1).
    fn child(&self, state: u32, byte: u8) -> Result<Option<u32>, Damage> {
        let base = self.tables.base[state as usize];
        if base == 0 {
            let would_be_damage = probed(self.tables, base, byte).is_err();
            self.told(would_be_damage, "B1: base 0, a byte past the cells");
            return Ok(None);
        }
        let cell = probed(self.tables, base, byte)?;
        let accepted = self.tables.check[cell as usize] == byte;
        Ok(accepted.then_some(cell))
    }

    /// The states along the links until one has the byte or root is reached, or dead by a link of
    /// the leftmost walk. Depths fall along it, so it ends.
    fn chain(&self, from: u32, byte: u8) -> Result<Vec<u32>, Damage> {
        let mut chain = vec![from];
        let mut state = from;
        while state != ROOT && self.child(state, byte)?.is_none() {
            state = target(self.tables, state, self.leftmost)?;
            chain.push(state);
            if self.leftmost && state == DEAD {
                break;
            }
        }
        Ok(chain)
    }

    /// One byte: each link and the byte itself is a move. Dead goes to root, the byte taken.
    fn step(&self, from: u32, byte: u8) -> Result<Step, Damage> {
        let chain = self.chain(from, byte)?;
        let last = chain[chain.len() - 1];
        let fell_to_dead = self.leftmost && chain.len() > 1 && last == DEAD;
        self.told(fell_to_dead, "leftmost: a link to dead");
        self.told(chain.len() > 2, "all: two links or more on a byte");
        let from_dead = !self.leftmost && chain.len() > 1 && last == DEAD;
        self.told(from_dead, "standard: a link to cell 1, a byte taken there");
        let state = if fell_to_dead {
            ROOT
        } else {
            self.child(last, byte)?.unwrap_or(ROOT)
        };
        Ok(Step {
            state,
            moves: chain.len() as u64,
        })
    }

    /// The output place of a state.
    fn outputs_of(&self, state: u32) -> u32 {
        self.tables.output[state as usize]
    }

    /// The match of an output that ends at a place, and the next place of its chain.
    fn given(&self, output: u32, end: u64) -> Result<(Match, u32), Damage> {
        let slots = self.tables.outs.len() as u64;
        let past = output > self.tables.counts.accepted && u64::from(output) <= slots;
        self.told(past, "B8: an output place past the accepted");
        let [value, length, next] = whole_output(self.tables, output, end)?;
        let start = end - u64::from(length);
        Ok((Match { start, end, value }, next))
    }

    /// The end of a standard search keeps the walk's state (B11).
    fn standard_end(&self, here: Value) -> Answer {
        self.told(here.state != ROOT, "B11: a standard end, not at root");
        Answer::End(here)
    }

    /// The standard walk from a value to the first byte that ends at a state with outputs, or to
    /// the end of the text.
    fn to_outputs(&self, from: Value) -> Result<Value, Damage> {
        let mut value = Value { output: 0, ..from };
        for byte in &self.text[from.place as usize..] {
            let step = self.step(value.state, *byte)?;
            value = Value {
                state: step.state,
                output: self.outputs_of(step.state),
                place: value.place + 1,
                moves: value.moves + step.moves,
            };
            if value.output != 0 {
                self.told(value.state == ROOT, "standard: an output of root");
                break;
            }
        }
        Ok(value)
    }

    /// After each byte the whole output chain: what is pending comes first.
    fn overlapping(&self, value: Value) -> Result<Answer, Damage> {
        self.told(value.output != 0, "overlapping: an output pending");
        let here = match value.output {
            0 => self.to_outputs(value)?,
            _ => value,
        };
        if here.output == 0 {
            return Ok(self.standard_end(here));
        }
        let (found, next) = self.given(here.output, here.place)?;
        Ok(Answer::Match(
            found,
            Value {
                output: next,
                ..here
            },
        ))
    }

    /// The first output of the first state that has one, then root again. What is pending is
    /// ignored and handed back as 0 (B5).
    fn plain(&self, value: Value) -> Result<Answer, Damage> {
        self.told(value.output != 0, "B5: plain, an output pending");
        let here = self.to_outputs(value)?;
        if here.output == 0 {
            return Ok(self.standard_end(here));
        }
        let (found, _) = self.given(here.output, here.place)?;
        let next = Value {
            state: ROOT,
            output: 0,
            ..here
        };
        Ok(Answer::Match(found, next))
    }

    /// The matches kept from the value's state (B4) to the first byte that ends at root with one
    /// kept, or to the end of the text. Root's own output is never kept (B3).
    fn kept(&self, from: Value) -> Result<Vec<Match>, Damage> {
        let mut kept = vec![];
        let mut state = from.state;
        for (end, byte) in (from.place + 1..).zip(&self.text[from.place as usize..]) {
            state = self.step(state, *byte)?.state;
            let output = self.outputs_of(state);
            if state == ROOT {
                self.told(output != 0, "B3: leftmost at root with an output");
                if !kept.is_empty() {
                    break;
                }
            } else if output != 0 {
                kept.push(self.given(output, end)?.0);
            }
        }
        Ok(kept)
    }

    /// The one kept last. The search goes on at its end, at root; leftmost reports 0 moves (B6).
    fn leftmost(&self, value: Value) -> Result<Answer, Damage> {
        self.told(value.state != ROOT, "B4: leftmost, not from root");
        self.told(value.output != 0, "B5: leftmost, an output pending");
        self.told(value.moves != 0, "B6: leftmost with moves");
        let kept = self.kept(value)?;
        self.told(kept.len() > 1, "leftmost: a kept match replaced");
        let at = |place: u64| Value {
            state: ROOT,
            output: 0,
            place,
            moves: 0,
        };
        Ok(match kept.last() {
            Some(found) => {
                let is_back = found.end < self.text.len() as u64;
                self.told(is_back, "leftmost: a match before the text's end");
                Answer::Match(*found, at(found.end))
            }
            None => Answer::End(at(self.text.len() as u64)),
        })
    }
}
