//! What the crate says of a list, and what document 01 adds: the refusal and the depths.

use crate::left::Made;
use oracle::cell_walk::depths;
use oracle::crate_answers::{self, Built};
use oracle::lent::LentList;
use oracle::refusals::{in_ample_slots, Refusal};
use oracle::tables::{List, Tables};

pub struct Expected<'a> {
    pub list: &'a List,
    pub lent: LentList,
    pub built: Built,
    pub tables: Tables,
    /// The depth of each cell.
    pub depths: Vec<u8>,
    /// The refusal that is due in ample slots, and the row that it names.
    pub refusal: Option<Refusal>,
}

impl Expected<'_> {
    pub fn of(list: &List) -> Result<Expected<'_>, String> {
        let built = crate_answers::build(list)?;
        let tables = built.tables()?;
        Ok(Expected {
            depths: depths(list, &tables.cells),
            refusal: in_ample_slots(list, &tables),
            lent: LentList::of(list),
            list,
            built,
            tables,
        })
    }

    pub fn made(&self) -> Made<'_> {
        Made {
            kind: self.lent.kind,
            tables: &self.tables,
            depths: &self.depths,
        }
    }
}
