//! The lists that are built and searched for, from dice with fixed seeds.

use crate::dice::Dice;
use crate::fibre;
use crate::tables::Pattern;

/// Patterns with their values, and a name for the tables.
pub struct Listed {
    pub name: String,
    pub patterns: Vec<Pattern>,
}

impl Listed {
    pub fn bytes(&self) -> usize {
        self.patterns.iter().map(|p| p.bytes.len()).sum()
    }

    /// The bytes of all patterns in a row.
    pub fn row(&self) -> Vec<u8> {
        self.patterns.iter().flat_map(|p| p.bytes.clone()).collect()
    }

    /// The end of each pattern in that row.
    pub fn ends(&self) -> Vec<u32> {
        let mut end = 0;
        let mut next = |p: &Pattern| {
            end += p.bytes.len() as u32;
            end
        };
        self.patterns.iter().map(&mut next).collect()
    }

    pub fn values(&self) -> Vec<u32> {
        self.patterns.iter().map(|p| p.value).collect()
    }
}

/// The fibre crew's codes and phrases, the oracle's family.
pub fn crew(rows: usize) -> Listed {
    let question = fibre::question(&mut Dice::new(900), rows);
    Listed {
        name: format!("{rows} codes and phrases"),
        patterns: question.list.patterns,
    }
}

/// 60 patterns of 1 to 4 bytes over three letters: several end at each byte.
pub fn three_letters() -> Listed {
    thrown("60 short over 3 letters", 60, b"abc", 1, 4)
}

/// 900 patterns of 2 to 8 bytes over all bytes.
pub fn all_bytes() -> Listed {
    thrown("900 over 256 letters", 900, &every_byte(), 2, 8)
}

/// As long a list as there can be, of the longest patterns there can be, over all bytes.
pub fn longest_over_all_bytes() -> Listed {
    thrown(
        "1,024 of 64 bytes over 256 letters",
        1_024,
        &every_byte(),
        64,
        64,
    )
}

pub fn longest_over_capitals() -> Listed {
    let letters: Vec<u8> = (b'A'..=b'Z').collect();
    thrown("1,024 of 64 bytes over 26 letters", 1_024, &letters, 64, 64)
}

fn every_byte() -> Vec<u8> {
    (0..=255).collect()
}

fn thrown(name: &str, rows: usize, letters: &[u8], shortest: usize, longest: usize) -> Listed {
    let mut dice = Dice::new(letters.len() as u64);
    let mut pattern = |row| {
        let length = dice.between(shortest, longest);
        Pattern {
            bytes: dice.string(letters, length),
            value: row,
        }
    };
    Listed {
        name: name.to_string(),
        patterns: (0..rows as u32).map(&mut pattern).collect(),
    }
}
