//! The texts. A short one is some of the first bytes, a long one repeats them and some more.

use super::case::Shape;
use super::throws::{is_wild, rest, wild_byte, Throws};

/// After so many bytes a long text begins again.
const PERIOD: usize = 64;

pub fn thrown(throws: &mut Throws, shape: &Shape, is_long: bool) -> Vec<u8> {
    let length = text_length(throws.next(), is_long);
    let mut period: Vec<u8> = (0..8).map(|_| letter_for(throws.next(), shape)).collect();
    let mut others = Throws::of_case(0);
    period.resize_with(PERIOD, || (rest(others.next()) % 2) as u8);
    period.into_iter().cycle().take(length as usize).collect()
}

fn letter_for(x: u32, shape: &Shape) -> u8 {
    let y = rest(x);
    if is_wild(x, shape.calm) {
        return wild_byte(y);
    }
    let letter = match y % 64 {
        0 => 4 + y / 64 % 12,
        // Often no letter of the tables: links are followed to their end.
        1..=12 => y / 64 % 4,
        _ => y / 64 % 2,
    };
    letter as u8
}

/// From 0 to 8 bytes, mostly 4 or more; a long one is at the limit or a byte above it.
fn text_length(x: u32, is_long: bool) -> u32 {
    if is_long {
        65_536 + x % 2
    } else if x % 4 == 0 {
        x / 4 % 9
    } else {
        4 + x / 4 % 5
    }
}
