//! The dice, and the numbers that a throw stands for. A throw is
//! one number below 2^31 - 1, and each field of a case is a function of one throw: its remainder by
//! `RARE` says whether the field is wild, the rest of it which number it gets.

/// Of so many throws one is wild, in a case that is not calm.
const RARE: u32 = 80;

const MODULUS: u32 = 2_147_483_647;

/// A generator by Lehmer: each number is the one before, times 48,271, modulo a prime.
pub struct Throws(u32);

impl Throws {
    /// Each case has dice of its own. Two throws that start at neighbours are neighbours still by
    /// the generator's rule, so the seed is stirred by an exclusive or.
    pub fn of_case(case: u32) -> Throws {
        let x = after(after(case));
        Throws((x ^ (x / 1024)) % (MODULUS - 1) + 1)
    }

    pub fn next(&mut self) -> u32 {
        self.0 = after(self.0);
        self.0
    }
}

fn after(x: u32) -> u32 {
    (u64::from(x) * 48_271 % u64::from(MODULUS)) as u32
}

pub fn is_wild(x: u32, calm: bool) -> bool {
    x % RARE == 0 && !calm
}

/// What a throw has left once it is known whether it is wild.
pub fn rest(x: u32) -> u32 {
    x / RARE
}

/// A number below a bound, or 0 if there is none.
pub fn below(x: u32, bound: u32) -> u32 {
    if bound == 0 {
        0
    } else {
        x % bound
    }
}

/// A wild number, by a bound that the field should keep.
pub fn wild_number(x: u32, bound: u32) -> u32 {
    match x % 6 {
        0 => 0,
        1 => 1,
        2 => bound,
        3 => bound.saturating_add(1),
        4 => 255,
        _ => u32::MAX,
    }
}

/// A wild byte: 12 is past the cells.
pub fn wild_byte(x: u32) -> u8 {
    (wild_number(x, 12) % 256) as u8
}

/// A number that does not fit in 32 bits: doubled it may not fit in 64.
pub fn huge_number(x: u32) -> u64 {
    match x % 4 {
        0 => 1 << 32,
        1 => 1 << 63,
        2 => (1 << 63) + 1,
        _ => u64::MAX,
    }
}
