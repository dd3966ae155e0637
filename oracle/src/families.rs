//! How lists and texts are made. Each family makes its questions from dice with
//! a fixed seed, so that the same questions come each time.

pub mod crowded;
pub mod exhaustive;
pub mod fibre;
pub mod fixed;
pub mod random;
pub mod sample;
pub mod scarce;
pub mod window;

use crate::dice::Dice;
use crate::question::Question;

/// A family of random lists for the comparison.
pub struct Family {
    pub name: &'static str,
    pub seed: u64,
    /// One list is made where a cheap family makes this many.
    pub cost: usize,
    pub make: fn(&mut Dice) -> Question,
}

pub fn all() -> Vec<Family> {
    let family = |name, seed, cost, make| Family {
        name,
        seed,
        cost,
        make,
    };
    vec![
        family("1 letter", 101, 1, |dice| random::small(dice, 1)),
        family("2 letters", 102, 1, |dice| random::small(dice, 2)),
        family("3 letters", 103, 1, |dice| random::small(dice, 3)),
        family("4 letters", 104, 1, |dice| random::small(dice, 4)),
        family("26 letters", 105, 1, |dice| random::small(dice, 26)),
        family("256 letters", 106, 1, |dice| random::small(dice, 256)),
        family("several blocks", 107, 4, |dice| {
            random::several_blocks(dice, 60)
        }),
        family("fibre crew", 108, 20, |dice| fibre::question(dice, 900)),
        family("window", 109, 20, window::question),
        family("crowded", 110, 100, crowded::random_question),
    ]
}
