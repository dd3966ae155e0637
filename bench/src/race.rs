//! Timing: contestants in turn, round after round, so that what else the machine does meets all
//! of them alike.

use crate::clock;
use crate::sum::Sum;
use std::hint::black_box;
use std::time::Duration;

/// How many rounds, and how long one contestant's part of a round is at least; it is at most about
/// twice that, or one work.
#[derive(Clone, Copy)]
pub struct Pace {
    pub rounds: usize,
    pub part: Duration,
}

impl Pace {
    pub const WHOLE: Pace = Pace {
        rounds: 61,
        part: Duration::from_millis(2),
    };
    pub const QUICK: Pace = Pace {
        rounds: 9,
        part: Duration::from_micros(200),
    };
}

/// One way to do the work.
pub struct Contestant<'a> {
    pub name: &'static str,
    pub work: Box<dyn FnMut() -> Sum + 'a>,
}

impl<'a> Contestant<'a> {
    pub fn new(name: &'static str, work: impl FnMut() -> Sum + 'a) -> Contestant<'a> {
        Contestant {
            name,
            work: Box::new(work),
        }
    }
}

/// Nanoseconds of one work, for each contestant in each round; and what all of them found, which
/// has to be the same.
pub struct Times {
    pub sum: Sum,
    pub rounds: Vec<Vec<f64>>,
}

pub fn race(pace: Pace, what: &str, contestants: &mut [Contestant]) -> Result<Times, String> {
    let sum = agreed(what, contestants)?;
    let repeats: Vec<u32> = contestants
        .iter_mut()
        .map(|one| repeats(pace.part, one))
        .collect();
    let mut rounds = vec![Vec::new(); contestants.len()];
    for round in 0..pace.rounds {
        for turn in 0..contestants.len() {
            // Each goes first, second .. equally often.
            let who = (round + turn) % contestants.len();
            let spent = time(&mut contestants[who], repeats[who]);
            rounds[who].push(spent.as_nanos() as f64 / f64::from(repeats[who]));
        }
    }
    Ok(Times { sum, rounds })
}

fn agreed(what: &str, contestants: &mut [Contestant]) -> Result<Sum, String> {
    let sums: Vec<Sum> = contestants.iter_mut().map(|one| (one.work)()).collect();
    for (one, sum) in contestants.iter().zip(&sums) {
        if *sum != sums[0] {
            let (first, other) = (contestants[0].name, one.name);
            return Err(format!("{what}: {first} and {other} differ"));
        }
    }
    Ok(sums[0])
}

/// How often the work is repeated so that it fills its part of a round, by the best of three.
fn repeats(part: Duration, one: &mut Contestant) -> u32 {
    let mut repeats = 1;
    while (0..3).any(|_| time(one, repeats) < part) {
        repeats *= 2;
    }
    repeats
}

fn time(one: &mut Contestant, repeats: u32) -> Duration {
    let begin = clock::now();
    for _ in 0..repeats {
        black_box((one.work)());
    }
    clock::now() - begin
}
