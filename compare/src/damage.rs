//! Damage at scale: any tables, values, texts and lists through the static library. Each case is
//! thrown by its number, told by a model of document 01, and played where a stray access cannot
//! stay unseen: between guard pages, or in exact allocations under valgrind.

mod boundary;
mod exact;
mod fault;
mod flips;
mod ground;
mod guarded;
mod lists;
mod noise;
mod pool;
mod searches;
mod tally;
mod watch;

use exact::Exact;
use fault::Fault;
use ground::Ground;
use guarded::{Flush, Guarded};
use oracle::dice::Dice;
use oracle::wild;
use pool::Pool;
use searches::{sheet_slots, SearchCase};
use std::sync::atomic::{AtomicU64, Ordering};
use std::sync::Mutex;
use std::time::Duration;
use tally::Tally;

const NAMES: [&str; 4] = ["flipped bits", "wild numbers", "random numbers", "lists"];

/// The place of the family whose cases are built and not searched.
const LISTS: usize = 3;

/// How long a call may take. A build near 65,536 cells takes seconds under valgrind.
const PATIENCE: Duration = Duration::from_secs(20);

enum Case {
    Search(SearchCase),
    List(lists::ListCase),
}

/// The case of a number, and the place of its family's name.
fn thrown(number: u64, pool: &Pool) -> (usize, Case) {
    let mut dice = Dice::new(number.wrapping_mul(0x0100_0000_01b3));
    match number % 8 {
        0..=2 => (0, Case::Search(flips::thrown(&mut dice, pool))),
        3 | 4 => (1, Case::Search(wild_case(number, &mut dice))),
        5 | 6 => (2, Case::Search(noise::thrown(&mut dice))),
        _ => (LISTS, Case::List(lists::thrown(&mut dice))),
    }
}

/// The oracle's wild cases, those with a long text less often than there.
fn wild_case(number: u64, dice: &mut Dice) -> SearchCase {
    let mut number = (number % 2_000_000_000) as u32 + 1;
    if wild::is_long(number) && dice.below(20) > 0 {
        number += 1;
    }
    let case = wild::thrown(number);
    SearchCase {
        value: wild::start(&case),
        tables: case.tables,
        text: case.text,
        slots: sheet_slots(dice),
    }
}

/// `compare damage guarded|exact FIRST COUNT [--fault FAULT]` and `compare damage case NUMBER`.
pub fn run(words: &[&str]) -> Result<String, String> {
    let number = |word: &str| word.parse::<u64>().map_err(|_| crate::USAGE.to_string());
    match words {
        ["guarded", first, count] => run_guarded(number(first)?, number(count)?, Fault::None),
        ["guarded", first, count, "--fault", name] => {
            run_guarded(number(first)?, number(count)?, Fault::named(name)?)
        }
        ["exact", first, count] => run_exact(number(first)?, number(count)?, Fault::None),
        ["exact", first, count, "--fault", name] => {
            run_exact(number(first)?, number(count)?, Fault::named(name)?)
        }
        ["case", word] => run_one(number(word)?),
        _ => Err(crate::USAGE.to_string()),
    }
}

/// Two threads, each with rooms of its own; every case lies in both ways.
fn run_guarded(first: u64, count: u64, fault: Fault) -> Result<String, String> {
    watch::catch_strays();
    watch::start(patience(fault));
    let pool = Pool::new()?;
    let next = AtomicU64::new(first);
    let failed: Mutex<Option<String>> = Mutex::new(None);
    let work = |post: usize| {
        watch::take_post(post);
        let mut tallies = [Tally::default(); NAMES.len()];
        let ground = |flush| Guarded::new(flush).expect("rooms can be mapped");
        let mut grounds = [ground(Flush::End), ground(Flush::Start)];
        loop {
            let number = next.fetch_add(1, Ordering::Relaxed);
            if number >= first + count {
                return tallies;
            }
            if let Err(told) = play(number, &pool, &mut grounds, fault, &mut tallies) {
                next.store(first + count, Ordering::Relaxed);
                *failed.lock().expect("no thread panics with it") = Some(told);
                return tallies;
            }
        }
    };
    let mut tallies = [Tally::default(); NAMES.len()];
    std::thread::scope(|scope| {
        let work = &work;
        let threads: Vec<_> = (0..watch::POSTS)
            .map(|post| scope.spawn(move || work(post)))
            .collect();
        for thread in threads {
            let done = thread.join().expect("a thread does not panic");
            tallies
                .iter_mut()
                .zip(&done)
                .for_each(|(sum, tally)| sum.add(tally));
        }
    });
    match failed.into_inner().expect("no thread panics with it") {
        Some(told) => Err(told),
        None => Ok(told("guard pages", &tallies)),
    }
}

/// One thread, since valgrind runs but one at a time.
fn run_exact(first: u64, count: u64, fault: Fault) -> Result<String, String> {
    watch::start(patience(fault));
    let pool = Pool::new()?;
    let mut tallies = [Tally::default(); NAMES.len()];
    let mut grounds = [Exact::default()];
    for number in first..first + count {
        play(number, &pool, &mut grounds, fault, &mut tallies)?;
    }
    Ok(told("exact allocations", &tallies))
}

/// A planted call that does not end is waited for a second.
fn patience(fault: Fault) -> Duration {
    match fault {
        Fault::Hang => Duration::from_secs(1),
        _ => PATIENCE,
    }
}

/// A case on each ground. A planted fault strikes every hundredth case that searches.
fn play<G: Ground>(
    number: u64,
    pool: &Pool,
    grounds: &mut [G],
    fault: Fault,
    tallies: &mut [Tally; NAMES.len()],
) -> Result<(), String> {
    watch::begin_case(number);
    let (family, case) = thrown(number, pool);
    let fault = match number % 100 {
        0 => fault,
        _ => Fault::None,
    };
    let tally = &mut tallies[family];
    tally.cases += 1;
    let told = |ground: &G, error| format!("damage: case {number}, {}: {error}", ground.name());
    match case {
        Case::Search(case) => {
            let due = case.due();
            for ground in grounds {
                let played = case.play(&due, ground, fault, tally);
                played.map_err(|error| told(ground, error))?;
            }
        }
        Case::List(case) => {
            let due = case.due();
            for ground in grounds {
                let played = case.play(&due, ground, tally);
                played.map_err(|error| told(ground, error))?;
            }
        }
    }
    Ok(())
}

fn told(ground: &str, tallies: &[Tally; NAMES.len()]) -> String {
    let mut all = Tally::default();
    let mut lines = vec![];
    for (place, tally) in tallies.iter().enumerate() {
        all.add(tally);
        let told = match place {
            LISTS => tally.told_of_builds(),
            _ => tally.told_of_searches(),
        };
        lines.push(format!("damage: {ground}: {}: {told}", NAMES[place]));
    }
    lines.push(format!("damage: {ground}: all: {}", all.told()));
    lines.join("\n")
}

/// One case in full, then played on every ground.
fn run_one(number: u64) -> Result<String, String> {
    watch::catch_strays();
    watch::start(PATIENCE);
    let pool = Pool::new()?;
    match thrown(number, &pool).1 {
        Case::Search(case) => println!("{case:?}"),
        Case::List(case) => println!("{case:?}"),
    }
    let mut tallies = [Tally::default(); NAMES.len()];
    play(
        number,
        &pool,
        &mut [Exact::default()],
        Fault::None,
        &mut tallies,
    )?;
    let mut grounds = [Guarded::new(Flush::End)?, Guarded::new(Flush::Start)?];
    play(number, &pool, &mut grounds, Fault::None, &mut tallies)?;
    Ok(format!(
        "damage: case {number}: as it is due on every ground"
    ))
}
