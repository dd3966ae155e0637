//! The families of lists that are compared: the oracle's, and those of `lists.rs`. Each list has dice
//! of its own, so that two threads make the same lists as one.

use super::judge::Care;
use super::lists;
use oracle::dice::Dice;
use oracle::families::{fibre, fixed, random, window};
use oracle::question::Question;

pub struct Family {
    pub name: &'static str,
    make: fn(&mut Dice) -> Question,
    pub plan: Plan,
}

/// How much of a family is compared.
#[derive(Clone, Copy)]
pub struct Plan {
    /// How many lists the long run has, and the short one; each stands in all kinds.
    pub lists: [usize; 2],
    /// How many texts are made for a list beside its own.
    texts: usize,
    pub care: Care,
}

impl Family {
    /// The list of this number, with its texts.
    pub fn question(&self, number: usize) -> Question {
        let mut dice = Dice::new(seed(self.name) ^ number as u64);
        let mut question = (self.make)(&mut dice);
        add_texts(&mut dice, &mut question, self.plan.texts);
        question
    }
}

/// The name's bytes, folded.
fn seed(name: &str) -> u64 {
    let fold = |sum: u64, byte| (sum ^ u64::from(byte)).wrapping_mul(0x0100_0000_01b3);
    name.bytes().fold(0x2026_1115, fold) << 24
}

const SMALL: Plan = Plan {
    lists: [3000, 40],
    texts: 120,
    care: Care {
        lent_in_all_kinds: true,
        sheets: 2,
        ways: 1,
        over_strings: 4,
        window: false,
    },
};

const SMALL_LIMIT: Plan = Plan { texts: 40, ..SMALL };

/// The walk over strings is slow on many states.
const LARGE: Plan = Plan {
    lists: [1500, 8],
    texts: 60,
    care: Care {
        over_strings: 1,
        ..SMALL.care
    },
};

const WINDOW: Plan = Plan {
    care: Care {
        window: true,
        ..LARGE.care
    },
    ..LARGE
};

const SLOTS: Plan = Plan {
    care: Care {
        sheets: 1,
        ways: super::builds::WAYS,
        ..LARGE.care
    },
    ..LARGE
};

/// A build near 65,536 cells is dear.
const VAST: Plan = Plan {
    lists: [720, 4],
    texts: 8,
    care: Care {
        lent_in_all_kinds: false,
        sheets: 1,
        ways: 0,
        over_strings: 0,
        window: false,
    },
};

const LONG_TEXTS: Plan = Plan {
    lists: [1000, 2],
    texts: 0,
    care: Care {
        lent_in_all_kinds: true,
        ways: 1,
        ..VAST.care
    },
};

pub fn all() -> Vec<Family> {
    let family = |name, plan, make| Family { name, make, plan };
    vec![
        family("1 letter", SMALL, |dice| random::small(dice, 1)),
        family("2 letters", SMALL, |dice| random::small(dice, 2)),
        family("3 letters", SMALL, |dice| random::small(dice, 3)),
        family("4 letters", SMALL, |dice| random::small(dice, 4)),
        family("26 letters", SMALL, |dice| random::small(dice, 26)),
        family("256 letters", SMALL, |dice| random::small(dice, 256)),
        family("duplicates", SMALL, lists::duplicates),
        family("prefixes and suffixes", SMALL, lists::prefixes_and_suffixes),
        family("bytes 0 and 255", SMALL, lists::end_bytes),
        family("limit 3: 1,020 to 1,028 listed", LARGE, lists::listed),
        family("limit 4: an empty pattern", SMALL_LIMIT, lists::empty),
        family("limit 5: 60 to 66 bytes", SMALL_LIMIT, lists::long),
        family("limits 6 to 8: slots", SLOTS, lists::blocks),
        family("limit 7: near 65,536 cells", VAST, lists::crowded_list),
        family(
            "limit 10: 65,535 to 65,537 bytes",
            LONG_TEXTS,
            lists::long_texts,
        ),
        family("several blocks", LARGE, lists::blocks),
        family("fibre crew", LARGE, |dice| fibre::question(dice, 900)),
        family("window", WINDOW, window::question),
    ]
}

/// The lists that the oracle has written down.
pub fn written_down() -> Vec<Question> {
    let mut questions = fixed::case_table();
    questions.extend(fixed::limits());
    questions.extend(fixed::end_bytes());
    questions.extend(fixed::equal_patterns());
    questions.extend(fixed::prefixes_and_suffixes());
    questions.extend(fixed::leftmost_traps());
    questions.extend(fixed::full_block().in_all_kinds());
    questions
}

/// More texts in which the patterns occur, and strings over their bytes. No text stands twice.
fn add_texts(dice: &mut Dice, question: &mut Question, texts: usize) {
    let patterns = &question.list.patterns;
    if texts == 0 || patterns.is_empty() || question.has_empty_pattern() {
        return;
    }
    let mut letters: Vec<u8> = patterns.iter().flat_map(|p| p.bytes.clone()).collect();
    letters.push(dice.byte());
    letters.sort();
    letters.dedup();
    while question.texts.len() < texts {
        let made = random::texts(dice, patterns, &letters);
        question.texts.extend(made.into_iter().skip(1));
    }
    question.texts.sort();
    question.texts.dedup();
}
