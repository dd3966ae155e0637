//! Lists at every edge of document 01's refusals, as they are lent, over ample, just enough and too
//! few slots.

use crate::lent::{LentList, Slots};
use crate::tables::{List, LEFTMOST_FIRST, STANDARD};

pub struct Case {
    pub name: String,
    /// The refusal that it is there to show, or 0.
    pub due: u32,
    pub list: LentList,
    pub slots: Slots,
}

pub fn cases() -> Vec<Case> {
    [
        kinds(),
        edges(),
        uncut(),
        no_patterns(),
        one_too_few(),
        pairs(),
    ]
    .into_iter()
    .flatten()
    .collect()
}

/// Enough for each list here, and no two the same.
fn ample() -> Slots {
    let mut slots = Slots::of(1100, 1100, 1600);
    for (place, table) in slots.in_order().into_iter().enumerate() {
        *table -= place;
    }
    slots
}

/// What the list of P1 needs: 7 states with root and dead, one block of cells, 3 outputs.
fn just_enough() -> Slots {
    Slots::of(7, 3, 256)
}

fn case(name: &str, due: u32, list: LentList, slots: Slots) -> Case {
    Case {
        name: format!("slots: {name}"),
        due,
        list,
        slots,
    }
}

fn lent<P: AsRef<[u8]>>(kind: u8, patterns: &[P]) -> LentList {
    LentList::of(&List::numbered(kind, patterns))
}

fn p1() -> LentList {
    lent(STANDARD, &["bcd", "ab", "a"])
}

fn kinds() -> Vec<Case> {
    let of_kind = |(kind, due): (u32, u32)| {
        let list = LentList { kind, ..p1() };
        case(&format!("kind {kind}"), due, list, ample())
    };
    [(0, 0), (1, 0), (2, 0), (3, 1), (u32::MAX, 1)]
        .map(of_kind)
        .into()
}

/// Both sides of the limits, and what kind 2 drops.
fn edges() -> Vec<Case> {
    let in_ample = |name, due, list| case(name, due, list, ample());
    vec![
        in_ample("64 bytes", 0, lent(STANDARD, &[[b'a'; 64]])),
        in_ample("65 bytes", 5, lent(STANDARD, &[[b'a'; 65]])),
        in_ample("1,024 listed", 0, numbered(1024)),
        in_ample("1,025 listed", 3, numbered(1025)),
        in_ample("T10, T100", 0, lent(LEFTMOST_FIRST, &["T10", "T100"])),
        in_ample("T100, T10", 0, lent(LEFTMOST_FIRST, &["T100", "T10"])),
    ]
}

/// So many patterns, whose two bytes are their index.
fn numbered(count: u16) -> LentList {
    let patterns: Vec<[u8; 2]> = (0..count).map(u16::to_be_bytes).collect();
    lent(STANDARD, &patterns)
}

/// The ways in which ends can fail to cut the bytes, and values to go with them.
fn uncut() -> Vec<Case> {
    let list = |name, due, bytes: &[u8], ends: &[u32], values: u32| {
        let list = LentList {
            kind: 0,
            bytes: bytes.to_vec(),
            ends: ends.to_vec(),
            values: (0..values).collect(),
        };
        case(name, due, list, ample())
    };
    vec![
        list("ends that cut the bytes", 0, b"abc", &[1, 2, 3], 3),
        list("an end below the one before", 2, b"abc", &[2, 1, 3], 3),
        list("a last end below the byte count", 2, b"abcd", &[1, 2, 3], 3),
        list("a last end above the byte count", 2, b"abc", &[1, 2, 4], 3),
        list("fewer values than ends", 2, b"abc", &[1, 2, 3], 2),
        list("more values than ends", 2, b"ab", &[1, 2], 3),
        list("bytes and no patterns", 2, b"abc", &[], 0),
    ]
}

/// Root and dead need 2 states, and any list one block of cells.
fn no_patterns() -> Vec<Case> {
    let none = |name, due, slots| case(name, due, LentList::default(), slots);
    let least = Slots::of(2, 0, 256);
    vec![
        none("no patterns, just enough", 0, least),
        none("no patterns, 1 state", 6, Slots { trie: 1, ..least }),
        none(
            "no patterns, 255 cells",
            7,
            Slots {
                spots: 255,
                ..least
            },
        ),
    ]
}

/// One slot less of each table, beside just enough and more of the others; and of all cells.
fn one_too_few() -> Vec<Case> {
    let mut cases = vec![
        case("just enough", 0, p1(), just_enough()),
        case("255 cells", 7, p1(), Slots::of(7, 3, 255)),
    ];
    let due = [6, 8, 6, 7, 7, 7, 7, 7, 7, 8];
    for (place, needed) in just_enough().in_order().into_iter().enumerate() {
        for (others, mut slots) in [("just enough", just_enough()), ("more", ample())] {
            *slots.in_order()[place] = *needed - 1;
            let name = format!("one too few of table {place}, {others} of the others");
            cases.push(case(&name, due[place], p1(), slots));
        }
    }
    cases
}

/// Every refusal alone and every two together, of which the lower is due.
fn pairs() -> Vec<Case> {
    let with = |first| (first..=8).map(move |second| refused(first, second));
    (1..=8).flat_map(with).collect()
}

/// Two refusals that are due. Rows 1 and 3 are too long, 2 and 4 empty, where that is asked: the
/// lowest is to be named. Where slots are to be too few, one table has too few.
fn refused(first: u32, second: u32) -> Case {
    let asked = |number: u32| first == number || second == number;
    let mut list = LentList {
        kind: if asked(1) { 3 } else { 0 },
        ..LentList::default()
    };
    for row in 0..if asked(3) { 1025 } else { 5 } {
        let size = match row {
            1 | 3 if asked(5) => 65,
            2 | 4 if asked(4) => 0,
            _ => 2,
        };
        list.bytes.extend([row as u8; 65].into_iter().take(size));
        list.ends.push(list.bytes.len() as u32);
        list.values.push(0);
    }
    if asked(2) {
        list.bytes.push(0);
    }
    let mut slots = ample();
    if asked(6) {
        slots.notes = 1;
    }
    if asked(7) {
        slots.link = 255;
    }
    if asked(8) {
        slots.outs = 4;
    }
    case(&format!("{first} and {second} due"), first, list, slots)
}
