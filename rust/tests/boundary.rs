//! Each of the four functions of the static library, called over lent slices: cases of document 01,
//! every refusal, and what each of them leaves.

use rotspangle::lent::{build, fill, Counts, Record, Search, Stop, Tables, Which, Work};

/// What a slot holds before a call.
const EMPTY: Record = [7777, 7778, 7779];

/// A build of `bcd`, `ab`, `a` with values 0, 1, 2, in slots that hold `junk`.
fn p1_in(kind: u32, ends: &[u32], slots: [usize; 3], junk: u32) -> (Told, Work, Tables) {
    let [states, outputs, cells] = slots;
    let mut work = Work {
        trie: vec![[junk; 5]; states],
        notes: vec![[junk; 6]; states],
        owns: vec![[junk; 2]; outputs],
        spots: vec![[junk; 2]; cells],
    };
    let mut tables = Tables {
        base: vec![junk; cells],
        link: vec![junk; cells],
        output: vec![junk; cells],
        check: vec![junk as u8; cells],
        depth: vec![junk as u8; cells],
        outs: vec![[junk; 3]; outputs],
        counts: Counts::default(),
    };
    let told = build(kind, b"bcdaba", ends, &[0, 1, 2], &mut work, &mut tables);
    (told, work, tables)
}

type Told = Result<(), (u32, u32)>;

const ENDS: [u32; 3] = [3, 5, 6];

/// States with root and dead, accepted, cells.
const NEEDED: [usize; 3] = [7, 3, 256];

fn p1(kind: u32) -> Tables {
    let (told, _, tables) = p1_in(kind, &ENDS, NEEDED, 99);
    assert_eq!(told, Ok(()));
    tables
}

fn holds_only(work: &Work, tables: &Tables, number: u32) -> bool {
    let rows = |rows: &[u32]| rows.iter().all(|element| *element == number);
    let bytes = |column: &[u8]| column.iter().all(|element| *element == number as u8);
    rows(work.trie.as_flattened())
        && rows(work.notes.as_flattened())
        && rows(work.owns.as_flattened())
        && rows(work.spots.as_flattened())
        && rows(tables.outs.as_flattened())
        && rows(&tables.base)
        && rows(&tables.link)
        && rows(&tables.output)
        && bytes(&tables.check)
        && bytes(&tables.depth)
}

/// Cells as base, link, output place, check, depth.
#[test]
fn build_makes_the_tables_of_p1() {
    let (told, work, tables) = p1_in(0, &ENDS, NEEDED, 99);
    assert_eq!(told, Ok(()));
    let counts = tables.counts;
    assert_eq!(
        [counts.kind, counts.accepted, counts.states, counts.cells],
        [0, 3, 6, 256]
    );
    let first: [[u32; 5]; 8] = [
        [101, 0, 0, 0, 0],
        [0, 0, 0, 1, 0],
        [103, 0, 0, 99, 2],
        [0, 0, 3, 100, 3],
        [100, 0, 1, 97, 1],
        [0, 0, 0, 5, 0],
        [0, 7, 2, 98, 2],
        [97, 0, 0, 98, 1],
    ];
    let vacant = (8..256).map(|cell| [0, 0, 0, cell, 0]);
    for (cell, due) in first.into_iter().chain(vacant).enumerate() {
        let ours = [
            tables.base[cell],
            tables.link[cell],
            tables.output[cell],
            u32::from(tables.check[cell]),
            u32::from(tables.depth[cell]),
        ];
        assert_eq!(ours, due, "cell {cell}");
    }
    assert_eq!(tables.outs, [[2, 1, 0], [1, 2, 0], [0, 3, 0]]);
    assert!(
        holds_only(&work, &Tables::default(), 0),
        "working tables are zero"
    );
}

#[test]
fn build_refuses_by_1_to_5_and_leaves_everything_as_it_was() {
    let refused = |kind: u32, bytes: &[u8], ends: &[u32], values: &[u32]| {
        let mut work = Work::with_slots(2000, 2000, 256);
        let mut tables = Tables::with_slots(2000, 256);
        tables.base[17] = 5;
        let before = tables.clone();
        let told = build(kind, bytes, ends, values, &mut work, &mut tables);
        assert_eq!(tables, before);
        told
    };
    assert_eq!(refused(3, b"a", &[1], &[0]), Err((1, 0)));
    assert_eq!(refused(u32::MAX, b"a", &[2], &[0]), Err((1, 0)));
    assert_eq!(refused(0, b"a", &[1], &[]), Err((2, 0)));
    assert_eq!(refused(0, b"a", &[2], &[0]), Err((2, 0)));
    assert_eq!(refused(0, b"a", &[], &[]), Err((2, 0)));
    assert_eq!(refused(0, b"ab", &[2, 1], &[0, 0]), Err((2, 0)));
    let ends: Vec<u32> = (1..=1025).collect();
    assert_eq!(refused(1, &[b'a'; 1025], &ends, &[0; 1025]), Err((3, 0)));
    assert_eq!(refused(1, b"ab", &[1, 1, 2], &[0; 3]), Err((4, 1)));
    assert_eq!(refused(2, &[b'a'; 67], &[1, 2, 67], &[0; 3]), Err((5, 2)));
}

#[test]
fn build_refuses_by_6_to_8_and_leaves_zeros() {
    let [states, outputs, cells] = NEEDED;
    for (slots, number) in [
        ([states - 1, outputs, cells], 6),
        ([states, outputs, cells - 1], 7),
        ([states, outputs - 1, cells], 8),
        ([0, 0, 0], 6),
        ([states, 0, 0], 7),
    ] {
        let (told, work, tables) = p1_in(0, &ENDS, slots, 99);
        assert_eq!(told, Err((number, 0)));
        assert!(holds_only(&work, &tables, 0), "{number} leaves zeros");
    }
}

/// Calls until the text has no further match: all records, and the value at the end.
fn all(which: Which, tables: &Tables, text: &[u8], slots: usize) -> (Vec<Record>, Search) {
    let mut sheet = vec![EMPTY; slots];
    let mut value = Search::default();
    let mut records = vec![];
    loop {
        let (written, stop) = fill(which, tables, text, &mut value, &mut sheet);
        records.extend(&sheet[..written]);
        assert!(sheet[written..].iter().all(|slot| *slot == EMPTY));
        match stop {
            Stop::Full => assert_eq!(written, slots),
            Stop::Ended => return (records, value),
            Stop::Refused(number) => panic!("refused by {number}"),
        }
        sheet.fill(EMPTY);
    }
}

#[test]
fn overlapping_gives_p3_on_a_sheet_of_any_size() {
    for slots in 1..5 {
        let (records, value) = all(Which::Overlapping, &p1(0), b"abcd", slots);
        assert_eq!(records, [[0, 1, 2], [0, 2, 1], [1, 4, 0]]);
        assert_eq!((value.pending, value.place, value.moves), (0, 4, 5));
    }
}

#[test]
fn plain_gives_p2_on_a_sheet_of_any_size() {
    for slots in 1..4 {
        let (records, value) = all(Which::Plain, &p1(0), b"abcd", slots);
        assert_eq!(records, [[0, 1, 2], [1, 4, 0]]);
        assert_eq!((value.pending, value.place, value.moves), (0, 4, 4));
    }
}

/// P6: kind 2 drops T100, since T10 is listed before it.
#[test]
fn leftmost_gives_p6_on_a_sheet_of_any_size() {
    for (kind, accepted, due) in [(1, 2, [0, 4, 1]), (2, 1, [0, 3, 0])] {
        let mut work = Work::with_slots(9, 2, 256);
        let mut tables = Tables::with_slots(2, 256);
        let told = build(kind, b"T10T100", &[3, 7], &[0, 1], &mut work, &mut tables);
        assert_eq!((told, tables.counts.accepted), (Ok(()), accepted));
        for slots in 1..4 {
            let (records, value) = all(Which::Leftmost, &tables, b"T100", slots);
            assert_eq!(records, [due]);
            let at_end = Search {
                place: 4,
                ..Search::default()
            };
            assert_eq!(value, at_end);
        }
    }
}

#[test]
fn a_sheet_without_slots_is_full_at_once() {
    let mut value = Search::default();
    let told = fill(Which::Overlapping, &p1(0), b"abcd", &mut value, &mut []);
    assert_eq!((told, value), ((0, Stop::Full), Search::default()));
}

#[test]
fn searches_refuse_by_9_to_11_and_hand_the_value_back() {
    let refused = |which, tables: &Tables, text: &[u8], from: Search| {
        let mut value = from;
        let mut sheet = [EMPTY; 2];
        let (written, stop) = fill(which, tables, text, &mut value, &mut sheet);
        assert_eq!((written, value, sheet), (0, from, [EMPTY; 2]));
        stop
    };
    let (standard, leftmost) = (p1(0), p1(1));
    let fresh = Search::default();
    let long = vec![b'x'; 65_537];
    for which in [Which::Overlapping, Which::Plain] {
        assert_eq!(refused(which, &leftmost, b"a", fresh), Stop::Refused(9));
        assert_eq!(refused(which, &standard, &long, fresh), Stop::Refused(10));
    }
    assert_eq!(
        refused(Which::Leftmost, &standard, b"a", fresh),
        Stop::Refused(9)
    );
    assert_eq!(
        refused(Which::Leftmost, &leftmost, &long, fresh),
        Stop::Refused(10)
    );

    for (which, sound) in [
        (Which::Overlapping, &standard),
        (Which::Plain, &standard),
        (Which::Leftmost, &leftmost),
    ] {
        let far = Search { place: 2, ..fresh };
        assert_eq!(refused(which, sound, b"a", far), Stop::Refused(11));
        let lost = Search {
            state: 256,
            ..fresh
        };
        assert_eq!(refused(which, sound, b"a", lost), Stop::Refused(11));
        let mut damaged = sound.clone();
        damaged.base[0] = u32::MAX;
        assert_eq!(refused(which, &damaged, b"a", fresh), Stop::Refused(11));
        damaged.counts.cells = 257;
        assert_eq!(refused(which, &damaged, b"", fresh), Stop::Refused(11));
        let none = Tables::default();
        let on_none = refused(which, &none, b"", fresh);
        let wrong = if which == Which::Leftmost { 9 } else { 11 };
        assert_eq!(on_none, Stop::Refused(wrong));
    }
}

/// The record before the damage is kept, and the value is the one after it.
#[test]
fn damage_behind_a_match_is_told_after_it() {
    let mut tables = p1(0);
    // `b` leads past the cells.
    tables.base[4] = u32::MAX;
    let mut value = Search::default();
    let mut sheet = [EMPTY; 3];
    let told = fill(Which::Overlapping, &tables, b"ab", &mut value, &mut sheet);
    assert_eq!(told, (1, Stop::Refused(11)));
    assert_eq!(sheet, [[0, 1, 2], EMPTY, EMPTY]);
    assert_eq!((value.state, value.place, value.moves), (4, 1, 1));
}
