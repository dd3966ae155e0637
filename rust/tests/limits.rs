//! Both sides of each limit, through a matcher.

use rotspangle::{Kind, Matcher, Refusal};

const KINDS: [Kind; 3] = [Kind::Standard, Kind::LeftmostLongest, Kind::LeftmostFirst];

/// So many different patterns of two bytes.
fn listed(count: usize) -> Vec<[u8; 2]> {
    (0..count)
        .map(|row| [(row / 64) as u8, (row % 64) as u8])
        .collect()
}

#[test]
fn a_list_has_at_most_1024_patterns() {
    for kind in KINDS {
        let matcher = Matcher::new(kind, listed(1024)).expect("1,024 are taken");
        assert_eq!(matcher.counts().accepted, 1024);
        let refused = Matcher::new(kind, listed(1025)).expect_err("1,025 are not");
        assert_eq!((refused, refused.number()), (Refusal::TooMany, 3));
    }
}

#[test]
fn a_pattern_has_1_to_64_bytes() {
    let bytes = [b'a'; 66];
    for kind in KINDS {
        let matcher = Matcher::new(kind, [&bytes[..64]]).expect("64 bytes are taken");
        assert_eq!(matcher.counts().states, 65);
        for length in [65, 66] {
            let refused = Matcher::new(kind, [&bytes[..2], &bytes[..length]]);
            let refused = refused.expect_err("65 are not");
            assert_eq!(
                (refused, refused.number()),
                (Refusal::TooLong { row: 1 }, 5)
            );
        }
        let refused = Matcher::new(kind, [&bytes[..1], &[], &[]]).expect_err("nor is none");
        assert_eq!((refused, refused.number()), (Refusal::Empty { row: 1 }, 4));
    }
}

#[test]
fn the_lowest_number_that_applies_is_given() {
    let long = [b'x'; 65];
    let empty_and_long = [&long[..], b"a", b""];
    let refused = Matcher::new(Kind::Standard, empty_and_long).expect_err("4 and 5 apply");
    assert_eq!(refused, Refusal::Empty { row: 2 });
    let mut many = vec![&b"a"[..]; 1023];
    many.extend(empty_and_long);
    let refused = Matcher::new(Kind::Standard, many).expect_err("3 applies too");
    assert_eq!(refused, Refusal::TooMany);
}

#[test]
fn a_text_has_at_most_65536_bytes() {
    let text = vec![b'a'; 65_537];
    for kind in KINDS {
        let matcher = Matcher::new(kind, ["aa"]).expect("a small list");
        let searched = |length: usize| match kind {
            Kind::Standard => matcher.plain(&text[..length]),
            _ => matcher.leftmost(&text[..length]),
        };
        assert_eq!(searched(65_535).expect("below the limit").count(), 32_767);
        assert_eq!(searched(65_536).expect("at the limit").count(), 32_768);
        let refused = searched(65_537).expect_err("above the limit");
        assert_eq!((refused, refused.number()), (Refusal::LongText, 10));
    }
    let matcher = Matcher::new(Kind::Standard, ["aa"]).expect("a small list");
    let whole = matcher.overlapping(&text[..65_536]).expect("at the limit");
    assert_eq!(whole.count(), 65_535);
    let refused = matcher.overlapping(&text).expect_err("above the limit");
    assert_eq!(refused, Refusal::LongText);
}

#[test]
fn a_search_wants_its_kind() {
    for kind in KINDS {
        let matcher = Matcher::new(kind, ["ab"]).expect("a small list");
        let told = [
            matcher.overlapping(b"ab").err(),
            matcher.plain(b"ab").err(),
            matcher.leftmost(b"ab").err(),
        ];
        let wrong = Some(Refusal::WrongKind);
        let due = match kind {
            Kind::Standard => [None, None, wrong],
            _ => [wrong, wrong, None],
        };
        assert_eq!(told, due);
    }
    assert_eq!(Refusal::WrongKind.number(), 9);
}

#[test]
fn no_patterns_and_no_text_are_answered() {
    let patterns: [&str; 0] = [];
    let matcher = Matcher::new(Kind::Standard, patterns).expect("no pattern is no fault");
    let counts = matcher.counts();
    assert_eq!((counts.accepted, counts.states, counts.cells), (0, 1, 256));
    for text in [&b""[..], b"ab"] {
        let mut found = matcher.overlapping(text).expect("kind 0");
        assert_eq!(found.next(), None);
        assert_eq!(found.moves(), text.len() as u64);
    }
}
