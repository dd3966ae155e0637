//! Lists that are written down: the case table of document 01, its edges, and
//! the known traps of leftmost search.

use crate::question::{texts, Question};
use crate::tables::{List, LEFTMOST_FIRST, LEFTMOST_LONGEST, STANDARD};

pub fn bcd_ab_a() -> Question {
    let list = List::numbered(STANDARD, &["bcd", "ab", "a"]);
    Question::new("P1 to P3: bcd, ab, a", list, texts(&["abcd", ""]))
}

pub fn he_she() -> Question {
    let list = List::numbered(STANDARD, &["he", "she", "his", "hers"]);
    Question::new("P4: he, she, his, hers", list, texts(&["ushers"]))
}

pub fn aa() -> Question {
    let list = List::numbered(STANDARD, &["aa"]);
    Question::new("P5: aa", list, texts(&["aax"]))
}

pub fn t10_t100() -> Question {
    let list = List::numbered(LEFTMOST_LONGEST, &["T10", "T100"]);
    Question::new("P6: T10, T100", list, texts(&["T100"]))
}

pub fn t100_t10() -> Question {
    let list = List::numbered(LEFTMOST_FIRST, &["T100", "T10"]);
    Question::new("P7: T100, T10", list, texts(&["T100"]))
}

pub fn ab_twice() -> Question {
    let list = List::with_values(STANDARD, &["ab", "ab"], &[5, 7]);
    Question::new("P8: ab twice", list, texts(&["ab"]))
}

pub fn no_patterns() -> Question {
    let list = List::numbered::<&str>(STANDARD, &[]);
    Question::new("P9: no patterns", list, texts(&["", "ab"]))
}

/// The lists of the case table, each in all kinds with its text.
pub fn case_table() -> Vec<Question> {
    let lists = [
        bcd_ab_a(),
        he_she(),
        aa(),
        t10_t100(),
        t100_t10(),
        ab_twice(),
        no_patterns(),
    ];
    lists.iter().flat_map(Question::in_all_kinds).collect()
}

/// So many distinct patterns of two bytes.
pub fn listed(count: usize) -> Question {
    let patterns: Vec<[u8; 2]> = (0..count)
        .map(|index| [(index / 64) as u8, (index % 64) as u8])
        .collect();
    let list = List::numbered(STANDARD, &patterns);
    let text = vec![15, 63, 0, 0, 16, 0, 1];
    Question::new(&format!("limits: {count} listed"), list, vec![text])
}

/// So many patterns `a` with values 0 to 9, all equal.
fn equal_listed(count: usize) -> Question {
    let values: Vec<u32> = (0..count).map(|index| index as u32 % 10).collect();
    let list = List::with_values(STANDARD, &vec!["a"; count], &values);
    Question::new(&format!("limits: {count} equal"), list, texts(&["", "ba"]))
}

/// More than 1,024 listed, an empty one and a long one: 3 is the lowest.
fn all_refusals() -> Question {
    let long = "x".repeat(65);
    let patterns = [vec!["a"; 1023], vec!["", &long]].concat();
    let list = List::with_values(STANDARD, &patterns, &vec![0; patterns.len()]);
    Question::new("limits: 1025 listed, empty, 65 bytes", list, vec![])
}

/// A pattern of so many bytes.
pub fn long(length: usize) -> Question {
    let pattern: Vec<u8> = (0..length).map(|place| b'a' + (place % 3) as u8).collect();
    let text = [&pattern[1..], &pattern[..]].concat();
    let list = List::numbered(STANDARD, &[&pattern[..]]);
    let name = format!("limits: a pattern of {length} bytes");
    Question::new(&name, list, vec![text, pattern[1..].to_vec()])
}

fn named(name: &str, patterns: &[&str], asked: &[&str]) -> Question {
    Question::new(name, List::numbered(STANDARD, patterns), texts(asked))
}

fn of_bytes(name: &str, patterns: &[&[u8]], asked: &[&[u8]]) -> Question {
    let asked = asked.iter().map(|text| text.to_vec()).collect();
    Question::new(name, List::numbered(STANDARD, patterns), asked)
}

/// Both sides of every limit, and which refusal is the lowest.
pub fn limits() -> Vec<Question> {
    let too_long = "x".repeat(65);
    let mut questions = [
        named("limits: an empty pattern", &[""], &["", "a"]),
        named("limits: an empty pattern first", &["", "a"], &["aa"]),
        named("limits: an empty pattern last", &["ab", "a", ""], &["ab"]),
        named("limits: 65 bytes and empty", &[&too_long, "a", ""], &["a"]),
        named(
            "limits: a second one of 65 bytes",
            &["a", &too_long],
            &["a"],
        ),
        long(64),
        long(65),
    ]
    .iter()
    .flat_map(Question::in_all_kinds)
    .collect::<Vec<_>>();
    questions.extend([listed(1024), listed(1025)]);
    questions.extend([equal_listed(1025), all_refusals()]);
    questions.extend(equal_listed(1024).in_all_kinds());
    questions
}

/// Bytes 0 and 255, which a vacant check of 0 or a sign would mistake.
pub fn end_bytes() -> Vec<Question> {
    [
        of_bytes("bytes: 0", &[&[0]], &[&[0], &[0, 0, 1, 0], &[1]]),
        of_bytes("bytes: 255", &[&[255]], &[&[255], &[254, 255, 255], &[0]]),
        of_bytes("bytes: 0 0", &[&[0, 0]], &[&[0, 0, 0], &[0], &[0, 1, 0, 0]]),
        of_bytes(
            "bytes: 0 and 255",
            &[&[0, 255], &[255, 0], &[255, 255, 0], &[0]],
            &[&[0, 255, 255, 0, 255], &[255, 255], &[1, 0]],
        ),
        of_bytes(
            "bytes: after a letter",
            &[b"a", b"a\0", b"\0a", b"a\xff"],
            &[b"a\0a", b"a\xffa\0", b"\0\0a"],
        ),
        of_bytes(
            "bytes: 1",
            &[&[1], &[1, 1], &[0, 1]],
            &[&[0, 1, 1], &[0, 0]],
        ),
    ]
    .iter()
    .flat_map(Question::in_all_kinds)
    .collect()
}

/// Equal patterns with other values: all are accepted, in list order.
pub fn equal_patterns() -> Vec<Question> {
    let question = |patterns: &[&str], values: &[u32], asked: &[&str]| {
        let name = format!("equal: {}", patterns.join(", "));
        let list = List::with_values(STANDARD, patterns, values);
        Question::new(&name, list, texts(asked)).in_all_kinds()
    };
    [
        question(&["a", "a"], &[9, 3], &["a", "aba"]),
        question(&["ab", "ab", "ab"], &[3, 1, 2], &["ab", "xabab"]),
        question(&["b", "ab", "b", "ab"], &[0, 1, 2, 3], &["ab", "b"]),
        question(&["ab", "a", "ab"], &[0, 1, 2], &["ab", "aab"]),
        question(&["a", "ab", "a", "ab"], &[4, 5, 6, 7], &["ab", "aa"]),
        question(&["xab", "ab", "b", "ab"], &[u32::MAX, 0, 1, 1], &["xab"]),
        question(&["a", "a"], &[1, 1], &["aa"]),
    ]
    .concat()
}

/// Patterns that begin or end like each other.
pub fn prefixes_and_suffixes() -> Vec<Question> {
    [
        named(
            "prefixes: a, ab, abc, abcd",
            &["a", "ab", "abc", "abcd"],
            &["abcd", "abx"],
        ),
        named(
            "prefixes: abcd, abc, ab, a",
            &["abcd", "abc", "ab", "a"],
            &["abcd", "abcabd"],
        ),
        named(
            "suffixes: d, cd, bcd, abcd",
            &["d", "cd", "bcd", "abcd"],
            &["abcd", "xbcd"],
        ),
        named(
            "suffixes: abcd, bcd, cd, d",
            &["abcd", "bcd", "cd", "d"],
            &["abcd", "cdbcd"],
        ),
        named("inside: abc, b", &["abc", "b"], &["abc", "abd", "ab"]),
        named(
            "inside: abcde, bcd, c",
            &["abcde", "bcd", "c"],
            &["abcde", "abcdx", "abce"],
        ),
        named(
            "powers: a, aa, aaaa",
            &["a", "aa", "aaaa"],
            &["aaaaaaa", "aaab"],
        ),
        named(
            "borders: abab, bab, ab",
            &["abab", "bab", "ab"],
            &["ababab", "babab"],
        ),
        named(
            "borders: abaab, aab, baa",
            &["abaab", "aab", "baa"],
            &["abaabaab", "abaaab"],
        ),
    ]
    .iter()
    .flat_map(Question::in_all_kinds)
    .collect()
}

/// Where a leftmost build or search goes wrong by a small slip.
pub fn leftmost_traps() -> Vec<Question> {
    [
        named(
            "trap: a, baabb, aa",
            &["a", "baabb", "aa"],
            &["baab", "baabb"],
        ),
        named("trap: aaa, a", &["aaa", "a"], &["aaaaa", "aab"]),
        named(
            "trap: T10, T100",
            &["T10", "T100"],
            &["T100T10", "T1", "T10"],
        ),
        named("trap: T100, T10", &["T100", "T10"], &["T10T100", "T10x"]),
        named(
            "trap: aaab, a",
            &["aaab", "a"],
            &["aaaaaaab", "aaa", "baab"],
        ),
        named("trap: a, ab", &["a", "ab"], &["ab", "aab", "ax"]),
        named("trap: ab, a", &["ab", "a"], &["ab", "aab", "ax"]),
        named(
            "trap: abcd, b, cd",
            &["abcd", "b", "cd"],
            &["abcx", "abcd", "xbcd"],
        ),
        named(
            "trap: abcde, bcx, d",
            &["abcde", "bcx", "d"],
            &["abcdx", "abcx", "abcd"],
        ),
        named(
            "trap: bab, a, abb",
            &["bab", "a", "abb"],
            &["babb", "bababb", "abab"],
        ),
        named(
            "trap: abx, bc, c",
            &["abx", "bc", "c"],
            &["abc", "ababx", "bcc"],
        ),
        named(
            "trap: abba, b, babbaa",
            &["abba", "b", "babbaa"],
            &["babba", "babbaa"],
        ),
    ]
    .iter()
    .flat_map(Question::in_all_kinds)
    .collect()
}

/// Ten patterns `i 0 0 ..` of 64 bytes: a block whose 256 bases are all used.
pub fn full_block() -> Question {
    let pattern = |first: u8| {
        let mut pattern = vec![0; 64];
        pattern[0] = first;
        pattern
    };
    let patterns: Vec<Vec<u8>> = (0..10).map(pattern).collect();
    let text = vec![vec![0; 66], [patterns[9].clone(), vec![0; 2]].concat()];
    let list = List::numbered(STANDARD, &patterns);
    Question::new("a block with no unused base", list, text)
}
