//! Reads the recorded answers to lists: `oracle/sample.txt`, whose head tells its notation.

use rotspangle::{Kind, Match};

pub struct Case {
    pub kind: Kind,
    pub patterns: Vec<(Vec<u8>, u32)>,
    /// The refusal that is due and the row that it names, or 0 and 0.
    pub refusal: [u32; 2],
    /// Kind, accepted, states, cells.
    pub counts: [u32; 4],
    /// Base, link, output place, check and depth of each cell; none where the sample leaves them out.
    pub columns: Vec<Vec<u32>>,
    pub outputs: Vec<u32>,
    pub texts: Vec<Text>,
}

pub struct Text {
    pub bytes: Vec<u8>,
    /// Of overlapping, plain and leftmost search.
    pub found: Vec<Found>,
}

pub struct Found {
    pub matches: Vec<Match>,
    pub moves: u32,
    /// The refusal that comes at once, or 0.
    pub refusal: u32,
}

const MOST_CELLS: u32 = 65_536;

/// The lists that a matcher can be asked for: it has patterns and not ends, and no slots too few.
pub fn cases() -> Vec<Case> {
    let file = concat!(env!("CARGO_MANIFEST_DIR"), "/../oracle/sample.txt");
    let text = std::fs::read_to_string(file).expect("the sample can be read");
    let without_remarks = text.lines().filter_map(|line| line.split('#').next());
    let numbers = without_remarks.collect::<Vec<&str>>().join("\n");
    let cases = numbers.split(';').map(Numbers::of);
    cases.filter_map(|mut numbers| numbers.case()).collect()
}

/// The numbers that are still to be read, last first.
struct Numbers(Vec<u32>);

impl Numbers {
    fn of(text: &str) -> Numbers {
        let words = text.split_whitespace();
        let mut numbers: Vec<u32> = words.map(|word| word.parse().expect("a number")).collect();
        numbers.reverse();
        Numbers(numbers)
    }

    fn next(&mut self) -> u32 {
        self.0.pop().expect("one more number")
    }

    fn array<const N: usize>(&mut self) -> [u32; N] {
        [(); N].map(|()| self.next())
    }

    /// A count, then that many items.
    fn counted<T>(&mut self, item: impl Fn(&mut Numbers) -> T) -> Vec<T> {
        let count = self.next();
        (0..count).map(|_| item(self)).collect()
    }

    fn sequence(&mut self) -> Vec<u32> {
        let [length, told, back] = self.array();
        let mut numbers: Vec<u32> = (0..told).map(|_| self.next()).collect();
        while numbers.len() < length as usize {
            numbers.push(match back {
                0 => 0,
                _ => numbers[numbers.len() - back as usize],
            });
        }
        numbers
    }

    fn bytes(&mut self) -> Vec<u8> {
        self.sequence().into_iter().map(|n| n as u8).collect()
    }

    fn case(&mut self) -> Option<Case> {
        let columns = match self.0.pop()? {
            1 => 5,
            2 => 0,
            _ => return None,
        };
        let kind = match self.next() {
            0 => Kind::Standard,
            1 => Kind::LeftmostLongest,
            _ => Kind::LeftmostFirst,
        };
        let (bytes, ends, values) = (self.bytes(), self.sequence(), self.sequence());
        let slots: [u32; 10] = self.array();
        let refusal = self.array();
        let is_asked = match refusal[0] {
            0 | 3..=5 => true,
            7 => slots[4] > MOST_CELLS,
            _ => false,
        };
        is_asked.then(|| Case {
            kind,
            patterns: cut(&bytes, &ends, &values),
            refusal,
            counts: self.array(),
            columns: (0..columns).map(|_| self.sequence()).collect(),
            outputs: self.sequence(),
            texts: self.counted(Numbers::text),
        })
    }

    fn text(&mut self) -> Text {
        let bytes = self.bytes();
        let _fresh: [u32; 6] = self.array();
        let found = (0..3).map(|_| self.found()).collect();
        Text { bytes, found }
    }

    fn found(&mut self) -> Found {
        let mut found = Found {
            matches: vec![],
            moves: 0,
            refusal: 0,
        };
        for _ in 0..self.next() {
            match self.next() {
                1 => {
                    let [start, end, value] = self.array();
                    let (start, end) = (start as usize, end as usize);
                    found.matches.push(Match { start, end, value });
                }
                2 => {}
                refusal => {
                    found.refusal = refusal;
                    continue;
                }
            }
            let [_state, _output, _place, moves] = self.array();
            found.moves = moves;
        }
        found
    }
}

fn cut(bytes: &[u8], ends: &[u32], values: &[u32]) -> Vec<(Vec<u8>, u32)> {
    let mut start = 0;
    let mut patterns = vec![];
    for (end, value) in ends.iter().zip(values) {
        patterns.push((bytes[start..*end as usize].to_vec(), *value));
        start = *end as usize;
    }
    patterns
}
