//! The sample's notation: decimal numbers between blanks and line ends, remarks
//! from `#` to the end of the line, and a semicolon after each case. The sample's
//! head (`sample.rs`) tells the exact order, README.md that of a question.

use crate::damage::{Answer, Counts, Tables, Value};
use crate::lent::{LentList, Slots};
use crate::question::Question;
use crate::refusals::Refusal;
use crate::tables::{List, Pattern};
use crate::wild::Course;

const LINE: usize = 96;

#[derive(Default)]
pub struct Writer {
    text: String,
    column: usize,
}

impl Writer {
    pub fn into_text(self) -> String {
        self.text
    }

    pub fn remark(&mut self, remark: &str) {
        self.end_line();
        for line in remark.lines() {
            self.text.push_str(format!("# {line}").trim_end());
            self.text.push('\n');
        }
    }

    pub fn end_line(&mut self) {
        if self.column > 0 {
            self.text.push('\n');
            self.column = 0;
        }
    }

    pub fn number(&mut self, number: u32) {
        let digits = number.to_string();
        if self.column + 1 + digits.len() > LINE {
            self.end_line();
        }
        if self.column > 0 {
            self.text.push(' ');
            self.column += 1;
        }
        self.text.push_str(&digits);
        self.column += digits.len();
    }

    pub fn line(&mut self, numbers: &[u32]) {
        self.end_line();
        self.numbers(numbers);
        self.end_line();
    }

    pub fn list(&mut self, list: &List) {
        self.line(&[u32::from(list.kind), list.patterns.len() as u32]);
        for pattern in &list.patterns {
            self.number(pattern.bytes.len() as u32);
            self.number(pattern.value);
            self.bytes(&pattern.bytes);
        }
    }

    pub fn text(&mut self, text: &[u8]) {
        self.number(text.len() as u32);
        self.bytes(text);
    }

    fn bytes(&mut self, bytes: &[u8]) {
        self.numbers(bytes);
        self.end_line();
    }

    fn numbers<T: Copy + Into<u32>>(&mut self, numbers: &[T]) {
        numbers
            .iter()
            .for_each(|number| self.number((*number).into()));
    }

    /// A case of the sample begins with a remark and ends with a semicolon.
    pub fn begin(&mut self, name: &str) {
        self.end_line();
        self.text.push('\n');
        self.remark(name);
    }

    pub fn end(&mut self) {
        self.end_line();
        self.text.push_str(";\n");
    }

    /// What is lent to a build, and the refusal that is due or 0.
    pub fn built(&mut self, list: &LentList, mut slots: Slots, refusal: Option<Refusal>) {
        self.line(&[list.kind]);
        self.sequence(&list.bytes);
        self.sequence(&list.ends);
        self.sequence(&list.values);
        self.line(&slots.in_order().map(|table| *table as u32));
        let (number, row) = refusal.unwrap_or((0, 0));
        self.line(&[number, row]);
    }

    pub fn counts(&mut self, counts: &Counts) {
        self.line(&[counts.kind, counts.accepted, counts.states, counts.cells]);
    }

    pub fn cells(&mut self, tables: &Tables) {
        self.sequence(&tables.base);
        self.sequence(&tables.link);
        self.sequence(&tables.output);
        self.sequence(&tables.check);
        self.sequence(&tables.depth);
    }

    pub fn outs(&mut self, outs: &[[u32; 3]]) {
        self.told(outs.as_flattened(), 3 * outs.len(), 0);
    }

    /// As few numbers as tell the sequence: without the zeros at its end, or its first period.
    fn sequence<T: Copy + Into<u32> + PartialEq + Default>(&mut self, numbers: &[T]) {
        let zeros = numbers.iter().rev().take_while(|n| **n == T::default());
        let (without_zeros, period) = (numbers.len() - zeros.count(), period(numbers));
        if period < without_zeros {
            self.told(numbers, period, period);
        } else {
            self.told(numbers, without_zeros, 0);
        }
    }

    fn told<T: Copy + Into<u32>>(&mut self, numbers: &[T], told: usize, back: usize) {
        self.line(&[numbers.len() as u32, told as u32, back as u32]);
        self.numbers(&numbers[..told]);
        self.end_line();
    }

    /// A text, the value that its searches start from, and their answers.
    pub fn searched(&mut self, text: &[u8], start: Value, courses: &[Course]) {
        self.sequence(text);
        self.line(&[start.state, start.output]);
        for number in [start.place, start.moves] {
            self.numbers(&[(number >> 32) as u32, number as u32]);
        }
        for course in courses {
            self.line(&[course.answers.len() as u32]);
            course.answers.iter().for_each(|answer| self.answer(answer));
        }
    }

    /// The value handed back with a match or an end was walked to, so its numbers are small.
    fn answer(&mut self, answer: &Answer) {
        match answer {
            Answer::Match(found, _) => {
                self.numbers(&[1, small(found.start), small(found.end), found.value]);
            }
            Answer::End(_) => self.number(2),
            Answer::Refused(number, _) => return self.number(*number),
        }
        let next = answer.value();
        self.numbers(&[
            next.state,
            next.output,
            small(next.place),
            small(next.moves),
        ]);
    }
}

fn small(number: u64) -> u32 {
    u32::try_from(number).expect("what was walked to is small")
}

/// The smallest distance at which every number is the one before it.
fn period<T: PartialEq>(numbers: &[T]) -> usize {
    let repeats = |by: &usize| {
        numbers
            .iter()
            .zip(&numbers[*by..])
            .all(|(one, other)| one == other)
    };
    (1..numbers.len()).find(repeats).unwrap_or(numbers.len())
}

/// A question without answers, as `oracle answer` reads it and a difference is
/// shown: kind, patterns, number of texts, texts.
pub fn write_question(question: &Question) -> String {
    let mut writer = Writer::default();
    writer.list(&question.list);
    writer.line(&[question.texts.len() as u32]);
    for text in &question.texts {
        writer.text(text);
    }
    writer.into_text()
}

pub fn read_question(input: &str) -> Result<Question, String> {
    let mut numbers = Numbers::of(input)?;
    let kind = numbers.at_most(2)? as u8;
    let count = numbers.next()?;
    let patterns = (0..count).map(|_| numbers.pattern());
    let patterns = patterns.collect::<Result<_, _>>()?;
    let count = numbers.next()?;
    let texts = (0..count).map(|_| numbers.text());
    let texts = texts.collect::<Result<_, _>>()?;
    if !numbers.0.is_empty() {
        return Err("numbers follow after the last text".to_string());
    }
    Ok(Question::new("asked", List { kind, patterns }, texts))
}

/// The numbers that are still to be read, last first.
struct Numbers(Vec<u32>);

impl Numbers {
    fn of(input: &str) -> Result<Numbers, String> {
        let without_remarks = input
            .lines()
            .map(|line| line.split('#').next().unwrap_or(""));
        let words = without_remarks.flat_map(str::split_whitespace);
        let number = |word: &str| word.parse().map_err(|_| format!("not a number: {word}"));
        let mut numbers: Vec<u32> = words.map(number).collect::<Result<_, _>>()?;
        numbers.reverse();
        Ok(Numbers(numbers))
    }

    fn next(&mut self) -> Result<u32, String> {
        self.0.pop().ok_or("numbers are missing".to_string())
    }

    fn at_most(&mut self, most: u32) -> Result<u32, String> {
        let number = self.next()?;
        if number > most {
            return Err(format!("{number} is above {most}"));
        }
        Ok(number)
    }

    fn bytes(&mut self, count: u32) -> Result<Vec<u8>, String> {
        (0..count).map(|_| Ok(self.at_most(255)? as u8)).collect()
    }

    fn text(&mut self) -> Result<Vec<u8>, String> {
        let length = self.next()?;
        self.bytes(length)
    }

    fn pattern(&mut self) -> Result<Pattern, String> {
        let length = self.next()?;
        let value = self.next()?;
        let bytes = self.bytes(length)?;
        Ok(Pattern { bytes, value })
    }
}
