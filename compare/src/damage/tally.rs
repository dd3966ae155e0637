//! What a run has met, in numbers.

/// The highest number that a call says.
const LAST: usize = 11;

#[derive(Clone, Copy, Debug, Default)]
pub struct Tally {
    pub cases: u64,
    /// Calls of the library by the number that they said, once for each ground.
    calls: [u64; LAST + 1],
    records: u64,
}

impl Tally {
    pub fn call(&mut self, number: u32, records: usize) {
        self.calls[number as usize] += 1;
        self.records += records as u64;
    }

    pub fn add(&mut self, other: &Tally) {
        self.cases += other.cases;
        self.records += other.records;
        for (sum, calls) in self.calls.iter_mut().zip(other.calls) {
            *sum += calls;
        }
    }

    fn all_calls(&self) -> u64 {
        self.calls.iter().sum()
    }

    pub fn told(&self) -> String {
        format!("{} cases, {} calls", self.cases, self.all_calls())
    }

    /// A search says 0 at the end and 1 when the sheet is full.
    pub fn told_of_searches(&self) -> String {
        let [ended, full, .., wrong_kind, long_text, damage] = self.calls;
        format!(
            "{}: {ended} ended, {full} full, refusals 9: {wrong_kind}, 10: {long_text}, 11: {damage}; {} records",
            self.told(),
            self.records
        )
    }

    pub fn told_of_builds(&self) -> String {
        let refusals = self.calls.iter().enumerate().skip(1).take(8);
        let refusals: Vec<String> = refusals
            .map(|(number, calls)| format!("{number}: {calls}"))
            .collect();
        format!(
            "{}: {} built, refusals {}",
            self.told(),
            self.calls[0],
            refusals.join(", ")
        )
    }
}
