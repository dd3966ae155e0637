//! What a run has done, in numbers.

#[derive(Clone, Copy, Debug, Default)]
pub struct Tally {
    /// Lists built by both sides, and lists that document 01 refuses.
    pub built: u64,
    pub refused: u64,
    /// Cells compared, of the tables in ample lent slots and of a matcher's.
    pub cells: u64,
    /// Builds in exact slots and in slots that are one too few.
    pub slots: u64,
    /// Texts run to their end by one search, each pair once.
    pub searches: u64,
    /// How often they were run: with sheets of several sizes, and by a matcher.
    pub runs: u64,
    /// Matches of the searches.
    pub matches: u64,
    /// Searches whose moves were counted over strings too.
    pub over_strings: u64,
    /// Lists to which the window of 16 blocks makes a difference, where that was asked.
    pub window: u64,
}

impl Tally {
    pub fn add(&mut self, other: &Tally) {
        self.built += other.built;
        self.refused += other.refused;
        self.cells += other.cells;
        self.slots += other.slots;
        self.searches += other.searches;
        self.runs += other.runs;
        self.matches += other.matches;
        self.over_strings += other.over_strings;
        self.window += other.window;
    }

    pub fn told(&self) -> String {
        let window = match self.window {
            0 => String::new(),
            lists => format!(", {lists} lists of kind 0 show the window"),
        };
        format!(
            "{} built, {} refused, {} slot tests, {} cells, {} searches, {} runs, {} matches, {} counts over strings{window}",
            self.built,
            self.refused,
            self.slots,
            self.cells,
            self.searches,
            self.runs,
            self.matches,
            self.over_strings
        )
    }
}
