//! Repeatable dice: a small generator of pseudo-random numbers (a counter whose
//! bits are stirred by two multiplications). A seed always gives the same throws.

pub struct Dice(u64);

impl Dice {
    pub fn new(seed: u64) -> Dice {
        Dice(seed)
    }

    pub fn throw(&mut self) -> u64 {
        self.0 = self.0.wrapping_add(0x9e37_79b9_7f4a_7c15);
        let mut x = self.0;
        x = (x ^ (x >> 30)).wrapping_mul(0xbf58_476d_1ce4_e5b9);
        x = (x ^ (x >> 27)).wrapping_mul(0x94d0_49bb_1331_11eb);
        x ^ (x >> 31)
    }

    /// A number below `bound`, which is not 0.
    pub fn below(&mut self, bound: usize) -> usize {
        (self.throw() % bound as u64) as usize
    }

    /// A number from `low` to `high`, both included.
    pub fn between(&mut self, low: usize, high: usize) -> usize {
        low + self.below(high - low + 1)
    }

    pub fn byte(&mut self) -> u8 {
        self.below(256) as u8
    }

    pub fn pick<'a, T>(&mut self, choices: &'a [T]) -> &'a T {
        &choices[self.below(choices.len())]
    }

    /// A value that is often small and sometimes as large as can be.
    pub fn value(&mut self) -> u32 {
        match self.below(8) {
            0 => u32::MAX,
            1 => self.throw() as u32,
            _ => self.below(100) as u32,
        }
    }

    pub fn string(&mut self, letters: &[u8], length: usize) -> Vec<u8> {
        (0..length).map(|_| *self.pick(letters)).collect()
    }
}
