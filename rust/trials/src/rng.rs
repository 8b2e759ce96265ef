//! A small source of numbers that a seed determines (splitmix64).

/// A row of numbers.
#[derive(Clone)]
pub struct Rng(u64);

impl Rng {
    /// The row that `seed` begins.
    pub fn new(seed: u64) -> Rng {
        Rng(seed)
    }

    /// Any 64-bit number.
    pub fn word(&mut self) -> u64 {
        self.0 = self.0.wrapping_add(0x9e37_79b9_7f4a_7c15);
        let mut z = self.0;
        z = (z ^ (z >> 30)).wrapping_mul(0xbf58_476d_1ce4_e5b9);
        z = (z ^ (z >> 27)).wrapping_mul(0x94d0_49bb_1331_11eb);
        z ^ (z >> 31)
    }

    /// A number below `end`, which is not 0.
    pub fn below(&mut self, end: u64) -> u64 {
        self.word() % end
    }

    /// A place in a row of `len`, which is not 0.
    pub fn place(&mut self, len: usize) -> usize {
        self.below(len as u64) as usize
    }

    /// A number from `least` to `most`.
    pub fn range(&mut self, least: u64, most: u64) -> u64 {
        least + self.below(most - least + 1)
    }

    /// A number from 1 to `most`, each length in bits about as often.
    pub fn size(&mut self, most: u64) -> u64 {
        let bits = self.range(1, 64 - most.leading_zeros() as u64);
        self.range(1, most.min(u64::MAX >> (64 - bits)))
    }

    /// True once in `of` times.
    pub fn once_in(&mut self, of: u64) -> bool {
        self.below(of) == 0
    }

    /// One of a row.
    pub fn pick<T: Copy>(&mut self, row: &[T]) -> T {
        row[self.place(row.len())]
    }

    /// A float from 0 to below 1.
    pub fn share(&mut self) -> f64 {
        (self.word() >> 11) as f64 / (1u64 << 53) as f64
    }

    /// Puts a row into another order.
    pub fn shuffle<T>(&mut self, row: &mut [T]) {
        for last in (1..row.len()).rev() {
            row.swap(last, self.place(last + 1));
        }
    }
}
