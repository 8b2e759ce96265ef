//! Document 02 (d), the stock takers' sheet: "They count a material and want the difference from the
//! book's store in grams."

use crate::book::Book;
use crate::decline::STOCK_COUNT;

/// "Exact up to 8×10^12 g either way."
const MOST_COUNTED: u64 = 8_000_000_000_000;

impl Book {
    /// The counted grams less the store of the material at a place: "plus where more was counted,
    /// minus where less, nought where equal". 14 is "the only one for this call", so that a book
    /// answers with a part of its set-up, full or closed.
    pub fn stock(&self, material: usize, counted: u64) -> Result<i64, u8> {
        if counted > MOST_COUNTED || material >= self.materials() {
            return Err(STOCK_COUNT);
        }
        Ok(signed(counted) - signed(self.stores[material]))
    }
}

/// Neither a count nor a store, of at most 4,000 posts of 2×10^9 g, exceeds 8×10^12.
fn signed(grams: u64) -> i64 {
    i64::try_from(grams).expect("grams that a count or a store can be")
}
