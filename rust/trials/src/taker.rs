//! A stock taker, who counts materials between the other calls of a list, and how the counts are answered.

use model::Book;

use crate::case::caught;
use crate::rng::Rng;

/// The most grams that may be counted, and the most that a store can hold.
pub const MOST_COUNTED: u64 = 8_000_000_000_000;

/// Draws counts from numbers of its own, so that the other calls of a list stay those of its seed.
pub struct Taker(Rng);

impl Taker {
    /// The taker of a list whose other calls are drawn from `rng`.
    pub fn beside(rng: &Rng) -> Taker {
        Taker(Rng::new(rng.clone().word()))
    }

    /// How many counts come now: mostly none, else up to three.
    pub fn often(&mut self) -> u64 {
        self.0.below(8).saturating_sub(4)
    }

    /// A material and its counted grams.
    pub fn any(&mut self, book: &Book) -> (u8, u64) {
        let material = self.material(book.materials() as u8);
        (material, self.grams(book, material))
    }

    /// Mostly one that the book has, else the place behind its last one, or any.
    fn material(&mut self, materials: u8) -> u8 {
        let rng = &mut self.0;
        match rng.below(10) {
            0 => materials,
            1 => rng.pick(&[11, 12, 255]),
            2 => rng.word() as u8,
            _ if materials == 0 => 0,
            3 => materials - 1,
            _ => rng.below(materials.into()) as u8,
        }
    }

    /// The grams counted of a material: its store and the numbers beside it, the ends of the limit, or any.
    pub fn grams(&mut self, book: &Book, material: u8) -> u64 {
        let store = store(book, material);
        let rng = &mut self.0;
        match rng.below(12) {
            0 | 1 => store,
            2 => store + 1,
            3 => store.saturating_sub(1),
            4 => 0,
            5 => MOST_COUNTED,
            6 => MOST_COUNTED + 1,
            7 => rng.pick(&[u64::MAX, 1 << 63, MOST_COUNTED + store + 1]),
            8 => rng.size(u64::MAX),
            9 => rng.size(MOST_COUNTED),
            10 => rng.range(0, 2 * store + 1),
            _ => rng.range(0, MOST_COUNTED),
        }
    }
}

/// The grams in store, by what a count of nothing says; none of a material that the book hasn't, or where the model
/// panics, which the comparison then shows.
fn store(book: &Book, material: u8) -> u64 {
    let difference = caught(|| book.stock(material.into(), 0).unwrap_or(0));
    difference.map_or(0, i64::unsigned_abs)
}

/// How a stock count is answered.
#[derive(Clone, Copy, Debug)]
pub enum Counted {
    /// More than the store.
    Plus,
    /// Less.
    Minus,
    /// As much, and not nothing.
    Nought,
    /// Nothing of what isn't in store.
    Nothing,
    /// Declined for a gram above the limit.
    Gram,
    /// Declined for more grams.
    Grams,
    /// Declined for the material.
    Material,
    /// Declined for both.
    Both,
}

impl Counted {
    /// Every answer, in the order in which they are counted.
    pub const ALL: [Counted; 8] = [
        Counted::Plus,
        Counted::Minus,
        Counted::Nought,
        Counted::Nothing,
        Counted::Gram,
        Counted::Grams,
        Counted::Material,
        Counted::Both,
    ];

    /// How a count of a material that the book has, or hasn't, is answered, with the difference where there is one.
    pub fn of(has: bool, counted: u64, difference: i64) -> Counted {
        match (has, counted > MOST_COUNTED) {
            (false, false) => Counted::Material,
            (false, true) => Counted::Both,
            (true, true) if counted == MOST_COUNTED + 1 => Counted::Gram,
            (true, true) => Counted::Grams,
            (true, false) if difference > 0 => Counted::Plus,
            (true, false) if difference < 0 => Counted::Minus,
            (true, false) if counted > 0 => Counted::Nought,
            (true, false) => Counted::Nothing,
        }
    }
}
