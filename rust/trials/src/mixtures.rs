//! Mixtures whose parts have a partial pressure.

use crate::floats::{edges, within, MANY};
use crate::rng::Rng;

/// The most parts of a mixture.
pub const MOST_PARTS: usize = 8;
/// The range of a content in weight percent.
pub const CONTENT: (f64, f64) = (0.0001, 100.0);
/// The range of a molecular weight M.
pub const WEIGHT: (f64, f64) = (1.0, 1_000.0);
/// The range of the named part's vapour pressure in Pa.
pub const PRESSURE: (f64, f64) = (0.0, MANY);

/// What a partial pressure is worked out from, floats by their bits.
#[derive(Clone, Debug)]
pub struct Mixture {
    pub contents: Vec<u64>,
    pub weights: Vec<u64>,
    pub named: usize,
    pub pressure: u64,
}

impl Mixture {
    /// A mixture by plain floats.
    pub fn of(contents: &[f64], weights: &[f64], named: usize, pressure: f64) -> Mixture {
        let [contents, weights] =
            [contents, weights].map(|row| row.iter().map(|float| float.to_bits()).collect());
        Mixture {
            contents,
            weights,
            named,
            pressure: pressure.to_bits(),
        }
    }

    /// So many parts, each value in its range.
    pub fn sized(rng: &mut Rng, parts: usize) -> Mixture {
        let contents: Vec<f64> = (0..parts).map(|_| value(rng, CONTENT)).collect();
        let weights: Vec<f64> = (0..parts).map(|_| value(rng, WEIGHT)).collect();
        let named = rng.place(parts.max(1));
        Mixture::of(&contents, &weights, named, within(rng, PRESSURE))
    }

    /// One that is taken.
    pub fn within(rng: &mut Rng) -> Mixture {
        let parts = rng.range(1, MOST_PARTS as u64) as usize;
        Mixture::sized(rng, parts)
    }

    /// One with up to two things altered.
    pub fn any(rng: &mut Rng) -> Mixture {
        let mut mixture = Mixture::within(rng);
        for _ in 0..rng.below(3) {
            mixture.alter(rng);
        }
        mixture
    }

    /// Alters a value, the bits of a list, a length or the place; what comes of it may still be taken.
    fn alter(&mut self, rng: &mut Rng) {
        let parts = self.contents.len();
        match rng.below(8) {
            0 => replace(rng, &mut self.contents, CONTENT),
            1 => replace(rng, &mut self.weights, WEIGHT),
            2 => self.pressure = rng.pick(&edges(PRESSURE)),
            3 => self.pressure = rng.word(),
            4 => self.contents.fill_with(|| rng.word()),
            5 => self.weights.fill_with(|| rng.word()),
            6 => self.named = past(rng, parts),
            _ => self.resize(rng),
        }
    }

    /// Makes one list or both longer or shorter.
    fn resize(&mut self, rng: &mut Rng) {
        let parts = rng.below(11) as usize;
        let other = Mixture::sized(rng, parts);
        match rng.below(3) {
            0 => self.contents = other.contents,
            1 => self.weights = other.weights,
            _ => *self = other,
        }
    }
}

/// A place that isn't below the count of parts.
fn past(rng: &mut Rng, parts: usize) -> usize {
    match rng.below(4) {
        0 => usize::MAX,
        1 => parts.max(rng.word() as usize),
        _ => parts + rng.below(3) as usize,
    }
}

/// A float of a range: evenly drawn, in whole hundredths as a data sheet has it, or as others are.
fn value(rng: &mut Rng, range: (f64, f64)) -> f64 {
    let (least, most) = range;
    let even = least + (most - least) * rng.share();
    match rng.below(4) {
        0 => within(rng, range),
        1 => ((even * 100.0).round() / 100.0).clamp(least, most),
        _ => even,
    }
}

/// Puts an end of the range, a float beside it or a special one in the place of one of a list.
fn replace(rng: &mut Rng, list: &mut [u64], range: (f64, f64)) {
    if !list.is_empty() {
        list[rng.place(list.len())] = rng.pick(&edges(range));
    }
}
