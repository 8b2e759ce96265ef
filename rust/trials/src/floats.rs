//! The floats of vapour losses: their ranges, their ends and what is beyond them.

use crate::rng::Rng;

/// 10^9, the end of most ranges.
pub const MANY: f64 = 1e9;

/// The ranges of w, u, p and q in forms 1, 2 and 3; an unused float has zero as its whole range.
pub const RANGES: [[(f64, f64); 4]; 3] = [
    [(1.0, 1_000.0), (0.0, 100.0), (0.0, MANY), (0.0, 0.0)],
    [(0.0, MANY), (0.0, MANY), (1.0, MANY), (0.0, 1.0)],
    [(0.0, MANY), (0.0, MANY), (0.0, MANY), (0.0, MANY)],
];

/// The bits of what is nowhere in a range, of zeros and of the least floats.
pub const SPECIALS: [u64; 16] = [
    0,
    1 << 63,
    1,
    1 << 63 | 1,
    0x000f_ffff_ffff_ffff,
    0x0010_0000_0000_0000,
    0x7fef_ffff_ffff_ffff,
    0x7ff0_0000_0000_0000,
    0xfff0_0000_0000_0000,
    0x7ff0_0000_0000_0001,
    0x7ff7_ffff_ffff_ffff,
    0x7ff8_0000_0000_0000,
    0xfff8_0000_0000_0000,
    0x7fff_ffff_ffff_ffff,
    0xffff_ffff_ffff_ffff,
    0xbff0_0000_0000_0000,
];

/// Floats by their bits.
pub fn of_bits(list: &[u64]) -> Vec<f64> {
    list.iter().map(|&bits| f64::from_bits(bits)).collect()
}

/// The ends of a range, the floats next to them on either side, and the specials.
pub fn edges(range: (f64, f64)) -> Vec<u64> {
    let ends = [range.0.to_bits(), range.1.to_bits()];
    let mut edges: Vec<u64> = ends
        .iter()
        .flat_map(|&end| [end.saturating_sub(1), end, end + 1])
        .chain(SPECIALS)
        .collect();
    edges.sort_unstable();
    edges.dedup();
    edges
}

/// A float of a range: evenly drawn, by its size, or an end.
pub fn within(rng: &mut Rng, range: (f64, f64)) -> f64 {
    let (least, most) = range;
    match rng.below(8) {
        0 => least,
        1 => most,
        2 | 3 => least + (most - least) * rng.share(),
        _ => (most * 2f64.powi(-(rng.below(60) as i32)) * rng.share()).clamp(least, most),
    }
}

/// Any float at all of a form's place: mostly within its range.
pub fn any(rng: &mut Rng, range: (f64, f64)) -> u64 {
    match rng.below(16) {
        0 => rng.pick(&SPECIALS),
        1 => rng.pick(&edges(range)),
        2 => rng.word(),
        _ => within(rng, range).to_bits(),
    }
}
