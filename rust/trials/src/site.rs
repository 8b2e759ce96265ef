//! Sites drawn at random.

use blocks::{Pair, Site, Stage};

use crate::rng::Rng;

/// One million ppm: the whole.
pub const WHOLE: u32 = 1_000_000;
/// The management numbers with a coefficient row.
pub const ROWS: [u16; 5] = [53, 80, 300, 392, 400];

/// A site of any size.
pub fn any(rng: &mut Rng) -> Site {
    let (substances, materials) = (rng.range(1, 8), rng.range(1, 12));
    let stages = rng.range(1, 8);
    sized(
        rng,
        substances as usize,
        materials as usize,
        stages as usize,
    )
}

/// A site with so many substances, materials and stages.
pub fn sized(rng: &mut Rng, substances: usize, materials: usize, stages: usize) -> Site {
    Site {
        numbers: numbers(rng, substances),
        classes: (0..substances).map(|_| rng.range(1, 2) as u8).collect(),
        contents: (0..materials).map(|_| contents(rng, substances)).collect(),
        stages: (0..stages).map(|_| stage(rng, substances)).collect(),
    }
}

/// Rising management numbers, about half of them with a coefficient row.
fn numbers(rng: &mut Rng, count: usize) -> Vec<u16> {
    let mut numbers = Vec::new();
    while numbers.len() < count {
        let number = match rng.below(20) {
            0 => 1,
            1 => u16::MAX,
            2..=11 => rng.pick(&ROWS),
            12..=15 => rng.range(1, 600) as u16,
            _ => rng.range(1, 65_535) as u16,
        };
        if !numbers.contains(&number) {
            numbers.push(number);
        }
    }
    numbers.sort_unstable();
    numbers
}

/// A material's contents, which sum to at most the whole.
fn contents(rng: &mut Rng, substances: usize) -> Vec<u32> {
    let mut left = WHOLE;
    let mut contents: Vec<u32> = (0..substances)
        .map(|_| {
            let content = match rng.below(10) {
                0 => 0,
                1 => rng.pick(&[1, 999, 1_000, 1_001, 9_999, 10_000, 10_001]),
                2 => left,
                _ => rng.range(0, left as u64) as u32,
            };
            let content = content.min(left);
            left -= content;
            content
        })
        .collect();
    rng.shuffle(&mut contents);
    contents
}

fn stage(rng: &mut Rng, substances: usize) -> Stage {
    Stage {
        water: rng.range(1, 2) as u8,
        residues: rng.range(1, 2) as u8,
        pairs: (0..substances)
            .map(|_| Pair {
                side: rng.range(1, 2) as u8,
                rates: [(); 4].map(|()| rate(rng)),
            })
            .collect(),
    }
}

/// A rate in ppm, its ends and their neighbours among them.
fn rate(rng: &mut Rng) -> u32 {
    match rng.below(8) {
        0 | 1 => 0,
        2 => WHOLE,
        3 => rng.pick(&[1, 333_333, 500_000, WHOLE - 1]),
        _ => rng.range(0, WHOLE as u64) as u32,
    }
}
