//! Document 01's worked year of xylene, and what `filing` prints for it.

use crate::block::Block;
use crate::journal::{journal, tens};
use crate::post::{Post, POST};
use crate::setup::{Pair, Site, Stage};

/// The title and the year's line.
pub const PRINTED: &str = "substance handled due air water soil land sewer offsite
80 1215000000000 Y 230 0.0 0.0 0.0 0.0 0.0
";

/// "Xylene (80, class 1), one material of 450,000 ppm, one stage, side gas, all rates 0."
pub fn site() -> Site {
    Site {
        numbers: vec![80],
        classes: vec![1],
        contents: vec![vec![450_000]],
        stages: vec![Stage {
            water: 1,
            residues: 1,
            pairs: vec![Pair::TO_AIR],
        }],
    }
}

/// "Opening 500,000 g, bought 2,500,000, issued 2,700,000, shipped 2,200,000 g at 450,000 ppm, close."
pub fn posts() -> [[u8; POST]; 5] {
    let posts = [
        Post::stock(1, 0, 500_000),
        Post::stock(2, 0, 2_500_000),
        Post::issued(0, 0, 2_700_000),
        Post::left(5, (0, 0), 450_000, 2_200_000),
        Post::CLOSE,
    ];
    posts.map(|post| post.bytes())
}

/// The year's three blocks.
pub fn year() -> Vec<Block> {
    let posts = posts();
    journal(site().blocks(), &posts, &tens(posts.len()))
}
