//! A journal: a set-up, then posts.

use crate::block::{block, Block};
use crate::post::{Post, POST};

/// The most posts of a block.
pub const MOST_POSTS: usize = 10;

/// A sealed block of posts, at most ten.
pub fn posts_block(number: u16, posts: &[Post]) -> Block {
    let posts: Vec<[u8; POST]> = posts.iter().map(Post::bytes).collect();
    posted(number, &posts)
}

/// The same of posts by their bytes, which may be any.
pub fn posted(number: u16, posts: &[[u8; POST]]) -> Block {
    block(3, posts.len() as u8, number, posts.as_flattened())
}

/// The blocks of a journal: those of the set-up, then blocks of so many posts each, numbered behind them.
pub fn journal(set_up: Vec<Block>, posts: &[[u8; POST]], sizes: &[usize]) -> Vec<Block> {
    let mut blocks = set_up;
    let mut rest = posts;
    for &size in sizes {
        let (now, later) = rest.split_at(size);
        blocks.push(posted(blocks.len() as u16, now));
        rest = later;
    }
    blocks
}

/// Full blocks and what is left.
pub fn tens(posts: usize) -> Vec<usize> {
    (0..posts)
        .step_by(MOST_POSTS)
        .map(|from| MOST_POSTS.min(posts - from))
        .collect()
}
