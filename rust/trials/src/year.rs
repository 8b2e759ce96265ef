//! A whole year of a site, which a book takes.

use blocks::{journal, tens, Block, Post, Site, MOST_POSTS, POST};

use crate::aim;
use crate::ledger::Ledger;
use crate::rng::Rng;
use crate::site;

/// A site and its posts in order.
#[derive(Clone)]
pub struct Year {
    /// The set-up.
    pub site: Site,
    /// Every post, the close included.
    pub posts: Vec<Post>,
    /// How many posts each block has.
    pub sizes: Vec<usize>,
    /// What is in store and held after the posts, the close aside.
    pub ledger: Ledger,
}

impl Year {
    /// A year of up to 160 posts and those that aim at a figure's edge, most of them with a close.
    pub fn any(rng: &mut Rng) -> Year {
        let site = site::any(rng);
        let count = rng.size(160) as usize;
        let mut year = Year::open(rng, site, count);
        let close = !rng.once_in(4);
        if !rng.once_in(4) {
            aim::aim(rng, &mut year, close);
        }
        if close {
            year.posts.push(Post::CLOSE);
        }
        year.sizes = sizes(rng, year.posts.len());
        year
    }

    /// So many posts without a close, ten to a block.
    pub fn open(rng: &mut Rng, site: Site, count: usize) -> Year {
        let most_grams = rng.pick(&[100_000, 10_000_000, 10_000_000, 100_000_000, 2_000_000_000]);
        let ledger = Ledger::new(&site, most_grams);
        let mut year = Year {
            site,
            posts: Vec::new(),
            sizes: Vec::new(),
            ledger,
        };
        for place in 0..count {
            let post = if place < 4 {
                year.ledger.entered(rng)
            } else {
                year.ledger.any_post(rng)
            };
            year.add(post);
        }
        year.sizes = tens(count);
        year
    }

    /// Adds a post that is in balance.
    pub fn add(&mut self, post: Post) {
        self.ledger.take(&post);
        self.posts.push(post);
    }

    /// The journal's blocks, sealed and numbered.
    pub fn blocks(&self) -> Vec<Block> {
        let posts: Vec<[u8; POST]> = self.posts.iter().map(Post::bytes).collect();
        journal(self.site.blocks(), &posts, &self.sizes)
    }
}

/// Blocks of ten, or of any size.
fn sizes(rng: &mut Rng, posts: usize) -> Vec<usize> {
    if rng.once_in(3) {
        return tens(posts);
    }
    let mut sizes = Vec::new();
    let mut left = posts;
    while left > 0 {
        let size = rng.range(1, MOST_POSTS.min(left) as u64) as usize;
        sizes.push(size);
        left -= size;
    }
    sizes
}
