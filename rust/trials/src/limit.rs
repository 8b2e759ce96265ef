//! Posts that come about when 4,000 are accepted.

use blocks::Post;

use crate::ledger::MOST_GRAMS;
use crate::rng::Rng;
use crate::year::Year;

/// The posts of a year that is one short of the limit.
pub const ONE_SHORT: usize = 3_999;

/// The 4,000th post, or two, and what comes behind.
pub fn last_posts(rng: &mut Rng, year: &Year) -> Vec<Post> {
    let count = rng.range(1, 3);
    let first = match rng.once_in(2) {
        true => year.ledger.found(rng),
        false => year.ledger.entered(rng),
    };
    let mut posts = vec![first];
    posts.extend((0..count).map(|_| any_last(rng, year)));
    posts
}

/// A close, a post that would be taken, or one with a fault that is found before or behind the limit.
pub fn any_last(rng: &mut Rng, year: &Year) -> Post {
    let holding = year.ledger.any_holding(rng);
    let all = Post::left(5, holding, 1_000_000, MOST_GRAMS);
    let mut close = Post::CLOSE;
    match rng.below(14) {
        0 | 1 => {}
        2 => close.quantity = 1,
        3 => close.floats[0] = 1,
        4 => return Post::left(5, holding, 1_000_001, 1),
        5 => return Post::vapour(1, holding, [0; 4]),
        6 => return Post::vapour(1, holding, [14f64.to_bits(), 0, 0, 0]),
        7 => return Post::vapour(3, holding, [1e9f64.to_bits(); 4]),
        8 => return all,
        9 | 10 => return year.ledger.found(rng),
        11 => return Post::found(holding, 1, MOST_GRAMS + 1),
        12 => {
            let mut odd = Post::found(holding, 1, 1);
            odd.floats[3] = 1;
            return odd;
        }
        _ => return year.ledger.entered(rng),
    }
    close
}
