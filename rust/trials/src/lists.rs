//! Lists of calls, good and faulty, with reports and stock counts between them.

use blocks::{block, frame, posts_block, Block, Post, BLOCK, BODY, MOST_POSTS, POST};

use crate::calls::List;
use crate::damage::{damaged, fault};
use crate::ledger::MOST_GRAMS;
use crate::limit::{last_posts, ONE_SHORT};
use crate::rng::Rng;
use crate::site::{self, WHOLE};
use crate::year::Year;

/// The calls on a full book, of one to four posts each.
const AFTER_FULL: usize = 12;

/// A year in blocks and single posts, with faulty calls before some of them and behind the close.
pub fn mixed(rng: &mut Rng) -> List {
    let year = Year::any(rng);
    let mut list = List::new(rng);
    list.perhaps_stock();
    for block in year.site.blocks() {
        perhaps_faulty(rng, &mut list, &year, &block);
        list.block(&block);
        perhaps_asked(rng, &mut list);
    }
    let mut rest = &year.posts[..];
    for &size in &year.sizes {
        let (now, later) = rest.split_at(size);
        let block = posts_block(list.next_number(), now);
        perhaps_faulty(rng, &mut list, &year, &block);
        give(rng, &mut list, now);
        rest = later;
    }
    for block in year.blocks().iter().rev().take(3) {
        perhaps_faulty(rng, &mut list, &year, block);
    }
    list.reports();
    list.sheet();
    list
}

/// A damaged journal that goes on behind each refused block.
pub fn damaged_journal(rng: &mut Rng) -> List {
    let year = Year::any(rng);
    let mut list = List::new(rng);
    list.perhaps_stock();
    for block in damaged(rng, &year).chunks(BLOCK) {
        list.block(block);
        perhaps_asked(rng, &mut list);
    }
    list.reports();
    list.sheet();
    list
}

/// A year that reaches the limit of posts, and calls behind it.
pub fn full(rng: &mut Rng) -> List {
    let site = site::any(rng);
    let year = Year::open(rng, site, ONE_SHORT);
    let mut list = List::new(rng);
    for block in year.blocks() {
        list.block(&block);
    }
    for _ in 0..AFTER_FULL {
        let posts = last_posts(rng, &year);
        give(rng, &mut list, &posts);
    }
    list.reports();
    list.sheet();
    list
}

/// Posts in a block or one by one, and perhaps reports and stock counts.
fn give(rng: &mut Rng, list: &mut List, posts: &[Post]) {
    if !rng.once_in(3) {
        list.block(&posts_block(list.next_number(), posts));
        return perhaps_asked(rng, list);
    }
    for post in posts {
        list.post(&post.bytes());
        perhaps_asked(rng, list);
    }
}

/// Perhaps reports and stock counts.
fn perhaps_asked(rng: &mut Rng, list: &mut List) {
    if rng.once_in(4) {
        list.reports();
    }
    if rng.once_in(100) {
        list.report(rng.word() as u8);
    }
    list.perhaps_stock();
}

/// Perhaps a call that is most likely refused, made of a block that isn't, or a found post, and reports and stock counts
/// behind it.
fn perhaps_faulty(rng: &mut Rng, list: &mut List, year: &Year, block: &Block) {
    match rng.below(14) {
        0 | 1 => list.block(&faulty(rng, block)),
        2 | 3 => list.post(&faulty_post(rng, block)),
        4 => {
            let lengths = [0, 1, 48, 508, 511, 513, 1_024, 65_535];
            list.block(&resized(rng, block, &lengths));
        }
        5 => {
            let post = &block[BODY..BODY + POST];
            list.post(&resized(rng, post, &[0, 1, 47, 49, 96, 512]));
        }
        6 => list.post(&too_much(rng, year).bytes()),
        7 => list.block(&without_body(rng, list.next_number())),
        8 => list.post(&year.ledger.found(rng).bytes()),
        9 => list.block(&found_and_too_much(rng, list.next_number(), year)),
        _ => return,
    }
    if rng.once_in(2) {
        list.reports();
    }
    list.perhaps_stock();
}

/// The block with one fault.
pub(crate) fn faulty(rng: &mut Rng, block: &Block) -> Block {
    let mut blocks = vec![*block];
    fault(rng, &mut blocks);
    blocks[0]
}

/// A post of the block with one fault.
pub(crate) fn faulty_post(rng: &mut Rng, block: &Block) -> Vec<u8> {
    let at = BODY + POST * rng.place(block[5].clamp(1, 10).into());
    let mut alone = frame(3, 1, 0);
    alone[BODY..BODY + POST].copy_from_slice(&block[at..at + POST]);
    faulty(rng, &alone)[BODY..BODY + POST].to_vec()
}

/// The bytes cut, or with zeros behind them.
fn resized(rng: &mut Rng, bytes: &[u8], lengths: &[usize]) -> Vec<u8> {
    let mut bytes = bytes.to_vec();
    bytes.resize(rng.pick(lengths), 0);
    bytes
}

/// A post that takes all that a post may, out of a store or a holding.
fn too_much(rng: &mut Rng, year: &Year) -> Post {
    let holding = year.ledger.any_holding(rng);
    match rng.range(3, 11) as u8 {
        3 | 4 => Post::issued(0, holding.0, MOST_GRAMS),
        kind => Post::left(kind, holding, WHOLE, MOST_GRAMS),
    }
}

/// A block of found posts with a last one that is most likely refused, so that none of them may stand.
fn found_and_too_much(rng: &mut Rng, number: u16, year: &Year) -> Block {
    let count = rng.range(1, MOST_POSTS as u64 - 1);
    let mut posts: Vec<Post> = (0..count).map(|_| year.ledger.found(rng)).collect();
    posts.push(too_much(rng, year));
    posts_block(number, &posts)
}

/// A block of any kind with nothing in its body.
fn without_body(rng: &mut Rng, number: u16) -> Block {
    block(rng.below(5) as u8, rng.below(3) as u8, number, &[])
}
