//! Faults in a journal, one at a time or two at once.

use blocks::{
    posts_block, put_sums, renumber, seal, sums, Block, Holding, Post, BLOCK, BODY, POST, SUMS,
};

use crate::floats::{edges, within, RANGES, SPECIALS};
use crate::ledger::{exactly, MOST_GRAMS, MOST_MICROGRAMS};
use crate::rng::Rng;
use crate::year::Year;

/// A fault of the blocks.
type Fault = fn(&mut Rng, &mut Vec<Block>);

/// Every fault of the blocks.
const FAULTS: [Fault; 18] = [
    flip,
    flip_and_seal,
    byte_and_seal,
    tag,
    stored_sums,
    head,
    field,
    field,
    float,
    float,
    no_row,
    great_loss,
    odd_found,
    late_fault,
    swap,
    double,
    drop_one,
    after_the_end,
];

/// A journal with one fault, or with two.
pub fn damaged(rng: &mut Rng, year: &Year) -> Vec<u8> {
    let mut blocks = year.blocks();
    if rng.once_in(8) {
        overdraw(rng, year, &mut blocks);
    }
    let faults = if rng.once_in(4) { 2 } else { 1 };
    for _ in 0..faults {
        fault(rng, &mut blocks);
    }
    let mut journal = blocks.as_flattened().to_vec();
    if rng.once_in(12) {
        cut_or_extend(rng, &mut journal);
    }
    journal
}

/// Puts any one fault into the blocks.
pub fn fault(rng: &mut Rng, blocks: &mut Vec<Block>) {
    let fault = rng.pick(&FAULTS);
    fault(rng, blocks);
}

/// Flips a bit and leaves the check sums.
fn flip(rng: &mut Rng, blocks: &mut Vec<Block>) {
    let block = any_block(rng, blocks);
    block[rng.place(BLOCK)] ^= 1 << rng.below(8);
}

/// Flips a bit and mends the check sums.
fn flip_and_seal(rng: &mut Rng, blocks: &mut Vec<Block>) {
    let block = any_block(rng, blocks);
    block[rng.place(SUMS)] ^= 1 << rng.below(8);
    seal(block);
}

/// Sets a byte to an edge or to anything, and mends the check sums.
fn byte_and_seal(rng: &mut Rng, blocks: &mut Vec<Block>) {
    let block = any_block(rng, blocks);
    let any = rng.word() as u8;
    block[rng.place(SUMS)] = rng.pick(&[0, 1, 2, 3, 8, 9, 12, 13, 14, 15, 127, 128, 255, any]);
    seal(block);
}

/// Breaks "PRTR".
fn tag(rng: &mut Rng, blocks: &mut Vec<Block>) {
    let block = any_block(rng, blocks);
    block[rng.place(4)] = rng.word() as u8;
    if rng.once_in(2) {
        seal(block);
    }
}

/// Puts check sums that are off, swapped or not reduced.
fn stored_sums(rng: &mut Rng, blocks: &mut Vec<Block>) {
    let block = any_block(rng, blocks);
    let [plain, placed] = sums(block);
    let wrong = match rng.below(6) {
        0 => [plain.wrapping_add(1), placed],
        1 => [plain, placed.wrapping_sub(1)],
        2 => [placed, plain],
        3 => [0, 0],
        4 => [plain.wrapping_add(65_521), placed],
        _ => [rng.word() as u16, rng.word() as u16],
    };
    put_sums(block, wrong);
}

/// Sets a block's kind, count or number.
fn head(rng: &mut Rng, blocks: &mut Vec<Block>) {
    let block = any_block(rng, blocks);
    match rng.below(4) {
        0 => block[4] = rng.below(6) as u8,
        1 => block[5] = rng.below(14) as u8,
        2 => block[6] = block[6].wrapping_add(rng.pick(&[1, 2, 255])),
        _ => block[7] ^= 1 << rng.below(8),
    }
    seal(block);
}

/// Sets a field of a post to an edge.
fn field(rng: &mut Rng, blocks: &mut Vec<Block>) {
    let Some((block, at)) = any_post(rng, blocks) else {
        return;
    };
    let post = &mut blocks[block][at..at + POST];
    match rng.below(7) {
        0 => post[0] = rng.below(17) as u8,
        1 => post[1] = rng.below(14) as u8,
        2 => post[2] = rng.below(10) as u8,
        3 => post[3] = rng.below(10) as u8,
        4 => post[4..8].copy_from_slice(&content(rng).to_le_bytes()),
        _ => post[8..16].copy_from_slice(&quantity(rng).to_le_bytes()),
    }
    seal(&mut blocks[block]);
}

fn content(rng: &mut Rng) -> u32 {
    rng.pick(&[
        0,
        1,
        999_999,
        1_000_000,
        1_000_001,
        1 << 24,
        1 << 31,
        u32::MAX,
    ])
}

fn quantity(rng: &mut Rng) -> u64 {
    let grams = 2_000_000_000;
    let micrograms = 2_000_000_000_000_000;
    let any = rng.word();
    rng.pick(&[
        0,
        1,
        2,
        grams,
        grams + 1,
        micrograms,
        micrograms + 1,
        1 << 32,
        1 << 63,
        u64::MAX,
        any,
    ])
}

/// Sets a float to an end of its range, to a float beside it or to what no range has.
fn float(rng: &mut Rng, blocks: &mut Vec<Block>) {
    let Some((block, at)) = vapour_post(rng, blocks) else {
        return;
    };
    let form = blocks[block][at + 1];
    let place = rng.place(4);
    let bits = match (blocks[block][at], form) {
        (12, 1..=3) => rng.pick(&edges(RANGES[form as usize - 1][place])),
        _ => rng.pick(&SPECIALS),
    };
    let from = at + 16 + 8 * place;
    blocks[block][from..from + 8].copy_from_slice(&bits.to_le_bytes());
    seal(&mut blocks[block]);
}

/// Makes a post a vapour of form 1 or 2, whatever its substance.
fn no_row(rng: &mut Rng, blocks: &mut Vec<Block>) {
    let form = rng.range(1, 2) as u8;
    let floats = RANGES[form as usize - 1].map(|range| within(rng, range).to_bits());
    make_vapour(rng, blocks, form, floats);
}

/// Makes a post a vapour whose loss is at or near the ends of its ranges.
fn great_loss(rng: &mut Rng, blocks: &mut Vec<Block>) {
    let form = rng.range(1, 3) as u8;
    let floats = RANGES[form as usize - 1].map(|(least, most)| match rng.below(6) {
        0 => least,
        1 => 2_000_000f64.min(most),
        2 => 1f64.min(most),
        _ => most,
    });
    make_vapour(rng, blocks, form, floats.map(f64::to_bits));
}

fn make_vapour(rng: &mut Rng, blocks: &mut [Block], form: u8, floats: [u64; 4]) {
    let Some((block, at)) = any_post(rng, blocks) else {
        return;
    };
    let post = Post::vapour(form, holding(&blocks[block], at), floats);
    put_post(&mut blocks[block], at, post);
}

/// Makes a post a found one that is right but, most likely, for one field.
fn odd_found(rng: &mut Rng, blocks: &mut Vec<Block>) {
    let Some((block, at)) = any_post(rng, blocks) else {
        return;
    };
    let mut post = Post::found(holding(&blocks[block], at), 1, 1);
    match rng.below(8) {
        0 => post.material = rng.pick(&[1, 2, 12, 255]),
        1 => post.stage = rng.below(10) as u8,
        2 => post.substance = rng.below(10) as u8,
        3 | 4 => post.content = content(rng),
        5 | 6 => post.quantity = quantity(rng),
        _ => post.floats[rng.place(4)] = rng.pick(&SPECIALS),
    }
    put_post(&mut blocks[block], at, post);
}

/// The stage and substance of the post at an offset.
fn holding(block: &Block, at: usize) -> Holding {
    (block[at + 2], block[at + 3])
}

/// Puts a post at an offset, and mends the check sums.
fn put_post(block: &mut Block, at: usize, post: Post) {
    block[at..at + POST].copy_from_slice(&post.bytes());
    seal(block);
}

/// Lets a block's last post ask for all that a post may, after its others were in balance.
fn late_fault(rng: &mut Rng, blocks: &mut Vec<Block>) {
    let Some((block, _)) = any_post(rng, blocks) else {
        return;
    };
    let at = BODY + POST * (blocks[block][5].clamp(1, 10) as usize - 1);
    let post = &mut blocks[block][at..at + POST];
    post[8..16].copy_from_slice(&MOST_GRAMS.to_le_bytes());
    if (5..=11).contains(&post[0]) {
        post[4..8].copy_from_slice(&1_000_000u32.to_le_bytes());
    }
    seal(&mut blocks[block]);
}

/// Swaps two blocks, with or without their numbers.
fn swap(rng: &mut Rng, blocks: &mut Vec<Block>) {
    let (one, other) = (rng.place(blocks.len()), rng.place(blocks.len()));
    blocks.swap(one, other);
    perhaps_renumber(rng, blocks);
}

/// Gives a block twice.
fn double(rng: &mut Rng, blocks: &mut Vec<Block>) {
    let place = rng.place(blocks.len());
    blocks.insert(place, blocks[place]);
    perhaps_renumber(rng, blocks);
}

/// Leaves a block out.
fn drop_one(rng: &mut Rng, blocks: &mut Vec<Block>) {
    let place = rng.place(blocks.len());
    if blocks.len() > 1 {
        blocks.remove(place);
    }
    perhaps_renumber(rng, blocks);
}

/// Puts a copy of any block behind the last.
fn after_the_end(rng: &mut Rng, blocks: &mut Vec<Block>) {
    let copy = *any_block(rng, blocks);
    blocks.push(copy);
    perhaps_renumber(rng, blocks);
}

fn perhaps_renumber(rng: &mut Rng, blocks: &mut [Block]) {
    if rng.once_in(2) {
        renumber(blocks);
    }
}

/// Adds, in place of the close, posts that take all that a stage holds of a substance, to the microgram or one too many.
fn overdraw(rng: &mut Rng, year: &Year, blocks: &mut Vec<Block>) {
    let Some(holding) = year.ledger.filled(rng) else {
        return;
    };
    if year.posts.last() == Some(&Post::CLOSE) {
        let last = year.posts.len() - year.sizes.last().copied().unwrap_or(0);
        let kept = &year.posts[last..year.posts.len() - 1];
        blocks.pop();
        if !kept.is_empty() {
            blocks.push(posts_block(blocks.len() as u16, kept));
        }
    }
    let held = year.ledger.held(holding).min(MOST_MICROGRAMS - 1);
    let kind = rng.range(5, 11) as u8;
    let posts = exactly(kind, holding, held + rng.below(2));
    blocks.push(posts_block(blocks.len() as u16, &posts));
}

/// Ends the journal early, or puts bytes behind it.
fn cut_or_extend(rng: &mut Rng, journal: &mut Vec<u8>) {
    match rng.below(3) {
        0 => journal.truncate(rng.place(journal.len())),
        1 => journal.truncate(rng.place(journal.len() / BLOCK) * BLOCK),
        _ => journal.extend((0..rng.range(1, 600)).map(|_| rng.word() as u8)),
    }
}

fn any_block<'a>(rng: &mut Rng, blocks: &'a mut [Block]) -> &'a mut Block {
    let place = rng.place(blocks.len());
    &mut blocks[place]
}

/// The block and offset of a post.
fn any_post(rng: &mut Rng, blocks: &[Block]) -> Option<(usize, usize)> {
    let places: Vec<usize> = (0..blocks.len())
        .filter(|&place| blocks[place][4] == 3)
        .collect();
    if places.is_empty() {
        return None;
    }
    let block = rng.pick(&places);
    let post = rng.place(blocks[block][5].clamp(1, 10) as usize);
    Some((block, BODY + POST * post))
}

/// The block and offset of a vapour post, or of another where a few tries find none.
fn vapour_post(rng: &mut Rng, blocks: &[Block]) -> Option<(usize, usize)> {
    let mut found = any_post(rng, blocks)?;
    for _ in 0..20 {
        if blocks[found.0][found.1] == 12 || rng.once_in(20) {
            break;
        }
        found = any_post(rng, blocks)?;
    }
    Some(found)
}
