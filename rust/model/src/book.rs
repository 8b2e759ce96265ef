//! The book: set up by blocks of kinds 1 and 2, then grown by posts, in place.

use crate::block::{self, u16_at, zero_from, Block, BODY};
use crate::decline::{CLOSED, FULL, LAYOUT, NOT_NEXT, SHORT};
use crate::post::{self, Exit, Move, Pair, Where};
use crate::setup::{SetUp, MATERIALS, STAGES, SUBSTANCES};

/// "4,000 posts are accepted and this isn't the close."
const MOST_POSTS: u32 = 4_000;
/// "Count: posts, 1–10."
pub(crate) const POSTS_IN_BLOCK: usize = 10;

/// One site's book for one year. No sum can overflow: each of at most 4,000 posts moves at most
/// 2×10^15 micrograms of a substance.
#[derive(Debug, Clone, Default, PartialEq, Eq)]
pub struct Book {
    pub(crate) set_up: SetUp,
    blocks: u16,
    pub(crate) posts: u32,
    closed: bool,
    /// Grams of each material in store.
    pub(crate) stores: [u64; MATERIALS],
    /// "Handled is issued plus formed", and plus found, for each substance.
    pub(crate) handled: [u64; SUBSTANCES],
    /// One account for each stage and substance.
    pub(crate) accounts: [[Account; SUBSTANCES]; STAGES],
}

/// What a stage has of a substance, and where the rest went, in micrograms.
#[derive(Debug, Clone, Copy, Default, PartialEq, Eq)]
pub(crate) struct Account {
    pub(crate) held: u64,
    /// What the close moved to gas or waste water, "by that pair's side".
    pub(crate) moved: u64,
    /// One total for each of the eight exits.
    exits: [u64; 8],
}

impl Account {
    pub(crate) fn exit(&self, exit: Exit) -> u64 {
        self.exits[exit as usize]
    }
}

impl Book {
    /// "A fresh book, which is as made: no set-up, no substance, no post, block number 0."
    pub fn new() -> Book {
        Book::default()
    }

    /// "The book has the substances of the accepted kind 1 block, and none before it."
    pub fn substances(&self) -> usize {
        self.set_up.plan.substances
    }

    /// The materials of that block, and none before it either.
    pub fn materials(&self) -> usize {
        self.set_up.plan.materials
    }

    /// Blocks accepted so far. It stays small: nine of set-up, and a post at least in each other.
    pub fn blocks(&self) -> u16 {
        self.blocks
    }

    /// "A single post is tried from decline 4 on and doesn't alter the block number."
    pub fn post(&mut self, bytes: &[u8]) -> Result<(), u8> {
        self.set_up.ready()?;
        self.take(bytes).map(drop)
    }

    /// "A decline returns its number and the book given in."
    pub fn block(&mut self, bytes: &[u8]) -> Result<(), u8> {
        let block = block::open(bytes)?;
        let kind = block[4];
        if !(1..=3).contains(&kind) || u16_at(block, 6) != self.blocks {
            return Err(NOT_NEXT);
        }
        match kind {
            1 | 2 => self.set_up.take(block)?,
            _ => self.take_posts(block)?,
        }
        self.blocks += 1;
        Ok(())
    }

    /// Decline 5.
    fn open(&self) -> Result<(), u8> {
        (!self.closed).then_some(()).ok_or(CLOSED)
    }

    /// "A block is taken whole or not at all." "Its posts are tried in turn, each from 5 on the
    /// book the earlier ones left, and the first decline is the block's."
    fn take_posts(&mut self, block: &Block) -> Result<(), u8> {
        self.set_up.ready()?;
        self.open()?;
        let count = usize::from(block[5]);
        if !(1..=POSTS_IN_BLOCK).contains(&count) || !zero_from(block, BODY + post::SIZE * count) {
            return Err(LAYOUT);
        }
        let mut taken = [Move::Close; POSTS_IN_BLOCK];
        for (i, bytes) in block[BODY..]
            .chunks_exact(post::SIZE)
            .take(count)
            .enumerate()
        {
            match self.take(bytes) {
                Ok(done) => taken[i] = done,
                Err(decline) => {
                    taken[..i].iter().rev().for_each(|done| self.undo(*done));
                    return Err(decline);
                }
            }
        }
        Ok(())
    }

    /// Tries one post from decline 5 on; a post that is taken is returned, so it can be undone.
    fn take(&mut self, bytes: &[u8]) -> Result<Move, u8> {
        self.open()?;
        let this = Move::read(bytes, &self.set_up.plan)?;
        if self.posts >= MOST_POSTS && this != Move::Close {
            return Err(FULL);
        }
        self.apply(this)?;
        self.posts += 1;
        Ok(this)
    }

    /// Decline 11, and then the post's effect.
    fn apply(&mut self, this: Move) -> Result<(), u8> {
        match this {
            Move::Stock { material, grams } => self.stores[usize::from(material)] += grams,
            Move::Issue {
                material,
                stage,
                grams,
            } => {
                fall(&mut self.stores[usize::from(material)], grams)?;
                self.issue(material, stage, |sum, ppm| *sum += grams * ppm);
            }
            Move::Carry {
                pair,
                from,
                to,
                amount,
            } => self.carry(pair, from, to, amount)?,
            Move::Close => self.turn_closed(),
        }
        Ok(())
    }

    /// Takes back the last post taken.
    fn undo(&mut self, last: Move) {
        self.posts -= 1;
        match last {
            Move::Stock { material, grams } => self.stores[usize::from(material)] -= grams,
            Move::Issue {
                material,
                stage,
                grams,
            } => {
                self.stores[usize::from(material)] += grams;
                self.issue(material, stage, |sum, ppm| *sum -= grams * ppm);
            }
            Move::Carry {
                pair,
                from,
                to,
                amount,
            } => self
                .carry(pair, to, from, amount)
                .expect("what was carried is there"),
            Move::Close => self.turn_closed(),
        }
    }

    /// Decline 11, of what is held alone, and then an amount goes from one place to another.
    fn carry(&mut self, pair: Pair, from: Where, to: Where, amount: u64) -> Result<(), u8> {
        let account = &mut self.accounts[usize::from(pair.stage)][usize::from(pair.substance)];
        let handled = &mut self.handled[usize::from(pair.substance)];
        match from {
            Where::Outside => *handled += amount,
            Where::Held => fall(&mut account.held, amount)?,
            Where::Gone(exit) => fall(&mut account.exits[exit as usize], amount)?,
        }
        match to {
            Where::Outside => *handled -= amount,
            Where::Held => account.held += amount,
            Where::Gone(exit) => account.exits[exit as usize] += amount,
        }
        Ok(())
    }

    /// "The stage's holding of each substance grows by g times counted content", and handled with
    /// it: `change` is given each sum and the counted content.
    fn issue(&mut self, material: u8, stage: u8, change: impl Fn(&mut u64, u64)) {
        let plan = &self.set_up.plan;
        let contents = &plan.counted[usize::from(material)][..plan.substances];
        let accounts = &mut self.accounts[usize::from(stage)];
        for ((ppm, account), handled) in contents.iter().zip(accounts).zip(&mut self.handled) {
            change(&mut account.held, u64::from(*ppm));
            change(handled, u64::from(*ppm));
        }
    }

    /// The close, and its own undoing: before it nothing is moved, after it nothing is held.
    fn turn_closed(&mut self) {
        self.closed = !self.closed;
        for account in self.accounts.iter_mut().flatten() {
            std::mem::swap(&mut account.held, &mut account.moved);
        }
    }
}

/// "A store or holding is less than what leaves it."
fn fall(sum: &mut u64, amount: u64) -> Result<(), u8> {
    *sum = sum.checked_sub(amount).ok_or(SHORT)?;
    Ok(())
}
