//! Document 02 (a): "a writer over a lent buffer that takes the set-up (each block's kind, count
//! and 500-byte body) and then posts, puts ten posts to a block and ends the last block early when
//! told."

use crate::block::{framed, BODY_SIZE, SIZE};
use crate::book::POSTS_IN_BLOCK;
use crate::decline::{LAYOUT, NO_ROOM};
use crate::post;
use crate::setup::SetUp;

/// "65,536 blocks written": each has its own number of 16 bits.
const MOST_BLOCKS: usize = 65_536;

/// A writer of one journal. It keeps no book: what it asks of a post is its turn, its layout and
/// its floats.
#[derive(Debug, Clone, PartialEq, Eq)]
pub struct Writer {
    /// The bytes of the lent buffer.
    room: usize,
    /// Those of them that are filled.
    journal: Vec<u8>,
    /// "An outline that its own accepted set-up made."
    set_up: SetUp,
    /// The posts of the block that is begun, fewer than ten.
    waiting: Vec<u8>,
}

impl Writer {
    /// "A new writer has filled 0 bytes, written no block and has no post waiting."
    pub fn new(room: usize) -> Writer {
        Writer {
            room,
            journal: Vec::new(),
            set_up: SetUp::default(),
            waiting: Vec::new(),
        }
    }

    /// The bytes filled so far, whole blocks.
    pub fn journal(&self) -> &[u8] {
        &self.journal
    }

    /// Blocks written.
    pub fn blocks(&self) -> usize {
        self.journal.len() / SIZE
    }

    /// Posts that wait for their block to be full or ended.
    pub fn waiting(&self) -> usize {
        self.waiting.len() / post::SIZE
    }

    /// "A set-up kind other than 1 or 2 is a 6 in any turn; a body of another length is a 6 after
    /// 4." 13 comes "after all others".
    pub fn set_up(&mut self, kind: u8, count: u8, body: &[u8]) -> Result<(), u8> {
        if !(1..=2).contains(&kind) {
            return Err(LAYOUT);
        }
        self.set_up.turn(kind, count)?;
        if body.len() != BODY_SIZE {
            return Err(LAYOUT);
        }
        let mut taken = self.set_up.clone();
        taken.take(&framed(kind, count, 0, body))?;
        self.begin()?;
        self.set_up = taken;
        self.write(kind, count, body);
        Ok(())
    }

    /// "A tenth post writes its block."
    pub fn post(&mut self, bytes: &[u8]) -> Result<(), u8> {
        self.set_up.ready()?;
        post::check(bytes, &self.set_up.plan)?;
        if self.waiting.is_empty() {
            self.begin()?;
        }
        self.waiting.extend(bytes);
        if self.waiting() == POSTS_IN_BLOCK {
            self.end();
        }
        Ok(())
    }

    /// "Ending with no post waiting writes nothing."
    pub fn end(&mut self) {
        if self.waiting.is_empty() {
            return;
        }
        let count = self.waiting() as u8;
        let posts = std::mem::take(&mut self.waiting);
        self.write(3, count, &posts);
    }

    /// Decline 13 of what begins a block: it "finds fewer than 512 bytes left or 65,536 blocks
    /// written".
    fn begin(&self) -> Result<(), u8> {
        let left = self.room - self.journal.len();
        let begins = left >= SIZE && self.blocks() < MOST_BLOCKS;
        begins.then_some(()).ok_or(NO_ROOM)
    }

    /// "A block's number is how many blocks were written before it", which is below 65,536.
    fn write(&mut self, kind: u8, count: u8, body: &[u8]) {
        let number = self.blocks() as u16;
        self.journal.extend(framed(kind, count, number, body));
    }
}
