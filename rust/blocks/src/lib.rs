//! Document 01's bytes, built for tests: posts, blocks, whole journals, and the lists of records that programs read.
//!
//! Nothing here checks what it is given, so that a test can build what must be declined. It uses neither the model nor
//! the library, so that a slip in one of them can't hide in the other's input.

mod block;
mod journal;
mod post;
mod records;
mod setup;
pub mod xylene;

pub use block::{
    altered, block, frame, put_sums, renumber, seal, sums, Block, BLOCK, BODY, MODULUS, SUMS,
};
pub use journal::{journal, posted, posts_block, tens, MOST_POSTS};
pub use post::{with_floats, Holding, Post, POST};
pub use records::{record, set_up, stock, MOST_IN_RECORD};
pub use setup::{plan, Pair, Site, Stage};
