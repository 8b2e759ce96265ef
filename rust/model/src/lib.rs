//! Document 01 in plain Rust: one site's book for one year, from posts to the PRTR return; with the
//! writer of journals of document 02 (a), the found amounts of (b), the cases of rounding of (c), the
//! stock takers' sheet of (d) and the partial pressure of a mixture of (h).
//!
//! This is an independent model. It was written from the papers and their readings alone, so that a
//! slip shared with another implementation is unlikely. The book is mutable and updated in place.
//!
//! Quotations in the comments are the papers' own sentences.

mod amounts;
mod block;
mod book;
mod decline;
mod filing;
mod loss;
mod post;
mod pressure;
mod report;
mod setup;
mod stock;
mod writer;

pub use amounts::{case, counted, due, figure, split, step, Case, Parts};
pub use book::Book;
pub use filing::filing;
pub use loss::loss;
pub use pressure::pressure;
pub use report::Report;
pub use writer::Writer;
