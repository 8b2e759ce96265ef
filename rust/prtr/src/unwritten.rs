//! Why a journal isn't written.

use std::error::Error;
use std::fmt;

use crate::decline::Decline;

/// The first record that wasn't taken, and why; nothing is written then.
///
/// ```
/// use prtr::{Cause, Decline, Unwritten, Writer};
///
/// let mut writer = Writer::new();
/// writer.end();
/// writer.post(&[0; 48])?;
/// let unwritten = writer.finish().unwrap_err();
/// assert_eq!(unwritten, Unwritten { record: 1, cause: Cause::Declined(Decline::OutOfTurn) });
/// assert_eq!(
///     unwritten.to_string(),
///     "record 1 isn't written, declined by 4: out of the set-up's turn"
/// );
/// # Ok::<(), prtr::TooLong>(())
/// ```
#[derive(Clone, Copy, Debug, PartialEq, Eq, Hash)]
pub struct Unwritten {
    /// The record's place, counted from 0: set-up blocks, posts and ends are one each.
    pub record: usize,
    /// Why it wasn't taken.
    pub cause: Cause,
}

/// Why a record isn't taken.
#[derive(Clone, Copy, Debug, PartialEq, Eq, Hash)]
pub enum Cause {
    /// It is declined, by [`Decline::OutOfTurn`], [`Decline::Layout`], [`Decline::Range`] or [`Decline::NoRoom`].
    Declined(Decline),
    /// It is cut short, or its tag is another than `S`, `P` and `E`; no record of a [`Writer`](crate::Writer) is.
    Malformed,
}

impl fmt::Display for Unwritten {
    fn fmt(&self, f: &mut fmt::Formatter<'_>) -> fmt::Result {
        write!(f, "record {} isn't written, ", self.record)?;
        match self.cause {
            Cause::Declined(decline) => decline.fmt(f),
            Cause::Malformed => f.write_str("cut short or of an unknown tag"),
        }
    }
}

impl Error for Unwritten {}

/// A post or a set-up block is longer than a record can say, and wasn't added.
///
/// ```
/// use prtr::{TooLong, Writer};
///
/// let mut writer = Writer::new();
/// assert_eq!(writer.post(&[0; 65_535]), Ok(()));
/// assert_eq!(writer.post(&[0; 65_536]), Err(TooLong { length: 65_536 }));
/// assert_eq!(writer.set_up(1, 1, &[0; 65_534]), Err(TooLong { length: 65_536 }));
/// assert_eq!(
///     TooLong { length: 65_536 }.to_string(),
///     "a record holds 65,535 bytes and not 65536"
/// );
/// ```
#[derive(Clone, Copy, Debug, PartialEq, Eq, Hash)]
pub struct TooLong {
    /// The bytes that the record would have; kind and count are two of a set-up block's.
    pub length: usize,
}

impl fmt::Display for TooLong {
    fn fmt(&self, f: &mut fmt::Formatter<'_>) -> fmt::Result {
        write!(f, "a record holds 65,535 bytes and not {}", self.length)
    }
}

impl Error for TooLong {}
