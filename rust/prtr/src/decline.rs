//! Why a call is declined.

use std::error::Error;
use std::fmt;

/// Why a call is declined, in the papers' checking order and with their numbers.
///
/// ```
/// use prtr::Decline;
///
/// assert_eq!(Decline::Layout.number(), 6);
/// for decline in Decline::ALL {
///     assert_eq!(Decline::from_number(decline.number()), Some(decline));
/// }
/// assert_eq!(Decline::from_number(0), None);
/// assert_eq!(Decline::from_number(15), None);
/// ```
#[derive(Clone, Copy, Debug, PartialEq, Eq, PartialOrd, Ord, Hash)]
#[repr(u8)]
pub enum Decline {
    /// A block isn't 512 bytes or lacks "PRTR".
    NotABlock = 1,
    /// A check sum differs.
    CheckSum = 2,
    /// A block's kind isn't 1 to 3 or its number isn't the next.
    NotNext = 3,
    /// A set-up block comes out of its turn, or posts come before the last stage is described.
    OutOfTurn = 4,
    /// The book is closed.
    Closed = 5,
    /// A length, kind, form, index, count, limit, order or zero place breaks the layout.
    Layout = 6,
    /// A float is not finite or outside its range.
    Range = 7,
    /// Form 1 or 2 names a substance without a coefficient row.
    NoRow = 8,
    /// A vapour loss exceeds 2,000,000 kg.
    Excess = 9,
    /// 4,000 posts are accepted and this isn't the close.
    Full = 10,
    /// A store or holding is less than what leaves it.
    Short = 11,
    /// A report names a substance that the book hasn't; no function of this crate answers it.
    NoSubstance = 12,
    /// A set-up block, or a post that begins a block, finds fewer than 512 bytes left or 65,536 blocks written.
    NoRoom = 13,
    /// The grams of a stock count exceed 8×10^12, or the book hasn't the material; no function of this crate answers it.
    StockCount = 14,
    /// A mixture has no part or more than eight, the named part isn't among them, or a value is outside its range.
    Mixture = 18,
}

// The numbers rise, so that no decline is listed twice.
const _: () = {
    let mut place = 1;
    while place < Decline::ALL.len() {
        assert!(Decline::ALL[place - 1].number() < Decline::ALL[place].number());
        place += 1;
    }
};

impl Decline {
    /// Every decline, in checking order.
    pub const ALL: [Decline; 15] = [
        Decline::NotABlock,
        Decline::CheckSum,
        Decline::NotNext,
        Decline::OutOfTurn,
        Decline::Closed,
        Decline::Layout,
        Decline::Range,
        Decline::NoRow,
        Decline::Excess,
        Decline::Full,
        Decline::Short,
        Decline::NoSubstance,
        Decline::NoRoom,
        Decline::StockCount,
        Decline::Mixture,
    ];

    /// The papers' number, 1 to 14 or 18.
    pub const fn number(self) -> u8 {
        self as u8
    }

    /// The decline with this number, or `None` where the papers have none.
    pub fn from_number(number: u8) -> Option<Decline> {
        let mut declines = Decline::ALL.into_iter();
        declines.find(|decline| decline.number() == number)
    }

    /// The papers' words, cut short.
    const fn words(self) -> &'static str {
        match self {
            Decline::NotABlock => "the block isn't 512 bytes or lacks its tag",
            Decline::CheckSum => "a check sum differs",
            Decline::NotNext => "the block's kind or number isn't the next",
            Decline::OutOfTurn => "out of the set-up's turn",
            Decline::Closed => "the book is closed",
            Decline::Layout => "the layout or a limit is broken",
            Decline::Range => "a float is not finite or outside its range",
            Decline::NoRow => "the substance has no coefficient row",
            Decline::Excess => "the loss exceeds 2,000,000 kg",
            Decline::Full => "4,000 posts are accepted",
            Decline::Short => "a store or holding is less than what leaves it",
            Decline::NoSubstance => "the book hasn't this substance",
            Decline::NoRoom => "there is no room for a block",
            Decline::StockCount => {
                "more than 8 x 10^12 g are counted, or the book hasn't this material"
            }
            Decline::Mixture => {
                "the mixture has no part, over eight or not the named one, or a value is outside its range"
            }
        }
    }
}

impl fmt::Display for Decline {
    fn fmt(&self, f: &mut fmt::Formatter<'_>) -> fmt::Result {
        write!(f, "declined by {}: {}", self.number(), self.words())
    }
}

impl Error for Decline {}
