//! "Why a call is declined, in checking order."

/// "The block isn't 512 bytes or lacks "PRTR"."
pub(crate) const NO_BLOCK: u8 = 1;
/// "A check sum differs."
pub(crate) const CHECK_SUM: u8 = 2;
/// "The kind isn't 1–3 or the block number isn't the next."
pub(crate) const NOT_NEXT: u8 = 3;
/// "A set-up block comes out of its turn [...], or a post or a block of posts before the last
/// stage is described."
pub(crate) const TURN: u8 = 4;
/// "The book is closed."
pub(crate) const CLOSED: u8 = 5;
/// "A length, kind, form, index, count, limit, order or zero place breaks the layout, floats aside."
pub(crate) const LAYOUT: u8 = 6;
/// "A float is not finite or outside its range."
pub(crate) const FLOAT: u8 = 7;
/// "Form 1 or 2 names a substance without a coefficient row."
pub(crate) const NO_ROW: u8 = 8;
/// "The loss exceeds 2,000,000 kg."
pub(crate) const LOSS: u8 = 9;
/// "4,000 posts are accepted and this isn't the close."
pub(crate) const FULL: u8 = 10;
/// "A store or holding is less than what leaves it."
pub(crate) const SHORT: u8 = 11;
/// "A report names a substance that the book hasn't."
pub(crate) const NO_SUBSTANCE: u8 = 12;
/// Document 02 (a): "a set-up block or a post that begins a block finds fewer than 512 bytes left
/// or 65,536 blocks written".
pub(crate) const NO_ROOM: u8 = 13;
/// Document 02 (d): "the counted grams exceed 8×10^12 or the material isn't in the book".
pub(crate) const STOCK_COUNT: u8 = 14;
/// Document 02 (h): "no part, over eight parts, the named part isn't among them or a value is
/// outside its range".
pub(crate) const MIXTURE: u8 = 18;
