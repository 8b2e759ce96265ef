//! Posts by their bytes, blocks by what these tests say of them, and books made of blocks; floats
//! outside every range.
#![allow(dead_code, unused_imports)]

use blocks::{Pair, Stage, POST};
use model::Book;

pub use blocks::{altered, block, plan, posted as posts, with_floats, Block};

pub type Post = [u8; POST];

/// A post of whole numbers, its floats zero.
pub fn post(kind: u8, material: u8, stage: u8, substance: u8, content: u32, quantity: u64) -> Post {
    let fields = blocks::Post {
        kind,
        material,
        stage,
        substance,
        content,
        quantity,
        floats: [0; 4],
    };
    fields.bytes()
}

pub fn vapour(form: u8, stage: u8, substance: u8, floats: [f64; 4]) -> Post {
    blocks::Post::vapour(form, (stage, substance), floats.map(f64::to_bits)).bytes()
}

pub fn opening(material: u8, grams: u64) -> Post {
    blocks::Post::stock(1, material, grams).bytes()
}

pub fn bought(material: u8, grams: u64) -> Post {
    blocks::Post::stock(2, material, grams).bytes()
}

pub fn issued(material: u8, stage: u8, grams: u64) -> Post {
    blocks::Post::issued(material, stage, grams).bytes()
}

pub fn formed(stage: u8, substance: u8, micrograms: u64) -> Post {
    blocks::Post::formed((stage, substance), micrograms).bytes()
}

/// Kinds 5 to 11.
pub fn leaves(kind: u8, stage: u8, substance: u8, content: u32, grams: u64) -> Post {
    blocks::Post::left(kind, (stage, substance), content, grams).bytes()
}

/// Kind 14.
pub fn found(stage: u8, substance: u8, content: u32, grams: u64) -> Post {
    blocks::Post::found((stage, substance), content, grams).bytes()
}

pub fn close() -> Post {
    blocks::Post::CLOSE.bytes()
}

/// The bits of floats that are in no range.
pub const ODD: [u64; 11] = [
    0x7ff0_0000_0000_0000, // an infinity
    0xfff0_0000_0000_0000, // the other
    0x7ff0_0000_0000_0001, // a signalling NaN
    0xfff7_ffff_ffff_ffff, // one of the other sign, with the rest of its payload
    0x7ff8_0000_0000_0000, // a quiet NaN
    0xfff8_0000_0000_0000, // one of the other sign
    0x7fff_ffff_ffff_ffff, // one with its whole payload
    0xffff_ffff_ffff_ffff, // the same of the other sign
    0x8000_0000_0000_0001, // the least negative number
    0xbff0_0000_0000_0000, // -1
    0x7fef_ffff_ffff_ffff, // the greatest number
];

/// Side, then gas removal, gas destruction, water removal, water destruction.
pub type Treated = (u8, [u32; 4]);

pub const TO_AIR: Treated = (Pair::TO_AIR.side, Pair::TO_AIR.rates);

/// A kind 2 block of a stage whose number in the journal is one more than its place.
pub fn stage(place: u8, water: u8, residues: u8, treated: &[Treated]) -> Block {
    let pairs = treated.iter().map(|&(side, rates)| Pair { side, rates });
    let stage = Stage {
        water,
        residues,
        pairs: pairs.collect(),
    };
    stage.block(place)
}

/// The paper's xylene plant: two blocks of set-up.
pub fn xylene() -> Vec<Block> {
    blocks::xylene::site().blocks()
}

pub fn book(blocks: &[Block]) -> Book {
    let mut book = Book::new();
    for block in blocks {
        assert_eq!(book.block(block), Ok(()));
    }
    book
}

/// Toluene (300, class 1), benzene (400, class 2) and one without a row (7); two materials; two
/// stages that differ in all that a stage says.
pub fn plant() -> Book {
    book(&[
        plan(
            &[(7, 1), (300, 1), (400, 2)],
            &[&[9_999, 400_000, 1_000], &[10_000, 0, 999]],
            2,
        ),
        stage(
            0,
            1,
            1,
            &[
                (1, [500_000, 500_000, 250_000, 0]),
                TO_AIR,
                (2, [0, 0, 1_000_000, 1_000_000]),
            ],
        ),
        stage(
            1,
            2,
            2,
            &[
                (2, [999_999, 0, 500_000, 500_000]),
                (2, [0; 4]),
                (1, [1_000_000, 333_333, 0, 0]),
            ],
        ),
    ])
}

/// Tries a post that is to be declined, and that the book is the one given in.
pub fn declines(book: &Book, post: &[u8], decline: u8) {
    let mut tried = book.clone();
    assert_eq!(tried.post(post), Err(decline), "{post:?}");
    assert_eq!(&tried, book);
}

/// The same of a block.
pub fn declines_block(book: &Book, block: &[u8], decline: u8) {
    let mut tried = book.clone();
    assert_eq!(tried.block(block), Err(decline), "{block:?}");
    assert_eq!(&tried, book);
}
