//! Document 02 (d): the stock takers' sheet.

mod common;
use common::*;
use model::Book;

/// The most that may be counted, which is also the most that a store can hold.
const MOST: u64 = 8_000_000_000_000;
/// The grams of the largest post, and how many of them fill a store.
const GRAMS: u64 = 2_000_000_000;
const POSTS: usize = 4_000;

/// Counts within the limit, and counts beyond it.
const WITHIN: [u64; 6] = [0, 1, 70, GRAMS, MOST - 1, MOST];
const BEYOND: [u64; 6] = [
    MOST + 1,
    MOST + 2,
    2 * MOST,
    1 << 63,
    u64::MAX - 1,
    u64::MAX,
];

/// The plant after posts that it takes.
fn after(posts: &[Post]) -> Book {
    let mut book = plant();
    posts.iter().for_each(|post| take(&mut book, post));
    book
}

fn take(book: &mut Book, post: &Post) {
    assert_eq!(book.post(post), Ok(()), "{post:?}");
}

/// What a count of nothing says of the plant's two stores.
fn stores(book: &Book) -> [Result<i64, u8>; 2] {
    [book.stock(0, 0), book.stock(1, 0)]
}

/// The set-up of twelve materials, the most, and two stages.
fn twelve() -> Vec<Block> {
    vec![
        plan(&[(80, 1)], &[&[450_000]; 12], 2),
        stage(0, 1, 1, &[TO_AIR]),
        stage(1, 1, 1, &[TO_AIR]),
    ]
}

/// Stops where a book doesn't decline every count of a material.
fn hasnt(book: &Book, material: usize) {
    for counted in WITHIN.into_iter().chain(BEYOND) {
        assert_eq!(book.stock(material, counted), Err(14), "{material}");
    }
}

/// Stops where a material's store isn't empty, or where a count beyond the limit is answered.
fn has_none_of(book: &Book, material: usize) {
    for counted in WITHIN {
        assert_eq!(book.stock(material, counted), Ok(counted as i64));
    }
    for counted in BEYOND {
        assert_eq!(book.stock(material, counted), Err(14), "{counted}");
    }
}

/// "Plus where more was counted, minus where less, nought where equal."
#[test]
fn it_is_counted_less_store() {
    let book = after(&[opening(0, 500), bought(1, 70)]);
    for (material, store) in [(0, 500), (1, 70)] {
        assert_eq!(book.stock(material, store), Ok(0));
        assert_eq!(book.stock(material, store + 1), Ok(1));
        assert_eq!(book.stock(material, store - 1), Ok(-1));
        assert_eq!(book.stock(material, 0), Ok(-(store as i64)));
    }
}

/// "Exact up to 8×10^12 g either way": plus.
#[test]
fn the_most_against_an_empty_store() {
    let book = plant();
    assert_eq!(book.stock(0, MOST), Ok(8_000_000_000_000));
    assert_eq!(book.stock(0, MOST - 1), Ok(7_999_999_999_999));
    assert_eq!(book.stock(0, 0), Ok(0));
    let book = after(&[opening(0, 1)]);
    assert_eq!(book.stock(0, MOST), Ok(7_999_999_999_999));
}

/// "Exact up to 8×10^12 g either way": minus. The book is then full, and answers the same once closed.
#[test]
fn nothing_against_a_full_store() {
    let mut book = after(&[bought(1, GRAMS); POSTS]);
    declines(&book, &bought(1, 1), 10);
    is_full_of_the_second(&book);
    take(&mut book, &close());
    is_full_of_the_second(&book);
}

fn is_full_of_the_second(book: &Book) {
    assert_eq!(book.stock(1, 0), Ok(-8_000_000_000_000));
    assert_eq!(book.stock(1, 1), Ok(-7_999_999_999_999));
    assert_eq!(book.stock(1, MOST - 1), Ok(-1));
    assert_eq!(book.stock(1, MOST), Ok(0));
    assert_eq!(book.stock(1, MOST + 1), Err(14));
    has_none_of(book, 0);
    hasnt(book, 2);
}

/// "14, the counted grams exceed 8×10^12", though the store is nearer to them than 8×10^12.
#[test]
fn more_than_the_limit_is_declined() {
    let book = after(&[opening(0, GRAMS)]);
    for counted in BEYOND {
        assert_eq!(book.stock(0, counted), Err(14), "{counted}");
        assert_eq!(book.stock(1, counted), Err(14), "{counted}");
    }
    assert_eq!(book.stock(0, MOST), Ok((MOST - GRAMS) as i64));
}

/// "Or the material isn't in the book": the first place behind the last, and every later one.
#[test]
fn another_material_is_declined() {
    let book = after(&[opening(0, 500), opening(1, 70)]);
    for material in [2, 3, 11, 12, 255, 256, usize::MAX] {
        hasnt(&book, material);
    }
}

#[test]
fn the_last_of_twelve_materials() {
    let mut book = book(&twelve());
    take(&mut book, &opening(11, 9));
    assert_eq!(book.stock(11, 9), Ok(0));
    assert_eq!(book.stock(11, 0), Ok(-9));
    (0..11).for_each(|material| has_none_of(&book, material));
    hasnt(&book, 12);
}

/// A fresh book has no material, and a declined block brings none.
#[test]
fn a_fresh_book_declines_every_count() {
    let mut fresh = Book::new();
    assert_eq!(fresh.materials(), 0);
    (0..=13).for_each(|material| hasnt(&fresh, material));
    assert_eq!(fresh.block(&altered(twelve()[0], 8, &[13])), Err(6));
    assert_eq!(fresh.block(&twelve()[1]), Err(3));
    (0..=13).for_each(|material| hasnt(&fresh, material));
}

/// The book has its materials from the kind 1 block on, though no stage or only some are described.
#[test]
fn a_part_of_the_set_up_answers() {
    let set_up = twelve();
    for described in 1..=set_up.len() {
        let book = book(&set_up[..described]);
        assert_eq!(book.materials(), 12);
        (0..12).for_each(|material| has_none_of(&book, material));
        hasnt(&book, 12);
    }
}

/// The close moves holdings and no store, and declines no count.
#[test]
fn a_closed_book_answers() {
    let mut book = after(&[opening(0, 500), issued(0, 1, 20), close()]);
    assert_eq!(book.post(&opening(0, 1)), Err(5));
    assert_eq!(book.stock(0, 481), Ok(1));
    assert_eq!(book.stock(0, 480), Ok(0));
    assert_eq!(book.stock(0, 479), Ok(-1));
    assert_eq!(book.stock(0, MOST + 1), Err(14));
    has_none_of(&book, 1);
    hasnt(&book, 2);
}

/// "1 opening, 2 bought: material, g. The store of that material grows." "3 issued [...] The store falls."
#[test]
fn each_post_moves_its_own_store() {
    let mut book = plant();
    for (post, first, second) in [
        (opening(0, 500), 500, 0),
        (opening(1, 70), 500, 70),
        (bought(0, 8), 508, 70),
        (bought(1, 3), 508, 73),
        (issued(0, 1, 100), 408, 73),
        (issued(1, 0, 73), 408, 0),
        (issued(0, 0, 408), 0, 0),
        (bought(1, 1), 0, 1),
    ] {
        take(&mut book, &post);
        assert_eq!(stores(&book), [Ok(-first), Ok(-second)], "{post:?}");
    }
}

/// Posts of the other kinds, which are of holdings.
#[test]
fn no_other_post_moves_a_store() {
    let mut book = after(&[opening(0, 500), opening(1, 70), issued(0, 0, 100)]);
    let left = (5..=11).map(|kind| leaves(kind, 0, 1, 400_000, 1));
    let others = [
        formed(1, 0, 1_000_000),
        vapour(3, 0, 1, [0.0; 4]),
        found(1, 2, 1_000_000, GRAMS),
        close(),
    ];
    for post in left.chain(others) {
        take(&mut book, &post);
        assert_eq!(stores(&book), [Ok(-400), Ok(-70)], "{post:?}");
    }
}

/// "A decline returns its number and the book given in", also of a block whose earlier posts moved a store.
#[test]
fn a_declined_call_moves_no_store() {
    let mut book = after(&[opening(0, 500), opening(1, 70)]);
    let refused = [bought(0, 8), issued(1, 0, 70), issued(0, 0, 509)];
    assert_eq!(book.block(&posts(book.blocks(), &refused)), Err(11));
    assert_eq!(book.post(&issued(1, 0, 71)), Err(11));
    assert_eq!(stores(&book), [Ok(-500), Ok(-70)]);
}

/// "The book isn't altered", whatever is counted, and goes on as one that wasn't asked.
#[test]
fn the_book_is_not_altered() {
    let posts = [opening(0, 500), bought(1, 70), issued(0, 1, 20), close()];
    let (mut asked, mut unasked) = (plant(), plant());
    for post in &posts {
        for material in 0..4 {
            for counted in WITHIN.into_iter().chain(BEYOND) {
                let first = asked.stock(material, counted);
                assert_eq!(asked.stock(material, counted), first);
            }
        }
        assert_eq!(asked, unasked);
        take(&mut asked, post);
        take(&mut unasked, post);
        assert_eq!(asked, unasked);
    }
    (0..3).for_each(|place| assert_eq!(asked.report(place), unasked.report(place)));
}
