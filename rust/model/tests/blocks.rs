//! Blocks: frame, set-up, turns, and blocks of posts taken whole or not at all.

mod common;
use common::*;
use model::Book;

#[test]
fn one_before_two_before_three() {
    let book = Book::new();
    let good = plan(&[(80, 1)], &[&[450_000]], 1);
    for length in [0, 1, 511] {
        declines_block(&book, &good[..length], 1);
    }
    declines_block(&book, &[&good[..], &[0]].concat(), 1);
    let mut tagless = good;
    tagless[3] = b'r';
    declines_block(&book, &tagless, 1);
    for at in 508..512 {
        let mut unsealed = altered(good, 4, &[9]);
        unsealed[at] ^= 1;
        declines_block(&book, &unsealed, 2);
    }
    for kind in [0, 4, 255] {
        declines_block(&book, &altered(good, 4, &[kind]), 3);
    }
    declines_block(&book, &altered(good, 6, &[1]), 3);
    declines_block(&book, &altered(good, 7, &[1]), 3);
}

/// "A stored check sum of 65,521 or more never equals a remainder."
#[test]
fn a_check_sum_is_a_remainder() {
    // Both sums of a whole body of 255 pass 65,521, so the remainders matter.
    let full = block(9, 9, 9, &[255; 500]);
    declines_block(&Book::new(), &full, 3);
    // Find a block whose plain sum is small enough to be stored plus 65,521.
    for value in 0..=255u8 {
        let body: Vec<u8> = [vec![255; 255], vec![value]].concat();
        let bytes = block(9, 0, 0, &body);
        let plain = u16::from_le_bytes([bytes[508], bytes[509]]);
        if let Some(over) = plain.checked_add(65_521) {
            let mut wrong = bytes;
            wrong[508..510].copy_from_slice(&over.to_le_bytes());
            declines_block(&Book::new(), &bytes, 3);
            declines_block(&Book::new(), &wrong, 2);
            return;
        }
    }
    panic!("no such block");
}

#[test]
fn set_up_comes_in_turn() {
    let first = plan(&[(80, 1)], &[&[450_000]], 2);
    let mut book = Book::new();
    declines_block(&book, &altered(stage(0, 1, 1, &[TO_AIR]), 6, &[0]), 4);
    declines_block(&book, &posts(0, &[opening(0, 1)]), 4);
    assert_eq!(
        (book.block(&first), book.substances(), book.blocks()),
        (Ok(()), 1, 1)
    );
    // A second kind 1 block is a 4 whatever it holds.
    declines_block(&book, &altered(first, 6, &[1]), 4);
    declines_block(&book, &block(1, 99, 1, &[255; 500]), 4);
    // A wrong kind 2 count is always a 4 and never a 6.
    for count in [1, 2, 8, 255] {
        declines_block(&book, &block(2, count, 1, &[255; 500]), 4);
    }
    declines_block(&book, &posts(1, &[opening(0, 1)]), 4);
    book.block(&stage(0, 1, 1, &[TO_AIR])).unwrap();
    declines_block(&book, &altered(stage(0, 1, 1, &[TO_AIR]), 6, &[2]), 4);
    book.block(&stage(1, 1, 1, &[TO_AIR])).unwrap();
    declines_block(&book, &block(2, 2, 3, &[1, 1]), 4);
    assert_eq!(book.block(&posts(3, &[opening(0, 1), close()])), Ok(()));
    // A set-up block given to a closed book is a 4; a block of posts with a bad count a 5.
    declines_block(&book, &altered(first, 6, &[4]), 4);
    declines_block(&book, &block(2, 2, 4, &[1, 1]), 4);
    declines_block(&book, &block(3, 0, 4, &[]), 5);
    declines_block(&book, &posts(4, &[close()]), 5);
    assert_eq!(book.blocks(), 4);
}

#[test]
fn the_layout_of_a_plan() {
    let book = Book::new();
    let good = plan(&[(7, 1), (80, 2)], &[&[400_000, 600_000], &[0, 0]], 1);
    assert_eq!(book.clone().block(&good), Ok(()));
    let changes: [(usize, &[u8]); 22] = [
        (5, &[0]),                 // no substance
        (5, &[1]),                 // one fewer: its places aren't zero
        (5, &[3]),                 // one more: its number doesn't rise
        (5, &[9]),                 // more than eight
        (8, &[0]),                 // no material
        (8, &[13]),                // more than twelve
        (9, &[0]),                 // no stage
        (9, &[9]),                 // more than eight
        (10, &[0, 0]),             // a number below 1
        (10, &[80, 0]),            // two alike
        (10, &[81, 0]),            // falling
        (14, &[81, 0]),            // a number in an unused place
        (24, &[0, 1]),             // and in the last
        (26, &[0]),                // no class
        (27, &[3]),                // an unknown one
        (28, &[1]),                // a class in an unused place
        (33, &[1]),                // and in the last
        (38, &[0xc1, 0x27, 9, 0]), // 600,001: the sum is 1,000,001
        (42, &[1]),                // a content of a substance that isn't there
        (98, &[1]),                // of a material that isn't there
        (418, &[1]),               // bytes not named
        (507, &[1]),
    ];
    for (at, bytes) in changes {
        declines_block(&book, &altered(good, at, bytes), 6);
    }
}

/// "Eight 32-bit numbers can pass 2^32."
#[test]
fn contents_are_added_exactly() {
    let wraps = plan(&[(7, 1), (80, 2)], &[&[u32::MAX, 1]], 1);
    declines_block(&Book::new(), &wraps, 6);
    declines_block(&Book::new(), &plan(&[(7, 1)], &[&[0], &[1_000_001]], 1), 6);
}

#[test]
fn the_greatest_plan() {
    let substances: Vec<(u16, u8)> = (0..8).map(|s| (65_528 + s, 1 + (s % 2) as u8)).collect();
    let row: &[u32] = &[125_000; 8];
    let mut book = book(&[plan(&substances, &[row; 12], 8)]);
    assert_eq!(book.substances(), 8);
    for s in 0..8 {
        assert_eq!(
            book.block(&stage(s, 2, 2, &[(2, [1_000_000; 4]); 8])),
            Ok(())
        );
    }
    assert_eq!(book.post(&opening(11, 1)), Ok(()));
    assert_eq!(book.report(7).unwrap().store, 125_000);
    assert_eq!(book.report(7).unwrap().number, 65_535);
    declines(&book, &opening(12, 1), 6);
    declines(&book, &formed(8, 0, 1), 6);
    declines(&book, &formed(0, 8, 1), 6);
}

#[test]
fn the_layout_of_a_stage() {
    let book = book(&[plan(&[(7, 1), (80, 2)], &[&[0, 0]], 1)]);
    let good = stage(0, 1, 2, &[(1, [1_000_000; 4]), (2, [0; 4])]);
    assert_eq!(book.clone().block(&good), Ok(()));
    let million_and_one = 1_000_001u32.to_le_bytes();
    let mut changes: Vec<(usize, Vec<u8>)> = vec![];
    for at in [8, 9, 10, 27] {
        changes.extend([(at, vec![0]), (at, vec![3])]);
    }
    for at in [11, 15, 19, 23, 28, 32, 36, 40] {
        changes.push((at, million_and_one.to_vec()));
    }
    for at in [44, 45, 61, 507] {
        changes.push((at, vec![1]));
    }
    for (at, bytes) in changes {
        declines_block(&book, &altered(good, at, &bytes), 6);
    }
}

#[test]
fn the_layout_of_a_block_of_posts() {
    let book = plant();
    for count in [0, 11, 255] {
        declines_block(&book, &block(3, count, 3, &[]), 6);
    }
    // Non-zero bytes behind the last post are a 6 before any post of the block is tried.
    let behind = posts(3, &[with_floats(opening(0, 1), [1; 4])]);
    declines_block(&book, &behind, 7);
    declines_block(&book, &altered(behind, 56, &[1]), 6);
    declines_block(&book, &altered(behind, 507, &[1]), 6);
    declines_block(
        &book,
        &altered(posts(3, &[opening(0, 1); 10]), 488, &[1]),
        6,
    );
    assert_eq!(book.clone().block(&posts(3, &[opening(0, 1); 10])), Ok(()));
}

#[test]
fn a_block_is_taken_whole_or_not_at_all() {
    let mut book = plant();
    let work = [
        opening(0, 100),
        bought(1, 100),
        issued(0, 0, 60),
        issued(1, 1, 50),
        formed(1, 2, 7),
        leaves(5, 0, 1, 1_000, 3),
        leaves(11, 1, 0, 10_000, 50),
        vapour(3, 1, 2, [3e-9, 1.0, 0.0, 0.0]),
        close(),
    ];
    let blockwise = |n: usize, last: Post| posts(3, &[&work[..n], &[last]].concat());
    for n in 0..8 {
        declines_block(&book, &blockwise(n, issued(0, 0, 1_000)), 11);
        declines_block(&book, &blockwise(n, opening(0, 0)), 6);
    }
    // The posts behind a close meet a closed book: 5 before their own 6.
    declines_block(&book, &blockwise(9, close()), 5);
    declines_block(&book, &blockwise(9, [255; 48]), 5);
    assert_eq!(book.block(&posts(3, &work)), Ok(()));
    assert_eq!((book.blocks(), book.report(0).unwrap().posts), (4, 9));
}

/// "The 4,000 counts the posts before it in the same block."
#[test]
fn the_limit_inside_a_block() {
    let mut book = plant();
    for _ in 0..3_995 {
        book.post(&opening(0, 1)).unwrap();
    }
    declines_block(&book, &posts(3, &[opening(0, 1); 6]), 10);
    assert_eq!(
        book.block(&posts(
            3,
            &[[opening(0, 1); 5].as_slice(), &[close()]].concat()
        )),
        Ok(())
    );
    assert_eq!(book.report(0).unwrap().posts, 4_001);
}

/// A single post between two blocks doesn't alter the block number.
#[test]
fn single_posts_and_blocks_mix() {
    let mut book = plant();
    book.block(&posts(3, &[opening(0, 1)])).unwrap();
    book.post(&opening(0, 1)).unwrap();
    declines_block(&book, &posts(3, &[opening(0, 1)]), 3);
    book.block(&posts(4, &[opening(0, 1)])).unwrap();
    assert_eq!(
        (book.blocks(), book.report(1).unwrap().store),
        (5, 1_200_000)
    );
}
