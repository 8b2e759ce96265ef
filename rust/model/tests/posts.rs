//! Single posts: layout, order of declines, limits.

mod common;
use common::*;
use model::Book;

#[test]
fn an_empty_post_is_a_4_a_6_or_a_5() {
    declines(&Book::new(), &[], 4);
    let mut book = plant();
    declines(&book, &[], 6);
    declines(&book, &[1; 47], 6);
    declines(&book, &[1; 49], 6);
    assert_eq!(book.post(&close()), Ok(()));
    declines(&book, &[], 5);
    declines(&book, &close(), 5);
}

#[test]
fn no_post_before_the_last_stage_is_described() {
    let mut book = Book::new();
    declines(&book, &opening(0, 1), 4);
    book.block(&plan(&[(7, 1)], &[&[0]], 2)).unwrap();
    declines(&book, &opening(0, 1), 4);
    book.block(&stage(0, 1, 1, &[TO_AIR])).unwrap();
    declines(&book, &opening(0, 1), 4);
    book.block(&stage(1, 1, 1, &[TO_AIR])).unwrap();
    assert_eq!(book.post(&opening(0, 1)), Ok(()));
    assert_eq!(book.blocks(), 3);
}

/// One good post of each kind, in an order in which the book takes them all.
fn year() -> Vec<Post> {
    let mut posts = vec![
        opening(1, 2_000_000_000),
        bought(0, 5_000_000),
        issued(0, 1, 4_000_000),
        formed(1, 1, 2_000_000_000_000_000),
    ];
    posts.extend((5..=11).map(|kind| leaves(kind, 1, 1, 1_000, 1_000)));
    posts.extend([
        vapour(3, 1, 1, [1.0, 1.0, 0.0, 0.0]),
        found(1, 1, 1_000, 1_000),
        close(),
    ]);
    posts
}

/// Which of material, stage, substance, content and quantity a kind uses.
fn uses(kind: u8) -> [bool; 5] {
    match kind {
        1 | 2 => [true, false, false, false, true],
        3 => [true, true, false, false, true],
        4 => [false, true, true, false, true],
        5..=11 | 14 => [false, true, true, true, true],
        12 => [true, true, true, false, false],
        _ => [false; 5],
    }
}

#[test]
fn each_field_has_its_limits_and_each_unused_field_is_zero() {
    let mut book = plant();
    for post in year() {
        let kind = post[0];
        for (field, (at, size)) in [(1, 1), (2, 1), (3, 1), (4, 4), (8, 8)]
            .into_iter()
            .enumerate()
        {
            if !uses(kind)[field] {
                for byte in at..at + size {
                    let mut wrong = post;
                    wrong[byte] = 1;
                    declines(&book, &wrong, 6);
                }
                continue;
            }
            let most: u64 = match field {
                0 if kind == 12 => 3,
                0 | 1 => 1,
                2 => 2,
                3 => 1_000_000,
                _ if kind == 4 => 2_000_000_000_000_000,
                _ => 2_000_000_000,
            };
            let zero_wrong = field > 2 || (field == 0 && kind == 12);
            for value in [Some(most + 1), zero_wrong.then_some(0)]
                .into_iter()
                .flatten()
            {
                let mut wrong = post;
                wrong[at..at + size].copy_from_slice(&value.to_le_bytes()[..size]);
                declines(&book, &wrong, 6);
            }
        }
        assert_eq!(book.post(&post), Ok(()));
    }
    assert_eq!(book.report(0).unwrap().posts, 14);
}

#[test]
fn an_unused_float_is_zero_of_either_sign() {
    let mut book = plant();
    for post in year() {
        if post[0] != 12 {
            for place in 0..4 {
                let mut floats = [0; 4];
                for bits in [
                    1,
                    1.0f64.to_bits(),
                    f64::NAN.to_bits(),
                    f64::INFINITY.to_bits(),
                    (1 << 63) + 1,
                ] {
                    floats[place] = bits;
                    declines(&book, &with_floats(post, floats), 7);
                }
            }
            assert_eq!(
                book.post(&with_floats(post, [1 << 63, 0, 1 << 63, 1 << 63])),
                Ok(())
            );
        } else {
            assert_eq!(book.post(&post), Ok(()));
        }
    }
}

#[test]
fn kinds_are_1_to_14() {
    for kind in (15..=255).chain([0]) {
        declines(&plant(), &post(kind, 0, 0, 0, 0, 0), 6);
        declines(&plant(), &post(kind, 0, 0, 0, 1, 1), 6);
    }
}

/// 6, 7, 8, 9 and 11 in their order.
#[test]
fn declines_come_in_their_order() {
    let book = plant();
    let floats = |form, floats: [f64; 4]| vapour(form, 0, 0, floats);
    declines(&book, &floats(4, [f64::NAN; 4]), 6);
    declines(&book, &floats(1, [0.0; 4]), 7);
    declines(&book, &floats(1, [1.0, 0.0, 0.0, 0.0]), 8);
    declines(&book, &floats(3, [1e9; 4]), 9);
    declines(&book, &floats(3, [1.0, 1.0, 0.0, 0.0]), 11);
    declines(&book, &issued(0, 0, 1), 11);
    for kind in 5..=11 {
        declines(&book, &leaves(kind, 0, 0, 1, 1), 11);
    }
}

/// "A loss of 0 is accepted, from a holding of 0 too, and counts as a post."
#[test]
fn a_loss_of_nothing_counts() {
    let mut book = plant();
    assert_eq!(book.post(&vapour(3, 0, 0, [-0.0; 4])), Ok(()));
    assert_eq!(book.report(0).unwrap().posts, 1);
    assert_eq!(book.report(0).unwrap().headings, [0; 6]);
}

#[test]
fn a_store_or_holding_may_be_emptied_and_no_more() {
    let mut book = plant();
    book.post(&opening(0, 10)).unwrap();
    declines(&book, &issued(0, 0, 11), 11);
    book.post(&issued(0, 0, 10)).unwrap();
    declines(&book, &issued(0, 0, 1), 11);
    declines(&book, &leaves(5, 0, 1, 400_001, 10), 11);
    declines(&book, &leaves(5, 1, 1, 1, 1), 11);
    book.post(&leaves(5, 0, 1, 400_000, 10)).unwrap();
    declines(&book, &leaves(5, 0, 1, 1, 1), 11);
    assert_eq!(book.report(1).unwrap().shipped, 4_000_000);
}

/// "Order is as numbered: a full book still answers 6, 7, 8 or 9 before 10."
#[test]
fn four_thousand_posts_and_the_close() {
    let mut book = plant();
    for _ in 0..4_000 {
        assert_eq!(book.post(&opening(0, 2_000_000_000)), Ok(()));
    }
    declines(&book, &opening(0, 1), 10);
    declines(&book, &leaves(5, 0, 0, 1, 1), 10);
    declines(&book, &found(0, 0, 1, 1), 10);
    declines(&book, &opening(0, 0), 6);
    declines(&book, &with_floats(opening(0, 1), [1; 4]), 7);
    declines(&book, &vapour(1, 0, 0, [1.0, 1.0, 1.0, 0.0]), 8);
    declines(&book, &vapour(3, 0, 0, [1e9; 4]), 9);
    declines(&book, &post(13, 0, 0, 0, 0, 1), 6);
    declines(&book, &with_floats(close(), [0, 0, 0, 1]), 7);
    assert_eq!(book.report(1).unwrap().store, 3_200_000_000_000_000_000);
    assert_eq!(book.post(&close()), Ok(()));
    assert_eq!(book.report(0).unwrap().posts, 4_001);
    declines(&book, &close(), 5);
}

#[test]
fn the_greatest_sums_fit() {
    let mut book = book(&xylene());
    for _ in 0..4_000 {
        assert_eq!(book.post(&formed(0, 0, 2_000_000_000_000_000)), Ok(()));
    }
    assert_eq!(book.post(&close()), Ok(()));
    let report = book.report(0).unwrap();
    assert_eq!(
        (report.handled, report.headings[0]),
        (8_000_000_000_000_000_000, 8_000_000_000_000_000_000)
    );
}
