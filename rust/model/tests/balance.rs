//! Demand 3 over lists of calls drawn at random: what entered is what the report returns, and a
//! declined call leaves the book as it was.

mod common;
use common::*;
use model::{step, Book, Report};

/// A small generator (xorshift), so that a run can be repeated.
struct Dice(u64);

impl Dice {
    fn below(&mut self, n: u64) -> u64 {
        self.0 ^= self.0 << 13;
        self.0 ^= self.0 >> 7;
        self.0 ^= self.0 << 17;
        self.0 % n
    }

    fn one_in(&mut self, n: u64) -> bool {
        self.below(n) == 0
    }
}

const COUNTED: [[u64; 3]; 2] = [[0, 400_000, 1_000], [10_000, 0, 0]];

/// A post for `plant`, at times a bad one.
fn draw(dice: &mut Dice) -> Post {
    let (place, substance, material) = (
        dice.below(2) as u8,
        dice.below(3) as u8,
        dice.below(2) as u8,
    );
    let (grams, content) = (1 + dice.below(2_000), 1 + dice.below(30_000) as u32);
    let mut post = match dice.below(44) {
        0..=7 => opening(material, grams * 20),
        8..=12 => bought(material, grams * 20),
        13..=22 => issued(material, place, grams * 5),
        23..=26 => formed(place, substance, grams * 500_000_000),
        27..=36 => leaves(5 + dice.below(7) as u8, place, substance, content, grams),
        37..=40 => found(place, substance, content, grams),
        _ => vapour(
            3,
            place,
            substance,
            [grams as f64 * 1e-3, 1e-3, content as f64 * 1e-6, 0.1],
        ),
    };
    if dice.one_in(60) {
        post[dice.below(48) as usize] ^= 1 << dice.below(8);
    }
    if dice.one_in(400) {
        post = close();
    }
    post
}

/// What the accepted posts entered and handled, for each substance.
#[derive(Default)]
struct Sums {
    posts: u32,
    entered: [u64; 3],
    handled: [u64; 3],
}

impl Sums {
    fn add(&mut self, post: &Post) {
        let quantity = u64::from_le_bytes(post[8..16].try_into().unwrap());
        let content = u64::from(u32::from_le_bytes(post[4..8].try_into().unwrap()));
        self.posts += 1;
        for (s, (entered, handled)) in self.entered.iter_mut().zip(&mut self.handled).enumerate() {
            match post[0] {
                1 | 2 => *entered += quantity * COUNTED[usize::from(post[1])][s],
                3 => *handled += quantity * COUNTED[usize::from(post[1])][s],
                4 if usize::from(post[3]) == s => {
                    *entered += quantity;
                    *handled += quantity;
                }
                14 if usize::from(post[3]) == s => {
                    *entered += quantity * content;
                    *handled += quantity * content;
                }
                _ => {}
            }
        }
    }

    fn agree(&self, book: &Book) {
        for s in 0..3 {
            let report = book.report(s).unwrap();
            assert_eq!(report.posts, self.posts);
            assert_eq!(report.handled, self.handled[s]);
            assert_eq!(self.handled[s], left(&report));
            assert_eq!(self.entered[s], report.store + left(&report));
            near(&report);
        }
    }
}

fn left(r: &Report) -> u64 {
    r.held + r.shipped + r.consumed + r.destroyed + r.headings.iter().sum::<u64>()
}

/// A filed figure is a multiple of the exact amount's step and at most half a step away.
fn near(report: &Report) {
    assert_eq!(report.due, report.figures.is_some());
    for (exact, filed) in report.headings.iter().zip(report.figures.iter().flatten()) {
        assert_eq!(filed % step(*exact), 0);
        assert!(exact.abs_diff(*filed) * 2 <= step(*exact));
    }
}

/// One call, and how many posts it had accepted.
fn call(dice: &mut Dice, book: &mut Book, sums: &mut Sums) -> bool {
    let before = book.clone();
    let ten: Vec<Post> = (0..1 + dice.below(10)).map(|_| draw(dice)).collect();
    let accepted = if dice.one_in(2) {
        book.post(&ten[0]).map(|()| sums.add(&ten[0]))
    } else {
        let number = book.blocks() + u16::from(dice.one_in(50));
        book.block(&posts(number, &ten))
            .map(|()| ten.iter().for_each(|post| sums.add(post)))
    };
    if accepted.is_err() {
        assert_eq!(*book, before);
    }
    accepted.is_ok()
}

/// A block is as its posts one by one, where it is taken.
#[test]
fn a_block_is_its_posts_in_turn() {
    let mut dice = Dice(0x5eed);
    let (mut taken, mut refused) = (0, 0);
    for _ in 0..400 {
        let (mut whole, mut single) = (plant(), plant());
        for _ in 0..12 {
            let ten: Vec<Post> = (0..1 + dice.below(10)).map(|_| draw(&mut dice)).collect();
            let mut tried = single.clone();
            let singly = ten.iter().try_for_each(|post| tried.post(post));
            assert_eq!(whole.block(&posts(whole.blocks(), &ten)), singly);
            if singly.is_ok() {
                single = tried;
                taken += 1;
            } else {
                refused += 1;
            }
            (0..3).for_each(|s| assert_eq!(whole.report(s), single.report(s)));
        }
    }
    assert!(taken > 100 && refused > 100, "{taken} {refused}");
}

#[test]
fn nothing_is_lost() {
    let mut dice = Dice(0x9e37_79b9_7f4a_7c15);
    let (mut accepted, mut declined) = (0, 0);
    for _ in 0..300 {
        let (mut book, mut sums) = (plant(), Sums::default());
        for _ in 0..120 {
            if call(&mut dice, &mut book, &mut sums) {
                accepted += 1;
            } else {
                declined += 1;
            }
        }
        sums.agree(&book);
        if book.post(&close()).is_ok() {
            sums.add(&close());
        }
        sums.agree(&book);
    }
    assert!(
        accepted > 1_000 && declined > 1_000,
        "{accepted} {declined}"
    );
}
