//! Journals of whole years, damaged ones and full ones, given to the library and to the model.

use blocks::posts_block;
use trials::damage::damaged;
use trials::limit::{any_last, last_posts, ONE_SHORT};
use trials::site;
use trials::trial::{cases, Trial};
use trials::year::Year;

/// The fewest blocks that the run must have read.
const BLOCKS: u64 = 100_000;
/// How often each of the declines 1 to 11 must have been met.
const MET: u64 = 30;

#[test]
fn library_and_model_print_the_same() {
    let mut trial = Trial::new("journals");
    whole_years(&mut trial);
    damaged_years(&mut trial);
    full_years(&mut trial);
    trial.finish();
    assert!(
        trial.tally.read >= BLOCKS,
        "only {} blocks were read",
        trial.tally.read
    );
    for number in 1..=11 {
        let met = trial.tally.declines[number];
        assert!(met >= MET, "decline {number} was met only {met} times");
    }
}

/// Every year is taken, and most substances are due, so that figures show.
fn whole_years(trial: &mut Trial) {
    let (mut due, mut lines) = (0, 0);
    for case in cases(6_000) {
        let blocks = Year::any(&mut trial.rng(1, case)).blocks();
        let answer = trial.expect(blocks.as_flattened(), None, "a year in balance");
        due += answer.text.windows(3).filter(|word| word == b" Y ").count();
        lines += answer.text.iter().filter(|&&byte| byte == b'\n').count() - 1;
    }
    assert!(due * 2 > lines, "only {due} of {lines} substances are due");
}

/// Faults of every kind, in years of every size.
fn damaged_years(trial: &mut Trial) {
    for case in cases(8_000) {
        let mut rng = trial.rng(2, case);
        let year = Year::any(&mut rng);
        for _ in 0..4 {
            trial.give(&damaged(&mut rng, &year));
        }
    }
}

/// Years that end with the 4,000th post or go on behind it.
fn full_years(trial: &mut Trial) {
    for case in cases(15) {
        let mut rng = trial.rng(3, case);
        let site = site::any(&mut rng);
        let year = Year::open(&mut rng, site, ONE_SHORT);
        for _ in 0..20 {
            let mut blocks = year.blocks();
            blocks.push(posts_block(
                blocks.len() as u16,
                &last_posts(&mut rng, &year),
            ));
            if rng.once_in(4) {
                blocks.push(posts_block(
                    blocks.len() as u16,
                    &[any_last(&mut rng, &year)],
                ));
            }
            trial.give_blocks(&blocks);
        }
    }
}
