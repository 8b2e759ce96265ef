//! Journals given to the program `filing` and to the model: what it prints, to the byte.

use std::path::PathBuf;

use blocks::{posts_block, Block, Post, BLOCK};
use trials::case;
use trials::damage::damaged;
use trials::program;
use trials::rng::Rng;
use trials::site;
use trials::trial::{cases, say, Trial};
use trials::year::Year;

/// The fewest journals that the run must have given.
const JOURNALS: u64 = 1_000;
/// The fewest of them that were not refused.
const FILED: u64 = 200;
/// The blocks of journals that are cut behind a block.
const LENGTHS: [usize; 9] = [0, 1, 2, 3, 4, 5, 7, 8, 13];
/// The most posts of a book.
const MOST: usize = 4_000;

/// The program beside the model.
struct Runs {
    program: PathBuf,
    trial: Trial,
    journals: u64,
    refused: u64,
}

impl Runs {
    fn new() -> Runs {
        Runs {
            program: program::built("filing"),
            trial: Trial::new("filing"),
            journals: 0,
            refused: 0,
        }
    }

    /// Gives a journal through a pipe, in parts of so many bytes.
    fn give_in(&mut self, size: usize, journal: &[u8]) {
        let library = case::text("filing", || {
            program::text(program::fed(&self.program, journal, size).expect("the program runs"))
        });
        let model = model::filing(journal);
        self.trial.agree(journal, &library, &model);
        self.journals += 1;
        self.refused += u64::from(model.starts_with(b"refused"));
    }

    fn give(&mut self, journal: &[u8]) {
        self.give_in(usize::MAX, journal);
    }

    fn give_blocks(&mut self, blocks: &[Block]) {
        self.give(blocks.as_flattened());
    }
}

#[test]
fn program_and_model_print_the_same() {
    let mut runs = Runs::new();
    years(&mut runs);
    lengths(&mut runs);
    tails(&mut runs);
    pipes(&mut runs);
    full_years(&mut runs);
    let Runs {
        journals, refused, ..
    } = runs;
    say(&format!("filing: {journals} journals, {refused} refused"));
    assert!(journals >= JOURNALS, "only {journals} journals were given");
    let filed = journals - refused;
    assert!(filed >= FILED, "only {filed} journals were filed");
}

/// Whole years, damaged ones, and ones cut anywhere.
fn years(runs: &mut Runs) {
    for case in cases(150) {
        let mut rng = runs.trial.rng(1, case);
        let year = Year::any(&mut rng);
        let blocks = year.blocks();
        let bytes = blocks.as_flattened();
        runs.give(bytes);
        runs.give(&damaged(&mut rng, &year));
        runs.give(&bytes[..rng.place(bytes.len())]);
    }
}

/// A year of at least so many blocks.
fn long_year(rng: &mut Rng, blocks: usize) -> Vec<Block> {
    loop {
        let year = Year::any(rng).blocks();
        if year.len() >= blocks {
            return year;
        }
    }
}

/// Journals of few blocks.
fn lengths(runs: &mut Runs) {
    for case in cases(5) {
        for length in LENGTHS {
            let year = long_year(&mut runs.trial.rng(2, case), length);
            runs.give_blocks(&year[..length]);
        }
    }
}

/// Blocks with a tail of every length behind them, of the next block's bytes or of any.
fn tails(runs: &mut Runs) {
    for tail in 1..BLOCK {
        let mut rng = runs.trial.rng(3, tail as u64);
        let place = rng.place(6);
        let year = long_year(&mut rng, place + 1);
        let mut journal = year[..place].as_flattened().to_vec();
        if rng.once_in(2) {
            journal.extend(&year[place][..tail]);
        } else {
            journal.extend((0..tail).map(|_| rng.word() as u8));
        }
        runs.give(&journal);
    }
}

/// Inputs that come a byte at a time, and in parts a byte shorter or longer than a block.
fn pipes(runs: &mut Runs) {
    for case in cases(8) {
        let mut rng = runs.trial.rng(4, case);
        let year = long_year(&mut rng, 8);
        let bytes = year[..8].as_flattened();
        for size in [1, BLOCK - 1, BLOCK + 1] {
            runs.give_in(size, bytes);
            runs.give_in(size, &bytes[..rng.place(bytes.len())]);
        }
    }
}

/// Years of as many posts as a book takes, ten to a block and one to a block, and more behind them.
fn full_years(runs: &mut Runs) {
    for case in cases(3) {
        let mut rng = runs.trial.rng(5, case);
        let site = site::any(&mut rng);
        let mut year = Year::open(&mut rng, site, MOST);
        let next = year.ledger.entered(&mut rng);
        let found = year.ledger.found(&mut rng);
        for last in [next, found, Post::CLOSE] {
            for size in [10, 1] {
                year.sizes = vec![size; MOST / size];
                let mut blocks = year.blocks();
                runs.give_blocks(&blocks[..blocks.len() - 1]);
                runs.give_blocks(&blocks);
                blocks.push(posts_block(blocks.len() as u16, &[last]));
                runs.give_blocks(&blocks);
                blocks.push(posts_block(blocks.len() as u16, &[next]));
                runs.give_blocks(&blocks);
            }
        }
    }
}
