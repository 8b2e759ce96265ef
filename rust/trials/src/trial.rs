//! Gives journals to the library and to the model, counts them, and stops at the first difference.

use std::env;
use std::fmt::Debug;
use std::io::{self, Write};
use std::ops::Range;
use std::path::PathBuf;

use blocks::{Block, BLOCK};
use prtr::Refused;

use crate::case;
use crate::rng::Rng;

/// The seed where `PRTR_SEED` has none.
const SEED: u64 = 20_260_401;
/// What the lent bytes hold before a call.
const FILL: u8 = 0xa5;
/// The bytes lent beyond the room that is asked for.
const SPARE: usize = 40;

/// What was given and how it was answered.
#[derive(Clone, Debug, Default)]
pub struct Tally {
    /// Journals given.
    pub journals: u64,
    /// Blocks in them, a short last part being one.
    pub given: u64,
    /// Blocks up to the first that was refused, which is as far as a journal is read.
    pub read: u64,
    /// Journals that print a return.
    pub filed: u64,
    /// Journals refused by each number.
    pub declines: [u64; 13],
}

/// How a journal was answered by both.
pub struct Answer {
    /// The whole text.
    pub text: Vec<u8>,
    /// The refused block's place and the decline's number.
    pub refused: Option<(u64, u8)>,
}

/// A row of comparisons under one name and seed.
pub struct Trial {
    name: &'static str,
    seed: u64,
    /// The part and case whose numbers were asked for last.
    place: (u64, u64),
    /// Comparisons so far.
    compared: u64,
    /// The counts so far.
    pub tally: Tally,
}

impl Trial {
    /// Says the name and the seed.
    pub fn new(name: &'static str) -> Trial {
        let seed = setting("PRTR_SEED").unwrap_or(SEED);
        say(&format!(
            "{name}: PRTR_SEED={seed} PRTR_CASES={}",
            multiplier()
        ));
        Trial {
            name,
            seed,
            place: (0, 0),
            compared: 0,
            tally: Tally::default(),
        }
    }

    /// The numbers for a case of a part, which depend on nothing before it.
    pub fn rng(&mut self, part: u64, case: u64) -> Rng {
        self.place = (part, case);
        let base = Rng::new(self.seed ^ part << 48).word();
        Rng::new(base.wrapping_add(case.wrapping_mul(0xd134_2543_de82_ef95)))
    }

    /// Which comparison of the trial this is, and what makes it again.
    fn heading(&self) -> String {
        format!(
            "{}: PRTR_SEED={} PRTR_CASES={}, part {}, case {}, comparison {}",
            self.name,
            self.seed,
            multiplier(),
            self.place.0,
            self.place.1,
            self.compared
        )
    }

    /// Writes a case down with what is said of it, and gives its path.
    fn write(&self, input: &[u8], said: &str) -> PathBuf {
        case::write(self.name, input, &format!("{}\n{said}\n", self.heading()))
    }

    /// Stops, with the case in a file.
    pub fn fail(&self, input: &[u8], said: &str) -> ! {
        let path = self.write(input, said);
        panic!("{}\n{said}\nsee {}", self.heading(), path.display());
    }

    /// Where two texts differ, the path of a file with the input; what both said is beside it.
    pub fn differ(&self, input: &[u8], library: &[u8], model: &[u8]) -> Option<PathBuf> {
        (library != model).then(|| self.write(input, &case::both(library, model)))
    }

    /// Stops where two texts differ.
    pub fn agree(&mut self, input: &[u8], library: &[u8], model: &[u8]) {
        self.compared += 1;
        if let Some(path) = self.differ(input, library, model) {
            let heading = self.heading();
            panic!(
                "{heading}: library and model differ, see {}",
                path.display()
            );
        }
    }

    /// Stops where both don't give the same answer to a call, with the call in a file.
    pub fn same<A: PartialEq + Debug>(
        &mut self,
        call: impl Fn() -> String,
        library: impl FnOnce() -> A,
        model: impl FnOnce() -> A,
    ) {
        self.compared += 1;
        let (library, model) = (case::caught(library), case::caught(model));
        if library.is_err() || library != model {
            let said = format!("{}\nlibrary: {library:?}\nmodel: {model:?}", call());
            self.fail(call().as_bytes(), &said);
        }
    }

    /// Gives a journal to both; stops where they differ.
    pub fn give(&mut self, journal: &[u8]) -> Answer {
        let model = case::text("model", || model::filing(journal));
        let library = case::text("library", || text_of(journal));
        self.agree(journal, &library, &model);
        let safe = case::text("prtr::filing", || safe_text(journal));
        self.agree(journal, &safe, &model);
        self.count(journal, &library)
    }

    /// Gives a journal that must be refused so, or not at all.
    pub fn expect(&mut self, journal: &[u8], refused: Option<(u64, u8)>, what: &str) -> Answer {
        let answer = self.give(journal);
        if answer.refused != refused {
            let said = format!("{what}: {refused:?} was expected, not {:?}", answer.refused);
            self.fail(journal, &said);
        }
        answer
    }

    /// Gives whole blocks.
    pub fn give_blocks(&mut self, blocks: &[Block]) -> Answer {
        self.give(blocks.as_flattened())
    }

    fn count(&mut self, journal: &[u8], text: &[u8]) -> Answer {
        let refused = refusal(text);
        let given = journal.len().div_ceil(BLOCK) as u64;
        self.tally.journals += 1;
        self.tally.given += given;
        match refused {
            Some((place, number)) => {
                self.tally.read += place + 1;
                self.tally.declines[number as usize] += 1;
            }
            None => {
                self.tally.read += given;
                self.tally.filed += 1;
            }
        }
        Answer {
            text: text.to_vec(),
            refused,
        }
    }

    /// Says the counts.
    pub fn finish(&self) {
        let Tally {
            journals,
            given,
            read,
            filed,
            declines,
        } = &self.tally;
        say(&format!(
            "{}: {journals} journals, {given} blocks given and {read} read, {filed} filed; declined{}",
            self.name,
            self::declines(declines)
        ));
    }
}

/// Each number that was met and how often.
pub fn declines(counts: &[u64]) -> String {
    let met = (1..).zip(&counts[1..]).filter(|(_, &count)| count > 0);
    met.map(|(number, count): (u8, _)| format!(" {number}:{count}"))
        .collect()
}

/// Prints past the test harness, which keeps what a passing test prints to itself.
pub fn say(line: &str) {
    writeln!(io::stderr(), "{line}").expect("standard error takes a line");
}

/// How many times the usual cases are wanted.
fn multiplier() -> u64 {
    setting("PRTR_CASES").unwrap_or(1)
}

fn setting(name: &str) -> Option<u64> {
    let text = env::var(name).ok()?;
    Some(
        text.trim()
            .parse()
            .unwrap_or_else(|_| panic!("{name} is no whole number: {text}")),
    )
}

/// The cases of a part: the usual count times `PRTR_CASES`.
pub fn cases(usual: u64) -> Range<u64> {
    0..usual * multiplier()
}

/// What the library writes; panics where it writes something else too.
pub fn text_of(journal: &[u8]) -> Vec<u8> {
    let mut out = [FILL; prtr::ROOM + SPARE];
    let length = prtr::raw::filing(journal, &mut out);
    assert!((1..=prtr::ROOM).contains(&length), "a length of {length}");
    let behind = &out[length..];
    assert!(
        behind.iter().all(|&byte| byte == FILL),
        "bytes altered behind the {length} of the text"
    );
    out[..length].to_vec()
}

/// What the safe function answers, as the text that it stands for.
pub fn safe_text(journal: &[u8]) -> Vec<u8> {
    let text = prtr::filing(journal).unwrap_or_else(|Refused { block, decline }| {
        format!("refused {block} {}\n", decline.number())
    });
    text.into_bytes()
}

/// The place and number of a line `refused PLACE NUMBER`.
fn refusal(text: &[u8]) -> Option<(u64, u8)> {
    let text = std::str::from_utf8(text).ok()?;
    let mut words = text.strip_prefix("refused ")?.split_whitespace();
    Some((words.next()?.parse().ok()?, words.next()?.parse().ok()?))
}
