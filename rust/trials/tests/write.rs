//! Lists of records given to the program `write` and to the model: the journal, the lines of what is refused, and what
//! `filing` makes of the journal.

use std::path::PathBuf;
use std::process::Output;

use blocks::{xylene, BLOCK};
use trials::case;
use trials::fixed;
use trials::program;
use trials::trial::{cases, declines, say, Trial};
use trials::writes::{self, add_end, add_post, add_set_up, MALFORMED};

/// The blocks that the program's buffer holds.
const BLOCKS: usize = 4_096;
/// How often each refusal must have been met.
const MET: u64 = 200;

/// The programs beside the model.
struct Runs {
    write: PathBuf,
    filing: PathBuf,
    trial: Trial,
    /// How often each decline was met.
    met: [u64; 14],
    malformed: u64,
    lists: u64,
}

impl Runs {
    fn new(name: &'static str) -> Runs {
        Runs {
            write: program::built("write"),
            filing: program::built("filing"),
            trial: Trial::new(name),
            met: [0; 14],
            malformed: 0,
            lists: 0,
        }
    }

    /// Gives a list through a pipe, in parts of so many bytes, and the journal to `filing`.
    fn give_in(&mut self, size: usize, list: &[u8]) -> (Vec<u8>, Vec<(usize, u8)>) {
        let (journal, refused) = writes::taken(list, BLOCKS * BLOCK);
        let library = case::text("write", || {
            said(program::fed(&self.write, list, size).expect("the program runs"))
        });
        let model = [writes::lines(&refused).as_bytes(), &journal].concat();
        self.trial.agree(list, &library, &model);
        let filed = case::text("filing", || {
            program::text(program::output(&self.filing, &journal).expect("the program runs"))
        });
        self.trial.agree(&journal, &filed, &model::filing(&journal));
        self.count(&refused);
        (journal, refused)
    }

    fn give(&mut self, list: &[u8]) -> (Vec<u8>, Vec<(usize, u8)>) {
        self.give_in(usize::MAX, list)
    }

    fn count(&mut self, refused: &[(usize, u8)]) {
        self.lists += 1;
        for &(_, status) in refused {
            match status {
                MALFORMED => self.malformed += 1,
                number => self.met[usize::from(number)] += 1,
            }
        }
    }
}

/// The lines on standard error, then the journal; a program that can read and write all ends well.
fn said(out: Output) -> Vec<u8> {
    assert!(out.status.success(), "ended with {}", out.status);
    [out.stderr, out.stdout].concat()
}

#[test]
fn program_and_model_write_the_same() {
    let mut runs = Runs::new("write");
    for case in cases(400) {
        let mut rng = runs.trial.rng(1, case);
        let faults = rng.pick(&[0, 200, 30, 8, 2]);
        runs.give(&writes::any(&mut rng, faults));
    }
    for case in cases(250) {
        let list = writes::malformed(&mut runs.trial.rng(2, case));
        runs.give(&list);
    }
    let Runs {
        lists,
        met,
        malformed,
        ..
    } = &runs;
    say(&format!(
        "write: {lists} lists, {malformed} malformed; declined{}",
        declines(met)
    ));
    for number in [4, 6, 7] {
        let met = met[number];
        assert!(met >= MET, "decline {number} was met only {met} times");
    }
    assert!(
        *malformed >= MET / 2,
        "only {malformed} lists were malformed"
    );
}

/// Inputs that come a byte at a time, and in parts that fall anywhere in a record.
#[test]
fn pipes() {
    let mut runs = Runs::new("write, pipes");
    let year = fixed::xylene_year().list;
    for size in [1, 2, 3, 50, 505, 511, 512, 513] {
        runs.give_in(size, &year);
        let mut rng = runs.trial.rng(1, size as u64);
        let list = writes::any(&mut rng, 10);
        runs.give_in(size, &list[..list.len().min(5_000)]);
    }
}

#[test]
fn worked_lists() {
    let mut runs = Runs::new("write, worked lists");
    for fixed in fixed::all() {
        let (journal, refused) = runs.give(&fixed.list);
        assert_eq!(refused, fixed.refused, "{}", fixed.name);
        assert_eq!(journal, fixed.journal.as_flattened(), "{}", fixed.name);
    }
}

/// The xylene year through `write` into `filing` prints document 01's two lines.
#[test]
fn the_xylene_year() {
    let [write, filing] = ["write", "filing"].map(program::built);
    let through = |program, input: &[u8]| {
        program::text(program::output(program, input).expect("the program runs"))
    };
    let journal = through(&write, &fixed::xylene_year().list);
    let text = through(&filing, &journal);
    assert_eq!(String::from_utf8_lossy(&text), xylene::PRINTED);
}

/// 13 comes with the 4,097th block, at each post that would begin it; the last block is filled as any other.
#[test]
fn the_buffer_is_full() {
    let mut runs = Runs::new("write, full");
    let post = xylene::posts()[0];
    let mut list = Vec::new();
    for block in xylene::site().blocks() {
        add_set_up(&mut list, &block);
    }
    for _ in 3..BLOCKS {
        add_post(&mut list, &post);
        add_end(&mut list);
    }
    let first = 2 + 2 * (BLOCKS - 3);
    let (journal, refused) = runs.give(&list);
    assert_eq!((journal.len(), refused), ((BLOCKS - 1) * BLOCK, vec![]));
    (0..12).for_each(|_| add_post(&mut list, &post));
    add_set_up(&mut list, &xylene::site().blocks()[0]);
    add_post(&mut list, &post[1..]);
    add_end(&mut list);
    let (journal, refused) = runs.give(&list);
    let wanted = [(10, 13), (11, 13), (12, 4), (13, 6)];
    assert_eq!(journal.len(), BLOCKS * BLOCK);
    assert_eq!(
        refused,
        wanted.map(|(behind, status)| (first + behind, status))
    );
}
