//! Lists of posts, blocks, reports and stock counts given to the program `replay` and to the model: every answer and
//! every amount.

use std::path::{Path, PathBuf};

use blocks::{journal, plan, record, stock, tens, xylene, Block, Post};
use trials::calls::{Counts, List};
use trials::case;
use trials::ledger::MOST_GRAMS;
use trials::lists::{damaged_journal, full, mixed};
use trials::program;
use trials::rng::Rng;
use trials::taker::{Counted, MOST_COUNTED};
use trials::trial::{cases, declines, say, Trial};

/// The fewest lists and reports that the run must have made.
const LISTS: u64 = 200;
const REPORTS: u64 = 3_000;
/// How often each of the declines must have been met, but for that of a writer's calls.
const MET: u64 = 10;
const OF_WRITER: usize = 13;
/// How often each answer to a stock count must have been met.
const COUNTED: u64 = 300;
/// The answers that calls with a found post must have had as often: taken, and the declines of such a post or of a later
/// one of its block.
const OF_FOUND: [usize; 6] = [0, 5, 6, 7, 10, 11];

/// A list by the numbers of its case.
type Maker = fn(&mut Rng) -> List;

/// How many lists of each sort there are.
const MAKERS: [(u64, Maker); 3] = [(400, mixed), (100, damaged_journal), (12, full)];

/// The program beside the model.
struct Runs {
    program: PathBuf,
    trial: Trial,
}

impl Runs {
    fn new(name: &'static str) -> Runs {
        Runs {
            program: program::built("replay"),
            trial: Trial::new(name),
        }
    }

    /// Gives records for which these lines should be printed.
    fn give(&mut self, records: &[u8], lines: &str) {
        let library = case::text("replay", || printed(&self.program, records));
        self.trial.agree(records, &library, lines.as_bytes());
    }
}

/// What the program prints for a list's records.
fn printed(program: &Path, records: &[u8]) -> Vec<u8> {
    program::text(program::output(program, records).expect("the program runs"))
}

#[test]
fn program_and_model_answer_the_same() {
    let mut runs = Runs::new("replay");
    let mut counts = Counts::default();
    for (part, (usual, make)) in (1..).zip(MAKERS) {
        for case in cases(usual) {
            let list = make(&mut runs.trial.rng(part, case));
            runs.give(&list.records, &list.lines);
            counts += &list.counts;
        }
    }
    enough(&counts);
}

/// Says the counts, and stops where the run was too small.
fn enough(counts: &Counts) {
    let Counts {
        lists,
        posts,
        blocks,
        reports,
        declines: numbers,
        found,
        stock,
    } = counts;
    say(&format!(
        "replay: {lists} lists of {posts} posts, {blocks} blocks and {reports} reports; declined{}",
        declines(numbers)
    ));
    say(&format!(
        "replay: {} calls with found posts taken; declined{}",
        found[0],
        declines(found)
    ));
    say(&format!("replay: stock counts answered{}", answers(stock)));
    assert!(*lists >= LISTS, "only {lists} lists were made");
    assert!(*reports >= REPORTS, "only {reports} reports were made");
    for number in (1..numbers.len()).filter(|&number| number != OF_WRITER) {
        let met = numbers[number];
        assert!(met >= MET, "decline {number} was met only {met} times");
    }
    for number in OF_FOUND {
        let met = found[number];
        assert!(
            met >= MET,
            "found posts were answered by {number} only {met} times"
        );
    }
    for (answer, &met) in Counted::ALL.iter().zip(stock) {
        assert!(
            met >= COUNTED,
            "stock counts were answered {answer:?} only {met} times"
        );
    }
}

/// Each answer to a stock count and how often it was met.
fn answers(stock: &[u64]) -> String {
    let met = Counted::ALL.iter().zip(stock);
    met.map(|(answer, count)| format!(" {answer:?}:{count}"))
        .collect()
}

/// A material, its counted grams, and the line that is printed.
type Line = (u8, u64, &'static str);

/// A worked list, whose stock counts have lines of their own beside the model's.
struct Worked {
    list: List,
    lines: String,
}

impl Worked {
    fn new() -> Worked {
        Worked {
            list: List::new(&Rng::new(0)),
            lines: String::new(),
        }
    }

    /// Blocks that are taken.
    fn blocks(&mut self, blocks: &[Block]) {
        for block in blocks {
            self.list.block(block);
            self.lines += "block 0\n";
        }
    }

    /// A post that is taken.
    fn post(&mut self, bytes: &[u8]) {
        self.list.post(bytes);
        self.lines += "post 0\n";
    }

    fn stock(&mut self, lines: &[Line]) {
        for &(material, counted, line) in lines {
            self.list.stock(material, counted);
            self.lines.extend([line, "\n"]);
        }
    }

    /// Gives the list, whose worked lines should be the program's and the model's.
    fn give(&self, runs: &mut Runs) {
        let List { records, lines, .. } = &self.list;
        runs.give(records, lines);
        let worked = self.lines.as_bytes();
        runs.trial.agree(records, worked, lines.as_bytes());
    }
}

const DECLINED: &str = "stock declined 14";

/// Counts beside the one material of the xylene year, which are always declined.
const BESIDE: [Line; 5] = [
    (0, MOST_COUNTED + 1, DECLINED),
    (0, u64::MAX, DECLINED),
    (1, 0, DECLINED),
    (1, 12, DECLINED),
    (255, 12, DECLINED),
];

/// The xylene year, with counts from the fresh book to the closed one.
fn counted_year() -> Worked {
    let mut year = Worked::new();
    year.stock(&[(0, 0, DECLINED), (0, 12, DECLINED)]);
    year.stock(&BESIDE);
    for block in xylene::site().blocks() {
        year.blocks(&[block]);
        year.stock(&[(0, 0, "stock 0"), (0, 12, "stock +12")]);
        year.stock(&BESIDE);
    }
    let [opened, bought, issued, shipped, close] = xylene::posts();
    year.post(&opened);
    year.stock(&[(0, 500_012, "stock +12"), (0, 499_988, "stock -12")]);
    year.post(&bought);
    year.stock(&[(0, 3_000_000, "stock 0"), (0, 0, "stock -3000000")]);
    year.post(&issued);
    year.stock(&[(0, 300_001, "stock +1"), (0, 299_999, "stock -1")]);
    for post in [shipped, close] {
        year.post(&post);
        year.stock(&[(0, 300_000, "stock 0"), (0, 0, "stock -300000")]);
        year.stock(&BESIDE);
    }
    year
}

#[test]
fn the_xylene_year_is_counted() {
    counted_year().give(&mut Runs::new("counted year"));
}

/// Counts where the last of twelve stores holds all that 4,000 posts can bring, and the others nothing.
const FULL_STORE: [Line; 12] = [
    (11, 0, "stock -8000000000000"),
    (11, 1, "stock -7999999999999"),
    (11, MOST_COUNTED - 1, "stock -1"),
    (11, MOST_COUNTED, "stock 0"),
    (11, MOST_COUNTED + 1, DECLINED),
    (11, u64::MAX, DECLINED),
    (10, 0, "stock 0"),
    (10, MOST_COUNTED, "stock +8000000000000"),
    (0, MOST_COUNTED, "stock +8000000000000"),
    (0, MOST_COUNTED + 1, DECLINED),
    (12, 0, DECLINED),
    (12, MOST_COUNTED, DECLINED),
];

/// "The answer is signed and exact up to 8×10^12 g either way", also once the book is closed.
#[test]
fn a_full_store_is_counted() {
    let first = plan(&[(80, 1)], &[[450_000]; 12], 1);
    let set_up = vec![first, xylene::site().blocks()[1]];
    let posts = [Post::stock(2, 11, MOST_GRAMS).bytes(); 4_000];
    let mut worked = Worked::new();
    worked.blocks(&journal(set_up, &posts, &tens(posts.len())));
    worked.stock(&FULL_STORE);
    worked.post(&Post::CLOSE.bytes());
    worked.stock(&FULL_STORE);
    worked.give(&mut Runs::new("full store"));
}

/// Records of another tag or of another length than their tag has.
fn malformed() -> Vec<Vec<u8>> {
    let lengths: [(u8, &[usize]); 4] = [
        (b'S', &[0, 1, 8, 10, 16, 265, 502, 65_535]),
        (b'R', &[0, 2, 257]),
        (b'E', &[0, 9]),
        (b's', &[9]),
    ];
    let tags = lengths.into_iter();
    let of_tag = |(tag, lengths): (u8, &'static [usize])| {
        lengths.iter().map(move |&length| of_length(tag, length))
    };
    tags.flat_map(of_tag).collect()
}

fn of_length(tag: u8, length: usize) -> Vec<u8> {
    let mut list = Vec::new();
    record(&mut list, tag, &vec![0; length]);
    list
}

/// What is malformed ends the reading: what is behind it isn't answered.
#[test]
fn a_malformed_record_is_the_last() {
    let mut runs = Runs::new("malformed");
    let Worked { list, lines } = counted_year();
    let (records, lines) = (&list.records[..], lines + "malformed\n");
    for bytes in malformed() {
        runs.give(&[records, &bytes, records].concat(), &lines);
    }
    let mut whole = Vec::new();
    record(&mut whole, b'S', &stock(0, 12));
    for left in 1..whole.len() {
        runs.give(&[records, &whole[..left]].concat(), &lines);
    }
}
