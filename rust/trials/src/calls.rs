//! A list of calls as the program `replay` takes it, and the model's line for each.

use std::fmt::Write;
use std::ops::AddAssign;

use blocks::{record, stock, BLOCK, BODY, POST};
use model::{Book, Report};

use crate::case::caught;
use crate::rng::Rng;
use crate::taker::{Counted, Taker};

/// The numbers from 0, which is no decline, to 14.
const NUMBERS: usize = 15;

/// How many calls of each kind were made, and how they were declined.
#[derive(Clone, Debug, Default)]
pub struct Counts {
    /// Lists.
    pub lists: u64,
    /// Single posts.
    pub posts: u64,
    /// Blocks.
    pub blocks: u64,
    /// Reports.
    pub reports: u64,
    /// Calls declined by each number.
    pub declines: [u64; NUMBERS],
    /// The same of calls with a found post in them, those that were taken at 0.
    pub found: [u64; NUMBERS],
    /// Stock counts by their answers, as `Counted` numbers them.
    pub stock: [u64; Counted::ALL.len()],
}

impl AddAssign<&Counts> for Counts {
    fn add_assign(&mut self, other: &Counts) {
        self.lists += other.lists;
        self.posts += other.posts;
        self.blocks += other.blocks;
        self.reports += other.reports;
        add(&mut self.declines, &other.declines);
        add(&mut self.found, &other.found);
        add(&mut self.stock, &other.stock);
    }
}

/// Adds each count to the one at its place.
fn add(counts: &mut [u64], more: &[u64]) {
    for (count, more) in counts.iter_mut().zip(more) {
        *count += more;
    }
}

/// A list of calls, each on the book that the one before it left.
pub struct List {
    /// For each call a tag, a length of 16 bits and that many bytes.
    pub records: Vec<u8>,
    /// What the program should print.
    pub lines: String,
    /// The calls so far.
    pub counts: Counts,
    book: Book,
    taker: Taker,
}

impl List {
    /// No call yet; those to come are drawn from `rng`, and the stock counts beside it.
    pub fn new(rng: &Rng) -> List {
        List {
            records: Vec::new(),
            lines: String::new(),
            counts: Counts {
                lists: 1,
                ..Counts::default()
            },
            book: Book::new(),
            taker: Taker::beside(rng),
        }
    }

    /// The number of the next block.
    pub fn next_number(&self) -> u16 {
        self.book.blocks()
    }

    /// A single post.
    pub fn post(&mut self, bytes: &[u8]) {
        self.counts.posts += 1;
        let ask = |book: &mut Book| book.post(bytes).map(|()| "0".into());
        let number = self.call(b'P', bytes, ["post"; 2], ask);
        self.count_found(is_found(bytes), number);
    }

    /// A block.
    pub fn block(&mut self, bytes: &[u8]) {
        self.counts.blocks += 1;
        let ask = |book: &mut Book| book.block(bytes).map(|()| "0".into());
        let number = self.call(b'B', bytes, ["block"; 2], ask);
        self.count_found(has_found(bytes), number);
    }

    /// A report of the substance at a place.
    pub fn report(&mut self, place: u8) {
        self.counts.reports += 1;
        let ask = |book: &mut Book| book.report(place.into()).map(|report| fields(&report));
        let name = format!("report {place}");
        self.call(b'R', &[place], [&name; 2], ask);
    }

    /// A report of each substance, and of the place behind the last.
    pub fn reports(&mut self) {
        (0..=self.book.substances() as u8).for_each(|place| self.report(place));
    }

    /// A stock count of the material at a place.
    pub fn stock(&mut self, material: u8, counted: u64) {
        let mut difference = 0;
        let ask = |book: &mut Book| {
            difference = book.stock(material.into(), counted)?;
            Ok(signed(difference))
        };
        let names = ["stock", "stock declined"];
        self.call(b'S', &stock(material, counted), names, ask);
        let has = usize::from(material) < self.book.materials();
        self.counts.stock[Counted::of(has, counted, difference) as usize] += 1;
    }

    /// Perhaps some stock counts.
    pub fn perhaps_stock(&mut self) {
        for _ in 0..self.taker.often() {
            let (material, counted) = self.taker.any(&self.book);
            self.stock(material, counted);
        }
    }

    /// A stock count of each material, and of the place behind the last.
    pub fn sheet(&mut self) {
        for material in 0..=self.book.materials() as u8 {
            let counted = self.taker.grams(&self.book, material);
            self.stock(material, counted);
        }
    }

    /// Makes a call, and gives the decline's number or 0; the names begin the line of an answer and of a decline.
    fn call(
        &mut self,
        tag: u8,
        bytes: &[u8],
        [name, declined]: [&str; 2],
        ask: impl FnOnce(&mut Book) -> Result<String, u8>,
    ) -> usize {
        record(&mut self.records, tag, bytes);
        let (line, number) = match caught(|| ask(&mut self.book)) {
            Ok(Ok(fields)) => (format!("{name} {fields}"), 0),
            Ok(Err(number)) => (format!("{declined} {number}"), usize::from(number)),
            Err(words) => (format!("{name}: the model panicked: {words}"), 0),
        };
        self.counts.declines[number] += u64::from(number > 0);
        writeln!(self.lines, "{line}").expect("a string takes all");
        number
    }

    fn count_found(&mut self, found: bool, number: usize) {
        self.counts.found[number] += u64::from(found);
    }
}

/// Whether a post is of kind 14.
fn is_found(post: &[u8]) -> bool {
    post.first() == Some(&14)
}

/// Whether one of a block's posts is.
fn has_found(block: &[u8]) -> bool {
    block.len() == BLOCK && block[4] == 3 && block[BODY..].chunks_exact(POST).any(is_found)
}

/// A difference with its sign, which nought hasn't.
fn signed(difference: i64) -> String {
    match difference {
        0 => "0".into(),
        _ => format!("{difference:+}"),
    }
}

/// A report's fields in the program's order, the amounts in micrograms.
fn fields(report: &Report) -> String {
    let due = if report.due { 'Y' } else { 'N' };
    let mut line = format!(
        "{} {} {} {due}",
        report.posts, report.number, report.handled
    );
    let amounts = [
        report.store,
        report.held,
        report.shipped,
        report.consumed,
        report.destroyed,
    ];
    let figures = report.figures.into_iter().flatten();
    for amount in amounts.into_iter().chain(report.headings).chain(figures) {
        write!(line, " {amount}").expect("a string takes all");
    }
    if report.figures.is_none() {
        line.push_str(" - - - - - -");
    }
    line
}
