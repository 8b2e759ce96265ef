//! "A program, `filing`, reads a journal from standard input and prints the return."

use std::fmt::{self, Write};

use crate::amounts::TEN_KG;
use crate::block::SIZE;
use crate::book::Book;
use crate::report::Report;

const TITLE: &str = "substance handled due air water soil land sewer offsite\n";

/// What `filing` prints for a journal. "At the first decline it stops and prints only one line:
/// `refused`, the block's place from 0 and the number. A last part shorter than 512 bytes is a
/// block that decline 1 meets. Input of no bytes prints the title line."
pub fn filing(journal: &[u8]) -> Vec<u8> {
    let mut book = Book::new();
    for (place, block) in journal.chunks(SIZE).enumerate() {
        if let Err(decline) = book.block(block) {
            return format!("refused {place} {decline}\n").into_bytes();
        }
    }
    let mut out = String::from(TITLE);
    for report in (0..book.substances()).map_while(|place| book.report(place).ok()) {
        print(&mut out, &report).expect("a string takes all");
    }
    out.into_bytes()
}

/// "Per substance in the book's order: number, handled in micrograms, Y or N for due, six figures
/// or `-` each."
fn print(out: &mut String, report: &Report) -> fmt::Result {
    let due = if report.due { 'Y' } else { 'N' };
    write!(out, "{} {} {due}", report.number, report.handled)?;
    match report.figures {
        Some(figures) => figures
            .iter()
            .try_for_each(|figure| print_figure(out, *figure))?,
        None => out.push_str(" - - - - - -"),
    }
    out.write_char('\n')
}

/// "Figures under 10 kg print with one decimal, others whole": the figure is already rounded.
fn print_figure(out: &mut String, figure: u64) -> fmt::Result {
    let kg = figure / 1_000_000_000;
    if figure < TEN_KG {
        write!(out, " {kg}.{}", figure / 100_000_000 % 10)
    } else {
        write!(out, " {kg}")
    }
}
