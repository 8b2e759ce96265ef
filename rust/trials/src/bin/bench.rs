//! The time of the proved library over that of the model, and the memory that the program `filing` takes.
//!
//! Both are timed in turn in every round, and a round's time is compared with the same round's. The lent bytes are
//! not cleared between calls. Run it with `cargo run --release -p trials --bin bench`.

use std::fs;
use std::hint::black_box;
use std::io::Write;
use std::path::Path;
use std::process::{Child, Command, Stdio};
use std::thread::sleep;
use std::time::{Duration, Instant};

use blocks::{tens, Block, Post, BLOCK};
use prtr::Class;
use trials::floats::{within, RANGES};
use trials::mixtures::Mixture;
use trials::program;
use trials::rng::Rng;
use trials::site::{self, ROWS, WHOLE};
use trials::writes;
use trials::year::Year;

/// The rounds whose median counts.
const ROUNDS: usize = 25;
/// The inputs of each calculation.
const INPUTS: usize = 100_000;
/// The plants of the larger measurement.
const PLANTS: u64 = 11;

/// A year of 4,000 posts, ten to a block, and the close in a block of its own.
fn full_year(seed: u64) -> Vec<Block> {
    let mut rng = Rng::new(seed);
    let site = site::sized(&mut rng, 8, 12, 8);
    let mut year = Year::open(&mut rng, site, 4_000);
    year.posts.push(Post::CLOSE);
    year.sizes = tens(4_000);
    year.sizes.push(1);
    year.blocks()
}

fn seconds(work: &mut impl FnMut()) -> f64 {
    let start = Instant::now();
    work();
    start.elapsed().as_secs_f64()
}

fn median(mut row: Vec<f64>) -> f64 {
    row.sort_by(f64::total_cmp);
    row[row.len() / 2]
}

/// Prints the median times of both, for one of `items`, and the median of the rounds' ratios.
fn compare(name: &str, items: usize, mut library: impl FnMut(), mut model: impl FnMut()) {
    library();
    model();
    let mut rounds = Vec::new();
    for round in 0..ROUNDS {
        // Each goes first in every other round, so that neither always finds the other's caches.
        let first = (round % 2 == 0).then(|| seconds(&mut library));
        let model = seconds(&mut model);
        rounds.push((first.unwrap_or_else(|| seconds(&mut library)), model));
    }
    let each = 1e9 / items as f64;
    let library = median(rounds.iter().map(|round| round.0).collect()) * each;
    let model = median(rounds.iter().map(|round| round.1).collect()) * each;
    let ratio = median(rounds.iter().map(|round| round.0 / round.1).collect());
    println!("{name:<32} {library:>12.1} {model:>12.1} {ratio:>8.2}");
}

fn bench_journals(name: &str, journals: &[Vec<Block>]) {
    let mut out = [0; prtr::ROOM];
    let library = || {
        for journal in journals {
            black_box(prtr::filing_into(
                black_box(journal.as_flattened()),
                &mut out,
            ));
        }
    };
    let model = || {
        for journal in journals {
            black_box(model::filing(black_box(journal.as_flattened())));
        }
    };
    compare(name, journals.len(), library, model);
}

/// Times the writing of the journals' records, each into a buffer of its journal's length.
fn bench_writes(name: &str, journals: &[Vec<Block>]) {
    let lists: Vec<(Vec<u8>, usize)> = journals
        .iter()
        .map(|journal| (writes::of_journal(journal), journal.as_flattened().len()))
        .collect();
    let most = lists.iter().map(|list| list.1).max().unwrap_or(0);
    let mut out = vec![0; most];
    let library = || {
        for (list, room) in &lists {
            let written = prtr::write_into(black_box(list), &mut out[..*room]);
            black_box(written.expect("a year's records are taken"));
        }
    };
    let model = || {
        for (list, room) in &lists {
            let written = writes::whole(black_box(list), *room);
            black_box(written.expect("a year's records are taken"));
        }
    };
    compare(name, journals.len(), library, model);
}

/// Times a calculation of both over the same inputs, each by a pointer: the model could else be
/// inlined, which the library can't.
fn bench_leaf<I: Copy, A, B>(name: &str, inputs: &[I], library: fn(I) -> A, model: fn(I) -> B) {
    let (library, model) = (black_box(library), black_box(model));
    let library = || {
        for &input in inputs {
            black_box(library(black_box(input)));
        }
    };
    let model = || {
        for &input in inputs {
            black_box(model(black_box(input)));
        }
    };
    compare(name, inputs.len(), library, model);
}

fn inputs<I>(mut input: impl FnMut() -> I) -> Vec<I> {
    (0..INPUTS).map(|_| input()).collect()
}

/// A class as the library takes it and as the model does.
fn any_class(rng: &mut Rng) -> (Class, u8) {
    let class = rng.pick(&[Class::One, Class::Two]);
    (class, class.into())
}

/// A form, a management number and four floats in their ranges.
fn loss_input(rng: &mut Rng, form: u8) -> (u8, u16, [u64; 4]) {
    let floats = RANGES[form as usize - 1].map(|range| within(rng, range).to_bits());
    (form, rng.pick(&ROWS), floats)
}

fn bench_leaves() {
    let mut rng = Rng::new(1);
    let contents = inputs(|| (any_class(&mut rng), rng.below(WHOLE as u64 + 1) as u32));
    bench_leaf(
        "counted",
        &contents,
        |((class, _), ppm)| prtr::counted(class, ppm),
        |((_, number), ppm)| model::counted(number, ppm),
    );
    let mut rate = Rng::new(2);
    let totals = inputs(|| {
        let [removal, destruction] = [(); 2].map(|()| rate.below(WHOLE as u64 + 1) as u32);
        (rate.size(u64::MAX), removal, destruction)
    });
    bench_leaf(
        "split",
        &totals,
        |(t, r, d)| prtr::split(t, r, d),
        |(t, r, d)| model::split(t, r, d),
    );
    let amounts = inputs(|| rng.size(u64::MAX));
    bench_leaf("case", &amounts, prtr::case, model::case);
    bench_leaf("step", &amounts, prtr::step, model::step);
    bench_leaf("figure", &amounts, prtr::figure, model::figure);
    let handled = inputs(|| (any_class(&mut rng), rng.size(u64::MAX)));
    bench_leaf(
        "due",
        &handled,
        |((class, _), h)| prtr::due(class, h),
        |((_, number), h)| model::due(number, h),
    );
}

fn bench_losses() {
    let mut rng = Rng::new(3);
    for form in 1..=3 {
        let losses = inputs(|| loss_input(&mut rng, form));
        bench_leaf(
            &format!("loss, form {form}"),
            &losses,
            |(form, number, [w, u, p, q])| prtr::loss_bits(form, number, w, u, p, q),
            |(form, number, [w, u, p, q])| model::loss(form, number, w, u, p, q),
        );
    }
}

fn bench_pressures() {
    let mut rng = Rng::new(4);
    let mixtures = inputs(|| Mixture::within(&mut rng));
    let mixtures: Vec<&Mixture> = mixtures.iter().collect();
    bench_leaf(
        "partial pressure",
        &mixtures,
        |m| {
            let mut cell = 0;
            let status =
                prtr::raw::pressure(&m.contents, &m.weights, m.named, m.pressure, &mut cell);
            (status, cell)
        },
        |m| model::pressure(&m.contents, &m.weights, m.named, m.pressure),
    );
}

/// A line of /proc/PID/status, behind its name.
fn status(child: &Child, name: &str) -> Option<String> {
    let text = fs::read_to_string(format!("/proc/{}/status", child.id())).ok()?;
    Some(
        text.lines()
            .find_map(|line| line.strip_prefix(name))?
            .trim()
            .to_string(),
    )
}

/// The most kB that the program has had in memory so far.
fn peak(child: &Child) -> Option<u64> {
    status(child, "VmHWM:")?
        .split_whitespace()
        .next()?
        .parse()
        .ok()
}

/// Waits until the program sleeps over an empty pipe, or has ended.
fn settle(child: &Child) {
    for _ in 0..200 {
        sleep(Duration::from_millis(5));
        match status(child, "State:") {
            Some(state) if state.starts_with(['R', 'D']) => {}
            _ => return,
        }
    }
}

/// Feeds a journal and gives the peak, asked after every part, as the program may end before the last.
fn peak_of(program: &Path, journal: &[u8]) -> Option<u64> {
    let mut command = Command::new(program);
    let mut child = command
        .stdin(Stdio::piped())
        .stdout(Stdio::null())
        .spawn()
        .ok()?;
    let mut stdin = child.stdin.take()?;
    let mut most = None;
    for part in journal.chunks(64 * BLOCK) {
        if stdin.write_all(part).is_err() {
            break;
        }
        most = most.max(peak(&child));
    }
    settle(&child);
    most = most.max(peak(&child));
    drop(stdin);
    child.wait().ok()?;
    most
}

/// The least and the most of the peaks over some journals; none where one can't be measured.
fn peaks(program: &Path, journals: &[&[u8]]) -> Option<(u64, u64)> {
    let peaks: Option<Vec<u64>> = journals
        .iter()
        .map(|journal| peak_of(program, journal))
        .collect();
    let peaks = peaks?;
    Some((*peaks.iter().min()?, *peaks.iter().max()?))
}

fn bench_memory(years: &[Vec<Block>]) {
    let program = program::path("filing");
    if !program.is_file() {
        let program = program.display();
        println!("\nmemory: there is no program {program}; `rt run`, in crates/filing, builds it");
        return;
    }
    println!("\nmemory of the program filing, most kB before its input ends");
    println!("{:<32} {:>12} {:>12}", "", "least peak", "most peak");
    let years: Vec<&[u8]> = years.iter().map(|year| year.as_flattened()).collect();
    let rows = [
        ("no bytes", &[&[][..]][..]),
        ("11 plants' years, each", &years),
    ];
    for (name, journals) in rows {
        match peaks(&program, journals) {
            Some((least, most)) => println!("{name:<32} {least:>12} {most:>12}"),
            None => println!("{name:<32} not measured"),
        }
    }
}

fn main() {
    let years: Vec<Vec<Block>> = (1..=PLANTS).map(full_year).collect();
    for year in &years {
        let journal = year.as_flattened();
        let text = prtr::filing(journal).expect("a year in balance is taken");
        assert_eq!(
            text.as_bytes(),
            model::filing(journal),
            "both print the same"
        );
        let list = writes::of_journal(year);
        let mut written = vec![0; journal.len()];
        assert_eq!(prtr::write_into(&list, &mut written), Ok(journal.len()));
        assert_eq!(written, journal, "a year is written as it was");
    }
    println!(
        "{:<32} {:>12} {:>12} {:>8}",
        "ns each, medians", "library", "model", "ratio"
    );
    bench_journals("a year of 4,000 posts", &years[..1]);
    bench_journals("11 plants' years, each", &years);
    bench_writes("a year of 4,000 posts written", &years[..1]);
    bench_writes("11 plants' years written, each", &years);
    bench_leaves();
    bench_losses();
    bench_pressures();
    bench_memory(&years);
}
