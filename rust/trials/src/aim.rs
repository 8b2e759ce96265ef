//! Posts that bring a substance to the edge of being due, and its headings to the edge of a figure.
//!
//! A text shows two digits of a heading, so that a microgram too many shows only at such an edge.

use blocks::{Holding, Post, Site};

use crate::case::caught;
use crate::ledger::{exactly, MOST_MICROGRAMS};
use crate::rng::Rng;
use crate::year::Year;

/// What is due from this many micrograms, in classes 1 and 2.
const DUE: [u64; 2] = [1_000_000_000_000, 500_000_000_000];
/// The least amount that prints as 10.
const TEN: u64 = 9_950_000_000;
/// The heading's place.
const OFF_SITE: usize = 5;
/// The kind of a found post.
const FOUND: u8 = 14;

/// Adds such posts for some substances and headings; `close` says whether a close will follow.
pub fn aim(rng: &mut Rng, year: &mut Year, close: bool) {
    aim_at_due(rng, year, close);
    aim_at_figures(rng, year, close);
}

fn aim_at_due(rng: &mut Rng, year: &mut Year, close: bool) {
    for (substance, report) in (0u8..).zip(reports(year, close)) {
        let due = DUE[year.site.classes[substance as usize] as usize - 1];
        let missing = due.saturating_sub(report.handled);
        let quantity = match rng.below(4) {
            0 => missing.saturating_sub(1),
            1 => missing,
            2 => missing + rng.size(due),
            _ => 0,
        };
        let (stage, _) = year.ledger.any_holding(rng);
        let holding = (stage, substance);
        if rng.once_in(2) {
            add_all(year, exactly(FOUND, holding, quantity));
        } else if quantity > 0 {
            year.add(Post::formed(holding, quantity));
        }
    }
}

fn aim_at_figures(rng: &mut Rng, year: &mut Year, close: bool) {
    for (substance, report) in (0u8..).zip(reports(year, close)) {
        for (heading, amount) in report.headings.into_iter().enumerate() {
            if report.due && !rng.once_in(3) {
                raise(rng, year, heading, substance, amount);
            }
        }
    }
}

/// What the model reports of each substance after these posts and perhaps a close.
fn asked(site: &Site, posts: &[Post], close: bool) -> Result<Vec<model::Report>, u8> {
    let mut book = model::Book::new();
    for block in site.blocks() {
        book.block(&block)?;
    }
    for post in posts.iter().chain(close.then_some(&Post::CLOSE)) {
        book.post(&post.bytes())?;
    }
    (0..book.substances())
        .map(|place| book.report(place))
        .collect()
}

/// The model's reports; none where it doesn't take the year, which the comparison then shows.
fn reports(year: &Year, close: bool) -> Vec<model::Report> {
    let asked = caught(|| asked(&year.site, &year.posts, close));
    asked.map_or_else(|_| Vec::new(), Result::unwrap_or_default)
}

/// Forms what is missing to an edge and lets it leave under the heading, or finds it there, so that no holding changes.
fn raise(rng: &mut Rng, year: &mut Year, heading: usize, substance: u8, amount: u64) {
    let quantity = missing(rng, amount);
    let Some(stage) = stage_for(rng, &year.site, heading, substance) else {
        return;
    };
    let holding = (stage, substance);
    if !(1..=MOST_MICROGRAMS).contains(&quantity) {
        return;
    }
    if heading == OFF_SITE && rng.once_in(2) {
        return add_all(year, exactly(FOUND, holding, quantity));
    }
    let leaving = match heading {
        0 => vapour(year.site.numbers[substance as usize], holding, quantity),
        1 | 4 => exactly(11, holding, quantity),
        2 => exactly(8, holding, quantity),
        3 => exactly(7, holding, quantity),
        _ => exactly(6, holding, quantity),
    };
    if leaving.is_empty() {
        return;
    }
    year.add(Post::formed(holding, quantity));
    add_all(year, leaving);
}

fn add_all(year: &mut Year, posts: Vec<Post>) {
    posts.into_iter().for_each(|post| year.add(post));
}

/// From an amount to the next half step, or to a microgram below it.
fn missing(rng: &mut Rng, amount: u64) -> u64 {
    let step = model::step(amount);
    let half = amount / step * step + step / 2;
    let edge = if half < amount { half + step } else { half };
    let edge = if amount < TEN && rng.once_in(6) {
        TEN
    } else {
        edge
    };
    (edge - amount).saturating_sub(rng.below(2))
}

/// A stage by which what leaves goes under the heading whole.
fn stage_for(rng: &mut Rng, site: &Site, heading: usize, substance: u8) -> Option<u8> {
    let untreated = |water: u8| {
        let stages = (0u8..).zip(&site.stages).filter(move |(_, stage)| {
            stage.water == water && stage.pairs[substance as usize].rates[2] == 0
        });
        stages.map(|(place, _)| place).collect::<Vec<u8>>()
    };
    let stages = match heading {
        1 => untreated(1),
        4 => untreated(2),
        _ => (0..site.stages.len() as u8).collect(),
    };
    (!stages.is_empty()).then(|| rng.pick(&stages))
}

/// A station's loss of exactly so many micrograms, where a float gives it.
fn vapour(number: u16, holding: Holding, micrograms: u64) -> Vec<Post> {
    let near = (micrograms as f64 / 1e9).to_bits();
    let one = 1f64.to_bits();
    let fits = |&kg: &u64| model::loss(3, number, kg, one, 0, 0) == Ok(micrograms);
    let post = |kg| Post::vapour(3, holding, [kg, one, 0, 0]);
    [near, near + 1]
        .into_iter()
        .find(fits)
        .map(post)
        .into_iter()
        .collect()
}
