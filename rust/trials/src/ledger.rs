//! What is in store and held, so that posts can be made which a book takes.

use blocks::{Holding, Post, Site};

use crate::floats::{within, RANGES};
use crate::rng::Rng;
use crate::site::{ROWS, WHOLE};

/// The most grams of a post.
pub const MOST_GRAMS: u64 = 2_000_000_000;
/// The most micrograms of a post.
pub const MOST_MICROGRAMS: u64 = 2_000_000_000_000_000;

/// The stores and holdings of a site.
#[derive(Clone)]
pub struct Ledger {
    numbers: Vec<u16>,
    counted: Vec<Vec<u64>>,
    store: Vec<u64>,
    held: Vec<Vec<u64>>,
    most_grams: u64,
}

impl Ledger {
    /// Nothing in store or held; at most so many grams enter with a post.
    pub fn new(site: &Site, most_grams: u64) -> Ledger {
        let counted = |contents: &Vec<u32>| {
            let pairs = contents.iter().zip(&site.classes);
            pairs
                .map(|(&ppm, &class)| model::counted(class, ppm).unwrap_or(0) as u64)
                .collect()
        };
        Ledger {
            numbers: site.numbers.clone(),
            counted: site.contents.iter().map(counted).collect(),
            store: vec![0; site.contents.len()],
            held: vec![vec![0; site.numbers.len()]; site.stages.len()],
            most_grams,
        }
    }

    /// The micrograms that a post of kind 5 to 12 takes out of a holding.
    fn leaving(&self, post: &Post) -> u64 {
        let [w, u, p, q] = post.floats;
        let number = self.numbers[post.substance as usize];
        match post.kind {
            12 => model::loss(post.material, number, w, u, p, q).expect("a loss that was tried"),
            _ => post.quantity * post.content as u64,
        }
    }

    /// Takes a post that is in balance.
    pub fn take(&mut self, post: &Post) {
        let (stage, substance) = (post.stage as usize, post.substance as usize);
        let material = post.material as usize;
        match post.kind {
            1 | 2 => self.store[material] += post.quantity,
            3 => {
                self.store[material] -= post.quantity;
                for (held, content) in self.held[stage].iter_mut().zip(&self.counted[material]) {
                    *held += post.quantity * content;
                }
            }
            4 => self.held[stage][substance] += post.quantity,
            5..=12 => self.held[stage][substance] -= self.leaving(post),
            _ => {}
        }
    }

    /// A post of any kind but the close that a book takes.
    pub fn any_post(&self, rng: &mut Rng) -> Post {
        let post = match rng.below(22) {
            0..=2 => None,
            3..=6 => self.issued(rng),
            7 => Some(self.formed(rng)),
            8 | 9 => Some(self.found(rng)),
            10..=18 => self.left(rng),
            _ => self.vapour(rng),
        };
        post.unwrap_or_else(|| self.entered(rng))
    }

    /// Kind 1 or 2.
    pub fn entered(&self, rng: &mut Rng) -> Post {
        let material = rng.place(self.store.len()) as u8;
        let quantity = rng.range(self.most_grams / 100 + 1, self.most_grams);
        Post::stock(rng.range(1, 2) as u8, material, quantity)
    }

    /// Kind 3, of a material in store.
    pub fn issued(&self, rng: &mut Rng) -> Option<Post> {
        let material = rng.place(self.store.len());
        let most = self.store[material].min(MOST_GRAMS);
        let stage = rng.place(self.held.len()) as u8;
        let quantity = part(rng, most)?;
        Some(Post::issued(material as u8, stage, quantity))
    }

    /// Kind 4.
    pub fn formed(&self, rng: &mut Rng) -> Post {
        let holding = self.any_holding(rng);
        Post::formed(holding, rng.size(self.most_grams * WHOLE as u64))
    }

    /// Kind 5 to 11, of a holding with something in it.
    pub fn left(&self, rng: &mut Rng) -> Option<Post> {
        let holding = self.filled(rng)?;
        let held = self.held(holding);
        let content = any_content(rng).min(held);
        let quantity = part(rng, (held / content).min(MOST_GRAMS))?;
        let kind = rng.range(5, 11) as u8;
        Some(Post::left(kind, holding, content as u32, quantity))
    }

    /// Kind 14, whatever is held.
    pub fn found(&self, rng: &mut Rng) -> Post {
        let content = any_content(rng) as u32;
        let quantity = match rng.below(16) {
            0 => 1,
            1 => MOST_GRAMS,
            _ => rng.size(self.most_grams),
        };
        Post::found(self.any_holding(rng), content, quantity)
    }

    /// Kind 12, with less and less of it until the holding has it.
    pub fn vapour(&self, rng: &mut Rng) -> Option<Post> {
        let holding = match rng.below(4) {
            0 => self.any_holding(rng),
            _ => self.filled(rng)?,
        };
        let number = self.numbers[holding.1 as usize];
        let form = if ROWS.contains(&number) {
            rng.range(1, 3) as u8
        } else {
            3
        };
        let mut floats = RANGES[form as usize - 1].map(|range| within(rng, range));
        for _ in 0..200 {
            let [w, u, p, q] = floats.map(f64::to_bits);
            let loss = model::loss(form, number, w, u, p, q);
            if loss.is_ok_and(|loss| loss <= self.held(holding)) {
                return Some(Post::vapour(form, holding, [w, u, p, q]));
            }
            lessen(form, &mut floats);
        }
        None
    }

    /// What a stage holds of a substance.
    pub fn held(&self, (stage, substance): Holding) -> u64 {
        self.held[stage as usize][substance as usize]
    }

    /// Any stage and substance.
    pub fn any_holding(&self, rng: &mut Rng) -> Holding {
        (
            rng.place(self.held.len()) as u8,
            rng.place(self.numbers.len()) as u8,
        )
    }

    /// A stage and a substance that it holds.
    pub fn filled(&self, rng: &mut Rng) -> Option<Holding> {
        let (stages, substances) = (self.held.len() as u8, self.numbers.len() as u8);
        let all = (0..stages).flat_map(|stage| (0..substances).map(move |place| (stage, place)));
        let filled: Vec<Holding> = all.filter(|&holding| self.held(holding) > 0).collect();
        (!filled.is_empty()).then(|| rng.pick(&filled))
    }
}

/// A content in ppm: any, its ends, and those at which a material's is counted.
fn any_content(rng: &mut Rng) -> u64 {
    match rng.below(8) {
        0 => 1,
        1 => WHOLE as u64,
        2 => rng.pick(&[999, 1_000, 9_999, 10_000]),
        3 | 4 => rng.size(WHOLE as u64),
        _ => rng.range(1, WHOLE as u64),
    }
}

/// Posts of kind 5 to 11 or 14 of exactly so many micrograms, at most 2×10^15.
pub fn exactly(kind: u8, holding: Holding, micrograms: u64) -> Vec<Post> {
    let whole = WHOLE as u64;
    let parts = [(WHOLE, micrograms / whole), (1, micrograms % whole)];
    let posts = parts.into_iter().filter(|&(_, quantity)| quantity > 0);
    posts
        .map(|(content, quantity)| Post::left(kind, holding, content, quantity))
        .collect()
}

/// A part of what there is, often all of it; none where there is nothing.
fn part(rng: &mut Rng, most: u64) -> Option<u64> {
    match rng.below(8) {
        _ if most == 0 => None,
        0 => Some(most),
        1 => Some(rng.size(most)),
        _ => Some(rng.range(1, most)),
    }
}

/// Halves what a loss is proportional to.
fn lessen(form: u8, floats: &mut [f64; 4]) {
    match form {
        1 => floats[2] /= 2.0,
        2 => floats[0] /= 2.0,
        _ => {
            floats[0] /= 2.0;
            floats[2] /= 2.0;
        }
    }
}
