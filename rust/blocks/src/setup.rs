//! A site's set-up: substances, materials and stages.

use crate::block::{block, Block};

/// What a stage does with a substance.
#[derive(Clone, Copy, Debug)]
pub struct Pair {
    /// 1 gas, 2 water.
    pub side: u8,
    /// Gas removal and destruction, water removal and destruction, in ppm.
    pub rates: [u32; 4],
}

/// A stage of the plant.
#[derive(Clone, Debug)]
pub struct Stage {
    /// 1 public water, 2 sewer.
    pub water: u8,
    /// 1 off site, 2 landfill.
    pub residues: u8,
    /// One for each substance.
    pub pairs: Vec<Pair>,
}

/// A site's set-up.
#[derive(Clone, Debug)]
pub struct Site {
    /// Management numbers, rising.
    pub numbers: Vec<u16>,
    /// The substances' classes.
    pub classes: Vec<u8>,
    /// Each material's contents in ppm.
    pub contents: Vec<Vec<u32>>,
    /// The stages in order.
    pub stages: Vec<Stage>,
}

impl Pair {
    /// Its holding goes to gas at the close, and nothing is treated.
    pub const TO_AIR: Pair = Pair {
        side: 1,
        rates: [0; 4],
    };
}

impl Site {
    /// The kind 1 block and the kind 2 blocks, sealed and numbered from 0.
    pub fn blocks(&self) -> Vec<Block> {
        let substances = self.numbers.iter().copied();
        let substances: Vec<(u16, u8)> = substances.zip(self.classes.iter().copied()).collect();
        let first = plan(&substances, &self.contents, self.stages.len() as u8);
        let stages = (0u8..).zip(&self.stages);
        let stages = stages.map(|(place, stage)| stage.block(place));
        [first].into_iter().chain(stages).collect()
    }
}

impl Stage {
    /// The kind 2 block of a stage, whose number in a journal is one more than its place.
    pub fn block(&self, place: u8) -> Block {
        let mut body = vec![self.water, self.residues];
        for pair in &self.pairs {
            body.push(pair.side);
            body.extend(pair.rates.iter().flat_map(|rate| rate.to_le_bytes()));
        }
        block(2, place, place as u16 + 1, &body)
    }
}

/// The kind 1 block of substances with their classes, of a row of contents for each material, and of so many stages.
pub fn plan(substances: &[(u16, u8)], contents: &[impl AsRef<[u32]>], stages: u8) -> Block {
    let mut body = [0; 410];
    body[0] = contents.len() as u8;
    body[1] = stages;
    for (place, (number, class)) in substances.iter().enumerate() {
        body[2 + 2 * place..4 + 2 * place].copy_from_slice(&number.to_le_bytes());
        body[18 + place] = *class;
    }
    for (row, contents) in body[26..].chunks_mut(32).zip(contents) {
        for (place, content) in row.chunks_mut(4).zip(contents.as_ref()) {
            place.copy_from_slice(&content.to_le_bytes());
        }
    }
    block(1, substances.len() as u8, 0, &body)
}
