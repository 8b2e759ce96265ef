//! The two kinds of set-up block and their turns. Each reader makes the checks of decline 6 and nothing else.

use crate::amounts::{counted, WHOLE};
use crate::block::{u16_at, u32_at, zero_from, Block};
use crate::decline::{LAYOUT, TURN};

/// "Count: substances, 1–8."
pub(crate) const SUBSTANCES: usize = 8;
/// "Materials, 1–12."
pub(crate) const MATERIALS: usize = 12;
/// "Stages, 1–8."
pub(crate) const STAGES: usize = 8;

/// The set-up as far as it was taken. The default is none.
#[derive(Debug, Clone, Default, PartialEq, Eq)]
pub(crate) struct SetUp {
    pub(crate) plan: Plan,
    pub(crate) stages: [Stage; STAGES],
    /// Stages described so far.
    described: usize,
}

impl SetUp {
    /// Decline 4 of a set-up block: "Kind 1, first, once." "Kind 2, once per stage in order.
    /// Count: the stage."
    pub(crate) fn turn(&self, kind: u8, count: u8) -> Result<(), u8> {
        let in_turn = match kind {
            1 => self.plan.substances == 0,
            _ => self.described < self.plan.stages && usize::from(count) == self.described,
        };
        in_turn.then_some(()).ok_or(TURN)
    }

    /// Declines 4 and 6 of a block of kind 1 or 2, which is then taken.
    pub(crate) fn take(&mut self, block: &Block) -> Result<(), u8> {
        self.turn(block[4], block[5])?;
        if block[4] == 1 {
            self.plan = Plan::read(block)?;
        } else {
            self.stages[self.described] = Stage::read(block, self.plan.substances)?;
            self.described += 1;
        }
        Ok(())
    }

    /// Decline 4 of a post or a block of posts: "before the last stage is described".
    pub(crate) fn ready(&self) -> Result<(), u8> {
        let ready = self.plan.stages > 0 && self.described == self.plan.stages;
        ready.then_some(()).ok_or(TURN)
    }
}

/// A kind 1 block. The default is no set-up: no substance, no material, no stage.
#[derive(Debug, Clone, Default, PartialEq, Eq)]
pub(crate) struct Plan {
    pub(crate) substances: usize,
    pub(crate) materials: usize,
    pub(crate) stages: usize,
    pub(crate) numbers: [u16; SUBSTANCES],
    pub(crate) classes: [u8; SUBSTANCES],
    /// Counted contents in ppm, for each material and substance.
    pub(crate) counted: [[u32; SUBSTANCES]; MATERIALS],
}

impl Plan {
    /// "Kind 1, first, once. Count: substances, 1–8. 8: materials, 1–12. 9: stages, 1–8."
    pub(crate) fn read(block: &Block) -> Result<Plan, u8> {
        let mut plan = Plan {
            substances: count(block[5], SUBSTANCES)?,
            materials: count(block[8], MATERIALS)?,
            stages: count(block[9], STAGES)?,
            ..Plan::default()
        };
        plan.read_numbers(block)?;
        plan.read_classes(block)?;
        plan.read_contents(block)?;
        zero_from(block, 418).then_some(plan).ok_or(LAYOUT)
    }

    /// "10–25: eight management numbers of 16 bits, rising, from 1." "Unused places are zero."
    fn read_numbers(&mut self, block: &Block) -> Result<(), u8> {
        let mut last = 0;
        for (s, number) in self.numbers.iter_mut().enumerate() {
            *number = u16_at(block, 10 + 2 * s);
            let fits = if s < self.substances {
                *number > last
            } else {
                *number == 0
            };
            fits.then_some(()).ok_or(LAYOUT)?;
            last = *number;
        }
        Ok(())
    }

    /// "26–33: classes."
    fn read_classes(&mut self, block: &Block) -> Result<(), u8> {
        self.classes.copy_from_slice(&block[26..34]);
        let (used, unused) = self.classes.split_at(self.substances);
        let fits = used.iter().all(|class| matches!(class, 1 | 2))
            && unused == &[0; SUBSTANCES][..unused.len()];
        fits.then_some(()).ok_or(LAYOUT)
    }

    /// "34–417: for each of 12 materials eight contents of 32 bits, summing to at most 1,000,000;
    /// 0 is not contained." A content in an unused place is a 6.
    fn read_contents(&mut self, block: &Block) -> Result<(), u8> {
        for (m, row) in self.counted.iter_mut().enumerate() {
            let mut sum = 0u64;
            for (s, place) in row.iter_mut().enumerate() {
                let content = u32_at(block, 34 + 4 * (SUBSTANCES * m + s));
                sum += u64::from(content);
                if m < self.materials && s < self.substances {
                    *place = counted(self.classes[s], content)?;
                } else if content != 0 {
                    return Err(LAYOUT);
                }
            }
            (sum <= u64::from(WHOLE)).then_some(()).ok_or(LAYOUT)?;
        }
        Ok(())
    }
}

/// A count that is 1 to `most`.
fn count(byte: u8, most: usize) -> Result<usize, u8> {
    let count = usize::from(byte);
    (1..=most).contains(&count).then_some(count).ok_or(LAYOUT)
}

/// A kind 2 block. The default stands for a stage that isn't described yet.
#[derive(Debug, Clone, Copy, Default, PartialEq, Eq)]
pub(crate) struct Stage {
    /// Treated water goes to the sewer, else to public water.
    pub(crate) sewer: bool,
    /// Residues go to landfill, else off site.
    pub(crate) landfill: bool,
    pub(crate) treatments: [Treatment; SUBSTANCES],
}

/// "Each stage and substance has a side and four rates in ppm."
#[derive(Debug, Clone, Copy, Default, PartialEq, Eq)]
pub(crate) struct Treatment {
    /// The close moves the holding to waste water, else to gas.
    pub(crate) to_water: bool,
    pub(crate) gas: Rates,
    pub(crate) water: Rates,
}

#[derive(Debug, Clone, Copy, Default, PartialEq, Eq)]
pub(crate) struct Rates {
    pub(crate) removal: u32,
    pub(crate) destruction: u32,
}

impl Stage {
    /// "8: 1 public water, 2 sewer. 9: residues 1 off site, 2 landfill. From 10, 17 bytes per
    /// substance." The count, which is the stage, is decline 4's matter.
    pub(crate) fn read(block: &Block, substances: usize) -> Result<Stage, u8> {
        let mut stage = Stage {
            sewer: is_second(block[8])?,
            landfill: is_second(block[9])?,
            ..Stage::default()
        };
        for (s, treatment) in stage.treatments.iter_mut().take(substances).enumerate() {
            *treatment = Treatment::read(block, 10 + 17 * s)?;
        }
        zero_from(block, 10 + 17 * substances)
            .then_some(stage)
            .ok_or(LAYOUT)
    }
}

impl Treatment {
    /// "Side (1 gas, 2 water), then gas removal, gas destruction, water removal, water
    /// destruction, 32 bits, to 1,000,000."
    fn read(block: &Block, at: usize) -> Result<Treatment, u8> {
        Ok(Treatment {
            to_water: is_second(block[at])?,
            gas: Rates {
                removal: rate(block, at + 1)?,
                destruction: rate(block, at + 5)?,
            },
            water: Rates {
                removal: rate(block, at + 9)?,
                destruction: rate(block, at + 13)?,
            },
        })
    }
}

/// A choice of 1 or 2.
fn is_second(byte: u8) -> Result<bool, u8> {
    match byte {
        1 => Ok(false),
        2 => Ok(true),
        _ => Err(LAYOUT),
    }
}

fn rate(block: &Block, at: usize) -> Result<u32, u8> {
    let rate = u32_at(block, at);
    (rate <= WHOLE).then_some(rate).ok_or(LAYOUT)
}
