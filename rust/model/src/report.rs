//! The report of a substance.

use crate::amounts::{due, figure, split, Parts};
use crate::book::{Account, Book};
use crate::decline::NO_SUBSTANCE;
use crate::post::Exit;
use crate::setup::{Rates, SetUp, Stage, Treatment};

/// Amounts are in micrograms, over all stages.
#[derive(Debug, Clone, Copy, PartialEq, Eq)]
pub struct Report {
    /// "The count of posts accepted, the close being one."
    pub posts: u32,
    pub number: u16,
    pub handled: u64,
    pub due: bool,
    pub store: u64,
    pub held: u64,
    pub shipped: u64,
    pub consumed: u64,
    pub destroyed: u64,
    /// Air, public water, soil, landfill, sewer, off site.
    pub headings: [u64; 6],
    /// "A substance not due has no filed figures."
    pub figures: Option<[u64; 6]>,
}

// The places of the six headings.
const AIR: usize = 0;
const WATER: usize = 1;
const SOIL: usize = 2;
const LAND: usize = 3;
const SEWER: usize = 4;
const OFF_SITE: usize = 5;

impl Book {
    /// "The report of a substance, named by its place from 0, may be had at any time and is
    /// declined by 12 alone, never for a substance that the book has."
    pub fn report(&self, place: usize) -> Result<Report, u8> {
        let SetUp { plan, stages, .. } = &self.set_up;
        if place >= plan.substances {
            return Err(NO_SUBSTANCE);
        }
        let handled = self.handled[place];
        let mut report = Report {
            posts: self.posts,
            number: plan.numbers[place],
            handled,
            due: due(plan.classes[place], handled)?,
            store: self.store(place),
            held: 0,
            shipped: 0,
            consumed: 0,
            destroyed: 0,
            headings: [0; 6],
            figures: None,
        };
        for (stage, accounts) in stages.iter().zip(&self.accounts).take(plan.stages) {
            report.add(stage, &stage.treatments[place], &accounts[place])?;
        }
        report.figures = report.due.then(|| report.headings.map(figure));
        Ok(report)
    }

    /// "Store grams times counted content."
    fn store(&self, place: usize) -> u64 {
        self.stores
            .iter()
            .zip(&self.set_up.plan.counted)
            .map(|(grams, row)| grams * u64::from(row[place]))
            .sum()
    }
}

impl Report {
    /// "Per substance, over all stages." "The split is made on the year's totals, at the report."
    fn add(&mut self, stage: &Stage, treatment: &Treatment, account: &Account) -> Result<(), u8> {
        let (to_gas, to_water) = if treatment.to_water {
            (0, account.moved)
        } else {
            (account.moved, 0)
        };
        let gas = treated(account.exit(Exit::Gas) + to_gas, treatment.gas)?;
        let water = treated(account.exit(Exit::Water) + to_water, treatment.water)?;
        self.held += account.held;
        self.shipped += account.exit(Exit::Shipped);
        self.consumed += account.exit(Exit::Consumed);
        self.destroyed += gas.destroyed + water.destroyed;
        self.headings[AIR] += gas.released + account.exit(Exit::Vapour);
        self.headings[SOIL] += account.exit(Exit::Soil);
        self.headings[LAND] += account.exit(Exit::Landfill);
        self.headings[OFF_SITE] += account.exit(Exit::OffSite);
        // "Treated water goes to public water or sewer, residues to off site or landfill, as the
        // stage says."
        self.headings[if stage.sewer { SEWER } else { WATER }] += water.released;
        self.headings[if stage.landfill { LAND } else { OFF_SITE }] += gas.residue + water.residue;
        Ok(())
    }
}

fn treated(total: u64, rates: Rates) -> Result<Parts, u8> {
    split(total, rates.removal, rates.destruction)
}
