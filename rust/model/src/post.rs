//! A post's 48 bytes, and what they mean for a book that is set up.

use crate::amounts::WHOLE;
use crate::block::{u32_at, u64_at};
use crate::decline::{FLOAT, LAYOUT};
use crate::loss::{in_range, is_form, loss_in_range};
use crate::setup::Plan;

/// "A post is 48 bytes."
pub(crate) const SIZE: usize = 48;

/// "Quantity in g 1 to 2,000,000,000."
const MOST_GRAMS: u64 = 2_000_000_000;
/// "In micrograms 1 to 2×10^15."
const MOST_MICROGRAMS: u64 = 2_000_000_000_000_000;

/// The names under which a substance leaves a stage.
#[derive(Debug, Clone, Copy, PartialEq, Eq)]
pub(crate) enum Exit {
    Shipped,
    OffSite,
    Landfill,
    Soil,
    Consumed,
    Gas,
    Water,
    Vapour,
}

/// Where an amount of a substance is, as a stage sees it.
#[derive(Debug, Clone, Copy, PartialEq, Eq)]
pub(crate) enum Where {
    /// Not in the book yet: what comes from there is handled.
    Outside,
    Held,
    Gone(Exit),
}

/// A stage and a substance, by their places.
#[derive(Debug, Clone, Copy, PartialEq, Eq)]
pub(crate) struct Pair {
    pub(crate) stage: u8,
    pub(crate) substance: u8,
}

/// What a post does to the book, its places known to be there and its amount in its limits.
#[derive(Debug, Clone, Copy, PartialEq, Eq)]
pub(crate) enum Move {
    /// "The store of that material grows."
    Stock { material: u8, grams: u64 },
    /// "The store falls; the stage's holding of each substance grows."
    Issue { material: u8, stage: u8, grams: u64 },
    /// An amount goes from one place to another, as in "the holding falls by g times content, which
    /// is added under that name".
    Carry {
        pair: Pair,
        from: Where,
        to: Where,
        amount: u64,
    },
    /// "Each holding moves to gas or waste water [...], and no post follows."
    Close,
}

/// Which move a kind makes of its fields.
#[derive(Clone, Copy)]
enum Does {
    Stock,
    Issue,
    Carry(Where, Where, Amount),
    Close,
}

/// What the amount of a post is worked out from.
#[derive(Clone, Copy)]
enum Amount {
    /// "Micrograms in quantity."
    Quantity,
    /// "g times content", as the post states it.
    Part,
    /// "The loss", of the floats.
    Loss,
}

/// "The holding grows."
const FORMED: Does = Does::Carry(Where::Outside, Where::Held, Amount::Quantity);
/// Document 02 (b): "its amount goes to off site in the same step and counts as handled".
const FOUND: Does = Does::Carry(Where::Outside, Where::Gone(Exit::OffSite), Amount::Part);
/// "The holding falls by the loss, which goes to air untreated."
const LOST: Does = Does::Carry(Where::Held, Where::Gone(Exit::Vapour), Amount::Loss);

/// "The holding falls by g times content, which is added under that name."
const fn left(exit: Exit) -> Does {
    Does::Carry(Where::Held, Where::Gone(exit), Amount::Part)
}

/// "0 kind, 1 material (in kind 12: form), 2 stage, 3 substance, 4–7 content, 8–15 quantity,
/// 16–47 four floats w, u, p, q in that order."
struct Fields {
    kind: u8,
    material: u8,
    pair: Pair,
    content: u32,
    quantity: u64,
    floats: [u64; 4],
}

impl Move {
    /// Passes a post through declines 6 to 9.
    pub(crate) fn read(bytes: &[u8], plan: &Plan) -> Result<Move, u8> {
        let (fields, does) = Fields::passed(bytes, plan)?;
        fields.meaning(does, plan)
    }
}

/// Passes a post through declines 6 and 7, which ask nothing of a book but its plan.
pub(crate) fn check(bytes: &[u8], plan: &Plan) -> Result<(), u8> {
    Fields::passed(bytes, plan).map(drop)
}

impl Fields {
    /// A post that passes declines 6 and 7, and what it does.
    fn passed(bytes: &[u8], plan: &Plan) -> Result<(Fields, Does), u8> {
        let fields = Fields::read(bytes)?;
        let does = fields.laid_out(plan).ok_or(LAYOUT)?;
        fields
            .floats_fit(does)
            .then_some((fields, does))
            .ok_or(FLOAT)
    }

    fn read(bytes: &[u8]) -> Result<Fields, u8> {
        let post: &[u8; SIZE] = bytes.try_into().map_err(|_| LAYOUT)?;
        Ok(Fields {
            kind: post[0],
            material: post[1],
            pair: Pair {
                stage: post[2],
                substance: post[3],
            },
            content: u32_at(post, 4),
            quantity: u64_at(post, 8),
            floats: [
                u64_at(post, 16),
                u64_at(post, 24),
                u64_at(post, 32),
                u64_at(post, 40),
            ],
        })
    }

    /// What the post does, by its kind, or none by decline 6: the kind is known, each place used is
    /// the book's, each number used is in its limits, and "a field that a kind doesn't use is zero",
    /// floats aside.
    fn laid_out(&self, plan: &Plan) -> Option<Does> {
        let Pair { stage, substance } = self.pair;
        let material = usize::from(self.material) < plan.materials;
        let in_stage = usize::from(stage) < plan.stages;
        let of_pair = in_stage && usize::from(substance) < plan.substances;
        let (no_material, no_pair) = (self.material == 0, stage == 0 && substance == 0);
        let (no_content, no_quantity) = (self.content == 0, self.quantity == 0);
        let grams = (1..=MOST_GRAMS).contains(&self.quantity);
        let micrograms = (1..=MOST_MICROGRAMS).contains(&self.quantity);
        let part = no_material && of_pair && (1..=WHOLE).contains(&self.content) && grams;
        let (fits, does) = match self.kind {
            1 | 2 => (material && no_pair && no_content && grams, Does::Stock),
            3 => (
                material && in_stage && substance == 0 && no_content && grams,
                Does::Issue,
            ),
            4 => (no_material && of_pair && no_content && micrograms, FORMED),
            5 => (part, left(Exit::Shipped)),
            6 => (part, left(Exit::OffSite)),
            7 => (part, left(Exit::Landfill)),
            8 => (part, left(Exit::Soil)),
            9 => (part, left(Exit::Consumed)),
            10 => (part, left(Exit::Gas)),
            11 => (part, left(Exit::Water)),
            12 => (
                is_form(self.material) && of_pair && no_content && no_quantity,
                LOST,
            ),
            13 => (
                no_material && no_pair && no_content && no_quantity,
                Does::Close,
            ),
            14 => (part, FOUND),
            _ => return None,
        };
        fits.then_some(does)
    }

    /// Decline 7: the floats of a vapour are in its form's ranges, and else each is 0.0 or -0.0:
    /// nothing is left of it but, perhaps, the sign.
    fn floats_fit(&self, does: Does) -> bool {
        let [w, u, p, q] = self.floats;
        match does {
            Does::Carry(_, _, Amount::Loss) => {
                in_range(self.material, &self.floats.map(f64::from_bits))
            }
            _ => (w | u | p | q) << 1 == 0,
        }
    }

    /// The move of a post that is laid out; a loss may yet be declined by 8 or 9.
    fn meaning(&self, does: Does, plan: &Plan) -> Result<Move, u8> {
        let (material, pair, grams) = (self.material, self.pair, self.quantity);
        Ok(match does {
            Does::Stock => Move::Stock { material, grams },
            Does::Issue => Move::Issue {
                material,
                stage: pair.stage,
                grams,
            },
            Does::Carry(from, to, amount) => Move::Carry {
                pair,
                from,
                to,
                amount: self.amount(amount, plan)?,
            },
            Does::Close => Move::Close,
        })
    }

    fn amount(&self, amount: Amount, plan: &Plan) -> Result<u64, u8> {
        match amount {
            Amount::Quantity => Ok(self.quantity),
            Amount::Part => Ok(self.quantity * u64::from(self.content)),
            Amount::Loss => self.loss(plan),
        }
    }

    /// "12 vapour: form, stage, substance, floats."
    fn loss(&self, plan: &Plan) -> Result<u64, u8> {
        let number = plan.numbers[usize::from(self.pair.substance)];
        loss_in_range(self.material, number, self.floats.map(f64::from_bits))
    }
}
