//! The proved library against the plain model: journals, their damage, and the comparison.
//!
//! `PRTR_SEED` sets the seed and `PRTR_CASES` multiplies the number of cases.

pub mod aim;
pub mod c;
pub mod calls;
pub mod case;
pub mod cell;
pub mod damage;
pub mod fixed;
pub mod floats;
pub mod ledger;
pub mod limit;
pub mod lists;
pub mod mixtures;
pub mod program;
pub mod rng;
pub mod site;
pub mod taker;
pub mod trial;
pub mod writes;
pub mod year;
