//! Document 02 (h), the partial pressure of a mixture, which is "form 2's pressure".

use crate::decline::MIXTURE;
use crate::loss::within;

/// "Up to eight parts."
const MOST_PARTS: usize = 8;
/// "Contents are 0.0001 to 100", in weight percent.
const CONTENTS: (f64, f64) = (0.0001, 100.0);
/// "M is 1 to 1,000."
const WEIGHTS: (f64, f64) = (1.0, 1_000.0);
/// "The pressure, given for the named part alone, is 0 to 10^9." -0.0 equals 0.0, so either sign of
/// zero passes.
const PRESSURES: (f64, f64) = (0.0, 1e9);

/// The partial pressure of the part at the place `named`, by its bits, as each float is given: "(the
/// named part's vapour pressure × (its content / its M)) / sum". 18 is "the only one for this call".
pub fn pressure(contents: &[u64], weights: &[u64], named: usize, pressure: u64) -> Result<u64, u8> {
    let parts = contents.len();
    if !(1..=MOST_PARTS).contains(&parts) || weights.len() != parts || named >= parts {
        return Err(MIXTURE);
    }
    let lists = [
        (contents, CONTENTS),
        (weights, WEIGHTS),
        (&[pressure], PRESSURES),
    ];
    if !lists.into_iter().all(in_range) {
        return Err(MIXTURE);
    }
    let quotient = |place| f64::from_bits(contents[place]) / f64::from_bits(weights[place]);
    let sum = added((0..parts).map(quotient));
    Ok(((f64::from_bits(pressure) * quotient(named)) / sum).to_bits())
}

/// Whether no "value is outside its range"; the ends belong to it.
fn in_range((list, range): (&[u64], (f64, f64))) -> bool {
    list.iter().all(|&bits| within(f64::from_bits(bits), range))
}

/// "Parts are added from the first to the last, each f64 operation rounded once"; "the sum starts with
/// the first part's quotient".
fn added(quotients: impl Iterator<Item = f64>) -> f64 {
    quotients
        .reduce(|sum, quotient| sum + quotient)
        .expect("a mixture has a part")
}
