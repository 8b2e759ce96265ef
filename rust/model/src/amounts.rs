//! Counted contents, the split of a treated total, filed figures and the threshold.

use crate::decline::LAYOUT;

/// Parts per million in a whole: the largest content and the largest rate.
pub(crate) const WHOLE: u32 = 1_000_000;

/// "A material's content of a substance is counted from 10,000 ppm in class 1 and from 1,000 ppm
/// in class 2, and is else taken as 0."
pub fn counted(class: u8, ppm: u32) -> Result<u32, u8> {
    let from = match class {
        1 => 10_000,
        2 => 1_000,
        _ => return Err(LAYOUT),
    };
    match ppm {
        _ if ppm > WHOLE => Err(LAYOUT),
        _ if ppm < from => Ok(0),
        _ => Ok(ppm),
    }
}

/// What becomes of a total that is treated.
#[derive(Debug, Clone, Copy, PartialEq, Eq)]
pub struct Parts {
    pub released: u64,
    pub destroyed: u64,
    pub residue: u64,
}

/// "Removed = a × r / 10^6 rounded down; released = a − removed; destroyed = removed × d / 10^6
/// rounded down; residue = removed − destroyed."
pub fn split(total: u64, removal: u32, destruction: u32) -> Result<Parts, u8> {
    if removal > WHOLE || destruction > WHOLE {
        return Err(LAYOUT);
    }
    let removed = share(total, removal);
    let destroyed = share(removed, destruction);
    Ok(Parts {
        released: total - removed,
        destroyed,
        residue: removed - destroyed,
    })
}

/// `amount` × `rate` / 10^6 rounded down; a rate is at most 10^6, so the result fits.
fn share(amount: u64, rate: u32) -> u64 {
    (u128::from(amount) * u128::from(rate) / u128::from(WHOLE)) as u64
}

/// 10 kg in micrograms.
pub(crate) const TEN_KG: u64 = 10_000_000_000;

/// How an amount is rounded: the number of its case and the step in micrograms.
#[derive(Clone, Copy, Debug, PartialEq, Eq)]
pub struct Case {
    pub number: u8,
    pub step: u64,
}

/// Document 02 (c): "below 10^10 micrograms, then one per decade, the last from 10^19", "numbered
/// from 0"; each step is document 01's.
pub fn case(amount: u64) -> Case {
    let number = if amount < TEN_KG {
        0
    } else {
        1 + (amount.ilog10() - TEN_KG.ilog10()) as u8
    };
    Case {
        number,
        step: step(amount),
    }
}

/// "10^8 micrograms (0.1 kg) below 10^10, else a tenth of the largest power of ten not above the
/// amount."
pub fn step(amount: u64) -> u64 {
    if amount < TEN_KG {
        100_000_000
    } else {
        10u64.pow(amount.ilog10() - 1)
    }
}

/// "A filed figure is the heading's amount rounded half up to a step." It never overflows: the
/// largest 64-bit number, 18.4...×10^18 at a step of 10^18, rounds down.
pub fn figure(amount: u64) -> u64 {
    let step = step(amount);
    let over = amount % step;
    let down = amount - over;
    if over >= step / 2 {
        down + step
    } else {
        down
    }
}

/// "A substance is due from 10^12 micrograms handled in class 1, 5×10^11 in class 2."
pub fn due(class: u8, handled: u64) -> Result<bool, u8> {
    match class {
        1 => Ok(handled >= 1_000_000_000_000),
        2 => Ok(handled >= 500_000_000_000),
        _ => Err(LAYOUT),
    }
}
