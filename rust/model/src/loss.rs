//! "Each loss is in kg; operations are f64, each rounded once, in the order bracketed."

use crate::decline::{FLOAT, LAYOUT, LOSS, NO_ROW};

/// "k and molecular weight M by management number."
#[derive(Clone, Copy)]
struct Row {
    number: u16,
    k: f64,
    m: f64,
}

/// Document 000, tables 2.3 and 2.4; numbers from document 004.
const ROWS: [Row; 5] = [
    Row {
        number: 53,
        k: 0.000083,
        m: 106.2,
    },
    Row {
        number: 80,
        k: 0.000071,
        m: 106.2,
    },
    Row {
        number: 300,
        k: 0.00026,
        m: 92.1,
    },
    Row {
        number: 392,
        k: 0.00182,
        m: 86.0,
    },
    Row {
        number: 400,
        k: 0.00089,
        m: 78.1,
    },
];

/// Least and greatest of w, u, p and q in forms 1, 2 and 3; the ends belong to the range. "An
/// unused float has zero as its whole range." -0.0 equals 0.0, so either sign of zero passes.
const RANGES: [[(f64, f64); 4]; 3] = [
    [(1.0, 1e3), (0.0, 100.0), (0.0, 1e9), (0.0, 0.0)],
    [(0.0, 1e9), (0.0, 1e9), (1.0, 1e9), (0.0, 1.0)],
    [(0.0, 1e9), (0.0, 1e9), (0.0, 1e9), (0.0, 1e9)],
];

/// The greatest loss of a post, in kg.
const MOST: f64 = 2_000_000.0;

/// The loss in micrograms of `form` for the substance of management `number`; the floats are given
/// by their bits. "Declines a form, class, rate or other whole number outside this paper's limits
/// by 6; a loss is then declined by 7, 8 and 9 in that order."
pub fn loss(form: u8, number: u16, w: u64, u: u64, p: u64, q: u64) -> Result<u64, u8> {
    if !is_form(form) || number == 0 {
        return Err(LAYOUT);
    }
    let floats = [w, u, p, q].map(f64::from_bits);
    if !in_range(form, &floats) {
        return Err(FLOAT);
    }
    loss_in_range(form, number, floats)
}

/// Declines 8 and 9 of a loss whose floats are in the ranges of its form.
pub(crate) fn loss_in_range(form: u8, number: u16, floats: [f64; 4]) -> Result<u64, u8> {
    let kg = match form {
        1 => floating_roof(row(number)?, floats),
        2 => filling(row(number)?, floats),
        _ => station(floats),
    };
    if kg > MOST {
        return Err(LOSS);
    }
    Ok(micrograms(kg))
}

/// Whether `form` is one of the three.
pub(crate) fn is_form(form: u8) -> bool {
    (1..=3).contains(&form)
}

/// Whether the floats are in the ranges of a form that is one of the three.
pub(crate) fn in_range(form: u8, floats: &[f64; 4]) -> bool {
    let ranges = &RANGES[usize::from(form) - 1];
    ranges
        .iter()
        .zip(floats)
        .all(|(range, x)| within(*x, *range))
}

/// Whether a float is in a range. No comparison holds of a NaN and no range reaches an infinity, so
/// both fall outside.
pub(crate) fn within(x: f64, (least, most): (f64, f64)) -> bool {
    least <= x && x <= most
}

fn row(number: u16) -> Result<Row, u8> {
    ROWS.iter()
        .find(|row| row.number == number)
        .copied()
        .ok_or(NO_ROW)
}

/// "Form 1, floating roof: ((((k × (4 / w)) × M) / 22.4) × (u / 100)) × p."
fn floating_roof(Row { k, m, .. }: Row, [w, u, p, _]: [f64; 4]) -> f64 {
    ((((k * (4.0 / w)) * m) / 22.4) * (u / 100.0)) * p
}

/// "Form 2, filling a fixed roof: (((0.041 × M) × w) × (u / p)) × q."
fn filling(Row { m, .. }: Row, [w, u, p, q]: [f64; 4]) -> f64 {
    (((0.041 * m) * w) * (u / p)) * q
}

/// "Form 3, station: (w × u) + (p × q)."
fn station([w, u, p, q]: [f64; 4]) -> f64 {
    (w * u) + (p * q)
}

/// "The loss in micrograms is kg × 10^9, one more rounding, without its fraction." The cast cuts;
/// it makes 0 of -0.0, and no other negative number comes here.
fn micrograms(kg: f64) -> u64 {
    (kg * 1e9) as u64
}
