//! What a plant files once a year under PRTR, worked out by a proved library.
//!
//! Material is in grams, content in parts per million by mass (ppm), substance in micrograms. The papers' numbers
//! are whole; a vapour loss is worked out in `f64` and then cut to whole micrograms.
//!
//! The functions here answer for every input: what is outside the limits is an [`Err`] with its [`Decline`], a refused
//! journal one that also says which block, and a journal that can't be written one that says which record.
//! [`Decline::NoSubstance`] and [`Decline::StockCount`] come from none of them.
//!
//! ```
//! use prtr::{Class, Form};
//!
//! // Benzene (400) that left through a tank's floating roof, and how it is filed: about 0.2 kg.
//! let roof = Form::FloatingRoof { diameter: 14.0, content: 0.62, drawn: 36_000.0 };
//! let lost = prtr::loss(roof, 400)?;
//! assert_eq!(lost, 197_887_867);
//! assert_eq!(prtr::figure(lost), 200_000_000);
//!
//! // 1 t handled is filed in class one.
//! assert!(prtr::due(Class::One, 1_000_000_000_000));
//! # Ok::<(), prtr::Decline>(())
//! ```
//!
//! The archive is found at build time in the directory that `PRTR_LIB` names, or else in `crates/prtr/out` of the
//! repository, where `rt lib`, run in `crates/prtr`, writes it.

#![deny(unsafe_code)]
#![warn(missing_docs)]

mod class;
mod decline;
mod form;
pub mod raw;
mod refused;
mod unwritten;
mod writer;

pub use class::Class;
pub use decline::Decline;
pub use form::Form;
pub use refused::Refused;
pub use unwritten::{Cause, TooLong, Unwritten};
pub use writer::{write_into, Writer};

/// The bytes that [`filing_into`] must be lent: the room that `prtr_filing` asks for; no text is longer.
pub const ROOM: usize = 1336;

/// What treatment makes of a total; the three add up to it.
#[derive(Clone, Copy, Debug, Default, PartialEq, Eq, Hash)]
pub struct Parts {
    /// Micrograms that leave untreated.
    pub released: u64,
    /// Micrograms that are no more.
    pub destroyed: u64,
    /// Micrograms removed and not destroyed, which leave as residue.
    pub residue: u64,
}

/// A case of rounding.
#[derive(Clone, Copy, Debug, Default, PartialEq, Eq, Hash)]
pub struct Case {
    /// Its number, 0 to 10.
    pub number: u8,
    /// The step in micrograms that an amount in it is rounded to.
    pub step: u64,
}

/// The answer where the library's status is 0, and else the decline with that number.
#[inline]
fn answer<A>(status: u8, value: A) -> Result<A, Decline> {
    if status == 0 {
        return Ok(value);
    }
    Err(declined(status))
}

/// The decline with a number that the library gave.
#[cold]
fn declined(number: u8) -> Decline {
    match Decline::from_number(number) {
        Some(decline) => decline,
        None => panic!("libprtr.a answered {number}, which is no decline of the papers"),
    }
}

/// A material's content of a substance as it counts: from 10,000 ppm in class one and from
/// 1,000 ppm in class two as it is, else 0.
///
/// Declines more than 1,000,000 ppm by [`Decline::Layout`].
///
/// ```
/// use prtr::{counted, Class, Decline};
///
/// // F11.
/// assert_eq!(counted(Class::One, 9_999), Ok(0));
/// assert_eq!(counted(Class::One, 10_000), Ok(10_000));
/// assert_eq!(counted(Class::Two, 1_000_001), Err(Decline::Layout));
/// ```
#[inline]
pub fn counted(class: Class, ppm: u32) -> Result<u32, Decline> {
    let mut counted = 0;
    let status = raw::counted(class.into(), ppm, &mut counted);
    answer(status, counted)
}

/// What treatment makes of a year's total in micrograms, with the rates of removal and destruction in ppm.
///
/// Removed and destroyed are each rounded down. Declines a rate above 1,000,000 ppm by [`Decline::Layout`].
///
/// ```
/// use prtr::{split, Decline, Parts};
///
/// // F12 and F13.
/// assert_eq!(split(7, 500_000, 500_000), Ok(Parts { released: 4, destroyed: 1, residue: 2 }));
/// assert_eq!(split(1, 999_999, 0), Ok(Parts { released: 1, destroyed: 0, residue: 0 }));
/// assert_eq!(split(1, 1_000_001, 0), Err(Decline::Layout));
/// ```
#[inline]
pub fn split(total: u64, removal: u32, destruction: u32) -> Result<Parts, Decline> {
    // A cell for each part, and not a struct's field: what is stored by parts is slow to load whole.
    let (mut released, mut destroyed, mut residue) = (0, 0, 0);
    let status = raw::split(
        total,
        removal,
        destruction,
        &mut released,
        &mut destroyed,
        &mut residue,
    );
    let parts = Parts {
        released,
        destroyed,
        residue,
    };
    answer(status, parts)
}

/// How an amount in micrograms is rounded, by eleven cases: case 0 below 10 kg with a step of 0.1 kg, then one for each
/// decade, so that case n from 1 to 10 holds from 10^(9+n) with a step of 10^(8+n).
///
/// ```
/// use prtr::{case, Case};
///
/// assert_eq!(case(9_999_999_999), Case { number: 0, step: 100_000_000 });
/// assert_eq!(case(10_000_000_000), Case { number: 1, step: 1_000_000_000 });
/// assert_eq!(case(u64::MAX), Case { number: 10, step: 1_000_000_000_000_000_000 });
/// ```
#[inline]
pub fn case(amount: u64) -> Case {
    let mut number = 0;
    let step = raw::case(amount, &mut number);
    Case { number, step }
}

/// The step that an amount is rounded to: 0.1 kg below 10 kg, else a tenth of the largest power of ten not above it.
///
/// ```
/// assert_eq!(prtr::step(9_950_000_000), 100_000_000);
/// assert_eq!(prtr::step(10_000_000_000), 1_000_000_000);
/// assert_eq!(prtr::step(u64::MAX), 1_000_000_000_000_000_000);
/// ```
#[inline]
pub fn step(amount: u64) -> u64 {
    raw::step(amount)
}

/// The filed figure of a heading's exact amount: rounded half up to the amount's step, both in micrograms.
///
/// ```
/// use prtr::figure;
///
/// const GRAM: u64 = 1_000_000;
/// const KG: u64 = 1_000 * GRAM;
///
/// // F1 to F9.
/// assert_eq!(figure(49_999_999), 0);
/// assert_eq!(figure(50_000_000), 100 * GRAM);
/// assert_eq!(figure(8_840_302_000), 8_800 * GRAM);
/// assert_eq!(figure(9_949_999_999), 9_900 * GRAM);
/// assert_eq!(figure(9_950_000_000), 10 * KG);
/// assert_eq!(figure(99_500_000_000), 100 * KG);
/// assert_eq!(figure(102 * KG), 100 * KG);
/// assert_eq!(figure(225 * KG), 230 * KG);
/// assert_eq!(figure(588 * KG), 590 * KG);
/// ```
#[inline]
pub fn figure(amount: u64) -> u64 {
    raw::figure(amount)
}

/// Whether a substance must be filed that was handled to so many micrograms: from 1 t in class one, from 0.5 t in class two.
///
/// ```
/// use prtr::{due, Class};
///
/// // F10.
/// assert!(!due(Class::One, 999_999_999_999));
/// assert!(due(Class::One, 1_000_000_000_000));
/// assert!(!due(Class::Two, 499_999_999_999));
/// assert!(due(Class::Two, 500_000_000_000));
/// ```
#[inline]
pub fn due(class: Class, handled: u64) -> bool {
    let mut due = 0;
    let status = raw::due(class.into(), handled, &mut due);
    assert!(
        status == 0,
        "libprtr.a declined class {class:?} by {status}"
    );
    match due {
        0 => false,
        1 => true,
        other => panic!("libprtr.a answered {other} for due, which is neither 0 nor 1"),
    }
}

/// The micrograms of a substance, by its management number, that are lost as vapour.
///
/// Declines, in this order, number 0 by [`Decline::Layout`], an input that is not finite or outside its range by
/// [`Decline::Range`], a floating or fixed roof without a coefficient row by [`Decline::NoRow`] (53, 80, 300, 392
/// and 400 have one), and a loss above 2,000,000 kg by [`Decline::Excess`].
///
/// ```
/// use prtr::{loss, Decline, Form};
///
/// // Toluene, while a fixed roof tank is filled.
/// let tank = Form::FixedRoof { volume: 2_000.0, partial: 1_550.0, tank: 98_100.0, share: 1.0 };
/// assert_eq!(loss(tank, 300), Ok(119_326_299_694));
/// assert_eq!(loss(tank, 301), Err(Decline::NoRow));
///
/// // Benzene at a filling station: 8.8 kg.
/// let station = Form::Station { received: 1_500.0, filling: 0.0026885, dispensed: 1_420.0, fuelling: 0.0033856 };
/// assert_eq!(loss(station, 400), Ok(8_840_302_000));
///
/// // 2,000 kL at 1,001 kg each: 2,002,000 kg.
/// let great = Form::Station { received: 2_000.0, filling: 1_001.0, dispensed: 0.0, fuelling: 0.0 };
/// assert_eq!(loss(great, 400), Err(Decline::Excess));
/// ```
#[inline]
pub fn loss(form: Form, number: u16) -> Result<u64, Decline> {
    let [w, u, p, q] = form.floats().map(f64::to_bits);
    loss_bits(form.number(), number, w, u, p, q)
}

/// [`loss`] by the form's number and the four floats' bits, as a post has them: each may be anything.
///
/// ```
/// use prtr::{loss_bits, Decline};
///
/// let (tank, content, drawn) = (14f64.to_bits(), 0.62f64.to_bits(), 36_000f64.to_bits());
/// assert_eq!(loss_bits(1, 400, tank, content, drawn, 0), Ok(197_887_867));
/// assert_eq!(loss_bits(1, 400, tank, content, drawn, 1), Err(Decline::Range));
/// assert_eq!(loss_bits(4, 400, tank, content, drawn, 0), Err(Decline::Layout));
/// ```
#[inline]
pub fn loss_bits(form: u8, number: u16, w: u64, u: u64, p: u64, q: u64) -> Result<u64, Decline> {
    let mut micrograms = 0;
    let status = raw::loss(form, number, [w, u, p, q], &mut micrograms);
    answer(status, micrograms)
}

/// The partial pressure in Pa of one part of a mixture, from its vapour pressure in Pa, 0 to 10^9.
///
/// `contents` are in weight percent, 0.0001 to 100; `weights` are the molecular weights M in g/mol, 1 to 1,000, in the
/// same order; `named` is the part's place from 0. The answer is (pressure × (its content / its M)) / sum, where sum is
/// content / M of each part, added from the first to the last, and each operation is rounded once.
///
/// Declines by [`Decline::Mixture`] no part or more than eight, lists of different lengths, a place past the last part
/// and a value outside its range. The answer is finite, not negative and at most 2^30; it is -0.0 for a pressure of -0.0.
/// Of a part alone at 10^9 Pa it may lie one unit in the last place above 10^9, where [`loss`] declines it.
///
/// ```
/// use prtr::{loss, pressure, Decline, Form};
///
/// // Toluene, xylene and benzene; 3,750 Pa is toluene's.
/// let (contents, weights) = ([40.0, 45.0, 15.0], [92.1, 106.2, 78.1]);
/// let partial = pressure(&contents, &weights, 0, 3_750.0)?;
/// assert_eq!(partial.round(), 1_551.0);
///
/// // 119.4 kg of the toluene are lost while 2,000 m³ are filled.
/// let tank = Form::FixedRoof { volume: 2_000.0, partial, tank: 98_100.0, share: 1.0 };
/// assert_eq!(loss(tank, 300), Ok(119_400_216_026));
///
/// assert_eq!(pressure(&contents, &weights, 3, 3_750.0), Err(Decline::Mixture));
/// assert_eq!(pressure(&contents, &weights[1..], 0, 3_750.0), Err(Decline::Mixture));
/// # Ok::<(), Decline>(())
/// ```
#[inline]
pub fn pressure(
    contents: &[f64],
    weights: &[f64],
    named: usize,
    pressure: f64,
) -> Result<f64, Decline> {
    let mut partial = 0;
    let status = raw::pressure(
        raw::bits(contents),
        raw::bits(weights),
        named,
        pressure.to_bits(),
        &mut partial,
    );
    answer(status, f64::from_bits(partial))
}

/// The text of the return that a journal gives, or which block was refused and why.
///
/// A [`Writer`] makes a journal; its example files one.
///
/// ```
/// use prtr::{Decline, Refused};
///
/// // A journal of no blocks prints the title.
/// let title = "substance handled due air water soil land sewer offsite\n";
/// assert_eq!(prtr::filing(&[]), Ok(title.to_string()));
///
/// let short = Refused { block: 0, decline: Decline::NotABlock };
/// assert_eq!(prtr::filing(b"no journal"), Err(short));
/// ```
pub fn filing(journal: &[u8]) -> Result<String, Refused> {
    let mut out = vec![0; ROOM];
    let length = filing_into(journal, &mut out).expect("ROOM bytes are lent");
    out.truncate(length);
    let text = String::from_utf8(out).expect("libprtr.a writes ASCII");
    match refused::read(&text) {
        Some(refused) => Err(refused),
        None => Ok(text),
    }
}

/// Puts the library's text at the start of `out` and gives its length; `None`, and `out` as it
/// was, where `out` is shorter than [`ROOM`].
///
/// The text is given as it is: the return, or for a refused journal the line `refused`, the block's place from 0
/// and the decline's number. The bytes behind it stay as they were.
///
/// ```
/// let mut out = [b'.'; prtr::ROOM];
/// assert_eq!(prtr::filing_into(b"no journal", &mut out), Some(12));
/// assert_eq!(&out[..16], b"refused 0 1\n....");
/// assert_eq!(prtr::filing_into(b"no journal", &mut out[1..]), None);
/// ```
#[inline]
pub fn filing_into(journal: &[u8], out: &mut [u8]) -> Option<usize> {
    match raw::filing(journal, out) {
        0 => {
            assert!(out.len() < ROOM, "libprtr.a asks for more than ROOM bytes");
            None
        }
        length => Some(length),
    }
}
