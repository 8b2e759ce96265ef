//! Partial pressures: document 004's mixture, its parts and their order, the brackets, the ranges and
//! odd floats.

mod common;
use common::ODD;

/// M of toluene, xylene and benzene.
const THREE: [f64; 3] = [92.1, 106.2, 78.1];
/// Contents of which each other order and each other bracketing gives benzene another last bit.
const SHARP: [f64; 3] = [47.0, 48.0, 5.0];
/// Benzene's vapour pressure in document 004.
const VAPOUR: f64 = 13.3e3;
/// Its partial pressure over those contents, 829.6 Pa.
const BENZENE: u64 = 0x4089_ed23_6923_2f5a;

/// Contents and M of a mixture of as many parts as may be.
const EIGHT: [[f64; 8]; 2] = [
    [30.0, 20.0, 15.0, 10.0, 8.0, 7.0, 6.0, 4.0],
    [92.1, 106.2, 78.1, 86.0, 106.2, 58.1, 72.1, 32.0],
];

const CONTENTS: (f64, f64) = (0.0001, 100.0);
const WEIGHTS: (f64, f64) = (1.0, 1_000.0);
const GREATEST: f64 = 1e9;

fn bits(floats: &[f64]) -> Vec<u64> {
    floats.iter().map(|float| float.to_bits()).collect()
}

/// The pressures by plain floats; the answer by its bits, which tell -0.0 from 0.0.
fn pressure(contents: &[f64], weights: &[f64], named: usize, vapour: f64) -> Result<u64, u8> {
    model::pressure(&bits(contents), &bits(weights), named, vapour.to_bits())
}

/// Form 2 of toluene over a partial pressure given by its bits.
fn filling(volume: f64, partial: u64) -> Result<u64, u8> {
    let [w, p, q] = [volume, 9.81e4, 1.0].map(f64::to_bits);
    model::loss(2, 300, w, partial, p, q)
}

/// Document 004 has 1.55×10^3 Pa of toluene, and then 119 kg while the tank is filled.
#[test]
fn toluene_of_document_004() {
    let partial = pressure(&[40.0, 45.0, 15.0], &THREE, 0, 3.75e3);
    assert_eq!(partial, Ok(1_550.9601430271193f64.to_bits()));
    assert_eq!(
        partial.and_then(|partial| filling(2_000.0, partial)),
        Ok(119_400_216_026)
    );
}

/// The two other parts of document 004's solvent, worked out once more outside this crate.
#[test]
fn xylene_and_benzene_of_document_004() {
    let of = |named, vapour| pressure(&[40.0, 45.0, 15.0], &THREE, named, vapour);
    assert_eq!(of(1, 1.33e3), Ok(536.6716406774602f64.to_bits()));
    assert_eq!(of(2, VAPOUR), Ok(2_432.5449526225475f64.to_bits()));
}

/// "Parts are added from the first to the last": the same parts from the last on, and with the named
/// one first, end in another bit.
#[test]
fn parts_are_added_from_the_first_to_the_last() {
    assert_eq!(pressure(&SHARP, &THREE, 2, VAPOUR), Ok(BENZENE));
    for order in [[2, 1, 0], [2, 0, 1]] {
        let [contents, weights] = [SHARP, THREE].map(|row| order.map(|place: usize| row[place]));
        let other = pressure(&contents, &weights, 0, VAPOUR);
        assert_eq!(other, Ok(BENZENE + 2), "{order:?}");
    }
}

/// "(The named part's vapour pressure × (its content / its M)) / sum": in other brackets it ends in
/// another bit.
#[test]
fn the_pressure_is_worked_out_as_bracketed() {
    let [a, b, c] = [0, 1, 2].map(|place| SHARP[place] / THREE[place]);
    let sum = (a + b) + c;
    let multiplied_last = VAPOUR * (c / sum);
    let divided_first = (VAPOUR / sum) * c;
    let content_first = ((VAPOUR * SHARP[2]) / THREE[2]) / sum;
    for other in [multiplied_last, divided_first, content_first] {
        assert_eq!(other.to_bits(), BENZENE + 1);
    }
    assert_eq!(pressure(&SHARP, &THREE, 2, VAPOUR), Ok(BENZENE));
}

/// "No part, over eight parts, the named part isn't among them": of so many like parts each has its
/// share of the pressure.
#[test]
fn one_to_eight_parts_are_taken() {
    for parts in 0..=20 {
        let [contents, weights] = [12.5, 50.0].map(|value| vec![value; parts]);
        let share = match parts {
            1..=8 => Ok((1_000.0 / parts as f64).to_bits()),
            _ => Err(18),
        };
        for named in 0..parts {
            let answer = pressure(&contents, &weights, named, 1_000.0);
            assert_eq!(answer, share, "{named} of {parts}");
        }
        for named in [parts, parts + 1, parts + 8, usize::MAX] {
            let answer = pressure(&contents, &weights, named, 1_000.0);
            assert_eq!(answer, Err(18), "{named} of {parts}");
        }
    }
}

/// Worked out once more outside this crate; from the last on each ends in another bit.
#[test]
fn each_of_eight_parts() {
    let [contents, weights] = EIGHT;
    let patterns = [
        0x408f_1fda_66c3_c1ab,
        0x4081_fea6_48e9_b46d,
        0x4082_5a13_21b6_f285,
        0x4076_38ad_318e_2476,
        0x406c_caa3_a7dc_53e2,
        0x4077_064a_960b_91bb,
        0x406f_ce75_f26d_0221,
        0x4077_e353_c878_cd99,
    ];
    let [mut from_last, mut weights_from_last] = EIGHT;
    from_last.reverse();
    weights_from_last.reverse();
    for (named, pattern) in patterns.into_iter().enumerate() {
        assert_eq!(
            pressure(&contents, &weights, named, 3.75e3),
            Ok(pattern),
            "{named}"
        );
        let other = pressure(&from_last, &weights_from_last, 7 - named, 3.75e3);
        assert_ne!(other, Ok(pattern), "{named}");
    }
}

/// "Lists of contents and of Ms of different lengths are an 18."
#[test]
fn lists_of_different_lengths_are_an_18() {
    for contents in 0..=9 {
        for weights in (0..=9).filter(|&weights| weights != contents) {
            for named in [0, contents.min(weights), usize::MAX] {
                let answer = pressure(&vec![12.5; contents], &vec![50.0; weights], named, 1.0);
                assert_eq!(answer, Err(18), "{contents} contents, {weights} M, {named}");
            }
        }
    }
}

/// What is answered of eight parts with other bits in the place of a content (list 0) or an M (1),
/// which is the named part's or not.
fn with(list: usize, place: usize, named: usize, bits: u64) -> Result<u64, u8> {
    let mut lists = EIGHT.map(|row| row.map(f64::to_bits));
    lists[list][place] = bits;
    model::pressure(&lists[0], &lists[1], named, 3.75e3f64.to_bits())
}

/// What is answered of eight parts with a pressure by its bits.
fn under(named: usize, vapour: u64) -> Result<u64, u8> {
    let lists = EIGHT.map(|row| row.map(f64::to_bits));
    model::pressure(&lists[0], &lists[1], named, vapour)
}

/// The least and the greatest of a range pass, and their neighbours inside; those outside don't.
#[test]
fn the_ends_of_a_range_belong_to_it() {
    for (list, (least, most)) in [CONTENTS, WEIGHTS].into_iter().enumerate() {
        for place in 0..8 {
            for named in 0..8 {
                let with = |value: f64| with(list, place, named, value.to_bits());
                for inside in [least, least.next_up(), most.next_down(), most] {
                    assert!(with(inside).is_ok(), "{list} {place} {named} {inside}");
                }
                for outside in [least.next_down(), most.next_up()] {
                    assert_eq!(with(outside), Err(18), "{list} {place} {named} {outside}");
                }
            }
        }
    }
    for inside in [0.0, f64::from_bits(1), GREATEST.next_down(), GREATEST] {
        assert!(under(3, inside.to_bits()).is_ok(), "{inside}");
    }
    for outside in [0f64.next_down(), GREATEST.next_up()] {
        assert_eq!(under(3, outside.to_bits()), Err(18), "{outside}");
    }
}

#[test]
fn a_nan_or_an_infinity_is_an_18_anywhere() {
    for bits in ODD {
        for place in 0..8 {
            for named in 0..8 {
                let said = format!("{place} {named} {bits:x}");
                assert_eq!(with(0, place, named, bits), Err(18), "{said}");
                assert_eq!(with(1, place, named, bits), Err(18), "{said}");
            }
            assert_eq!(under(place, bits), Err(18), "{place} {bits:x}");
        }
    }
}

/// A zero of either sign, the least numbers and the least normal one are no content and no M.
#[test]
fn what_is_about_zero_is_a_pressure_alone() {
    for bits in [0, 1 << 63, 1, 0x000f_ffff_ffff_ffff, 0x0010_0000_0000_0000] {
        for named in [3, 4] {
            assert_eq!(with(0, 3, named, bits), Err(18), "{bits:x}");
            assert_eq!(with(1, 3, named, bits), Err(18), "{bits:x}");
        }
        let alone = pressure(&[100.0], &[1.0], 0, f64::from_bits(bits));
        assert_eq!(alone, Ok(bits), "{bits:x}");
    }
}

/// "Zero of either sign is in the pressure's range", and keeps its sign.
#[test]
fn a_zero_keeps_its_sign() {
    for named in 0..8 {
        assert_eq!(under(named, 0), Ok(0));
        assert_eq!(under(named, 1 << 63), Ok(1 << 63));
    }
    assert_eq!(filling(2_000.0, 1 << 63), Ok(0));
}

/// The least number times the least quotient rounds to 0; multiplied last, it would come back.
#[test]
fn the_least_pressure_of_the_least_part_is_0() {
    let (least, part) = (f64::from_bits(1), 0.0001 / 1_000.0);
    assert_eq!(pressure(&[0.0001], &[1_000.0], 0, least), Ok(0));
    assert_eq!(least * (part / part), least);
}

/// The product of 10^9 and this part's quotient rounds up, and the answer isn't cut: it comes out one
/// unit in the last place above 10^9, which is out of form 2's range.
#[test]
fn a_part_alone_may_pass_the_range_of_form_2() {
    let above = pressure(&[0.01], &[106.2], 0, GREATEST);
    assert_eq!(above, Ok(GREATEST.next_up().to_bits()));
    assert_eq!(above.and_then(|partial| filling(1.0, partial)), Err(7));
    let whole = pressure(&[100.0], &[1.0], 0, GREATEST);
    assert_eq!(whole, Ok(GREATEST.to_bits()));
    assert!(whole.and_then(|partial| filling(1.0, partial)).is_ok());
}

/// "18 [...], the only one for this call."
#[test]
fn all_at_once_is_an_18() {
    let odd = [f64::NAN; 9];
    assert_eq!(pressure(&odd, &odd[1..], usize::MAX, f64::NAN), Err(18));
    assert_eq!(pressure(&[], &[], usize::MAX, f64::NAN), Err(18));
}
