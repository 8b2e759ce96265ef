//! Vapour losses: the paper's tanks, the tables, ranges, odd floats and the order of declines.

mod common;
use common::ODD;

/// The losses by plain floats.
fn loss(form: u8, number: u16, [w, u, p, q]: [f64; 4]) -> Result<u64, u8> {
    model::loss(
        form,
        number,
        w.to_bits(),
        u.to_bits(),
        p.to_bits(),
        q.to_bits(),
    )
}

const ONES: [f64; 4] = [1.0; 4];

/// "Document 004's own floating-roof example uses another method and gives 0.3 kg where form 1
/// gives about 0.198."
#[test]
fn floating_roof_of_document_004() {
    assert_eq!(loss(1, 400, [14.0, 0.62, 36_000.0, 0.0]), Ok(197_887_867));
}

/// Document 004 has 119 kg of toluene.
#[test]
fn filling_of_document_004() {
    assert_eq!(
        loss(2, 300, [2_000.0, 1_550.0, 98_100.0, 1.0]),
        Ok(119_326_299_694)
    );
}

/// Document 004 has 8.84 kg of benzene; F3 is this amount.
#[test]
fn station_of_document_004() {
    assert_eq!(
        loss(3, 400, [1_500.0, 0.0026885, 1_420.0, 0.0033856]),
        Ok(8_840_302_000)
    );
}

/// Worked out once more outside this crate, one operation at a time.
#[test]
fn each_row_of_the_tables() {
    let table = [
        (53, 1_574_035_714_285, 529_315_117, 154_895_118_103),
        (80, 1_346_464_285_714, 452_787_631, 154_895_118_103),
        (300, 4_276_071_428_571, 1_437_952_920, 134_329_947_056),
        (392, 27_950_000_000_000, 9_398_997_375, 125_432_958_163),
        (400, 12_412_321_428_571, 4_174_002_738, 113_910_628_285),
    ];
    for (number, whole, odd, filled) in table {
        assert_eq!(
            loss(1, number, [1.0, 100.0, 1e6, 0.0]),
            Ok(whole),
            "{number}"
        );
        assert_eq!(
            loss(1, number, [37.3, 12.7, 98_765.4, -0.0]),
            Ok(odd),
            "{number}"
        );
        assert_eq!(
            loss(2, number, [12_345.6, 789.1, 101_325.0, 0.37]),
            Ok(filled),
            "{number}"
        );
    }
}

#[test]
fn a_form_or_number_outside_is_a_6_before_all() {
    for form in [0, 4, 255] {
        assert_eq!(loss(form, 400, [f64::NAN; 4]), Err(6));
    }
    for form in 1..=3 {
        assert_eq!(loss(form, 0, [f64::NAN; 4]), Err(6));
    }
}

/// The least and the greatest of a range pass, their neighbours outside don't.
#[test]
fn the_ends_of_a_range_belong_to_it() {
    let forms = [
        (
            1,
            [10.0, 1.0, 1.0, 0.0],
            [(1.0, 1e3), (0.0, 100.0), (0.0, 1e9), (0.0, 0.0)],
        ),
        (
            2,
            [1.0, 1e-9, 1.0, 1e-9],
            [(0.0, 1e9), (0.0, 1e9), (1.0, 1e9), (0.0, 1.0)],
        ),
        (
            3,
            [1e-9; 4],
            [(0.0, 1e9), (0.0, 1e9), (0.0, 1e9), (0.0, 1e9)],
        ),
    ];
    for (form, inside, ranges) in forms {
        for (place, (least, most)) in ranges.into_iter().enumerate() {
            let tried = |x: f64| {
                let mut floats = inside;
                floats[place] = x;
                loss(form, 300, floats)
            };
            assert!(
                tried(least).is_ok() && tried(most).is_ok(),
                "{form} {place}"
            );
            assert_eq!(tried(least.next_down()), Err(7), "{form} {place}");
            assert_eq!(tried(most.next_up()), Err(7), "{form} {place}");
            assert_eq!(tried(-0.0).is_ok(), least == 0.0, "{form} {place}");
        }
    }
}

#[test]
fn a_nan_or_an_infinity_is_a_7_anywhere() {
    for form in 1..=3 {
        for place in 0..4 {
            for bits in ODD {
                let mut floats = if form == 1 {
                    [1.0, 1.0, 1.0, 0.0]
                } else {
                    ONES
                }
                .map(f64::to_bits);
                floats[place] = bits;
                let [w, u, p, q] = floats;
                assert_eq!(
                    model::loss(form, 300, w, u, p, q),
                    Err(7),
                    "{form} {place} {bits:x}"
                );
            }
        }
    }
}

#[test]
fn the_least_floats_are_in_range_but_no_zero() {
    let least = f64::from_bits(1);
    assert_eq!(loss(3, 7, [least; 4]), Ok(0));
    assert_eq!(loss(2, 300, [least, least, 1.0, least]), Ok(0));
    assert_eq!(loss(1, 300, [1.0, least, least, least]), Err(7));
}

#[test]
fn seven_before_eight_before_nine() {
    let greatest = [1.0, 1e9, 1.0, 1.0];
    assert_eq!(loss(1, 7, [0.5, 0.0, 0.0, 0.0]), Err(7));
    assert_eq!(loss(1, 7, [1.0, 0.0, 0.0, 0.0]), Err(8));
    assert_eq!(loss(2, 7, [0.0, 0.0, 1.0, 0.0]), Err(8));
    assert_eq!(loss(2, 7, greatest), Err(8));
    assert_eq!(loss(2, 300, greatest), Err(9));
    assert_eq!(loss(3, 7, ONES), Ok(2_000_000_000));
    assert_eq!(loss(3, u16::MAX, [1e9; 4]), Err(9));
}

/// The floats just above 2,000,000 cut to 2×10^15 and are still declined. The fourth lies below
/// 2×10^15 + 1 exactly, but the rounding before the cut takes it there.
#[test]
fn nine_compares_the_kilograms() {
    let mut kg = 2_000_000.0f64;
    assert_eq!(loss(3, 7, [kg, 1.0, 0.0, 0.0]), Ok(2_000_000_000_000_000));
    assert_eq!(
        loss(3, 7, [kg.next_down(), 1.0, 0.0, 0.0]),
        Ok(1_999_999_999_999_999)
    );
    for cut in [2e15, 2e15, 2e15, 2e15 + 1.0] {
        kg = kg.next_up();
        assert_eq!((kg * 1e9).trunc(), cut);
        assert_eq!(loss(3, 7, [kg, 1.0, 0.0, 0.0]), Err(9));
    }
}

/// The f64 nearest 3×10^-9 lies below it: cut first, it would be 2 micrograms.
#[test]
fn micrograms_are_rounded_once_more_and_then_cut() {
    let table = [
        (1e-9, 1),
        (3e-9, 3),
        (7e-9, 7),
        (0.999e-9, 0),
        (1.999e-9, 1),
        (2.9999999999999996e-9, 2),
    ];
    for (kg, micrograms) in table {
        assert_eq!(loss(3, 7, [kg, 1.0, 0.0, 0.0]), Ok(micrograms), "{kg}");
    }
}

#[test]
fn zero_of_either_sign_loses_nothing() {
    assert_eq!(loss(1, 300, [1.0, -0.0, 1.0, -0.0]), Ok(0));
    assert_eq!(loss(2, 300, [-0.0, 1.0, 1.0, 1.0]), Ok(0));
    assert_eq!(loss(3, 300, [-0.0, 1.0, -0.0, 1.0]), Ok(0));
}

/// "Form 2 may have a partial pressure above the tank's."
#[test]
fn a_partial_pressure_above_the_tank_s_is_taken() {
    assert_eq!(
        loss(2, 392, [1.0, 20.0, 10.0, 1.0]),
        Ok(((0.041 * 86.0) * 1.0 * 2.0 * 1e9) as u64)
    );
}
