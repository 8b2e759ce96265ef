//! F1–F13, and the limits of the first library.

use model::{case, counted, due, figure, split, step, Case, Parts};

const G: u64 = 1_000_000_000;

#[test]
fn f1_to_f9_filed_figures() {
    let table = [
        (49_999_999, 0),
        (50_000_000, G / 10),
        (8_840_302_000, 88 * G / 10),
        (9_949_999_999, 99 * G / 10),
        (9_950_000_000, 10 * G),
        (99_500_000_000, 100 * G),
        (102 * G, 100 * G),
        (225 * G, 230 * G),
        (588 * G, 590 * G),
    ];
    for (amount, filed) in table {
        assert_eq!(figure(amount), filed, "{amount}");
    }
}

#[test]
fn f10_due_from_the_threshold() {
    assert_eq!(due(1, 1_000_000_000_000 - 1), Ok(false));
    assert_eq!(due(1, 1_000_000_000_000), Ok(true));
    assert_eq!(due(2, 500_000_000_000 - 1), Ok(false));
    assert_eq!(due(2, 500_000_000_000), Ok(true));
    assert_eq!((due(1, u64::MAX), due(2, 0)), (Ok(true), Ok(false)));
    assert_eq!((due(0, 1), due(3, 1)), (Err(6), Err(6)));
}

#[test]
fn f11_counted_from_the_cut() {
    assert_eq!(counted(1, 9_999), Ok(0));
    assert_eq!(counted(1, 10_000), Ok(10_000));
    assert_eq!(counted(2, 999), Ok(0));
    assert_eq!(counted(2, 1_000), Ok(1_000));
    assert_eq!(counted(1, 1_000_000), Ok(1_000_000));
    assert_eq!(
        (counted(1, 1_000_001), counted(2, u32::MAX)),
        (Err(6), Err(6))
    );
    assert_eq!((counted(0, 0), counted(3, 10_000)), (Err(6), Err(6)));
}

#[test]
fn f12_f13_split() {
    assert_eq!(
        split(7, 500_000, 500_000),
        Ok(Parts {
            released: 4,
            destroyed: 1,
            residue: 2
        })
    );
    for destruction in [0, 1, 999_999, 1_000_000] {
        assert_eq!(
            split(1, 999_999, destruction),
            Ok(Parts {
                released: 1,
                destroyed: 0,
                residue: 0
            })
        );
    }
}

#[test]
fn split_takes_any_total_and_rates_to_a_million() {
    let all = Parts {
        released: 0,
        destroyed: u64::MAX,
        residue: 0,
    };
    assert_eq!(split(u64::MAX, 1_000_000, 1_000_000), Ok(all));
    let none = Parts {
        released: u64::MAX,
        destroyed: 0,
        residue: 0,
    };
    assert_eq!(split(u64::MAX, 0, 1_000_000), Ok(none));
    // 18,446,744,073,709,551,615 × 0.5 and again × 0.5, each rounded down.
    let halves = Parts {
        released: 9_223_372_036_854_775_808,
        destroyed: 4_611_686_018_427_387_903,
        residue: 4_611_686_018_427_387_904,
    };
    assert_eq!(split(u64::MAX, 500_000, 500_000), Ok(halves));
    assert_eq!(split(0, 1_000_001, 0), Err(6));
    assert_eq!(split(0, 0, 1_000_001), Err(6));
    assert_eq!(split(0, u32::MAX, u32::MAX), Err(6));
}

#[test]
fn step_is_that_of_the_exact_amount() {
    let table = [
        (0, G / 10),
        (9_950_000_000, G / 10),
        (10 * G - 1, G / 10),
        (10 * G, G),
        (100 * G - 1, G),
        (100 * G, 10 * G),
        (u64::MAX, G * G),
    ];
    for (amount, taken) in table {
        assert_eq!(step(amount), taken, "{amount}");
    }
}

/// "Eleven cases: below 10^10 micrograms, then one per decade, the last from 10^19, each with its
/// step", "numbered from 0": the first amount of each, the one below it and some inside.
#[test]
fn cases_are_the_decades() {
    let table: [(u64, u64); 11] = [
        (0, 100_000_000),
        (10_000_000_000, 1_000_000_000),
        (100_000_000_000, 10_000_000_000),
        (1_000_000_000_000, 100_000_000_000),
        (10_000_000_000_000, 1_000_000_000_000),
        (100_000_000_000_000, 10_000_000_000_000),
        (1_000_000_000_000_000, 100_000_000_000_000),
        (10_000_000_000_000_000, 1_000_000_000_000_000),
        (100_000_000_000_000_000, 10_000_000_000_000_000),
        (1_000_000_000_000_000_000, 100_000_000_000_000_000),
        (10_000_000_000_000_000_000, 1_000_000_000_000_000_000),
    ];
    for (number, (from, step)) in (0u8..).zip(table) {
        for inside in [from, from + 1, from + step, from + from / 2] {
            assert_eq!(case(inside), Case { number, step }, "{inside}");
        }
        if number > 0 {
            let before = Case {
                number: number - 1,
                step: table[number as usize - 1].1,
            };
            assert_eq!(case(from - 1), before, "{from}");
        }
    }
    let last = Case {
        number: 10,
        step: G * G,
    };
    assert_eq!(case(u64::MAX), last);
}

#[test]
fn figure_rounds_half_up_at_any_size() {
    assert_eq!(figure(0), 0);
    assert_eq!(figure(10_499_999_999), 10 * G);
    assert_eq!(figure(10_500_000_000), 11 * G);
    assert_eq!(figure(99_499_999_999), 99 * G);
    assert_eq!(figure(u64::MAX), 18 * G * G);
    assert_eq!(figure(17_500_000_000_000_000_000), 18 * G * G);
    assert_eq!(figure(9_950_000_000_000_000_000), 10 * G * G);
}

/// "Rounding per stage: 14.4 and 14.4 kg file as 29, not 28."
#[test]
fn rounding_is_of_the_sum() {
    assert_eq!(figure(14_400_000_000 * 2), 29 * G);
    assert_eq!(figure(14_400_000_000) * 2, 28 * G);
}
