//! Partial pressures over edges, every mixture of three in whole percents and generated ones, and form 2 over each.

use prtr::{raw, Decline, Form};
use trials::cell::{left, BEFORE};
use trials::floats::{edges, of_bits, MANY};
use trials::mixtures::{Mixture, CONTENT, MOST_PARTS, PRESSURE, WEIGHT};
use trials::trial::{cases, say, Trial};

/// No partial pressure exceeds it, in Pa.
const MOST: f64 = (1u64 << 30) as f64;
/// M of toluene, xylene and benzene.
const THREE: [f64; 3] = [92.1, 106.2, 78.1];

/// Stops with a mixture in a file.
fn fail(trial: &Trial, mixture: &Mixture, said: &str) -> ! {
    let said = format!("{mixture:016x?}: {said}");
    trial.fail(said.as_bytes(), &said)
}

/// What the library answers, and what it leaves in the cell.
fn library(contents: &[u64], weights: &[u64], named: usize, pressure: u64) -> (u8, u64) {
    let mut cell = BEFORE;
    let status = raw::pressure(contents, weights, named, pressure, &mut cell);
    (status, cell)
}

/// Gives the partial pressure where the mixture is taken, so that a test can see where it is declined.
fn compare(trial: &mut Trial, mixture: &Mixture) -> Option<f64> {
    let (contents, weights) = (&mixture.contents, &mixture.weights);
    let (named, pressure) = (mixture.named, mixture.pressure);
    let call = || format!("pressure of {mixture:016x?}");
    let model = || model::pressure(contents, weights, named, pressure);
    let raw = || library(contents, weights, named, pressure);
    trial.same(call, raw, || left(model(), BEFORE));
    let [contents, weights] = [contents, weights].map(|list| of_bits(list));
    let safe = || prtr::pressure(&contents, &weights, named, f64::from_bits(pressure));
    let safe = || safe().map(f64::to_bits).map_err(Decline::number);
    trial.same(call, safe, model);
    match model() {
        Ok(partial) => {
            let partial = f64::from_bits(partial);
            compare_filling(trial, mixture, partial);
            Some(partial)
        }
        Err(18) => None,
        Err(number) => fail(trial, mixture, &format!("declined by {number}")),
    }
}

/// Form 2 over a pressure that is taken: it is in 0 to 2^30, and what is above 10^9 is declined by 7.
fn compare_filling(trial: &mut Trial, mixture: &Mixture, partial: f64) {
    if !(0.0..=MOST).contains(&partial) {
        fail(trial, mixture, &format!("a pressure of {partial}"));
    }
    let tank = Form::FixedRoof {
        volume: 2_000.0,
        partial,
        tank: 98_100.0,
        share: 1.0,
    };
    let [w, u, p, q] = tank.floats().map(f64::to_bits);
    let model = || model::loss(2, 300, w, u, p, q);
    let library = || prtr::loss(tank, 300).map_err(Decline::number);
    trial.same(|| format!("filling over {mixture:016x?}"), library, model);
    if (model() == Err(7)) != (partial > MANY) {
        fail(trial, mixture, &format!("{:?} of {partial} Pa", model()));
    }
}

/// Stops where a mixture isn't taken that should be, or is that shouldn't.
fn expect(trial: &mut Trial, mixture: &Mixture, taken: bool) -> Option<f64> {
    let partial = compare(trial, mixture);
    if partial.is_some() != taken {
        fail(trial, mixture, &format!("{partial:?} Pa"));
    }
    partial
}

/// Every mixture of toluene, xylene and benzene in whole percents, and each part of it.
#[test]
fn whole_percents() {
    let mut trial = Trial::new("whole percents");
    for toluene in 1..=98 {
        for xylene in 1..=99 - toluene {
            let contents = [toluene, xylene, 100 - toluene - xylene].map(f64::from);
            for (named, pressure) in [3.75e3, 1.33e3, 13.3e3].into_iter().enumerate() {
                let mixture = Mixture::of(&contents, &THREE, named, pressure);
                expect(&mut trial, &mixture, true);
            }
        }
    }
}

/// A value is declined exactly where it is outside its range, whatever part is named.
#[test]
fn value_edges() {
    let mut trial = Trial::new("value edges");
    let mut rng = trial.rng(1, 0);
    for parts in 1..=MOST_PARTS {
        let usual = Mixture::sized(&mut rng, parts);
        for named in 0..parts {
            let usual = Mixture {
                named,
                ..usual.clone()
            };
            for place in 0..parts {
                edge_values(&mut trial, &usual, CONTENT, |m, bits| {
                    m.contents[place] = bits
                });
                edge_values(&mut trial, &usual, WEIGHT, |m, bits| {
                    m.weights[place] = bits
                });
            }
            edge_values(&mut trial, &usual, PRESSURE, |m, bits| m.pressure = bits);
        }
    }
}

/// Puts each edge of a range in a mixture that is else taken.
fn edge_values(
    trial: &mut Trial,
    usual: &Mixture,
    range: (f64, f64),
    put: impl Fn(&mut Mixture, u64),
) {
    for bits in edges(range) {
        let mut mixture = usual.clone();
        put(&mut mixture, bits);
        let within = (range.0..=range.1).contains(&f64::from_bits(bits));
        expect(trial, &mixture, within);
    }
}

/// A mixture has one to eight parts, as many M as contents, and the named part among them.
#[test]
fn lengths_and_places() {
    let mut trial = Trial::new("lengths and places");
    let whole = Mixture::sized(&mut trial.rng(1, 0), 20);
    for contents in 0..=20 {
        for weights in 0..=20 {
            for named in (0..=20).chain([1 << 32, 1 << 63, usize::MAX]) {
                let mixture = Mixture {
                    contents: whole.contents[..contents].to_vec(),
                    weights: whole.weights[..weights].to_vec(),
                    named,
                    pressure: whole.pressure,
                };
                let parts = contents == weights && contents <= MOST_PARTS;
                expect(&mut trial, &mixture, parts && named < contents);
            }
        }
    }
}

/// A part alone, whose pressure may come out beside itself: of 10^9 also above.
#[test]
fn parts_alone() {
    let mut trial = Trial::new("parts alone");
    let mut above = 0;
    for content in (1..=10_000).map(|hundredths| f64::from(hundredths) / 100.0) {
        for weight in THREE {
            for pressure in [MANY, MANY.next_down(), 3.75e3, f64::from_bits(1), -0.0] {
                let mixture = Mixture::of(&[content], &[weight], 0, pressure);
                let partial = expect(&mut trial, &mixture, true);
                above += u64::from(partial > Some(MANY));
            }
        }
    }
    say(&format!("parts alone: {above} pressures above 10^9 Pa"));
    assert!(above > 1_000, "only {above} pressures were above 10^9 Pa");
}

/// One list may be lent as both.
#[test]
fn a_list_lent_twice() {
    let mut trial = Trial::new("a list lent twice");
    let mut rng = trial.rng(1, 0);
    for _ in cases(1_000) {
        let Mixture {
            weights: list,
            named,
            pressure,
            ..
        } = Mixture::any(&mut rng);
        let call = || format!("pressure of {list:016x?} twice, {named}, {pressure:016x}");
        let twice = || library(&list, &list, named, pressure);
        let model = || model::pressure(&list, &list, named, pressure);
        trial.same(call, twice, || left(model(), BEFORE));
    }
}

#[test]
fn any_mixtures() {
    let mut trial = Trial::new("any mixtures");
    let mut rng = trial.rng(1, 0);
    let mut taken = [0; MOST_PARTS + 1];
    let mut declined = 0;
    for _ in cases(1_000_000) {
        let mixture = Mixture::any(&mut rng);
        match compare(&mut trial, &mixture) {
            Some(_) => taken[mixture.contents.len()] += 1,
            None => declined += 1,
        }
    }
    say(&format!(
        "any mixtures: taken by parts {:?}, declined {declined}",
        &taken[1..]
    ));
    for (parts, count) in taken.into_iter().enumerate().skip(1) {
        assert!(
            count > 10_000,
            "{parts} parts were taken only {count} times"
        );
    }
    assert!(declined > 100_000, "only {declined} mixtures were declined");
}
