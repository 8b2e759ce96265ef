//! The calculations but that of a partial pressure, over edges and random numbers, and the cells that a decline must leave.

use prtr::{raw, Class, Decline, Form};
use trials::cell::{left, BEFORE};
use trials::floats::{any, edges, within, RANGES};
use trials::rng::Rng;
use trials::site::{ROWS, WHOLE};
use trials::trial::{cases, say, Trial};

/// Powers of ten and two, halves of steps, the thresholds, and the numbers beside each.
fn edge_amounts() -> Vec<u64> {
    let tens = (0..20).map(|power| 10u64.pow(power));
    let halves = (7..=18).flat_map(|power| {
        [1, 3, 19, 21, 99, 197, 199, 201].map(|n| 10u64.pow(power).checked_mul(n * 5))
    });
    let twos = (0..64).map(|power| 1u64 << power);
    let others = [
        u64::MAX,
        500_000_000_000,
        9_950_000_000,
        2_000_000_000_000_000,
        8_000_000_000_000_000_000,
    ];
    let mut amounts: Vec<u64> = tens
        .chain(halves.flatten())
        .chain(twos)
        .chain(others)
        .flat_map(|amount| [amount.wrapping_sub(1), amount, amount.wrapping_add(1)])
        .collect();
    amounts.sort_unstable();
    amounts.dedup();
    amounts
}

/// Edges, then as many random amounts of every size.
fn amounts(rng: &mut Rng, count: u64) -> impl Iterator<Item = u64> + '_ {
    edge_amounts()
        .into_iter()
        .chain(cases(count).map(|_| rng.size(u64::MAX)))
}

fn edge_rates() -> [u32; 12] {
    [
        0,
        1,
        2,
        333_333,
        499_999,
        500_000,
        999_999,
        WHOLE,
        WHOLE + 1,
        WHOLE + 2,
        1 << 31,
        u32::MAX,
    ]
}

fn compare_counted(trial: &mut Trial, class: u8, ppm: u32) {
    let call = || format!("counted({class}, {ppm})");
    let model = || model::counted(class, ppm);
    let raw = || {
        let mut cell = BEFORE as u32;
        (raw::counted(class, ppm, &mut cell), cell)
    };
    trial.same(call, raw, || left(model(), BEFORE as u32));
    let safe = || prtr::counted(Class::try_from(class)?, ppm);
    trial.same(call, || safe().map_err(Decline::number), model);
}

fn compare_split(trial: &mut Trial, total: u64, removal: u32, destruction: u32) {
    let call = || format!("split({total}, {removal}, {destruction})");
    let model = || {
        let parts = model::split(total, removal, destruction)?;
        Ok([parts.released, parts.destroyed, parts.residue])
    };
    let before = [BEFORE, BEFORE + 1, BEFORE + 2];
    let raw = || {
        let [mut a, mut b, mut c] = before;
        let status = raw::split(total, removal, destruction, &mut a, &mut b, &mut c);
        (status, [a, b, c])
    };
    trial.same(call, raw, || left(model(), before));
    let safe = || {
        let parts = prtr::split(total, removal, destruction).map_err(Decline::number)?;
        Ok([parts.released, parts.destroyed, parts.residue])
    };
    trial.same(call, safe, model);
}

fn compare_case(trial: &mut Trial, amount: u64) {
    let call = || format!("case({amount})");
    let model = || {
        let case = model::case(amount);
        (case.number, case.step)
    };
    let raw = || {
        let mut cell = BEFORE as u8;
        let step = raw::case(amount, &mut cell);
        (cell, step)
    };
    trial.same(call, raw, model);
    let safe = || {
        let case = prtr::case(amount);
        (case.number, case.step)
    };
    trial.same(call, safe, model);
}

fn compare_due(trial: &mut Trial, class: u8, handled: u64) {
    let call = || format!("due({class}, {handled})");
    let model = || model::due(class, handled);
    let raw = || {
        let mut cell = BEFORE as u8;
        (raw::due(class, handled, &mut cell), cell)
    };
    let number = || model().map(u8::from);
    trial.same(call, raw, || left(number(), BEFORE as u8));
    let safe = || Ok(prtr::due(Class::try_from(class)?, handled));
    trial.same(call, || safe().map_err(Decline::number), model);
}

/// The form with its measurements; none for another number, or where form 1 has a fourth float.
fn form_of(form: u8, floats: [u64; 4]) -> Option<Form> {
    let [w, u, p, q] = floats.map(f64::from_bits);
    Some(match form {
        1 if floats[3] == 0 => Form::FloatingRoof {
            diameter: w,
            content: u,
            drawn: p,
        },
        2 => Form::FixedRoof {
            volume: w,
            partial: u,
            tank: p,
            share: q,
        },
        3 => Form::Station {
            received: w,
            filling: u,
            dispensed: p,
            fuelling: q,
        },
        _ => return None,
    })
}

/// Gives the status, so that a test can count the declines.
fn compare_loss(trial: &mut Trial, form: u8, number: u16, floats: [u64; 4]) -> u8 {
    let [w, u, p, q] = floats;
    let call = || format!("loss({form}, {number}, {floats:016x?})");
    let model = || model::loss(form, number, w, u, p, q);
    let bits = || prtr::loss_bits(form, number, w, u, p, q).map_err(Decline::number);
    trial.same(call, bits, model);
    if let Some(form) = form_of(form, floats) {
        let safe = || prtr::loss(form, number).map_err(Decline::number);
        trial.same(call, safe, model);
    }
    let raw = || {
        let mut cell = BEFORE;
        (raw::loss(form, number, floats, &mut cell), cell)
    };
    trial.same(call, raw, || left(model(), BEFORE));
    raw().0
}

#[test]
fn counted_contents() {
    let mut trial = Trial::new("counted contents");
    for ppm in 0..=WHOLE + 1_000 {
        compare_counted(&mut trial, 1, ppm);
        compare_counted(&mut trial, 2, ppm);
    }
    let mut rng = trial.rng(1, 0);
    for class in 0..=255 {
        let any = cases(100).map(|_| rng.word() as u32);
        edge_rates()
            .into_iter()
            .chain(any)
            .for_each(|ppm| compare_counted(&mut trial, class, ppm));
    }
}

#[test]
fn splits() {
    let mut trial = Trial::new("splits");
    for total in edge_amounts() {
        for removal in edge_rates() {
            edge_rates()
                .into_iter()
                .for_each(|destruction| compare_split(&mut trial, total, removal, destruction));
        }
    }
    let mut rng = trial.rng(1, 0);
    for _ in cases(1_000_000) {
        let [removal, destruction] = [(); 2].map(|()| rng.below(WHOLE as u64 + 50) as u32);
        compare_split(&mut trial, rng.size(u64::MAX), removal, destruction);
    }
}

#[test]
fn cases_steps_and_figures() {
    let mut trial = Trial::new("cases, steps and figures");
    let mut rng = trial.rng(1, 0);
    for amount in amounts(&mut rng, 1_000_000) {
        let step = || format!("step({amount})");
        let figure = || format!("figure({amount})");
        compare_case(&mut trial, amount);
        trial.same(step, || raw::step(amount), || model::step(amount));
        trial.same(step, || prtr::step(amount), || model::step(amount));
        trial.same(figure, || raw::figure(amount), || model::figure(amount));
        trial.same(figure, || prtr::figure(amount), || model::figure(amount));
    }
}

#[test]
fn thresholds() {
    let mut trial = Trial::new("thresholds");
    let mut rng = trial.rng(1, 0);
    for class in 0..=255 {
        edge_amounts()
            .into_iter()
            .for_each(|handled| compare_due(&mut trial, class, handled));
    }
    for handled in amounts(&mut rng, 500_000) {
        compare_due(&mut trial, 1, handled);
        compare_due(&mut trial, 2, handled);
    }
}

/// A management number: mostly one that has a row.
fn any_number(rng: &mut Rng) -> u16 {
    match rng.below(8) {
        0 => rng.word() as u16,
        1 => rng.pick(&[
            0,
            1,
            52,
            54,
            79,
            81,
            299,
            301,
            391,
            393,
            399,
            401,
            309,
            592,
            u16::MAX,
        ]),
        _ => rng.pick(&ROWS),
    }
}

#[test]
fn losses() {
    let mut trial = Trial::new("losses");
    let mut rng = trial.rng(1, 0);
    let mut met = [0u64; 13];
    for _ in cases(1_000_000) {
        let form = if rng.once_in(32) {
            rng.word() as u8
        } else {
            rng.range(1, 3) as u8
        };
        let ranges = RANGES[(form.clamp(1, 3) - 1) as usize];
        let floats = match rng.below(4) {
            0 => ranges.map(|range| any(&mut rng, range)),
            _ => ranges.map(|range| within(&mut rng, range).to_bits()),
        };
        let number = any_number(&mut rng);
        met[compare_loss(&mut trial, form, number, floats) as usize] += 1;
    }
    say(&format!(
        "losses: taken {}, declined 6:{} 7:{} 8:{} 9:{}",
        met[0], met[6], met[7], met[8], met[9]
    ));
    for number in [0, 6, 7, 8, 9] {
        assert!(
            met[number] > 1_000,
            "answer {number} was met only {} times",
            met[number]
        );
    }
}

/// An input is declined by 7 exactly where it is outside its range.
#[test]
fn float_edges() {
    let mut trial = Trial::new("float edges");
    let usual = [
        [14.0, 0.62, 36_000.0, 0.0],
        [2_000.0, 1_550.0, 98_100.0, 1.0],
        [1_500.0, 0.0027, 1_420.0, 0.0034],
    ];
    for (form, (ranges, usual)) in (1u8..).zip(RANGES.into_iter().zip(usual)) {
        for place in 0..4 {
            for bits in edges(ranges[place]) {
                let mut floats = usual.map(f64::to_bits);
                floats[place] = bits;
                let within = (ranges[place].0..=ranges[place].1).contains(&f64::from_bits(bits));
                let status = compare_loss(&mut trial, form, 300, floats);
                if (status == 7) == within {
                    let said = format!("form {form}, {floats:016x?}: status {status}");
                    trial.fail(said.as_bytes(), &said);
                }
            }
        }
    }
}

/// Around 2,000,000 kg, where the kg are compared and not the micrograms.
#[test]
fn loss_limit() {
    let mut trial = Trial::new("loss limit");
    let limit = 2_000_000f64.to_bits();
    for bits in limit - 1_000..limit + 1_000 {
        let status = compare_loss(&mut trial, 3, 1, [bits, 1f64.to_bits(), 0, 1 << 63]);
        if status != if bits > limit { 9 } else { 0 } {
            let said = format!("a loss of {bits:016x} kg: status {status}");
            trial.fail(said.as_bytes(), &said);
        }
    }
}
