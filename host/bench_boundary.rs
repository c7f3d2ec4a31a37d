//! The exported C calls that the benchmark measures, made as a firmware makes them: a mixture's memory is lent, the head
//! goes in by value, and the next call gets the one that came back.

#[allow(dead_code)]
#[path = "../examples/kiltgrit.rs"]
mod kiltgrit;

use crate::bench_inputs::{Case, Quantity, NRTL, UNIFAC, UNIQUAC};
use crate::bench_port::Change;
use kiltgrit::{plain, Asked, Data, Mixture, Model, Refused, Setting};

fn data(case: &Case) -> Data<'_> {
    let model = match case.model {
        UNIQUAC => Model::Uniquac,
        NRTL => Model::Nrtl,
        UNIFAC => Model::Unifac,
        _ => Model::Wilson,
    };
    let (lens, groups, values) = (&case.lens[..], &case.groups[..], &case.values[..]);
    let (n, ng) = (case.n, case.ng);
    Data {
        model,
        n,
        ng,
        lens,
        groups,
        values,
    }
}

fn asked(case: &Case) -> Asked {
    match case.quantity {
        Quantity::LnGamma(i) => Asked::LnGamma(i),
        Quantity::Gamma(i) => Asked::Gamma(i),
        Quantity::ExcessGibbs => Asked::ExcessGibbs,
    }
}

/// Entry 0, 1, or UNIFAC's td entry, set again to what it is.
fn entry(case: &Case) -> Setting {
    match case.model {
        UNIFAC => Setting::TdEntry(0, 1, [case.entry(), 0.0, 0.0, 0.0, 0.0]),
        _ => Setting::Entry(0, 1, case.entry()),
    }
}

/// The value that all turns gave; a NaN where two differ.
fn value(first: f64, same: bool) -> f64 {
    if same {
        first
    } else {
        f64::NAN
    }
}

fn plain_each(case: &Case, temperatures: &[f64]) -> Result<f64, Refused> {
    let (data, what) = (data(case), asked(case));
    let first = plain(&data, temperatures[0], &case.x, what)?;
    let mut same = true;
    for &t in &temperatures[1..] {
        same &= plain(&data, t, &case.x, what)?.to_bits() == first.to_bits();
    }
    Ok(value(first, same))
}

/// The turns of `kiltgrit_repeat`, each call through C: the first sets T and asks, the others ask after the change.
pub fn repeat(case: &Case, change: Change, temperatures: &[f64]) -> Result<f64, Refused> {
    if let Change::Plain = change {
        return plain_each(case, temperatures);
    }
    let (what, again) = (asked(case), entry(case));
    let mut mixture = Mixture::open();
    mixture.load(&data(case))?;
    mixture.fractions(&case.x)?;
    mixture.set(Setting::Temperature(temperatures[0]))?;
    let first = mixture.query(what)?.0;
    let mut same = true;
    for &t in &temperatures[1..] {
        match change {
            Change::Entry => mixture.set(again)?,
            Change::Temperature => mixture.set(Setting::Temperature(t))?,
            _ => {}
        }
        same &= mixture.query(what)?.0.to_bits() == first.to_bits();
    }
    Ok(value(first, same))
}
