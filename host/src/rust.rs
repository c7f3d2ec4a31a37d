//! The original's answer to a plain call, with its refusals as document 01's numbers.

use crate::case::{Answer, Case, Quantity, NRTL, UNIFAC, UNIQUAC, WILSON};
use crate::compare::bits;
use crate::tolerance::{by_source, check_fault, is_usual};
use original::nrtl::Nrtl;
use original::parameters::{InteractionMatrix, TdMatrix, TdParam, Volumes};
use original::unifac::{GroupTable, UnifacModel, UnifacVariant};
use original::uniquac::{StructuralParams, Uniquac};
use original::wilson::Wilson;
use tpt_thermo_core::error::ThermoError;
use tpt_thermo_core::quantities::Temperature;

/// The mapping from the original's texts to document 01's numbers. On random inputs the texts of wrong sizes don't
/// come up, since `out_of_range` goes before; documented.rs has an input for each.
pub fn number(error: ThermoError) -> u32 {
    let ThermoError::InvalidInput(text) = error;
    match text {
        "InteractionMatrix must be square and non-empty"
        | "TdMatrix must be square and non-empty"
        | "Wilson volumes length mismatch"
        | "UNIQUAC matrix size mismatch"
        | "NRTL α matrix must match τ matrix size"
        | "UNIFAC group table dimension mismatch"
        | "UNIFAC component/group count mismatch" => 2,
        "UNIFAC group index out of range" => 3,
        "UNIFAC negative group count" => 4,
        "empty composition" => 5,
        "composition does not sum to 1" => 6,
        "composition/ index mismatch" | "composition length mismatch" => 7,
        _ => panic!("docs/DIFFERENCES.md has no number for {text:?}"),
    }
}

/// How many numbers the model's values are, for an n, ng and lists in range.
pub fn size(case: &Case) -> Option<usize> {
    let (n, ng) = (case.n, case.ng);
    match case.model {
        WILSON => Some(n * n + n),
        UNIQUAC => Some(n * n + 2 * n),
        NRTL => Some(6 * n * n),
        UNIFAC => Some(2 * ng + 5 * ng * ng + case.groups.len()),
        _ => None,
    }
}

/// Document 01's 2. The original's range is wider, so this isn't asked of it.
fn out_of_range(case: &Case) -> bool {
    let lists = || {
        let places = case.lens.iter().map(|&len| usize::from(len)).sum();
        (1..=32).contains(&case.ng)
            && case.lens.len() == case.n
            && case.lens.iter().all(|&len| len <= 12)
            && case.groups.len() == places
    };
    let fine = (1..=12).contains(&case.n)
        && (case.model != UNIFAC || lists())
        && size(case) == Some(case.values.all.len())
        && case.values.rest.is_empty();
    !fine
}

fn energies(values: &[f64], n: usize) -> InteractionMatrix {
    let mut a = InteractionMatrix::zeros(n);
    for i in 0..n {
        for j in 0..n {
            a.set(i, j, values[i * n + j]);
        }
    }
    a
}

fn td(five: &[f64]) -> TdParam {
    let [a, b, c, d, e] = five.try_into().unwrap();
    TdParam { a, b, c, d, e }
}

fn wilson(case: &Case) -> Result<Wilson, ThermoError> {
    let (n, values) = (case.n, &case.values.all);
    Wilson::new(energies(values, n), Volumes::new(values[n * n..].to_vec()))
}

fn uniquac(case: &Case) -> Result<Uniquac, ThermoError> {
    let (n, values) = (case.n, &case.values.all);
    let (r, q) = values[n * n..].split_at(n);
    let sizes = r.iter().copied().zip(q.iter().copied()).collect();
    Uniquac::new(StructuralParams::new(sizes), energies(values, n))
}

fn nrtl(case: &Case) -> Result<Nrtl, ThermoError> {
    let (n, values) = (case.n, &case.values.all);
    let (taus, alphas) = values.split_at(5 * n * n);
    let mut tau = TdMatrix::zeros(n);
    for i in 0..n {
        for j in 0..n {
            tau.set(i, j, td(&taus[5 * (i * n + j)..][..5]));
        }
    }
    Nrtl::new(tau, alphas.chunks(n).map(<[f64]>::to_vec).collect())
}

fn unifac(case: &Case, variant: UnifacVariant) -> Result<UnifacModel, ThermoError> {
    let (ng, values) = (case.ng, &case.values.all);
    let (r, rest) = values.split_at(ng);
    let (q, rest) = rest.split_at(ng);
    let (a, counts) = rest.split_at(5 * ng * ng);
    let rows = a.chunks((5 * ng).max(1));
    let a = rows.map(|row| row.chunks(5).map(td).collect()).collect();
    let mut pairs = case.groups.iter().zip(counts);
    let lists = case.lens.iter().map(|&len| {
        let list = pairs.by_ref().take(usize::from(len));
        list.map(|(&group, &count)| (usize::from(group), count))
            .collect()
    });
    let lists = lists.collect();
    let table = GroupTable::new(r.to_vec(), q.to_vec(), a)?;
    UnifacModel::new(case.n, lists, table, variant)
}

/// Makes the model and asks it.
macro_rules! ask {
    ($make:expr, $case:ident) => {{
        let model = $make?;
        let t = Temperature { value: $case.t };
        let x = &$case.x.all;
        match $case.quantity {
            Quantity::LnGamma(i) => model.ln_gamma_at(t, x, i),
            Quantity::Gamma(i) => model.gamma_at(t, x, i),
            Quantity::ExcessGibbs => model.reduced_excess_gibbs_at(t, x),
        }
    }};
}

/// The original's value or refusal, in its own range.
pub fn ask_model(case: &Case, variant: UnifacVariant) -> Result<f64, ThermoError> {
    match case.model {
        WILSON => ask!(wilson(case), case),
        UNIQUAC => ask!(uniquac(case), case),
        NRTL => ask!(nrtl(case), case),
        _ => ask!(unifac(case, variant), case),
    }
}

/// The original's own answer, in its own range, with UNIFAC's variant.
pub fn asked_as(case: &Case, variant: UnifacVariant) -> Answer {
    match ask_model(case, variant) {
        Err(error) => Answer::Refused(number(error)),
        Ok(v) => Answer::Value(bits(v)),
    }
}

/// The same with either variant: the port drops it, since it changes nothing in these calls.
pub fn asked(case: &Case) -> Answer {
    match case.n % 2 {
        0 => asked_as(case, UnifacVariant::Original),
        _ => asked_as(case, UnifacVariant::Dortmund),
    }
}

/// What document 01 says that the call answers, by the original from 3 on and so with its tolerance. A rest of the
/// fractions' bytes gives 7, after 5 and 6.
pub fn answer(case: &Case) -> Answer {
    if out_of_range(case) {
        return Answer::Refused(2);
    }
    match asked(case) {
        Answer::Value(_) if !case.x.rest.is_empty() => Answer::Refused(7),
        answer => answer,
    }
}

/// 3 and 4, by the original's constructor alone.
fn model_fault(case: &Case) -> u32 {
    let made = match case.model {
        WILSON => wilson(case).map(drop),
        UNIQUAC => uniquac(case).map(drop),
        NRTL => nrtl(case).map(drop),
        _ => unifac(case, UnifacVariant::Original).map(drop),
    };
    made.map_or_else(number, |()| 0)
}

/// 7: not n fractions, no such component, or a rest of the fractions' bytes.
fn mismatch(case: &Case) -> u32 {
    let past = match case.quantity {
        Quantity::LnGamma(i) | Quantity::Gamma(i) => i >= case.n,
        Quantity::ExcessGibbs => false,
    };
    match past || case.x.all.len() != case.n || !case.x.rest.is_empty() {
        true => 7,
        false => 0,
    }
}

/// What the call answers with any tolerance; none where that is a value but the original, with its own, refuses the
/// fractions.
pub fn answer_at(case: &Case) -> Option<Answer> {
    if is_usual(case.tolerance) || out_of_range(case) {
        return Some(answer(case));
    }
    let check = check_fault(case.tolerance, &case.x.all);
    let faults = [model_fault(case), check, mismatch(case)];
    match faults.into_iter().find(|number| *number != 0) {
        Some(number) => Some(Answer::Refused(number)),
        None if by_source(&case.x.all) != 0 => None,
        None => Some(asked(case)),
    }
}
