//! The papers' own forms, in f64 with document 01's exp and log: what docs/DIFFERENCES.md calls the paper's. Of a
//! case they read only what the papers have.

use crate::case::{Case, Quantity, NRTL, UNIQUAC, WILSON};
use libm::{exp, log};

/// The sum of f(0), .., f(n − 1).
fn sum(n: usize, f: impl Fn(usize) -> f64) -> f64 {
    (0..n).fold(0.0, |s, k| s + f(k))
}

/// What is asked, from ln γ of each component and the excess energy.
fn asked(case: &Case, ln_gamma: impl Fn(usize) -> f64, excess: impl Fn() -> f64) -> f64 {
    match case.quantity {
        Quantity::LnGamma(i) => ln_gamma(i),
        Quantity::Gamma(i) => exp(ln_gamma(i)),
        Quantity::ExcessGibbs => excess(),
    }
}

/// Wilson (1964), who writes A_j/i for 1 − Λ_ij.
fn wilson(case: &Case) -> f64 {
    let (n, x) = (case.n, &case.x.all);
    let (energies, volumes) = case.values.all.split_at(n * n);
    let a = |j: usize, i: usize| {
        let e = exp(-(energies[i * n + j] - energies[i * n + i]) / case.t);
        1.0 - volumes[j] / volumes[i] * e
    };
    let rest = |i: usize| 1.0 - sum(n, |j| x[j] * a(j, i));
    let ln_gamma = |k: usize| 1.0 - log(rest(k)) - sum(n, |i| x[i] * (1.0 - a(k, i)) / rest(i));
    asked(case, ln_gamma, || sum(n, |i| -x[i] * log(rest(i))))
}

/// φ_i/x_i and θ_i/φ_i, at x_i = 0 their limits.
fn ratios(r: &[f64], q: &[f64], x: &[f64], i: usize) -> (f64, f64) {
    let n = x.len();
    let (rs, qs) = (sum(n, |j| x[j] * r[j]), sum(n, |j| x[j] * q[j]));
    if x[i] == 0.0 {
        return (r[i] / rs, q[i] / qs / (r[i] / rs));
    }
    let (phi, theta) = (x[i] * r[i] / rs, x[i] * q[i] / qs);
    (phi / x[i], theta / phi)
}

/// The combinatorial term of UNIQUAC and UNIFAC, with Z = 10.
fn combinatorial(r: &[f64], q: &[f64], x: &[f64], i: usize) -> f64 {
    let (segments, areas) = ratios(r, q, x, i);
    let l = |j: usize| 5.0 * (r[j] - q[j]) - (r[j] - 1.0);
    log(segments) + 5.0 * q[i] * log(areas) + l(i) - segments * sum(x.len(), |j| x[j] * l(j))
}

/// Abrams and Prausnitz (1975).
fn uniquac(case: &Case) -> f64 {
    let (n, x) = (case.n, &case.x.all);
    let (a, sizes) = case.values.all.split_at(n * n);
    let (r, q) = sizes.split_at(n);
    let tau = |i: usize, j: usize| exp(-(a[i * n + j] - a[j * n + j]) / case.t);
    let theta = |i: usize| x[i] * q[i] / sum(n, |j| x[j] * q[j]);
    let column = |i: usize| sum(n, |j| theta(j) * tau(j, i));
    let ln_gamma = |i: usize| {
        let shares = sum(n, |j| theta(j) * tau(i, j) / column(j));
        combinatorial(r, q, x, i) + q[i] * (1.0 - log(column(i)) - shares)
    };
    asked(case, ln_gamma, || {
        sum(n, |i| x[i] * log(ratios(r, q, x, i).0))
            + 5.0 * sum(n, |i| q[i] * x[i] * log(ratios(r, q, x, i).1))
            - sum(n, |i| q[i] * x[i] * log(column(i)))
    })
}

/// Renon and Prausnitz (1968): τ_ij is an energy over T, so only b counts, and α_ji is α_ij.
fn nrtl(case: &Case) -> f64 {
    let (n, x) = (case.n, &case.x.all);
    let (fives, alphas) = case.values.all.split_at(5 * n * n);
    let tau = |i: usize, j: usize| {
        if i == j {
            0.0
        } else {
            fives[5 * (i * n + j) + 1] / case.t
        }
    };
    let g = |i: usize, j: usize| exp(-alphas[i.min(j) * n + i.max(j)] * tau(i, j));
    let column = |i: usize| sum(n, |k| x[k] * g(k, i));
    let mean = |i: usize| sum(n, |j| x[j] * g(j, i) * tau(j, i)) / column(i);
    let ln_gamma =
        |i: usize| mean(i) + sum(n, |j| x[j] * g(i, j) / column(j) * (tau(i, j) - mean(j)));
    asked(case, ln_gamma, || sum(n, |i| x[i] * mean(i)))
}

/// The groups of a case: R, Q, and for each component how often it has each group, a group listed twice added up.
struct Groups<'a> {
    r: &'a [f64],
    q: &'a [f64],
    counts: Vec<Vec<f64>>,
}

impl<'a> Groups<'a> {
    fn of(case: &'a Case) -> Self {
        let ng = case.ng;
        let (r, rest) = case.values.all.split_at(ng);
        let (q, rest) = rest.split_at(ng);
        let mut pairs = case.groups.iter().zip(&rest[5 * ng * ng..]);
        let counts = case.lens.iter().map(|&len| {
            let mut counts = vec![0.0; ng];
            for (&group, &count) in pairs.by_ref().take(usize::from(len)) {
                counts[usize::from(group)] += count;
            }
            counts
        });
        let counts = counts.collect();
        Self { r, q, counts }
    }

    /// Each component's size, from the groups' R or Q.
    fn sizes(&self, of: &[f64]) -> Vec<f64> {
        let counts = self.counts.iter();
        counts
            .map(|counts| sum(of.len(), |k| counts[k] * of[k]))
            .collect()
    }

    /// ln Γ of group k where there is as much of each group as `amounts` says.
    fn ln_group(&self, amounts: &[f64], psi: &impl Fn(usize, usize) -> f64, k: usize) -> f64 {
        let (ng, q) = (amounts.len(), self.q);
        let fraction = |m: usize| amounts[m] / sum(ng, |n| amounts[n]);
        let theta = |m: usize| q[m] * fraction(m) / sum(ng, |n| q[n] * fraction(n));
        let column = |m: usize| sum(ng, |n| theta(n) * psi(n, m));
        q[k] * (1.0 - log(column(k)) - sum(ng, |m| theta(m) * psi(k, m) / column(m)))
    }

    fn residual(&self, x: &[f64], psi: impl Fn(usize, usize) -> f64, i: usize) -> f64 {
        let (ng, pure) = (self.q.len(), &self.counts[i]);
        let amount = |k: usize| sum(x.len(), |j| x[j] * self.counts[j][k]);
        let mixed: Vec<f64> = (0..ng).map(amount).collect();
        sum(ng, |k| {
            pure[k] * (self.ln_group(&mixed, &psi, k) - self.ln_group(pure, &psi, k))
        })
    }
}

/// Fredenslund, Jones and Prausnitz (1975): a_mn is a number, so only the record's a counts, and a_mm is 0.
fn unifac(case: &Case) -> f64 {
    let (ng, x) = (case.ng, &case.x.all);
    let groups = Groups::of(case);
    let (r, q) = (groups.sizes(groups.r), groups.sizes(groups.q));
    let a = |m: usize, n: usize| case.values.all[2 * ng + 5 * (m * ng + n)];
    let psi = |m: usize, n: usize| if m == n { 1.0 } else { exp(-a(m, n) / case.t) };
    let ln_gamma = |i: usize| combinatorial(&r, &q, x, i) + groups.residual(x, psi, i);
    asked(case, ln_gamma, || sum(case.n, |i| x[i] * ln_gamma(i)))
}

/// The published Dortmund form: r to the power 3/4 in part of the combinatorial term, and a_mn(T) = a + b·T + c·T².
/// Its a and b are the record's a and d; its c, for which the record has no place, is 0 but for a_01's.
pub fn dortmund(case: &Case, c_01: f64) -> f64 {
    let (n, ng, x, t) = (case.n, case.ng, &case.x.all, case.t);
    let groups = Groups::of(case);
    let (r, q) = (groups.sizes(groups.r), groups.sizes(groups.q));
    let bent: Vec<f64> = r.iter().map(|&r| exp(0.75 * log(r))).collect();
    let share = |sizes: &[f64], i: usize| sizes[i] / sum(n, |j| x[j] * sizes[j]);
    let psi = |m: usize, n: usize| {
        let five = &case.values.all[2 * ng + 5 * (m * ng + n)..][..5];
        let c = if (m, n) == (0, 1) { c_01 } else { 0.0 };
        exp(-(five[0] + five[3] * t + c * t * t) / t)
    };
    let ln_gamma = |i: usize| {
        let (v, ratio) = (share(&bent, i), share(&r, i) / share(&q, i));
        1.0 - v + log(v) - 5.0 * q[i] * (1.0 - ratio + log(ratio)) + groups.residual(x, psi, i)
    };
    asked(case, ln_gamma, || sum(n, |i| x[i] * ln_gamma(i)))
}

/// What the model's paper gives.
pub fn value(case: &Case) -> f64 {
    match case.model {
        WILSON => wilson(case),
        UNIQUAC => uniquac(case),
        NRTL => nrtl(case),
        _ => unifac(case),
    }
}
