//! The inputs of the benchmark: for each model, size and quantity one call, drawn with a fixed seed; and the
//! original's model of it.

use original::nrtl::Nrtl;
use original::parameters::{InteractionMatrix, TdMatrix, TdParam, Volumes};
use original::unifac::{GroupTable, UnifacModel, UnifacVariant};
use original::uniquac::{StructuralParams, Uniquac};
use original::wilson::Wilson;
use tpt_thermo_core::quantities::Temperature;

pub const WILSON: u32 = 1;
pub const UNIQUAC: u32 = 2;
pub const NRTL: u32 = 3;
pub const UNIFAC: u32 = 4;

#[derive(Clone, Copy)]
pub enum Quantity {
    LnGamma(usize),
    Gamma(usize),
    ExcessGibbs,
}

/// A call: values in the strip's order, groups list after list.
pub struct Case {
    pub model: u32,
    pub n: usize,
    pub ng: usize,
    pub lens: Vec<u8>,
    pub groups: Vec<u8>,
    pub values: Vec<f64>,
    pub t: f64,
    pub x: Vec<f64>,
    pub quantity: Quantity,
}

impl Case {
    pub fn name(&self) -> String {
        let model = ["Wilson", "UNIQUAC", "NRTL", "UNIFAC"][self.model as usize - 1];
        let asked = match self.quantity {
            Quantity::LnGamma(_) => "ln gamma",
            Quantity::Gamma(_) => "gamma",
            Quantity::ExcessGibbs => "excess",
        };
        let n = self.n;
        match self.model {
            UNIFAC => format!("{model} {n},{},{} {asked}", self.ng, self.lens[0]),
            _ => format!("{model} {n} {asked}"),
        }
    }

    /// What is asked, by the exported calls' numbers.
    pub fn asked(&self) -> (u32, usize) {
        match self.quantity {
            Quantity::LnGamma(i) => (0, i),
            Quantity::Gamma(i) => (1, i),
            Quantity::ExcessGibbs => (2, 0),
        }
    }

    /// The number of entry 0, 1, which is set again to what it is.
    pub fn entry(&self) -> f64 {
        self.values[match self.model {
            NRTL => 5 * self.n * self.n + 1,
            UNIFAC => 2 * self.ng + 5,
            _ => 1,
        }]
    }
}

/// xorshift64*, from a fixed seed.
pub struct Draw(pub u64);

impl Draw {
    pub fn bits(&mut self) -> u64 {
        self.0 ^= self.0 >> 12;
        self.0 ^= self.0 << 25;
        self.0 ^= self.0 >> 27;
        self.0.wrapping_mul(0x2545_F491_4F6C_DD1D)
    }

    fn within(&mut self, low: f64, high: f64) -> f64 {
        low + (high - low) * ((self.bits() >> 11) as f64 / (1u64 << 53) as f64)
    }

    fn many(&mut self, count: usize, low: f64, high: f64) -> Vec<f64> {
        (0..count).map(|_| self.within(low, high)).collect()
    }

    /// `count` td entries, five each, whose a is within `a` of 0.
    fn td(&mut self, count: usize, a: f64) -> Vec<f64> {
        let five = [a, 100.0 * a, 0.01 * a, 0.0005 * a, 1000.0 * a];
        (0..5 * count)
            .map(|k| self.within(-five[k % 5], five[k % 5]))
            .collect()
    }

    fn fractions(&mut self, n: usize) -> Vec<f64> {
        let parts = self.many(n, 0.1, 1.0);
        let sum: f64 = parts.iter().sum();
        parts.iter().map(|p| p / sum).collect()
    }

    /// Energies or td entries and sizes, as the model has them.
    fn values(&mut self, model: u32, n: usize, ng: usize, places: usize) -> Vec<f64> {
        match model {
            WILSON => [self.many(n * n, -600.0, 900.0), self.many(n, 20.0, 150.0)].concat(),
            UNIQUAC => [self.many(n * n, -400.0, 600.0), self.many(2 * n, 0.8, 5.0)].concat(),
            NRTL => [self.td(n * n, 1.5), self.many(n * n, 0.2, 0.47)].concat(),
            _ => {
                let sizes = self.many(2 * ng, 0.3, 2.0);
                let mut a = self.td(ng * ng, 200.0);
                // td entry 0, 1, which is set again by its a alone
                a[6..10].fill(0.0);
                let counts = (0..places).map(|_| (1 + self.bits() % 4) as f64).collect();
                [sizes, a, counts].concat()
            }
        }
    }

    /// Lists of `len` different groups each.
    fn groups(&mut self, n: usize, ng: usize, len: usize) -> Vec<u8> {
        let mut all = Vec::new();
        for _ in 0..n {
            let start = self.bits() as usize % ng;
            all.extend((0..len).map(|k| ((start + k * 7) % ng) as u8));
        }
        all
    }
}

/// Every row of the table.
pub fn all() -> Vec<Case> {
    let mut draw = Draw(0x9E37_79B9_7F4A_7C15);
    let plain = [2, 4, 12].map(|n| (n, 0, 0));
    let listed = [(2, 4, 2), (4, 12, 4), (12, 32, 12)];
    let mut cases = Vec::new();
    for model in [WILSON, UNIQUAC, NRTL, UNIFAC] {
        for (n, ng, len) in if model == UNIFAC { listed } else { plain } {
            let groups = if model == UNIFAC {
                draw.groups(n, ng, len)
            } else {
                Vec::new()
            };
            let lens = if model == UNIFAC {
                vec![len as u8; n]
            } else {
                Vec::new()
            };
            let values = draw.values(model, n, ng, groups.len());
            let x = draw.fractions(n);
            for quantity in [
                Quantity::LnGamma(n / 2),
                Quantity::Gamma(n / 2),
                Quantity::ExcessGibbs,
            ] {
                let (lens, groups, values, x) =
                    (lens.clone(), groups.clone(), values.clone(), x.clone());
                cases.push(Case {
                    model,
                    n,
                    ng,
                    lens,
                    groups,
                    values,
                    t: 353.15,
                    x,
                    quantity,
                });
            }
        }
    }
    cases
}

fn energies(values: &[f64], n: usize) -> InteractionMatrix {
    let mut a = InteractionMatrix::zeros(n);
    for k in 0..n * n {
        a.set(k / n, k % n, values[k]);
    }
    a
}

fn td(five: &[f64]) -> TdParam {
    let [a, b, c, d, e] = five.try_into().unwrap();
    TdParam { a, b, c, d, e }
}

/// The original's model.
pub enum Model {
    Wilson(Wilson),
    Uniquac(Uniquac),
    Nrtl(Nrtl),
    Unifac(UnifacModel),
}

impl Model {
    pub fn new(case: &Case) -> Self {
        let (n, ng, values) = (case.n, case.ng, &case.values);
        match case.model {
            WILSON => Self::Wilson(
                Wilson::new(energies(values, n), Volumes::new(values[n * n..].to_vec())).unwrap(),
            ),
            UNIQUAC => {
                let (r, q) = values[n * n..].split_at(n);
                let sizes = r.iter().copied().zip(q.iter().copied()).collect();
                Self::Uniquac(
                    Uniquac::new(StructuralParams::new(sizes), energies(values, n)).unwrap(),
                )
            }
            NRTL => {
                let (taus, alphas) = values.split_at(5 * n * n);
                let mut tau = TdMatrix::zeros(n);
                for k in 0..n * n {
                    tau.set(k / n, k % n, td(&taus[5 * k..][..5]));
                }
                Self::Nrtl(Nrtl::new(tau, alphas.chunks(n).map(<[f64]>::to_vec).collect()).unwrap())
            }
            _ => {
                let (r, rest) = values.split_at(ng);
                let (q, rest) = rest.split_at(ng);
                let (a, counts) = rest.split_at(5 * ng * ng);
                let a = a
                    .chunks(5 * ng)
                    .map(|row| row.chunks(5).map(td).collect())
                    .collect();
                let table = GroupTable::new(r.to_vec(), q.to_vec(), a).unwrap();
                let pairs: Vec<_> = case
                    .groups
                    .iter()
                    .map(|&g| usize::from(g))
                    .zip(counts.iter().copied())
                    .collect();
                let lists = pairs.chunks(pairs.len() / n).map(<[_]>::to_vec).collect();
                Self::Unifac(UnifacModel::new(n, lists, table, UnifacVariant::Original).unwrap())
            }
        }
    }

    pub fn ask(&self, t: f64, x: &[f64], quantity: Quantity) -> f64 {
        macro_rules! ask {
            ($model:ident) => {{
                let t = Temperature { value: t };
                match quantity {
                    Quantity::LnGamma(i) => $model.ln_gamma_at(t, x, i),
                    Quantity::Gamma(i) => $model.gamma_at(t, x, i),
                    Quantity::ExcessGibbs => $model.reduced_excess_gibbs_at(t, x),
                }
            }};
        }
        let answer = match self {
            Self::Wilson(model) => ask!(model),
            Self::Uniquac(model) => ask!(model),
            Self::Nrtl(model) => ask!(model),
            Self::Unifac(model) => ask!(model),
        };
        answer.unwrap()
    }
}
