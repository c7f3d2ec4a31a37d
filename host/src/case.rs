//! A plain call: a model, its values in the strip's order, T, the tolerance, the fractions and what is asked; and an
//! answer.

use std::fmt;

pub const WILSON: u32 = 1;
pub const UNIQUAC: u32 = 2;
pub const NRTL: u32 = 3;
pub const UNIFAC: u32 = 4;

/// The models by name, each at its number less one.
pub const NAMES: [&str; 4] = ["wilson", "uniquac", "nrtl", "unifac"];

#[derive(Clone, Copy)]
pub enum Quantity {
    LnGamma(usize),
    Gamma(usize),
    ExcessGibbs,
}

/// Numbers as an exported call gets them: eight bytes each, lowest first, and perhaps a rest that is no number.
#[derive(Clone, Default)]
pub struct Numbers {
    pub all: Vec<f64>,
    pub rest: Vec<u8>,
}

impl From<Vec<f64>> for Numbers {
    fn from(all: Vec<f64>) -> Self {
        let rest = Vec::new();
        Self { all, rest }
    }
}

impl Numbers {
    pub fn bytes(&self) -> Vec<u8> {
        let mut bytes: Vec<u8> = self.all.iter().flat_map(|v| v.to_le_bytes()).collect();
        bytes.extend(&self.rest);
        bytes
    }
}

#[derive(Clone)]
pub struct Case {
    pub model: u32,
    pub n: usize,
    pub ng: usize,
    pub lens: Vec<u8>,
    pub groups: Vec<u8>,
    pub values: Numbers,
    pub t: f64,
    pub tolerance: f64,
    pub x: Numbers,
    pub quantity: Quantity,
}

/// The bits of a value (see `compare::bits`), or the number of a refusal.
#[derive(Clone, Copy, PartialEq, Eq)]
pub enum Answer {
    Value(u64),
    Refused(u32),
}

impl fmt::Display for Answer {
    fn fmt(&self, f: &mut fmt::Formatter) -> fmt::Result {
        match self {
            Self::Value(bits) => write!(f, "{bits:016x} ({:e})", f64::from_bits(*bits)),
            Self::Refused(number) => write!(f, "refused {number}"),
        }
    }
}

impl fmt::Display for Numbers {
    fn fmt(&self, f: &mut fmt::Formatter) -> fmt::Result {
        write!(f, "{} numbers", self.all.len())?;
        for v in &self.all {
            write!(f, " {:016x}", v.to_bits())?;
        }
        if !self.rest.is_empty() {
            write!(f, " and {} bytes", self.rest.len())?;
        }
        Ok(())
    }
}

impl fmt::Display for Case {
    fn fmt(&self, f: &mut fmt::Formatter) -> fmt::Result {
        let asked = match self.quantity {
            Quantity::LnGamma(i) => format!("ln gamma of {i}"),
            Quantity::Gamma(i) => format!("gamma of {i}"),
            Quantity::ExcessGibbs => "excess energy".to_string(),
        };
        writeln!(f, "model {}, n {}, {asked}", self.model, self.n)?;
        if self.model == UNIFAC {
            let (ng, lens, groups) = (self.ng, &self.lens, &self.groups);
            writeln!(f, "  ng {ng}, lens {lens:?}, groups {groups:?}")?;
        }
        writeln!(f, "  values: {}", self.values)?;
        for (name, v) in [("T", self.t), ("tolerance", self.tolerance)] {
            writeln!(f, "  {name}: {:016x} ({v:e})", v.to_bits())?;
        }
        write!(f, "  fractions: {}", self.x)
    }
}
