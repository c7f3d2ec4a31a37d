//! The steps of a history: a call of the mixture with what it lends, or a memory or a head put in place; and the
//! records of the script by which the program `histories` takes them (crates/histories/src/records.rt).

use crate::case::Quantity;
use std::fmt;

/// How many places of values, cells and marks there are.
pub const WHOLE: Lent = Lent {
    values: 5400,
    cells: 1100,
    marks: 1100,
};

/// The fewest that a call takes: document 01, "Mixture".
pub const LEAST: Lent = Lent {
    values: 5328,
    cells: 1024,
    marks: 1024,
};

/// How many places a call is lent.
#[derive(Clone, Copy)]
pub struct Lent {
    pub values: usize,
    pub cells: usize,
    pub marks: usize,
}

impl Lent {
    pub fn is_short(&self) -> bool {
        self.values < LEAST.values || self.cells < LEAST.cells || self.marks < LEAST.marks
    }
}

/// What a setting names; the second index of a size is 0 for V, r or R and 1 for q or Q.
#[derive(Clone, Copy, Debug, PartialEq, Eq, PartialOrd, Ord)]
pub enum Name {
    Temperature,
    Tolerance,
    Entry(usize, usize),
    TdEntry(usize, usize),
    Size(usize, usize),
    Count(usize, usize),
}

#[derive(Clone)]
pub struct Load {
    pub model: u32,
    pub n: usize,
    pub ng: usize,
    pub lens: Vec<u8>,
    pub groups: Vec<u8>,
    pub values: Vec<f64>,
}

#[derive(Clone)]
pub enum Call {
    Open,
    Load(Load),
    /// A name, and its number, or a td entry's five.
    Set(Name, Vec<f64>),
    Fractions(Vec<f64>),
    Query(Quantity),
}

/// The calls by name, each at its `Call::kind`.
pub const CALLS: [&str; 5] = ["open", "load", "set", "fractions", "query"];

impl Call {
    pub fn kind(&self) -> usize {
        match self {
            Self::Open => 0,
            Self::Load(_) => 1,
            Self::Set(..) => 2,
            Self::Fractions(_) => 3,
            Self::Query(_) => 4,
        }
    }
}

#[derive(Clone)]
pub struct Head {
    pub model: u8,
    pub n: usize,
    pub ng: usize,
    pub lens: [u8; 12],
    pub groups: [u8; 144],
    pub t: f64,
    pub x: [f64; 12],
    pub has_t: bool,
    pub has_x: bool,
    pub tolerance: f64,
}

impl Head {
    /// A head with 0 in its unset and unused fields.
    pub fn fresh(model: u8, n: usize) -> Self {
        Self {
            model,
            n,
            ng: 0,
            lens: [0; 12],
            groups: [0; 144],
            t: 0.0,
            x: [0.0; 12],
            has_t: false,
            has_x: false,
            tolerance: 0.0,
        }
    }
}

#[derive(Clone)]
pub enum Step {
    /// Values, cells and marks, as many as there are.
    Memory(Vec<f64>, Vec<f64>, Vec<u8>),
    Head(Head),
    Call(Lent, Call),
}

/// A record: its kind, what it lends, five numbers, of which no call yet takes more than three, and three rows.
fn put(
    script: &mut Vec<u8>,
    kind: usize,
    lent: Lent,
    abc: [usize; 3],
    bytes: [&[u8]; 2],
    floats: &[f64],
) {
    let Lent {
        values,
        cells,
        marks,
    } = lent;
    let [a, b, c] = abc;
    let [first, second] = bytes;
    let lengths = [first.len(), second.len(), floats.len()];
    for word in [kind, values, cells, marks, a, b, c, 0, 0]
        .into_iter()
        .chain(lengths)
    {
        script.extend((word as u64).to_le_bytes());
    }
    script.extend(first);
    script.extend(second);
    script.extend(floats.iter().flat_map(|v| v.to_le_bytes()));
}

fn put_call(script: &mut Vec<u8>, lent: Lent, call: &Call) {
    let none: [&[u8]; 2] = [&[], &[]];
    let kind = 2 + call.kind();
    match call {
        Call::Open => put(script, kind, lent, [0; 3], none, &[]),
        Call::Load(load) => {
            let Load {
                model,
                n,
                ng,
                lens,
                groups,
                values,
            } = load;
            put(
                script,
                kind,
                lent,
                [*model as usize, *n, *ng],
                [lens, groups],
                values,
            );
        }
        Call::Set(name, numbers) => {
            let abc = match *name {
                Name::Temperature => [0, 0, 0],
                Name::Entry(i, j) => [1, i, j],
                Name::TdEntry(i, j) => [2, i, j],
                Name::Size(i, which) => [3, i, which],
                Name::Count(i, j) => [4, i, j],
                Name::Tolerance => [5, 0, 0],
            };
            put(script, kind, lent, abc, none, numbers);
        }
        Call::Fractions(x) => put(script, kind, lent, [0; 3], none, x),
        Call::Query(quantity) => {
            let abc = match *quantity {
                Quantity::LnGamma(i) => [0, i, 0],
                Quantity::Gamma(i) => [1, i, 0],
                Quantity::ExcessGibbs => [2, 0, 0],
            };
            put(script, kind, lent, abc, none, &[]);
        }
    }
}

impl Step {
    /// Adds the step's record to a script.
    pub fn put(&self, script: &mut Vec<u8>) {
        match self {
            Self::Memory(values, cells, marks) => {
                let floats = [&values[..], cells].concat();
                put(script, 0, WHOLE, [0; 3], [marks, &[]], &floats);
            }
            Self::Head(head) => {
                let mut lens = head.lens.to_vec();
                lens.extend([head.has_t, head.has_x].map(u8::from));
                let mut floats = head.x.to_vec();
                floats.extend([head.t, head.tolerance]);
                let abc = [head.model.into(), head.n, head.ng];
                put(script, 1, WHOLE, abc, [&lens, &head.groups], &floats);
            }
            Self::Call(lent, call) => put_call(script, *lent, call),
        }
    }
}

impl fmt::Display for Call {
    fn fmt(&self, f: &mut fmt::Formatter) -> fmt::Result {
        match self {
            Self::Open => write!(f, "open"),
            Self::Load(load) => {
                let Load {
                    model,
                    n,
                    ng,
                    lens,
                    groups,
                    values,
                } = load;
                write!(f, "load model {model}, n {n}, ng {ng}, lens {lens:?}, groups {groups:?}, values {values:?}")
            }
            Self::Set(name, numbers) => write!(f, "set {name:?} {numbers:?}"),
            Self::Fractions(x) => write!(f, "fractions {x:?}"),
            Self::Query(Quantity::LnGamma(i)) => write!(f, "query ln gamma of {i}"),
            Self::Query(Quantity::Gamma(i)) => write!(f, "query gamma of {i}"),
            Self::Query(Quantity::ExcessGibbs) => write!(f, "query excess energy"),
        }
    }
}

impl fmt::Display for Head {
    fn fmt(&self, f: &mut fmt::Formatter) -> fmt::Result {
        let Self {
            model,
            n,
            ng,
            lens,
            groups,
            t,
            x,
            has_t,
            has_x,
            tolerance,
        } = self;
        write!(
            f,
            "head of model {model}, n {n}, ng {ng}, lens {lens:?}, groups {groups:?}, "
        )?;
        write!(
            f,
            "T {t:e} (set: {has_t}), fractions {x:?} (set: {has_x}), "
        )?;
        write!(f, "tolerance {tolerance:e}")
    }
}

impl fmt::Display for Step {
    fn fmt(&self, f: &mut fmt::Formatter) -> fmt::Result {
        match self {
            Self::Memory(..) => write!(f, "memory"),
            Self::Head(head) => write!(f, "{head}"),
            Self::Call(lent, call) => {
                let Lent {
                    values,
                    cells,
                    marks,
                } = lent;
                write!(f, "{call} (lent {values}, {cells}, {marks})")
            }
        }
    }
}
