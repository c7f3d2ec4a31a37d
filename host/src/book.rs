//! Document 01's book: told the calls alone, it holds a model's numbers by name, and asks the original afresh for
//! every query. Where the original refuses the fractions, the port's plain call is asked, with the tolerance under
//! which they were accepted. It knows no memory, no cells and no marks: the cells of a count are those of which an
//! input was loaded or set since the last answered query.

use crate::calls::{Call, Load, Name};
use crate::case::{Answer, Case, Quantity, NRTL, UNIFAC, UNIQUAC, WILSON};
use crate::models::rattle;
use crate::rust;
use crate::tolerance::{self, by_source, is_off, naive, tolerance_fault, USUAL};
use std::collections::{BTreeMap, BTreeSet};

/// What the book answers: a number, nothing, or the bits of a value with the count.
pub enum Told {
    Refused(u32),
    Done,
    Value(u64, usize),
}

struct Held {
    load: Load,
    numbers: BTreeMap<Name, Vec<f64>>,
}

#[derive(Default)]
pub struct Book {
    held: Option<Held>,
    t: Option<f64>,
    /// Fractions, and the tolerance under which they were accepted.
    x: Option<(Vec<f64>, f64)>,
    tolerance: f64,
    /// The names loaded or set since the last answered query.
    touched: BTreeSet<Name>,
}

/// What document 01, "Strip and program", lists for a model, in its order.
fn names(load: &Load) -> Vec<Name> {
    let Load {
        model, n, ng, lens, ..
    } = load;
    let pairs = |n: usize| (0..n).flat_map(move |i| (0..n).map(move |j| (i, j)));
    let entries = || pairs(*n).map(|(i, j)| Name::Entry(i, j));
    let tds = |n| pairs(n).map(|(i, j)| Name::TdEntry(i, j));
    let sizes = |n: usize, which| (0..n).map(move |i| Name::Size(i, which));
    let counts = || {
        let lists = lens.iter().enumerate();
        lists.flat_map(|(i, len)| (0..usize::from(*len)).map(move |j| Name::Count(i, j)))
    };
    match *model {
        WILSON => entries().chain(sizes(*n, 0)).collect(),
        UNIQUAC => entries().chain(sizes(*n, 0)).chain(sizes(*n, 1)).collect(),
        NRTL => tds(*n).chain(entries()).collect(),
        _ => sizes(*ng, 0)
            .chain(sizes(*ng, 1))
            .chain(tds(*ng))
            .chain(counts())
            .collect(),
    }
}

fn numbers_of(name: Name) -> usize {
    match name {
        Name::TdEntry(..) => 5,
        _ => 1,
    }
}

/// Load: 2, and then 3 or 4 at the first place at fault.
pub fn load_fault(load: &Load) -> u32 {
    let Load {
        model,
        n,
        ng,
        lens,
        groups,
        values,
    } = load;
    if !(1..=12).contains(n) {
        return 2;
    }
    if *model == UNIFAC {
        let places: usize = lens.iter().map(|len| usize::from(*len)).sum();
        let lists = lens.len() == *n && lens.iter().all(|len| *len <= 12);
        if !(1..=32).contains(ng) || !lists || groups.len() != places {
            return 2;
        }
    }
    if values.len() != names(load).into_iter().map(numbers_of).sum() {
        return 2;
    }
    if *model == UNIFAC {
        let counts = &values[values.len() - groups.len()..];
        for (group, count) in groups.iter().zip(counts) {
            if usize::from(*group) >= *ng {
                return 3;
            }
            if *count < 0.0 {
                return 4;
            }
        }
    }
    0
}

/// Fractions: 5 and 6 with the tolerance, which may be any float; 7, length not n.
pub fn composition_fault(tolerance: f64, x: &[f64], n: usize) -> u32 {
    match tolerance::composition_fault(tolerance, x) {
        0 if x.len() != n => 7,
        number => number,
    }
}

impl Held {
    fn new(load: &Load) -> Self {
        let mut given = load.values.iter().copied();
        let mut take = |name| (name, given.by_ref().take(numbers_of(name)).collect());
        Self {
            load: load.clone(),
            numbers: names(load).into_iter().map(&mut take).collect(),
        }
    }

    /// The plain call with what is held.
    fn plain(&self, t: f64, tolerance: f64, x: &[f64], quantity: Quantity) -> Case {
        let Load {
            model,
            n,
            ng,
            lens,
            groups,
            ..
        } = self.load.clone();
        let names = names(&self.load).into_iter();
        let values = names.flat_map(|name| self.numbers[&name].clone());
        Case {
            model,
            n,
            ng,
            lens,
            groups,
            values: values.collect::<Vec<f64>>().into(),
            t,
            tolerance,
            x: x.to_vec().into(),
            quantity,
        }
    }

    /// The cells, each with its inputs.
    fn cells(&self) -> Vec<Vec<Name>> {
        let Load { model, n, ng, .. } = self.load;
        let w = if model == UNIFAC { ng } else { n };
        let mut cells = Vec::new();
        for i in 0..w {
            for j in 0..w {
                let own = match model {
                    UNIFAC => vec![Name::TdEntry(i, j)],
                    _ if i == j => continue,
                    NRTL => vec![Name::Entry(i, j), Name::TdEntry(i, j)],
                    _ => vec![Name::Entry(i, j), Name::Entry(i, i)],
                };
                cells.push([own, vec![Name::Temperature]].concat());
            }
        }
        cells
    }
}

impl Book {
    fn load(&mut self, load: &Load) -> Told {
        match load_fault(load) {
            0 => {
                let held = Held::new(load);
                self.touched = held.numbers.keys().copied().collect();
                *self = Self {
                    held: Some(held),
                    touched: std::mem::take(&mut self.touched),
                    tolerance: USUAL,
                    ..Self::default()
                };
                Told::Done
            }
            number => Told::Refused(number),
        }
    }

    fn set(&mut self, name: Name, numbers: &[f64]) -> Told {
        let Some(held) = &mut self.held else {
            return Told::Refused(8);
        };
        if name == Name::Temperature {
            self.t = Some(numbers[0]);
        } else if name == Name::Tolerance {
            match tolerance_fault(numbers[0]) {
                0 => self.tolerance = numbers[0],
                number => return Told::Refused(number),
            }
        } else {
            let Some(old) = held.numbers.get_mut(&name) else {
                return Told::Refused(10);
            };
            if matches!(name, Name::Count(..)) && numbers[0] < 0.0 {
                return Told::Refused(4);
            }
            *old = numbers.to_vec();
        }
        self.touched.insert(name);
        Told::Done
    }

    fn fractions(&mut self, x: &[f64]) -> Told {
        let Some(held) = &self.held else {
            return Told::Refused(8);
        };
        match composition_fault(self.tolerance, x, held.load.n) {
            0 => {
                self.x = Some((x.to_vec(), self.tolerance));
                Told::Done
            }
            number => Told::Refused(number),
        }
    }

    fn query(&mut self, quantity: Quantity) -> Told {
        let Some(held) = &self.held else {
            return Told::Refused(8);
        };
        let (Some(t), Some((x, under))) = (self.t, &self.x) else {
            return Told::Refused(9);
        };
        let plain = held.plain(t, *under, x, quantity);
        let answer = match by_source(x) {
            0 => rust::asked(&plain),
            _ => rattle(&plain, 0).0,
        };
        match answer {
            Answer::Refused(number) => Told::Refused(number),
            Answer::Value(bits) => {
                let is_touched =
                    |cell: &&Vec<Name>| cell.iter().any(|name| self.touched.contains(name));
                let count = held.cells().iter().filter(is_touched).count();
                self.touched.clear();
                Told::Value(bits, count)
            }
        }
    }

    /// Whether it holds fractions that the original refuses, and not just at its edge; and whether the present
    /// tolerance refuses them too.
    pub fn has_off(&self) -> (bool, bool) {
        let x = self.x.as_ref().map(|(x, _)| x);
        let off = x.filter(|x| is_off(x));
        let refused = off.filter(|x| naive(self.tolerance, x) != 0);
        (off.is_some(), refused.is_some())
    }

    /// Tells the book of a call whose slices aren't short.
    pub fn tell(&mut self, call: &Call) -> Told {
        match call {
            Call::Open => {
                *self = Self::default();
                Told::Done
            }
            Call::Load(load) => self.load(load),
            Call::Set(name, numbers) => self.set(*name, numbers),
            Call::Fractions(x) => self.fractions(x),
            Call::Query(quantity) => self.query(*quantity),
        }
    }
}
