//! A model of the lent memory and the head, by places: what each call writes where, and what it declines by the
//! head that it gets. Document 01, "Mixture" and "What each call declines".

use crate::book::{composition_fault, load_fault};
use crate::calls::{Call, Head, Lent, Load, Name, WHOLE};
use crate::case::{Case, Quantity, NRTL, UNIFAC, UNIQUAC, WILSON};
use crate::compare::bits;
use crate::tolerance::{tolerance_fault, USUAL};
use original::parameters::TdParam;
use tpt_thermo_core::quantities::Temperature;

/// What comes of a call. A value's count comes with the plain call that has to give the same value, where there is
/// one: where every fresh cell is what its inputs give.
pub enum Outcome {
    Refused(u32),
    Done,
    Value(usize, Option<Case>),
}

#[derive(Clone)]
pub struct Memory {
    pub values: Vec<f64>,
    pub cells: Vec<f64>,
    pub marks: Vec<u8>,
    pub head: Head,
}

/// The digest with one word more (crates/histories/src/digest.rt).
fn word(h: u64, w: u64) -> u64 {
    let a = h ^ w;
    let b = a.wrapping_add(a << 21);
    b ^ (b >> 29)
}

impl Memory {
    /// All 0, as the program begins.
    pub fn new() -> Self {
        Self {
            values: vec![0.0; WHOLE.values],
            cells: vec![0.0; WHOLE.cells],
            marks: vec![0; WHOLE.marks],
            head: Head::fresh(0, 0),
        }
    }

    /// The digest of every place and of the head.
    pub fn digest(&self) -> u64 {
        let head = &self.head;
        let floats = self.values.iter().chain(&self.cells).map(|v| bits(*v));
        let marks = self.marks.iter().map(|b| u64::from(*b));
        let lists = head.lens.iter().chain(&head.groups).map(|b| u64::from(*b));
        let numbers = [head.t].into_iter().chain(head.x).map(bits);
        floats
            .chain(marks)
            .chain([head.model.into(), head.n as u64, head.ng as u64])
            .chain(lists)
            .chain(numbers)
            .chain([head.has_t.into(), head.has_x.into()])
            .chain([bits(head.tolerance)])
            .fold(0, word)
    }

    pub fn model(&self) -> u32 {
        self.head.model.into()
    }

    /// How many entries a row of cells has.
    fn width(&self) -> usize {
        match self.model() {
            UNIFAC => self.head.ng,
            _ => self.head.n,
        }
    }

    /// How many places the lists of the first n components have.
    fn places(&self, n: usize) -> usize {
        self.head.lens[..n]
            .iter()
            .map(|len| usize::from(*len))
            .sum()
    }

    /// Whether what the head's model uses is in range.
    fn in_range(&self) -> bool {
        let Head {
            n,
            ng,
            lens,
            groups,
            ..
        } = &self.head;
        let lists = || {
            (1..=32).contains(ng)
                && lens[..*n].iter().all(|len| *len <= 12)
                && groups[..self.places(*n)]
                    .iter()
                    .all(|group| usize::from(*group) < *ng)
        };
        (1..=12).contains(n) && (self.model() != UNIFAC || lists())
    }

    /// 1 and 8, from setting to query.
    fn head_fault(&self, lent: Lent) -> u32 {
        if lent.is_short() {
            return 1;
        }
        match self.model() {
            0 => 8,
            1..=4 if self.in_range() => 0,
            _ => 1,
        }
    }

    /// Where the number, or the first of the five, that a name stands for is among the values; none where the
    /// model has no such name.
    fn place(&self, name: Name) -> Option<usize> {
        let (n, ng) = (self.head.n, self.head.ng);
        match (self.model(), name) {
            (WILSON | UNIQUAC, Name::Entry(i, j)) if i < n && j < n => Some(i * n + j),
            (WILSON, Name::Size(i, 0)) if i < n => Some(n * n + i),
            (UNIQUAC, Name::Size(i, which)) if i < n && which < 2 => Some(n * n + which * n + i),
            (NRTL, Name::TdEntry(i, j)) if i < n && j < n => Some(5 * (i * n + j)),
            (NRTL, Name::Entry(i, j)) if i < n && j < n => Some(5 * n * n + i * n + j),
            (UNIFAC, Name::Size(k, which)) if k < ng && which < 2 => Some(which * ng + k),
            (UNIFAC, Name::TdEntry(m, k)) if m < ng && k < ng => Some(2 * ng + 5 * (m * ng + k)),
            (UNIFAC, Name::Count(i, j)) if i < n && j < self.head.lens[i].into() => {
                Some(2 * ng + 5 * ng * ng + self.places(i) + j)
            }
            _ => None,
        }
    }

    /// The numbers that a name stands for, on a head in range.
    pub fn held(&self, name: Name, count: usize) -> Option<&[f64]> {
        let usable = (1..=4).contains(&self.model()) && self.in_range();
        let place = usable.then(|| self.place(name)).flatten()?;
        Some(&self.values[place..place + count])
    }

    /// How many values the head's model has.
    fn size(&self) -> usize {
        let (n, ng) = (self.head.n, self.head.ng);
        match self.model() {
            WILSON => n * n + n,
            UNIQUAC => n * n + 2 * n,
            NRTL => 6 * n * n,
            _ => 2 * ng + 5 * ng * ng + self.places(n),
        }
    }

    /// All cells of the head's model, by row and column.
    fn all_cells(&self) -> Vec<(usize, usize)> {
        let w = self.width();
        let all = (0..w).flat_map(|i| (0..w).map(move |j| (i, j)));
        all.filter(|(i, j)| i != j || self.model() == UNIFAC)
            .collect()
    }

    /// The cells that a setting makes stale, in document 01's own words.
    fn staled_by(&self, name: Name) -> Vec<(usize, usize)> {
        let all = self.all_cells().into_iter();
        match (self.model(), name) {
            (_, Name::Temperature) => all.collect(),
            (WILSON | UNIQUAC, Name::Entry(i, j)) if i == j => all.filter(|c| c.0 == i).collect(),
            (_, Name::Entry(i, j) | Name::TdEntry(i, j)) => all.filter(|c| *c == (i, j)).collect(),
            (_, Name::Size(..) | Name::Count(..) | Name::Tolerance) => Vec::new(),
        }
    }

    fn write_stale(&mut self, cells: &[(usize, usize)]) {
        for (i, j) in cells {
            let place = i * self.width() + j;
            self.marks[place] = 0;
        }
    }

    /// The exponential that the values and T give for a cell.
    fn exponential(&self, i: usize, j: usize) -> f64 {
        let t = self.head.t;
        let entry = |i, j| self.values[self.place(Name::Entry(i, j)).unwrap()];
        let td = || {
            let place = self.place(Name::TdEntry(i, j)).unwrap();
            let [a, b, c, d, e] = self.values[place..place + 5].try_into().unwrap();
            TdParam { a, b, c, d, e }.value(Temperature { value: t })
        };
        libm::exp(match self.model() {
            WILSON | UNIQUAC => -(entry(i, j) - entry(i, i)) / t,
            NRTL => -entry(i, j) * td(),
            _ => -td() / t,
        })
    }

    /// The plain call with the values, T and fractions that the head says, and the original's tolerance.
    fn plain(&self, quantity: Quantity) -> Case {
        let Head {
            n,
            ng,
            lens,
            groups,
            t,
            x,
            ..
        } = &self.head;
        let lists = match self.model() {
            UNIFAC => (lens[..*n].to_vec(), groups[..self.places(*n)].to_vec()),
            _ => (Vec::new(), Vec::new()),
        };
        Case {
            model: self.model(),
            n: *n,
            ng: *ng,
            lens: lists.0,
            groups: lists.1,
            values: self.values[..self.size()].to_vec().into(),
            t: *t,
            tolerance: USUAL,
            x: x[..*n].to_vec().into(),
            quantity,
        }
    }

    fn load(&mut self, load: &Load) {
        self.values[..load.values.len()].copy_from_slice(&load.values);
        self.head = Head::fresh(load.model as u8, load.n);
        self.head.tolerance = USUAL;
        if load.model == UNIFAC {
            self.head.ng = load.ng;
            self.head.lens[..load.lens.len()].copy_from_slice(&load.lens);
            self.head.groups[..load.groups.len()].copy_from_slice(&load.groups);
        }
        self.write_stale(&self.all_cells());
    }

    /// 10, and 4 for a count; 14 for a tolerance.
    fn setting_fault(&self, name: Name, numbers: &[f64]) -> u32 {
        match name {
            Name::Temperature => 0,
            Name::Tolerance => tolerance_fault(numbers[0]),
            _ if self.place(name).is_none() => 10,
            Name::Count(..) if numbers[0] < 0.0 => 4,
            _ => 0,
        }
    }

    fn set(&mut self, name: Name, numbers: &[f64]) {
        match (name, self.place(name)) {
            (_, Some(place)) => self.values[place..place + numbers.len()].copy_from_slice(numbers),
            (Name::Tolerance, _) => self.head.tolerance = numbers[0],
            _ => (self.head.t, self.head.has_t) = (numbers[0], true),
        }
        self.write_stale(&self.staled_by(name));
    }

    /// 9, and 7 for an index.
    fn query_fault(&self, quantity: Quantity) -> u32 {
        match quantity {
            _ if !self.head.has_t || !self.head.has_x => 9,
            Quantity::LnGamma(i) | Quantity::Gamma(i) if i >= self.head.n => 7,
            _ => 0,
        }
    }

    fn query(&mut self, quantity: Quantity) -> Outcome {
        let (mut count, mut as_given) = (0, true);
        for (i, j) in self.all_cells() {
            let (place, given) = (i * self.width() + j, self.exponential(i, j));
            if self.marks[place] == 1 {
                as_given &= bits(self.cells[place]) == bits(given);
            } else {
                self.cells[place] = given;
                self.marks[place] = 1;
                count += 1;
            }
        }
        Outcome::Value(count, as_given.then(|| self.plain(quantity)))
    }

    /// What a call declines.
    fn fault(&self, lent: Lent, call: &Call) -> u32 {
        let first = match call {
            Call::Open | Call::Load(_) => u32::from(lent.is_short()),
            _ => self.head_fault(lent),
        };
        match call {
            _ if first != 0 => first,
            Call::Open => 0,
            Call::Load(load) => load_fault(load),
            Call::Set(name, numbers) => self.setting_fault(*name, numbers),
            Call::Fractions(x) => composition_fault(self.head.tolerance, x, self.head.n),
            Call::Query(quantity) => self.query_fault(*quantity),
        }
    }

    /// Makes a call.
    pub fn call(&mut self, lent: Lent, call: &Call) -> Outcome {
        match self.fault(lent, call) {
            0 => (),
            number => return Outcome::Refused(number),
        }
        match call {
            Call::Open => self.head = Head::fresh(0, 0),
            Call::Load(load) => self.load(load),
            Call::Set(name, numbers) => self.set(*name, numbers),
            Call::Fractions(x) => {
                self.head.x = [0.0; 12];
                self.head.x[..x.len()].copy_from_slice(x);
                self.head.has_x = true;
            }
            Call::Query(quantity) => return self.query(*quantity),
        }
        Outcome::Done
    }
}
