//! Random plain calls: most of them as a chemist would make them, some with numbers of any kind, and some with
//! one fault or several, so that the order of the refusals shows.

use crate::case::{Case, Numbers, Quantity, NRTL, UNIFAC, UNIQUAC, WILSON};
use crate::inputs::{around, special};
use crate::random::Random;
use crate::rust::size;
use crate::tolerance::{tolerance_fault, USUAL, WIDEST};

/// How the numbers of a table are drawn.
#[derive(Clone, Copy)]
enum Kind {
    /// As in published tables.
    Usual,
    /// The same, each times a power of two from 2^-8 to 2^8.
    Wide,
    /// Any bits.
    Any,
}

/// How many components, groups and places a case has.
#[derive(Clone, Copy)]
pub enum Sizes {
    /// All alike, to this one.
    UpTo(usize),
    /// All, the small ones more often.
    Small,
    /// This one, or the largest that there is.
    Exactly(usize),
}

fn sum(x: &[f64]) -> f64 {
    x.iter().fold(0.0, |s, v| s + v)
}

/// The same divided by their sum.
fn normalised(x: Vec<f64>) -> Vec<f64> {
    let whole = sum(&x);
    x.into_iter().map(|v| v / whole).collect()
}

/// The same with another last one, which makes their sum, nearly always, `whole`.
fn completed(mut x: Vec<f64>, whole: f64) -> Vec<f64> {
    x.pop();
    x.push(whole - sum(&x));
    x
}

/// Cuts or fills up the values to as many as the model has, unless they would be very many.
fn fit(case: &mut Case) {
    let few = match case.model {
        UNIFAC => case.ng <= 34,
        _ => case.n <= 14,
    };
    if let (true, Some(count)) = (few, size(case)) {
        case.values.all.resize(count, 1.0);
    }
}

/// The place among the values of the count at a place of the lists.
fn count_at(case: &Case, place: usize) -> usize {
    (case.values.all.len() + place).saturating_sub(case.groups.len())
}

pub struct Draw<'a> {
    random: &'a mut Random,
    special: Vec<f64>,
    kind: Kind,
    sizes: Sizes,
}

impl<'a> Draw<'a> {
    pub fn new(random: &'a mut Random, sizes: Sizes) -> Self {
        Self {
            random,
            special: special(),
            kind: Kind::Usual,
            sizes,
        }
    }

    pub fn bits(&mut self) -> u64 {
        self.random.bits()
    }

    fn below(&mut self, n: usize) -> usize {
        self.random.below(n as u64) as usize
    }

    /// Whether one of n, at random, came up.
    pub fn one_in(&mut self, n: usize) -> bool {
        self.below(n) == 0
    }

    fn any<T: Copy>(&mut self, of: &[T]) -> T {
        of[self.below(of.len())]
    }

    /// A size from 1 to `most`.
    fn size(&mut self, most: usize) -> usize {
        match self.sizes {
            Sizes::UpTo(size) => 1 + self.below(size.min(most)),
            Sizes::Small => {
                let most = 1 + self.below(most);
                1 + self.below(most)
            }
            Sizes::Exactly(size) => size.min(most),
        }
    }

    /// Draws how the next table's numbers are drawn.
    fn next_kind(&mut self) {
        self.kind = match self.below(64) {
            0 => Kind::Any,
            1..=6 => Kind::Wide,
            _ => Kind::Usual,
        };
    }

    /// A number that is usually from `low` to `high`.
    fn number(&mut self, low: f64, high: f64) -> f64 {
        let v = self.random.between(low, high);
        match self.kind {
            Kind::Usual => v,
            Kind::Wide => v * f64::from_bits((1023 - 8 + self.random.below(17)) << 52),
            Kind::Any => f64::from_bits(self.random.bits()),
        }
    }

    fn special(&mut self) -> f64 {
        let place = self.below(self.special.len());
        self.special[place]
    }

    fn numbers(&mut self, count: usize, low: f64, high: f64) -> Vec<f64> {
        self.next_kind();
        (0..count).map(|_| self.number(low, high)).collect()
    }

    /// A td table of n by n. Half of the tables have the first term alone.
    fn td_table(&mut self, n: usize, ranges: [(f64, f64); 5]) -> Vec<f64> {
        self.next_kind();
        let terms = if self.one_in(2) { 5 } else { 1 };
        let mut all = Vec::new();
        for _ in 0..n * n {
            for (term, (low, high)) in ranges.into_iter().enumerate() {
                let v = self.number(low, high);
                all.push(if term < terms { v } else { 0.0 });
            }
        }
        all
    }

    /// Fractions whose sum is 1, nearly 1, or NaN: they pass the check, but for about half of those at its edge.
    fn fractions(&mut self, n: usize) -> Vec<f64> {
        let mut x: Vec<f64> = (0..n).map(|_| self.random.between(0.01, 1.0)).collect();
        let one = self.below(n);
        match self.below(24) {
            // NaN, or infinities whose sum is NaN
            0 => {
                x[one] = f64::from_bits(0xFFF8_0000_0000_0ABC);
                let (i, j) = (self.below(n), self.below(n));
                if i != j && self.one_in(2) {
                    (x[one], x[i], x[j]) = (0.5, f64::INFINITY, f64::NEG_INFINITY);
                }
                return x;
            }
            // of any size and sign
            1 | 2 => {
                x.iter_mut().for_each(|v| *v = 6.0 * *v - 3.0);
                return completed(x, 1.0);
            }
            // at the edge of the check
            3..=5 => {
                let edge = self.any(&[1.0 - 1e-6, 1.0 + 1e-6]);
                let beside: Vec<f64> = around(edge, 3).collect();
                let sum = self.any(&beside);
                return completed(normalised(x), sum);
            }
            // one nearly 0
            6 | 7 => x[one] = 10f64.powi(-(self.below(324) as i32)),
            // some 0
            8..=10 => {
                for v in &mut x {
                    if self.one_in(2) {
                        *v = self.any(&[0.0, -0.0]);
                    }
                }
                x[one] = 1.0;
            }
            // all but one 0
            11 => {
                x.fill(self.any(&[0.0, -0.0]));
                x[one] = 1.0;
            }
            _ => (),
        }
        normalised(x)
    }

    /// The length of a list of at most `most` pairs.
    fn length(&mut self, most: usize, often_empty: bool) -> usize {
        if matches!(self.sizes, Sizes::Exactly(_)) {
            return most;
        }
        if often_empty && self.one_in(3) {
            return 0;
        }
        1 + self.below(most)
    }

    /// Group lists of n components, and their counts.
    fn lists(&mut self, case: &mut Case) -> Vec<f64> {
        self.next_kind();
        let most = self.size(12);
        let often_empty = self.one_in(10);
        let mut counts = Vec::new();
        for _ in 0..case.n {
            let len = self.length(most, often_empty);
            case.lens.push(len as u8);
            for place in 0..len {
                let twice = place > 0 && self.one_in(6);
                let group = match twice {
                    true => case.groups[case.groups.len() - 1],
                    false => self.below(case.ng) as u8,
                };
                case.groups.push(group);
                counts.push(match self.kind {
                    Kind::Usual => (1 + self.below(6)) as f64,
                    _ => self.number(0.0, 6.0).abs(),
                });
            }
        }
        if self.one_in(10) && !counts.is_empty() {
            let place = self.below(counts.len());
            counts[place] = self.any(&[0.0, -0.0, 0.5, f64::NAN]);
        }
        counts
    }

    fn values(&mut self, case: &mut Case) -> Vec<f64> {
        let (n, ng) = (case.n, case.ng);
        let mut all;
        match case.model {
            WILSON => {
                all = self.numbers(n * n, -400.0, 1500.0);
                all.extend(self.numbers(n, 2e-5, 3e-4));
            }
            UNIQUAC => {
                all = self.numbers(n * n, -400.0, 1500.0);
                all.extend(self.numbers(2 * n, 0.8, 7.0));
            }
            NRTL => {
                let ranges = [
                    (-2.0, 5.0),
                    (-500.0, 1500.0),
                    (-0.3, 0.3),
                    (-0.005, 0.005),
                    (-1e5, 1e5),
                ];
                all = self.td_table(n, ranges);
                all.extend(self.numbers(n * n, 0.1, 0.5));
            }
            _ => {
                let ranges = [
                    (-300.0, 1200.0),
                    (-1e5, 1e5),
                    (-50.0, 50.0),
                    (-1.0, 1.0),
                    (-1e7, 1e7),
                ];
                let counts = self.lists(case);
                all = self.numbers(ng, 0.2, 3.0);
                all.extend(self.numbers(ng, 0.1, 3.0));
                if self.one_in(16) {
                    let group = self.below(ng);
                    all[ng + group] = 0.0;
                }
                all.extend(self.td_table(ng, ranges));
                all.extend(counts);
            }
        }
        all
    }

    /// What a model without groups ignores.
    fn ignored(&mut self, case: &mut Case) {
        if self.one_in(2) {
            case.ng = self.any(&[0, 1, 33, usize::MAX]);
            case.lens = (0..self.below(14)).map(|k| 20 * k as u8).collect();
            case.groups = (0..self.below(14)).map(|k| 19 * k as u8).collect();
        }
    }

    /// Puts special numbers at up to three places.
    fn spike(&mut self, case: &mut Case) {
        for _ in 0..1 + self.below(3) {
            let v = self.special();
            match self.below(8) {
                0 => case.t = v,
                1 => {
                    let place = self.below(case.x.all.len());
                    case.x.all[place] = v;
                }
                _ => {
                    let place = self.below(case.values.all.len());
                    case.values.all[place] = v;
                }
            }
        }
    }

    fn quantity(&mut self, n: usize) -> Quantity {
        match self.below(3) {
            0 => Quantity::LnGamma(self.below(n)),
            1 => Quantity::Gamma(self.below(n)),
            _ => Quantity::ExcessGibbs,
        }
    }

    /// A case without a fault, but for what special numbers bring.
    pub fn sound(&mut self, model: u32) -> Case {
        self.next_kind();
        let n = self.size(12);
        let mut case = Case {
            model,
            n,
            ng: 0,
            lens: Vec::new(),
            groups: Vec::new(),
            values: Numbers::default(),
            t: self.number(220.0, 650.0),
            tolerance: USUAL,
            x: Numbers::default(),
            quantity: self.quantity(n),
        };
        match model {
            UNIFAC => case.ng = self.size(32),
            _ => self.ignored(&mut case),
        }
        case.values.all = self.values(&mut case);
        case.x.all = self.fractions(n);
        if self.one_in(24) {
            case.t = self.any(&[0.0, -0.0, -300.0, 1e-310, 1e300, f64::INFINITY, f64::NAN]);
        }
        if self.one_in(8) {
            self.spike(&mut case);
        }
        case
    }

    /// An n out of range. Where that is possible the values and fractions fit it, so that nothing else is at
    /// fault.
    fn break_n(&mut self, case: &mut Case) {
        case.n = self.any(&[0, 13, 14, 255, 256, 1 << 32, 1 << 63, usize::MAX]);
        if case.n <= 14 && self.one_in(2) {
            case.lens.resize(case.n, 0);
            let places = case.lens.iter().map(|&len| usize::from(len)).sum();
            if case.model == UNIFAC {
                case.groups.resize(places, 0);
            }
            fit(case);
            case.x.all = match case.n {
                0 => Vec::new(),
                n => self.fractions(n),
            };
        }
    }

    fn break_ng(&mut self, case: &mut Case) {
        case.ng = self.any(&[0, 33, 34, 255, 256, 1 << 32, 1 << 63, usize::MAX]);
        fit(case);
    }

    fn break_values(&mut self, case: &mut Case) {
        let values = &mut case.values;
        match self.below(5) {
            0 => drop(values.all.pop()),
            1 => values.all.push(1.0),
            2 => values.all.clear(),
            3 => values.all.resize(5329, 1.0),
            _ => values.rest = vec![0x3F; 1 + self.below(7)],
        }
    }

    /// Lists whose number, lengths and groups don't fit each other, or a list over 12.
    fn break_lists(&mut self, case: &mut Case) {
        match self.below(6) {
            0 => case.lens.push(0),
            1 => drop(case.lens.pop()),
            2 => case.lens.clear(),
            3 => drop(case.groups.pop()),
            4 => {
                case.groups.push(0);
                fit(case);
            }
            _ => {
                let (len, place) = (self.any(&[13, 14, 255]), self.below(12));
                if let Some(old) = case.lens.get_mut(place) {
                    let more = len.max(*old) - *old;
                    *old = len;
                    case.groups.extend(vec![0; usize::from(more)]);
                    fit(case);
                }
            }
        }
    }

    /// A group that isn't there, a negative count, or both, at one place.
    fn break_place(&mut self, case: &mut Case) {
        if case.model != UNIFAC || case.groups.is_empty() {
            return;
        }
        let place = self.below(case.groups.len());
        let which = self.below(3);
        if which != 1 {
            let ng = case.ng.min(255) as u8;
            case.groups[place] = self.any(&[ng, ng.saturating_add(1), 255]);
        }
        let count = count_at(case, place);
        if which != 0 && count < case.values.all.len() {
            let counts = [-1.0, -0.5, -5e-324, f64::NEG_INFINITY];
            case.values.all[count] = self.any(&counts);
        }
    }

    /// No fractions, one more (with the same sum) or fewer, a sum off 1, or a rest of bytes.
    fn break_fractions(&mut self, case: &mut Case) {
        let x = &mut case.x;
        match self.below(5) {
            0 => x.all.clear(),
            1 => x.all.push(0.0),
            2 => drop(x.all.pop()),
            3 => x.all.iter_mut().for_each(|v| *v *= 1.5),
            _ => x.rest = vec![0; 1 + self.below(7)],
        }
    }

    fn break_index(&mut self, case: &mut Case) {
        let past = self.any(&[0, 1, 255, 1 << 32, usize::MAX]);
        let i = case.n.saturating_add(past);
        case.quantity = match self.below(2) {
            0 => Quantity::LnGamma(i),
            _ => Quantity::Gamma(i),
        };
    }

    fn break_once(&mut self, case: &mut Case) {
        match self.below(16) {
            0 => case.model = self.any(&[0, 5, 255, u32::MAX]),
            1 | 2 => self.break_n(case),
            3 => self.break_values(case),
            4 => self.break_ng(case),
            5 | 6 => self.break_lists(case),
            7..=9 => self.break_place(case),
            10..=13 => self.break_fractions(case),
            _ => self.break_index(case),
        }
    }

    /// A case of a model: one in four has a fault, and half of these have several.
    pub fn case(&mut self, model: u32) -> Case {
        let mut case = self.sound(model);
        if self.one_in(4) {
            self.break_once(&mut case);
            while self.one_in(2) {
                self.break_once(&mut case);
            }
        }
        case
    }

    /// Fractions of any number of components: a composition that may pass the check or not.
    pub fn composition(&mut self) -> Vec<f64> {
        let n = self.below(17);
        if n == 0 {
            return Vec::new();
        }
        let mut x = self.fractions(n);
        if self.one_in(4) {
            let place = self.below(n);
            x[place] = self.special();
        }
        if self.one_in(8) {
            x.iter_mut().for_each(|v| *v *= 1.5);
        }
        x
    }

    /// A tolerance of any kind, most of them accepted. A sum can be off 1 by exactly a power of two.
    pub fn tolerance(&mut self) -> f64 {
        match self.below(8) {
            0 => self.special(),
            1 => self.any(&[0.0, -0.0, -5e-324, USUAL]),
            2 => {
                let beside: Vec<f64> = around(WIDEST, 2).collect();
                self.any(&beside)
            }
            3 => f64::from_bits((1023 - 10 - self.random.below(43)) << 52),
            4 => f64::from_bits(self.random.bits()),
            _ => self.random.between(0.0, WIDEST),
        }
    }

    /// Fractions whose sum is off 1 by the tolerance, by about it, by about 1e-5 or by any of what passes somewhere.
    pub fn off(&mut self, x: Vec<f64>, tolerance: f64) -> Vec<f64> {
        let edge = match tolerance_fault(tolerance) {
            0 => tolerance,
            _ => WIDEST,
        };
        let off = match self.below(4) {
            0 => edge,
            1 => self.random.between(0.5, 1.5) * edge,
            2 => self.random.between(0.5, 1.5) * 1e-5,
            _ => self.random.between(USUAL, WIDEST),
        };
        let sum = self.any(&[1.0 - off, 1.0 + off]);
        let beside: Vec<f64> = around(sum, 1).collect();
        completed(x, self.any(&beside))
    }

    /// Gives a case another tolerance, and half of the cases fractions that are off by about as much.
    pub fn change_tolerance(&mut self, case: &mut Case) {
        case.tolerance = self.tolerance();
        if !case.x.all.is_empty() && self.one_in(2) {
            case.x.all = self.off(std::mem::take(&mut case.x.all), case.tolerance);
        }
    }
}
