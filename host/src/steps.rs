//! Random steps of a history: most of them calls that are accepted, some declined for each number that there is,
//! and now and then a head that no call made (heads.rs).

use crate::calls::{Call, Head, Lent, Load, Name, Step, LEAST, WHOLE};
use crate::case::{Quantity, NRTL, UNIFAC, UNIQUAC, WILSON};
use crate::cases::{Draw, Sizes};
use crate::inputs::special;
use crate::memory::Memory;
use crate::random::Random;
use crate::tolerance::{is_usual, USUAL};

pub struct Steps {
    random: Random,
    special: Vec<f64>,
    /// Heads of this history, to be put in place again.
    pub earlier: Vec<Head>,
    /// How many calls to come are neither openings nor loads, so that a head that was put in place is used.
    pub held: usize,
}

impl Steps {
    pub fn new(seed: u64) -> Self {
        Self {
            random: Random::new(seed),
            special: special(),
            earlier: Vec::new(),
            held: 0,
        }
    }

    pub fn below(&mut self, n: usize) -> usize {
        self.random.below(n as u64) as usize
    }

    pub fn one_in(&mut self, n: usize) -> bool {
        self.below(n) == 0
    }

    pub fn any<T: Copy>(&mut self, of: &[T]) -> T {
        of[self.below(of.len())]
    }

    /// A float of any kind.
    pub fn float(&mut self) -> f64 {
        match self.below(8) {
            0 => f64::from_bits(self.random.bits()),
            // a subnormal, a NaN or an infinity of either sign
            1 => f64::from_bits(self.random.bits() & !(0x7FF << 52)),
            2 => f64::from_bits(self.random.bits() | 0x7FF << 52),
            3 | 4 => {
                let place = self.below(self.special.len());
                self.special[place]
            }
            _ => self.random.between(-1000.0, 1000.0),
        }
    }

    /// A number that is usually from `low` to `high`.
    pub fn number(&mut self, low: f64, high: f64) -> f64 {
        match self.one_in(12) {
            true => self.float(),
            false => self.random.between(low, high),
        }
    }

    fn mark(&mut self) -> u8 {
        match self.one_in(4) {
            true => self.random.bits() as u8,
            false => self.any(&[0, 1, 1, 2, 7, 255]),
        }
    }

    pub fn memory(&mut self) -> Step {
        let values = (0..WHOLE.values).map(|_| self.float()).collect();
        let cells = (0..WHOLE.cells).map(|_| self.float()).collect();
        let marks = (0..WHOLE.marks).map(|_| self.mark()).collect();
        Step::Memory(values, cells, marks)
    }

    /// A length that is least, or more up to whole; or one that is short.
    fn length(&mut self, least: usize, whole: usize, short: bool) -> usize {
        match self.below(4) {
            0 if short => self.below(least),
            1 if short => 0,
            _ if short => least - 1,
            0 => whole,
            1 => least + self.below(whole - least),
            _ => least,
        }
    }

    /// What a call is lent: now and then a slice of it is short, or several are.
    pub fn lent(&mut self) -> Lent {
        let mut short = [false; 3];
        if self.one_in(24) {
            short[self.below(3)] = true;
            if self.one_in(4) {
                short[self.below(3)] = true;
            }
        }
        Lent {
            values: self.length(LEAST.values, WHOLE.values, short[0]),
            cells: self.length(LEAST.cells, WHOLE.cells, short[1]),
            marks: self.length(LEAST.marks, WHOLE.marks, short[2]),
        }
    }

    /// An index that is usually below n.
    fn index(&mut self, n: usize) -> usize {
        if n == 0 || self.one_in(16) {
            let past = self.any(&[0, 1, 12, 32, 255, 1 << 32, usize::MAX]);
            return n.saturating_add(past);
        }
        self.below(n)
    }

    /// A group that isn't there at a place of the lists, a count below 0 at one, or both.
    fn break_places(&mut self, load: &mut Load) {
        let counts = load.values.len().saturating_sub(load.groups.len());
        for _ in 0..1 + self.below(2) {
            let place = self.below(load.groups.len());
            match load.values.get_mut(counts + place) {
                Some(count) if self.one_in(2) => {
                    *count = self.any(&[-1.0, -0.0, -5e-324, f64::NAN])
                }
                _ => load.groups[place] = self.any(&[load.ng as u8, 255]),
            }
        }
    }

    /// A load, as a plain call is drawn: one in four has a fault or several.
    fn load(&mut self) -> Load {
        let model = 1 + self.below(4) as u32;
        loop {
            let case = Draw::new(&mut self.random, Sizes::Small).case(model);
            if case.model != model {
                continue;
            }
            let mut load = Load {
                model,
                n: case.n,
                ng: case.ng,
                lens: case.lens,
                groups: case.groups,
                values: case.values.all,
            };
            if model == UNIFAC && !load.groups.is_empty() && self.one_in(4) {
                self.break_places(&mut load);
            }
            return load;
        }
    }

    /// A temperature, the same as before now and then.
    fn temperature(&mut self, head: &Head) -> Call {
        let t = match self.one_in(5) {
            true => head.t,
            false => self.number(220.0, 650.0),
        };
        Call::Set(Name::Temperature, vec![t])
    }

    /// A tolerance of any kind, or a narrow one, which refuses most fractions that a wider one accepts.
    fn tolerance(&mut self) -> Call {
        let tolerance = match self.one_in(3) {
            true => self.any(&[0.0, -0.0, 1e-9, USUAL]),
            false => Draw::new(&mut self.random, Sizes::Small).tolerance(),
        };
        Call::Set(Name::Tolerance, vec![tolerance])
    }

    /// A name, usually of a case that the head's model has.
    fn name(&mut self, memory: &Memory) -> Name {
        let Head { n, ng, lens, .. } = memory.head;
        let w = match memory.model() {
            UNIFAC => ng,
            _ => n,
        };
        let (i, j) = (self.index(w), self.index(w));
        let j = if self.one_in(4) { i } else { j };
        let case = match memory.model() {
            _ if self.one_in(16) => self.below(5),
            WILSON | UNIQUAC => self.any(&[1, 1, 1, 3]),
            NRTL => self.any(&[1, 2]),
            UNIFAC => self.any(&[2, 2, 3, 4]),
            _ => self.below(5),
        };
        match case {
            0 => Name::Temperature,
            1 => Name::Entry(i, j),
            2 => Name::TdEntry(i, j),
            3 => Name::Size(i, self.index(2)),
            _ => {
                let i = self.index(n);
                let len = lens.get(i).copied().unwrap_or(0);
                Name::Count(i, self.index(len.into()))
            }
        }
    }

    /// The numbers for a name: as they are, or others.
    fn numbers(&mut self, memory: &Memory, name: Name) -> Vec<f64> {
        let count = match name {
            Name::TdEntry(..) => 5,
            _ => 1,
        };
        if let (Some(held), true) = (memory.held(name, count), self.one_in(4)) {
            return held.to_vec();
        }
        let ranges: [(f64, f64); 5] = match (memory.model(), name) {
            (NRTL, Name::Entry(..)) => [(0.1, 0.5); 5],
            (NRTL, _) => [
                (-2.0, 5.0),
                (-500.0, 1500.0),
                (-0.3, 0.3),
                (-5e-3, 5e-3),
                (-1e5, 1e5),
            ],
            (_, Name::Temperature) => [(220.0, 650.0); 5],
            (_, Name::Entry(..)) => [(-400.0, 1500.0); 5],
            (_, Name::TdEntry(..)) => [
                (-300.0, 1200.0),
                (-1e5, 1e5),
                (-50.0, 50.0),
                (-1.0, 1.0),
                (-1e7, 1e7),
            ],
            (WILSON, Name::Size(..)) => [(2e-5, 3e-4); 5],
            (_, Name::Size(..)) => [(0.2, 5.0); 5],
            // a count
            _ => [(-1.0, 5.0); 5],
        };
        ranges[..count]
            .iter()
            .map(|(low, high)| self.number(*low, *high))
            .collect()
    }

    fn setting(&mut self, memory: &Memory) -> Call {
        let name = self.name(memory);
        Call::Set(name, self.numbers(memory, name))
    }

    /// Fractions that are usually accepted for n components.
    pub fn fractions(&mut self, n: usize) -> Vec<f64> {
        let whole = (1..=12).contains(&n) && !self.one_in(5);
        let sizes = if whole {
            Sizes::Exactly(n)
        } else {
            Sizes::UpTo(12)
        };
        let mut draw = Draw::new(&mut self.random, sizes);
        match whole {
            true => draw.sound(WILSON).x.all,
            false => draw.composition(),
        }
    }

    /// Fractions that are off by about the head's tolerance.
    fn off(&mut self, head: &Head) -> Call {
        let mut x = self.fractions(head.n);
        if !x.is_empty() {
            x = Draw::new(&mut self.random, Sizes::Small).off(x, head.tolerance);
        }
        Call::Fractions(x)
    }

    fn query(&mut self, n: usize) -> Call {
        let i = self.index(n);
        Call::Query(match self.below(3) {
            0 => Quantity::LnGamma(i),
            1 => Quantity::Gamma(i),
            _ => Quantity::ExcessGibbs,
        })
    }

    /// The next call. It goes by the head, so that most histories come to queries, and those that set a tolerance to
    /// fractions about it.
    pub fn call(&mut self, memory: &Memory) -> Call {
        let head = &memory.head;
        let usable = (1..=4).contains(&head.model) && (1..=12).contains(&head.n);
        let held = self.held > 0;
        self.held = self.held.saturating_sub(1);
        if !held && !usable && !self.one_in(3) {
            return Call::Load(self.load());
        }
        if !is_usual(head.tolerance) && self.one_in(8) {
            return match self.one_in(2) {
                true => self.off(head),
                false => self.tolerance(),
            };
        }
        if !head.has_t && self.one_in(2) {
            return self.temperature(head);
        }
        if !head.has_x && self.one_in(2) {
            return Call::Fractions(self.fractions(head.n));
        }
        match self.below(100) {
            0 | 1 if !held => Call::Open,
            2..=7 if !held => Call::Load(self.load()),
            8..=13 => self.temperature(head),
            14..=20 => Call::Fractions(self.fractions(head.n)),
            21..=56 => self.setting(memory),
            57..=60 => self.tolerance(),
            _ => self.query(head.n),
        }
    }

    /// The next step.
    pub fn step(&mut self, memory: &Memory) -> Step {
        if self.one_in(64) {
            self.earlier.push(memory.head.clone());
        }
        if self.one_in(60) {
            return self.head(memory);
        }
        Step::Call(self.lent(), self.call(memory))
    }
}
