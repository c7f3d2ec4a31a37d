//! Strips as document 01, "Strip and program", says: read into calls and answered by the book, and written from calls.

use crate::book::{Book, Told};
use crate::calls::{Call, Load, Name};
use crate::case::{Quantity, NRTL, UNIFAC, UNIQUAC, WILSON};

/// The most bytes that a strip may have.
pub const MOST: usize = 65_536;

// ---- read

/// What is left of a strip. A record that is malformed or cut is `None`.
struct Reader<'a>(&'a [u8]);

impl Reader<'_> {
    fn word(&mut self) -> Option<u32> {
        let (bytes, rest) = self.0.split_first_chunk::<4>()?;
        self.0 = rest;
        Some(u32::from_le_bytes(*bytes))
    }

    fn float(&mut self) -> Option<f64> {
        let low = u64::from(self.word()?);
        let high = u64::from(self.word()?);
        Some(f64::from_bits(high << 32 | low))
    }

    fn floats(&mut self, n: usize) -> Option<Vec<f64>> {
        (0..n).map(|_| self.float()).collect()
    }

    /// The i of a word of the kind, with nothing else in it.
    fn listed(&mut self, kind: u32) -> Option<u8> {
        let word = self.word()?;
        (word & !0xFF == kind << 28).then_some(word as u8)
    }

    /// Per component a kind 12, and then a kind 13 with its count for each of its groups.
    fn lists(&mut self, load: &mut Load) -> Option<()> {
        for _ in 0..load.n {
            let len = self.listed(12)?;
            load.lens.push(len);
            for _ in 0..len {
                load.groups.push(self.listed(13)?);
                load.values.push(self.float()?);
            }
        }
        Some(())
    }

    fn load(&mut self, model: u32, n: usize, ng: usize) -> Option<Call> {
        let values = self.floats(match model {
            WILSON => n * n + n,
            UNIQUAC => n * n + 2 * n,
            NRTL => 5 * n * n + n * n,
            _ => 2 * ng + 5 * ng * ng,
        })?;
        let (lens, groups) = (Vec::new(), Vec::new());
        let mut load = Load {
            model,
            n,
            ng,
            lens,
            groups,
            values,
        };
        if model == UNIFAC {
            self.lists(&mut load)?;
        }
        Some(Call::Load(load))
    }

    fn call(&mut self) -> Option<Call> {
        let word = self.word()?;
        let (kind, i, j) = (
            word >> 28,
            (word & 0xFF) as usize,
            (word >> 8 & 0xFF) as usize,
        );
        if word & 0x0FFF_0000 != 0 {
            return None;
        }
        match (kind, i, j) {
            (1..=3, n, 0) => self.load(kind, n, 0),
            (4, n, ng) => self.load(kind, n, ng),
            (5, 0, 0) => Some(Call::Set(Name::Temperature, self.floats(1)?)),
            (6, n, 0) => Some(Call::Fractions(self.floats(n)?)),
            (7, ..) => Some(Call::Set(Name::Entry(i, j), self.floats(1)?)),
            (8, ..) => Some(Call::Set(Name::TdEntry(i, j), self.floats(5)?)),
            (9, ..) => Some(Call::Set(Name::Size(i, j), self.floats(1)?)),
            (10, ..) => Some(Call::Set(Name::Count(i, j), self.floats(1)?)),
            (11, _, 0) => Some(Call::Query(Quantity::LnGamma(i))),
            (11, _, 1) => Some(Call::Query(Quantity::Gamma(i))),
            (11, 0, 2) => Some(Call::Query(Quantity::ExcessGibbs)),
            _ => None,
        }
    }
}

/// What `charge` writes for a strip.
pub fn text(strip: &[u8]) -> String {
    if strip.len() > MOST {
        return "broken\n".to_string();
    }
    let (mut reader, mut book, mut text) = (Reader(strip), Book::default(), String::new());
    while !reader.0.is_empty() {
        let Some(call) = reader.call() else {
            return text + "broken\n";
        };
        text += &match book.tell(&call) {
            Told::Done => "ok\n".to_string(),
            Told::Refused(number) => format!("refused {number}\n"),
            Told::Value(bits, count) if f64::from_bits(bits).is_nan() => format!("nan {count}\n"),
            Told::Value(bits, count) => format!("{bits:016x} {count}\n"),
        };
    }
    text
}

// ---- written

pub fn put_head(strip: &mut Vec<u8>, kind: u32, i: usize, j: usize) {
    let word = kind << 28 | (j.min(255) as u32) << 8 | i.min(255) as u32;
    strip.extend(word.to_le_bytes());
}

fn put_floats(strip: &mut Vec<u8>, floats: impl IntoIterator<Item = f64>) {
    strip.extend(floats.into_iter().flat_map(f64::to_le_bytes));
}

/// A load's record. Where its slices aren't as long as its n and ng say, they are cut, or go on with 0.
fn put_load(strip: &mut Vec<u8>, load: &Load) {
    let (n, ng) = (load.n.min(255), load.ng.min(255));
    let floats = match load.model {
        WILSON => n * n + n,
        UNIQUAC => n * n + 2 * n,
        NRTL => 6 * n * n,
        _ => 2 * ng + 5 * ng * ng,
    };
    let mut values = load.values.iter().copied().chain(std::iter::repeat(0.0));
    let mut groups = load.groups.iter().copied().chain(std::iter::repeat(0));
    let j = if load.model == UNIFAC { ng } else { 0 };
    put_head(strip, load.model, n, j);
    put_floats(strip, values.by_ref().take(floats));
    if load.model == UNIFAC {
        let lens = load.lens.iter().copied().chain(std::iter::repeat(0));
        for len in lens.take(n) {
            put_head(strip, 12, len.into(), 0);
            for _ in 0..len {
                put_head(strip, 13, groups.next().unwrap_or(0).into(), 0);
                put_floats(strip, values.next());
            }
        }
    }
}

/// A call's record; an index above 255 is written as 255. An opening and a tolerance have none.
pub fn put(strip: &mut Vec<u8>, call: &Call) {
    match call {
        Call::Open => {}
        Call::Load(load) => put_load(strip, load),
        Call::Set(name, numbers) => {
            let (kind, i, j) = match *name {
                Name::Tolerance => return,
                Name::Temperature => (5, 0, 0),
                Name::Entry(i, j) => (7, i, j),
                Name::TdEntry(i, j) => (8, i, j),
                Name::Size(i, which) => (9, i, which),
                Name::Count(i, j) => (10, i, j),
            };
            put_head(strip, kind, i, j);
            put_floats(strip, numbers.iter().copied());
        }
        Call::Fractions(x) => {
            put_head(strip, 6, x.len(), 0);
            put_floats(strip, x.iter().copied().take(255));
        }
        Call::Query(quantity) => match *quantity {
            Quantity::LnGamma(i) => put_head(strip, 11, i, 0),
            Quantity::Gamma(i) => put_head(strip, 11, i, 1),
            Quantity::ExcessGibbs => put_head(strip, 11, 0, 2),
        },
    }
}

/// The call of the first record, if it is whole.
pub fn first_call(strip: &[u8]) -> Option<Call> {
    Reader(strip).call()
}

/// Where the 12s and 13s of a strip's first record stand.
pub fn list_words(strip: &[u8]) -> Vec<usize> {
    let Some(Call::Load(load)) = first_call(strip) else {
        return Vec::new();
    };
    let mut place = 4 + 8 * (load.values.len() - load.groups.len());
    let mut places = Vec::new();
    if load.model == UNIFAC {
        for len in &load.lens {
            places.push(place);
            places.extend((0..usize::from(*len)).map(|k| place + 4 + 12 * k));
            place += 4 + 12 * usize::from(*len);
        }
    }
    places
}
